"""How scripts/test counts what passed and what failed."""
from collections.abc import Callable
from pathlib import Path
from types import ModuleType

import pytest

import drawing
import libraries
import stored
from clone import Trouble


@pytest.fixture
def test(script: Callable[[str], ModuleType]) -> ModuleType:
    return script("test")


@pytest.mark.parametrize(
    "status, line, passed, failed",
    [
        (0, "134 passed in 1.20s", 134, 0),
        (0, "130 passed, 4 skipped in 1.20s", 130, 0),
        (1, "2 failed, 132 passed, 1 error in 64.05s (0:01:04)", 132, 3),
        (4, "ERROR: file or directory not found: tests", 0, 1),
        (1, "/usr/bin/python3: No module named pytest", 0, 1),
        (5, "no tests ran in 0.01s", 0, 1),
    ],
)
def test_pytests_closing_line_counts(test: ModuleType, monkeypatch: pytest.MonkeyPatch, status: int, line: str, passed: int, failed: int) -> None:
    monkeypatch.setattr(test, "ran", lambda words, folder: (status, f"....\n{line}\n"))
    result = test.pytest("scripts")
    assert (result.passed, result.failed) == (passed, failed)
    assert (line in result.text) == (failed > 0)


def test_a_script_is_one_test(test: ModuleType, monkeypatch: pytest.MonkeyPatch) -> None:
    monkeypatch.setattr(test, "ran", lambda words, folder=None: (1, "the list is an older one\n"))
    assert test.script("definitions", "--check") == test.Result(0, 1, "the list is an older one\n")


def test_each_case_counts(test: ModuleType, monkeypatch: pytest.MonkeyPatch) -> None:
    class Two:
        cases = {"a": b"case a", "b": b"case b"}
        answers = {"a": b"1", "b": b"2"}

    monkeypatch.setattr(stored, "Store", Two)
    monkeypatch.setattr(stored, "answered", lambda cases, told: {"a": b"1", "b": b"3"})
    monkeypatch.setattr(stored, "program", lambda: Path("/conformance"))
    result = test.cases(lambda count: None)
    assert (result.passed, result.failed) == (1, 1)
    assert result.text == "b is answered otherwise: CONFORMANCE=/conformance scripts/cases try b\n"


def test_each_picture_counts(test: ModuleType, monkeypatch: pytest.MonkeyPatch) -> None:
    monkeypatch.setattr(drawing, "compared", lambda names, told: [("a.ppm", True), ("b.ppm", False)])
    assert test.examples(lambda count: None) == test.Result(1, 1, "b.ppm: OTHER BYTES\n")


def test_each_picture_with_shadows_counts(test: ModuleType, monkeypatch: pytest.MonkeyPatch) -> None:
    monkeypatch.setattr(drawing, "SHADOWED", {"a.ppm": "", "b.ppm": ""})
    monkeypatch.setattr(drawing, "stored", lambda: {"a.ppm": "1", "b.ppm": "2"})
    monkeypatch.setattr(drawing, "shadowed", lambda name: "1")
    assert test.shadows() == test.Result(1, 1, "b.ppm: OTHER BYTES\n")


def test_a_part_that_cannot_run_fails(test: ModuleType) -> None:
    def part() -> object:
        raise Trouble("there is no program")

    assert test.tried(part)[0] == test.Result(0, 1, "there is no program\n")


def test_the_python_that_lacks_least_is_taken(monkeypatch: pytest.MonkeyPatch) -> None:
    libraries.python.cache_clear()
    monkeypatch.setattr(libraries, "lacked", lambda python: () if python == "/usr/bin/python3" else ("python3-numpy",))
    assert libraries.python() == "/usr/bin/python3"
    libraries.python.cache_clear()


def test_a_python_that_is_not_there_lacks_all(tmp_path: Path) -> None:
    broken = tmp_path / "python3"
    broken.write_text("#!/bin/sh\nexit 1\n")
    broken.chmod(0o755)
    assert libraries.lacked(str(broken)) == tuple(libraries.modules().values())


def test_cases_are_read_with_their_files() -> None:
    text = b"case a\nwords render s.rib\nfile s.rib 9\nend\ncase b\n\nend\ncase c\nwords\nend\n"
    assert list(stored.groups(text, b"file")) == ["a", "c"]
    with pytest.raises(Trouble, match="two cases are named c"):
        stored.groups(text + b"case c\nwords\nend\n", b"file")
