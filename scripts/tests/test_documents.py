"""What the documents are made of and checked by: the map's picture, the list of definitions, quotes and names, and the tour by hand."""
import hashlib
import re
import subprocess
import sys
from collections.abc import Callable
from pathlib import Path
from types import ModuleType

import pytest

Load = Callable[[str], ModuleType]


def tour(top: Path, *words: str) -> bytes:
    """What docs/tour.py writes."""
    return subprocess.run([sys.executable, top / "docs/tour.py", *words], capture_output=True, check=True).stdout


@pytest.mark.parametrize("scene, pixel", [("tour", (59, 84, 64)), ("tour_moving", (25, 90, 64))])
def test_the_tours_pixel_by_its_formulas(top: Path, scene: str, pixel: tuple[int, int, int]) -> None:
    assert f"bytes: {pixel}" in tour(top, scene, "8", "20").decode()
    page = (top / "docs/TOUR.md").read_text()
    assert "{}, {}, {}".format(*pixel) in re.sub(r"\s+", " ", page)


def test_the_moving_picture_by_the_tours_formulas(top: Path) -> None:
    sums = dict(reversed(it.split()) for it in (top / "examples/SHA256SUMS").read_text().splitlines())
    assert hashlib.sha256(tour(top, "tour_moving")).hexdigest() == sums["tour_moving.ppm"]


def test_every_crate_has_its_stage(script: Load, top: Path) -> None:
    crates = re.findall(r"^(\w+):", (top / "crates.txt").read_text(), re.M)
    shown = [it for names in script("stages.py").stages().values() for it in names]
    assert sorted(shown) == sorted(crates)


def test_the_maps_picture_holds_every_crate(script: Load, top: Path) -> None:
    made = script("map").picture()
    assert all(re.search(rf"\b{it}\b", made) for it in re.findall(r"^(\w+):", (top / "crates.txt").read_text(), re.M))


def test_a_definition_has_its_line(script: Load, top: Path, capsys: pytest.CaptureFixture[str]) -> None:
    script("definitions").all_names()
    named = re.search(r"^(crates/filter_ppm/specs/Mean\.antt):(\d+): weighted_mean$", capsys.readouterr().out, re.M)
    assert named and "weighted_mean" in (top / named[1]).read_text().splitlines()[int(named[2]) - 1]


def test_every_definition_is_one_line_under_its_file(script: Load, capsys: pytest.CaptureFixture[str]) -> None:
    definitions = script("definitions")
    definitions.all_names()
    named = re.findall(r"^(.*?):\d+: (.*)$", capsys.readouterr().out, re.M)
    page, found, file = definitions.list_of(definitions.closure()), [], ""
    for line in page.splitlines():
        assert len(line) <= 160
        if heading := re.match(r"#### \[.*?\]\(\.\./(.*?)\)", line):
            file = heading[1]
        elif name := re.match(r"- `(.*?)`", line):
            found.append((file, name[1]))
    assert sorted(found) == sorted(named) and len(set(found)) == len(found)


@pytest.mark.parametrize(
    "comment, clause",
    [("", ""), ("the sine, by a series: odd powers alone", "the sine, by a series"), ("raws (a raw is 65,536 times a number)", "raws"),
     ("a cell. Its corners go round", "a cell"), ("3.2 of `x`; and more", "3.2 of `x`")],
)  # fmt: skip
def test_a_definitions_clause_ends_before_what_explains_it(script: Load, comment: str, clause: str) -> None:
    assert script("definitions").first_clause(comment) == clause


def test_a_definition_has_the_comment_above_it_and_its_own_lines(script: Load) -> None:
    text = "-- The file.\nuse Rattle.x\n\n-- one,\n-- two\nabbrev pub f : A\n\n-- of no line below it\n\nf a = b\n\ng : A\n"
    found = script("definitions").items_of(text)
    assert {name: (it.line, it.comment, it.text) for name, it in found.items()} == {
        "f": (6, "one, two", "abbrev pub f : A\nf a = b\n"),
        "g": (12, "", "g : A\n"),
    }


@pytest.mark.parametrize(
    "line, fault",
    [("see `docs/NOWHERE.md`", "docs/NOWHERE.md isn't there"), ("see [it](nowhere.png)", "nowhere.png isn't there"), ("x" * 401, "401 characters")],
)
def test_a_page_that_falls_short_is_told(script: Load, monkeypatch: pytest.MonkeyPatch, line: str, fault: str) -> None:
    documents = script("documents")
    monkeypatch.setattr(documents, "read", lambda path: f"# A page\n\n{line}\n")
    assert list(documents.faults_of("docs/PAGE.md")) == [f"docs/PAGE.md:3: {fault}"]


def test_a_page_that_quotes_another_text_is_told(script: Load, monkeypatch: pytest.MonkeyPatch) -> None:
    documents = script("documents")
    monkeypatch.setattr(documents, "QUOTED", {"docs/PAGE.md": ["examples/fade.sl"]})
    monkeypatch.setattr(documents, "read", lambda path: "```\nanother\n```\n" if path == "docs/PAGE.md" else "the text\n")
    assert list(documents.faults_of("docs/PAGE.md")) == ["docs/PAGE.md: it quotes another text than that of examples/fade.sl"]
