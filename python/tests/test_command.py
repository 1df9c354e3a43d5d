"""The command line: help, unknown words, and troubles in one line."""
import io
from contextlib import redirect_stderr, redirect_stdout
from unittest import mock

import pytest
from hypothesis import given
from hypothesis import strategies as st

from reyes import command
from reyes.errors import Trouble


def test_alone_it_shows_all_commands(capsys: pytest.CaptureFixture[str]) -> None:
    assert command.run([]) == 0
    shown = capsys.readouterr()
    assert shown.err == "" and all(name in shown.out for name in command.COMMANDS)


def test_unknown_command(capsys: pytest.CaptureFixture[str]) -> None:
    assert command.run(["paint"]) == 2
    assert capsys.readouterr().err == "reyes: there is no command 'paint': `python3 -m reyes` shows them all\n"


@pytest.mark.parametrize("name", sorted(command.COMMANDS))
def test_help_has_an_example(name: str, capsys: pytest.CaptureFixture[str]) -> None:
    with pytest.raises(SystemExit) as ended:
        command.run([name, "--help"])
    shown = capsys.readouterr()
    assert ended.value.code == 0 and shown.err == ""
    assert f"python3 -m reyes {name} " in shown.out.partition("example")[2]


def test_a_missing_library_is_a_line(monkeypatch: pytest.MonkeyPatch, capsys: pytest.CaptureFixture[str]) -> None:
    def broken(name: str) -> None:
        raise ModuleNotFoundError(f"No module named {name!r}", name="png")

    monkeypatch.setitem(command.COMMANDS, "broken", ("reyes.broken", "is broken"))
    monkeypatch.setattr(command.importlib, "import_module", broken)
    assert command.run(["broken"]) == 1
    assert capsys.readouterr().err == "reyes: the Python library png isn't there: Debian's package python3-png (for /usr/bin/python3), or `pip install pypng`\n"


def test_trouble_is_a_line_and_a_status(monkeypatch: pytest.MonkeyPatch, capsys: pytest.CaptureFixture[str]) -> None:
    def call(name: str, words: object) -> int:
        raise Trouble("x.rib: missing", 6)

    monkeypatch.setattr(command, "call", call)
    assert command.run(["anything"]) == 6
    assert capsys.readouterr().err == "reyes: x.rib: missing\n"


WORDS = st.sampled_from(["render", "check", "view", "explain", "farm", "-o", "-j", "--size", "0", "50%", "3x", "--crop", "-", "--frames", "3-", "", "\udcff", "/nowhere/a.rib", "--on", "dusk", "--samples", "99", "-h"])


@given(st.lists(WORDS, max_size=6), st.text(max_size=8))
def test_any_words_are_answered(words: list[str], last: str) -> None:
    with mock.patch("sys.stdin", mock.Mock(buffer=io.BytesIO(b"$"))), redirect_stdout(io.StringIO()) as out, redirect_stderr(io.StringIO()) as err:
        try:
            status = command.run([*words, last])
        except SystemExit as ended:
            status = int(str(ended.code))
    assert status in (0, 1, 2, 3, 6, 8) and "Traceback" not in out.getvalue() + err.getvalue()
