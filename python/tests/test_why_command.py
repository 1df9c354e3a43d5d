"""`why`: the command and its server, with a program in the place of `why` that gives an account made by hand."""
from __future__ import annotations

import http.client
import threading
from collections.abc import Iterator
from pathlib import Path

import accounts
import pytest

from reyes import command
from reyes.errors import Trouble
from reyes.why import reading, serving
from reyes.why.account import Account
from reyes.why.film import Film
from reyes.why.things import Things

# Its picture has the bytes 64, 128, 0 everywhere, with which the account ends.
SCENE = """Display "a.ppm" "file" "rgb"
Format 4 3 1
ScreenWindow -2 2 -1.5 1.5
Projection "orthographic"
WorldBegin
Surface "constant"
Color [0.25 0.5 0]
Patch "bilinear" "P" [-9 -9 3  9 -9 3  -9 9 3  9 9 3]
WorldEnd
"""


@pytest.fixture
def scene(tmp_path: Path, program: Path, monkeypatch: pytest.MonkeyPatch) -> Path:
    """A scene, with a program `why` that says what account.json holds."""
    put_why(tmp_path, monkeypatch, f"cat > /dev/null; cat {tmp_path}/account.json")
    (tmp_path / "account.json").write_bytes(accounts.data(accounts.four()))
    (tmp_path / "a.rib").write_text(SCENE)
    monkeypatch.chdir(tmp_path)
    return tmp_path / "a.rib"


def put_why(folder: Path, monkeypatch: pytest.MonkeyPatch, text: str) -> None:
    (folder / "why").write_text(f"#!/bin/sh\n{text}\n")
    (folder / "why").chmod(0o755)
    monkeypatch.setenv("WHY", str(folder / "why"))


def test_a_page_is_written(scene: Path, capsys: pytest.CaptureFixture[str]) -> None:
    assert command.run(["why", "a.rib", "1", "1", "-q", "-o", "page.html"]) == 0
    text = (scene.parent / "page.html").read_text("utf-8")
    assert text.startswith("<!doctype html>") and text.endswith("</html>\n") and "Why is the pixel (1, 1) of a.rib 64 128 0?" in text
    assert capsys.readouterr() == ("", "")


def test_the_program_gets_the_scene_and_the_words(scene: Path, monkeypatch: pytest.MonkeyPatch) -> None:
    put_why(scene.parent, monkeypatch, f'echo "$@" > {scene.parent}/words; cmp -s - {scene} && cat {scene.parent}/account.json')
    assert command.run(["why", "a.rib", "1", "2", "-q"]) == 0
    assert (scene.parent / "words").read_text() == "/dev/stdin 1 2 --frame 0 --points\n" and (scene.parent / "why.html").is_file()


@pytest.mark.parametrize(
    "words, status, said",
    [
        (("a.rib", "4", "0"), 2, "the picture has no pixel (4, 0): it has 0 to 3 across and 0 to 2 down"),
        (("a.rib", "1", "1", "--frame", "1"), 2, "a.rib: there is no frame 1; it has 1, counted from 0"),
        (("a.rib", "1"), 2, "the pixel's place from the left and from above is needed"),
        (("a.rib",), 2, "the pixel's place from the left and from above is needed"),
        (("none.rib", "1", "1"), 6, "none.rib: missing"),
        (("a.rib", "1", "1", "-o", "none/why.html"), 8, "none/why.html: its folder isn't there"),
    ],
)
def test_what_can_not_be_explained_is_a_line(scene: Path, words: tuple[str, ...], status: int, said: str, capsys: pytest.CaptureFixture[str]) -> None:
    assert command.run(["why", *words, "-q"]) == status
    told = capsys.readouterr().err
    assert said in told and told.count("\n") == 1 and not (scene.parent / "why.html").exists()


def test_a_refused_scene_has_its_own_line(scene: Path, capsys: pytest.CaptureFixture[str]) -> None:
    scene.write_text(SCENE.replace("WorldEnd", "WorldEnt"))
    assert command.run(["why", "a.rib", "1", "1", "-q"]) == 3
    assert capsys.readouterr().err.startswith("reyes: a.rib:9:1: S1: ")
    assert not (scene.parent / "why.html").exists()


def test_the_program_has_its_own_line(scene: Path, monkeypatch: pytest.MonkeyPatch, capsys: pytest.CaptureFixture[str]) -> None:
    put_why(scene.parent, monkeypatch, "echo 'no memory' >&2; exit 9")
    assert command.run(["why", "a.rib", "1", "1", "-q"]) == 9
    assert capsys.readouterr().err == "reyes: why: no memory\n"
    monkeypatch.setenv("WHY", "none")
    assert command.run(["why", "a.rib", "1", "1", "-q"]) == 6
    assert capsys.readouterr().err == "reyes: none: no program is there (WHY names it)\n"


def test_other_bytes_than_the_picture_has_are_told(scene: Path, capsys: pytest.CaptureFixture[str]) -> None:
    (scene.parent / "account.json").write_bytes(accounts.data(accounts.four(gain=32768)))
    assert command.run(["why", "a.rib", "1", "1", "-q"]) == 1
    assert "the picture has the bytes 64, 128, 0 at the pixel (1, 1), and the account ends with 32, 64, 0" in capsys.readouterr().err


class Stub:
    """What is explained, without a program."""

    film = Film(b"P6\n4 3\n255\n" + bytes(36), 0, 0)

    def account(self, x: int, y: int) -> Account:
        if x > 3:
            raise Trouble(f"the picture has no pixel <{x}>")
        return reading.account(accounts.data(accounts.four()))

    def things(self, account: Account) -> Things:
        return Things(account, b"", "a.rib", {})


@pytest.fixture
def server() -> Iterator[serving.Server]:
    with serving.Server(Stub(), (1, 1), 0) as it:
        thread = threading.Thread(target=it.serve_forever)
        thread.start()
        yield it
        it.shutdown()
        thread.join()


def ask(server: serving.Server, path: str, host: str = "") -> tuple[int, str]:
    link = http.client.HTTPConnection("127.0.0.1", server.server_address[1], timeout=10)
    link.request("GET", path, headers={"Host": host} if host else {})
    answer = link.getresponse()
    found = answer.status, answer.read().decode()
    link.close()
    return found


def test_the_server_explains_pixels(server: serving.Server) -> None:
    assert server.server_address[0] == "127.0.0.1"
    for path in ("/", "/?x=1&y=1"):
        status, text = ask(server, path)
        assert status == 200 and "<form" in text and "Why is the pixel (1, 1)" in text
    assert ask(server, "/?x=4&y=1") == (400, ask(server, "/?x=4&y=1")[1]) and "no pixel &lt;4&gt;" in ask(server, "/?x=4&y=1")[1]
    assert ask(server, "/?x=-1&y=a")[0] == 400 and ask(server, "/favicon.ico")[0] == 404


def test_the_server_answers_to_its_own_name_alone(server: serving.Server) -> None:
    port = server.server_address[1]
    assert ask(server, "/", f"localhost:{port}")[0] == 200 and ask(server, "/", f"elsewhere.example:{port}")[0] == 403


def test_a_port_that_is_taken_is_told(server: serving.Server) -> None:
    with pytest.raises(Trouble, match="^port [0-9]+: "):
        serving.serve(Stub(), None, server.server_address[1])
