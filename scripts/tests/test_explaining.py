"""How pixels that are explained are compared with the pictures that are drawn."""
import json
import os
from pathlib import Path

import pytest

import explaining
import stored
from clone import Trouble

SCENE = b'Format 3 2 1 Display "a.ppm" "file" "rgb" WorldBegin WorldEnd CropWindow .4 1 .5 1 Display "b.ppm" "file" "rgb" WorldBegin WorldEnd\n'
A = b"P6\n3 2\n255\n" + bytes(range(18))
B = b"P6\n1 1\n65535\n" + bytes(range(6))


def put(path: Path, text: str) -> str:
    path.write_text(f"#!/bin/sh\n{text}\n")
    path.chmod(0o755)
    return os.fspath(path)


@pytest.fixture
def room(tmp_path: Path, monkeypatch: pytest.MonkeyPatch) -> Path:
    """A folder with a scene of two frames, a program that draws them, and one that gives the bytes of each pixel right."""
    folder = tmp_path / "room"
    folder.mkdir()
    (folder / "s.rib").write_bytes(SCENE)
    for name, data in (("a.ppm", A), ("b.ppm", B)):
        (tmp_path / name).write_bytes(data)
    monkeypatch.setenv("REYES", put(tmp_path / "reyes", f"[ $1 = render ] && cp {tmp_path}/?.ppm ."))
    rows = {f"{x} {y} 0": {"file": "a.ppm", "bytes": list(A[11 + 9 * y + 3 * x :][:3])} for x in range(3) for y in range(2)}
    rows["2 1 1"] = {"file": "b.ppm", "bytes": list(range(6))}
    told = "\n".join(f"""'{at}') echo '{json.dumps({"frame": {"file": it["file"]}, "bytes": it["bytes"]})}';;""" for at, it in rows.items())
    monkeypatch.setenv("WHY", put(tmp_path / "why", f'case "$2 $3 $5" in\n{told}\n*) echo usage >&2; exit 2;; esac'))
    return folder


def drawn(room: Path) -> list[explaining.Picture]:
    for name, data in (("a.ppm", A), ("b.ppm", B)):
        (room / name).write_bytes(data)
    return explaining.left(SCENE, room)


def test_a_pixel_is_found_by_its_place_in_the_frame(room: Path) -> None:
    whole, part = drawn(room)
    assert whole.pixel(1, 1) == bytes([12, 13, 14])
    assert (part.frame.columns, part.frame.rows) == ((2, 3), (1, 2))
    assert part.pixel(2, 1) == bytes(range(6))


def test_of_frames_of_one_name_the_last_is_left(room: Path) -> None:
    (room / "a.ppm").write_bytes(A)
    twice = b'Format 3 2 1 Display "a.ppm" "file" "rgb" WorldBegin WorldEnd WorldBegin WorldEnd\n'
    assert [it.frame.place for it in explaining.left(twice, room)] == [1]


def test_the_same_pixels_are_taken_each_time(room: Path) -> None:
    pictures = drawn(room)
    pixels = explaining.chosen(pictures, "seed")
    assert len(pixels) == explaining.PIXELS
    assert pixels == explaining.chosen(pictures, "seed")
    assert all(it.frame.columns[0] <= x < it.frame.columns[1] and it.frame.rows[0] <= y < it.frame.rows[1] for it, x, y in pixels)
    assert explaining.chosen([], "seed") == []


def test_pixels_of_the_right_bytes_pass(room: Path) -> None:
    assert explaining.compared(["render", "s.rib"], room, "seed") == explaining.Explained(3, ())


def test_a_pixel_of_other_bytes_is_told(room: Path, tmp_path: Path) -> None:
    (tmp_path / "a.ppm").write_bytes(A[:11] + bytes(18))
    (tmp_path / "b.ppm").write_bytes(B[:13] + bytes(6))
    found = explaining.compared(["render", "s.rib"], room, "seed")
    assert found.pixels == 3 and len(found.wrong) > 0
    assert all(" in place of [0, 0, 0" in line and line.startswith("why s.rib ") for line in found.wrong)


def test_a_program_that_fails_is_told(room: Path, tmp_path: Path) -> None:
    put(tmp_path / "why", "echo no memory >&2; exit 9")
    assert all(line.endswith(": status 9: no memory") for line in explaining.compared(["render", "s.rib"], room, "seed").wrong)


def test_a_picture_of_another_size_is_told(room: Path, tmp_path: Path) -> None:
    (tmp_path / "a.ppm").write_bytes(b"P6\n2 2\n255\n" + bytes(12))
    with pytest.raises(Trouble, match="a.ppm is 2 by 2 pixels in place of 3 by 2"):
        explaining.compared(["render", "s.rib"], room, "seed")
    (tmp_path / "a.ppm").write_bytes(b"P5")
    with pytest.raises(Trouble, match="a.ppm is no picture"):
        explaining.compared(["render", "s.rib"], room, "seed")


def test_a_scene_that_is_not_drawn_has_no_pixels(room: Path, tmp_path: Path) -> None:
    put(tmp_path / "reyes", "exit 8")
    assert explaining.compared(["render", "s.rib"], room, "seed") == explaining.Explained(0, ())


def test_the_files_of_a_case_are_found() -> None:
    case = b"case a\nwords render s.rib\nfile s.rib 4\nend\n\nfile x y.sl 1\n\n\nend\n"
    assert stored.files_of(case) == {"s.rib": b"end\n", "x y.sl": b"\n"}


@pytest.mark.parametrize(
    "words, file, status, wanted",
    [("render s.rib --bucket 8", "s.rib", 0, True), ("check s.rib", "s.rib", 0, False), ("render s.rib", "s.rib", 3, False), ("render s.rib", "t.rib", 0, False), ("render a/b", "a/b", 0, False), ("render", "s.rib", 0, False)],
)
def test_which_cases_draw(words: str, file: str, status: int, wanted: bool) -> None:
    class One:
        cases = {"a": f"case a\nwords {words}\nfile {file} 1\n \nend\n".encode()}
        answers = {"a": f"case a\nstatus {status}\nend\n".encode()}

    assert explaining.draws(One(), "a") == wanted  # type: ignore[arg-type]


def test_the_examples_and_the_cases_that_draw_are_explained() -> None:
    every = explaining.parts()
    assert "first.rib" in every and "one_red_patch" in every and "broken.rib" not in every


def test_what_cannot_be_compared_fails() -> None:
    def part() -> explaining.Explained:
        raise Trouble("it isn't drawn")

    assert explaining.tried(("a", part)) == ["a: it isn't drawn\n"]
    assert explaining.tried(("a", lambda: explaining.Explained(3, ("one", "two")))) == ["a: one\n", "a: two\n"]
