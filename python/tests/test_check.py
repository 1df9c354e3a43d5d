"""`check` and `explain`: each fault at its line and column, and the nearest known name."""
import json
from pathlib import Path

import pytest
from hypothesis import given, settings
from hypothesis import strategies as st

from reyes import check, command, explain, lists, rib

HEAD = 'Display "a.ppm" "file" "rgb"\n'


def told(text: str, folder: Path, monkeypatch: pytest.MonkeyPatch, capsys: pytest.CaptureFixture[str]) -> list[dict[str, object]]:
    monkeypatch.chdir(folder)
    (folder / "a.rib").write_text(text)
    status = command.run(["check", "a.rib", "--json"])
    found: list[dict[str, object]] = json.loads(capsys.readouterr().out)
    assert status == (found[0]["status"] if found else 0)
    return found


@pytest.mark.parametrize("text, place", [
    ("Format 9 9 1 Colr 1 1 1", ("a.rib", 1, 14, "S1", "Color")),
    ('WorldBegin Sphere 1 -1 1 360\n Sides 1 Sides 3 WorldEnd', ("a.rib", 2, 10, "S3", "")),
    ('Surface "plastic" "Ka" [1]  "Kss" [2]', ("a.rib", 1, 29, "S4", "Ks")),
    ('WorldBegin\nSurface "matte" "uniform float Kb" [2] Sphere 1 -1 1 360 WorldEnd', ("a.rib", 2, 17, "B1", "Kd")),
    ('WorldBegin\nSurface "mate" Sphere 1 -1 1 360 WorldEnd', ("a.rib", 2, 9, "missing", "matte")),
    ('WorldBegin Surface "s" Sphere 1 -1 1 360 WorldEnd', ("s.sl", 2, 12, "T1", "smoothstep")),
    ("WorldBegin WorldEnd WorldEnd", ("a.rib", 1, 21, "N1", "")),
    ('Sides "2x" 2x', ("a.rib", 1, 12, "L4", "")),
    ("Format 5000 2 1 WorldBegin WorldEnd", ("a.rib", 1, 1, "M5", "")),
])
def test_the_place_of_a_fault(
    text: str, place: tuple[object, ...], program: Path, tmp_path: Path, monkeypatch: pytest.MonkeyPatch, capsys: pytest.CaptureFixture[str],
) -> None:
    (tmp_path / "s.sl").write_text("surface s() {\n Ci = Cs * smotstep(0, 1, s);\n}")
    found = told(text, tmp_path, monkeypatch, capsys)
    assert tuple(found[0][it] for it in ("file", "line", "column", "code", "near")) == place


def test_every_fault_of_the_requests(program: Path, tmp_path: Path, monkeypatch: pytest.MonkeyPatch, capsys: pytest.CaptureFixture[str]) -> None:
    found = told("Sides 3\nColr 1\nWorldBegin Rotate 1\nWorldEnd\nTorus 1", tmp_path, monkeypatch, capsys)
    assert [(it["line"], it["code"]) for it in found] == [(1, "S3"), (2, "S1"), (3, "S3"), (5, "S2")]


def test_every_fault_of_the_text_and_of_shaders(program: Path, tmp_path: Path, monkeypatch: pytest.MonkeyPatch, capsys: pytest.CaptureFixture[str]) -> None:
    assert [it["column"] for it in told("Color é Sides è", tmp_path, monkeypatch, capsys)] == [7, 16]
    assert [it["code"] for it in told('$ 1 \n 2x "a" "\\q"', tmp_path, monkeypatch, capsys)] == ["L1", "L4", "L3"]
    for name in "ab":
        (tmp_path / f"{name}.sl").write_text(f"surface {name}(float x = 1) {{ Ci = {name * 3}; }}")
    text = 'WorldBegin Surface "a" "float x" [1] Sphere 1 -1 1 360 Surface "b" Sphere 1 -1 1 360 WorldEnd'
    assert [(it["file"], it["column"]) for it in told(text, tmp_path, monkeypatch, capsys)] == [("a.sl", 31), ("b.sl", 31)]


def test_the_mark_stands_below_the_token(program: Path, examples: Path, monkeypatch: pytest.MonkeyPatch, capsys: pytest.CaptureFixture[str]) -> None:
    monkeypatch.chdir(examples)
    assert command.run(["check", "broken.rib"]) == 4
    told, *marked = capsys.readouterr().out.splitlines()
    assert told.startswith("broken.sl:4:13: T1: ") and marked == ["    Ci = Os * Colour * gain;", "              ^^^^^^"]


@pytest.mark.parametrize("name", ["tea", "still_life", "boxes", "motion"])
def test_examples_have_no_fault(name: str, program: Path, examples: Path, capsys: pytest.CaptureFixture[str]) -> None:
    assert command.run(["check", str(examples / f"{name}.rib")]) == 0 and capsys.readouterr().out == ""


WORDS = st.sampled_from(
    ["Format", "Colr", "Color", "WorldBegin", "WorldEnd", "FrameBegin", "FrameEnd", "Surface", '"matte"', '"nowhere"', '"Kd"', "[", "]", "1", "-2e3", "9e999999",
     '"a', "$", "\n", "#", "Sphere", "Sides", "CropWindow", "Display", '"\xff"', "AttributeEnd", "Declare", "\\", "MotionBegin", "ReadArchive", "2x"]
)


@settings(max_examples=40)
@given(text=st.lists(WORDS, max_size=14).map(" ".join))
def test_broken_scenes_are_told_in_lines(text: str, program: Path, tmp_path: Path, capsys: pytest.CaptureFixture[str]) -> None:
    path = tmp_path / "a.rib"
    path.write_bytes(text.encode("latin-1"))
    status = command.run(["check", str(path), "--json"])
    found = json.loads(capsys.readouterr().out)
    assert status == (found[0]["status"] if found else 0) and len(found) <= check.MOST
    assert all("\n" not in it["sentence"] for it in found)
    assert command.run(["render", str(path), "-q", "-o", str(tmp_path / "x.ppm")]) in (0, 1, status)


@settings(max_examples=30)
@given(data=st.binary(max_size=40) | st.lists(st.sampled_from(["surface", "s", "(", ")", "{", "}", "Ci", "=", "1", ";", '"', "/*", "float", "f", "\n", "return", "//"]), max_size=25).map(" ".join).map(str.encode))
def test_broken_shaders_are_told_in_lines(data: bytes, program: Path, tmp_path: Path, capsys: pytest.CaptureFixture[str]) -> None:
    (tmp_path / "s.sl").write_bytes(data)
    (tmp_path / "a.rib").write_text('WorldBegin Surface "s" Sphere 1 -1 1 360 WorldEnd')
    status = command.run(["check", str(tmp_path / "a.rib")])
    shown = capsys.readouterr()
    assert status in (0, 3, 4) and (status == 0) == (shown.out == "")


def test_explain(capsys: pytest.CaptureFixture[str]) -> None:
    assert command.run(["explain", "s3", "tea.rib:12: G5", "shadingrate", "smoothstep", "Torus"]) == 0
    lines = capsys.readouterr().out.splitlines()
    assert [it.partition(" (")[0] for it in lines] == ["S3", "G5", "ShadingRate", "smoothstep", "Torus"] and "status 3" in lines[0]
    assert command.run(["explain", "P3"]) == 0 and "status 3" in capsys.readouterr().out
    assert command.run(["explain", "P5"]) == 1 and capsys.readouterr().out
    assert command.run(["explain", ""]) == 1
    assert capsys.readouterr().out == "'': no code, request or function is called so\n"


def test_every_code_and_request_is_explained() -> None:
    names = {row.name for row in explain.rows()}
    wanted = [f"{letter}{number}" for letter, most in {"L": 4, "S": 5, "N": 7, "G": 5, "P": 3, "T": 11, "B": 3, "X": 1, "J": 4, "M": 12}.items() for number in range(1, most + 1)]
    assert names >= {*wanted, "Format", "Sphere", "Option", "NuPatch", "texture", "illuminance"} and all(row.said for row in explain.rows())
    assert explain.parameters("spotlight")[-1] == "beamdistribution" and "from" in explain.parameters("spotlight")


def test_what_can_be_brought_in_is_told_so(program: Path, tmp_path: Path, monkeypatch: pytest.MonkeyPatch, capsys: pytest.CaptureFixture[str]) -> None:
    assert [it["sentence"].partition(" ")[0] for it in told("WorldBegin\nTorus 1 .5 0 360 360\nWorldEnd", tmp_path, monkeypatch, capsys)] == ["Torus"]
    (tmp_path / "packed.rib").write_bytes(b"\x1f\x8b\x08 and on")
    assert command.run(["check", "packed.rib"]) == 3
    assert capsys.readouterr().err == "reyes: packed.rib:1: L1: a gzip file; python3 -m reyes bring_in unpacks it\n"


@pytest.mark.parametrize("line, start, length, shown", [
    (b"Color 1 Sides 3", 8, 5, ("Color 1 Sides 3", "        ^^^^^")),
    ("# \u00e9\u00e8 \u6f22 Sides 3".encode(), 11, 5, ("# \u00e9\u00e8 \u6f22 Sides 3", "       ^^^^^")),
    ("\tColor \u00e9".encode(), 7, 1, ("\tColor \u00e9", "\t      ^")),
    (b"Color \xe9 Sides\x07", 8, 5, ("Color ? Sides?", "        ^^^^^")),
    (b"Sides", 5, 3, ("Sides", "     ^")),
])
def test_letters_of_several_bytes_are_marked_as_one(line: bytes, start: int, length: int, shown: tuple[str, str]) -> None:
    assert check.marked(line, start, length) == shown


@pytest.mark.parametrize("request_, column, said", [
    ('Surface "matte" "Ka" [1 2]', 17, "S5: 'Ka' is a float, of 1 number, and gets 2 numbers"),
    ('LightSource "distantlight" 1 "from" [1 2 3] "to" [0]', 45, "S5: 'to' is a point, of 3 numbers, and gets 1 number"),
    ('Projection "perspective" "fov" []', 26, "S5: 'fov' is a float, of 1 number, and gets no numbers"),
    ('Declare "tint" "uniform color" Surface "s" "tint" [1]', 44, "S5: 'tint' is a color, of 3 numbers, and gets 1 number"),
    ('Surface "matte" "uniform color Ka" [1 1 1]', 17, "B2: 'Ka' is a float in the shader, and a color here"),
    ('Surface "s" "x" [1] "uniform float tint" [1]', 21, "B2: 'tint' is a color in the shader, and a float here"),
    ('Surface 3', 1, "S3: a wrong kind, number or value of arguments: Surface takes a string and tokens in quotes, each with its value"),
    ('LightSource "pointlight"', 1, "S3: a wrong kind, number or value of arguments: LightSource takes a string, a whole number and tokens in quotes, each with its value"),
    ('Sides 3', 1, "S3: a wrong kind, number or value of arguments: Sides takes a whole number: 1 or 2"),
])
def test_what_is_wrong_is_said(
    request_: str, column: int, said: str, program: Path, tmp_path: Path, monkeypatch: pytest.MonkeyPatch, capsys: pytest.CaptureFixture[str],
) -> None:
    (tmp_path / "s.sl").write_text("surface s(float x = 1; color tint = 1;) { Ci = tint; }")
    before = "" if request_.startswith("Projection") else "WorldBegin "
    after = "WorldBegin WorldEnd" if not before else "Sphere 1 -1 1 360 WorldEnd"
    text = f'Declare "x" "uniform float" {before}\n{request_}\n{after}'
    found = told(text, tmp_path, monkeypatch, capsys)[0]
    assert (found["line"], found["column"], f"{found['code']}: {found['sentence']}") == (2, column, said)


@given(st.text(alphabet='SurfaceLight "[]1.Ka\\n', max_size=60))
def test_any_list_is_read(text: str) -> None:
    for request in rib.requests(f'Surface "s" {text}'.encode()):
        for code in ("S5", "B2"):
            found = lists.fault(request, [], b"surface s(float Ka = 1;) { }", code)
            assert found is None or found[0].kind == "string"
