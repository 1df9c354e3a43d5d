"""`render`: joined bands are the bytes of the program's own picture, whatever the scene, its crop and its size; it goes on after a break."""
import hashlib
import os
import signal
import subprocess
import sys
import time
from pathlib import Path

import numpy as np
import pytest
from hypothesis import given, settings
from hypothesis import strategies as st

from reyes import bands, checking, command, drawing, kept, picture, plain, rendering, scene
from reyes.progress import Silent

SMALL = """Format {width} {height} 1
PixelSamples {samples} 1
{options}
Display "{name}" "file" "rgb"
WorldBegin
Color [0.95 0.75 0.2]
Patch "bilinear" "P" [-0.9 -0.5 2  0.7 -0.8 2  -0.6 0.8 2  0.9 0.6 2]
Surface "matte"
LightSource "ambientlight" 1
Translate .1 -.2 3 Sphere .4 -.4 .4 360
WorldEnd
"""


def small(name: str = "a.ppm", width: int = 40, height: int = 50, samples: int = 2, options: str = "") -> str:
    return SMALL.format(name=name, width=width, height=height, samples=samples, options=options)


def whole(program: Path, folder: Path, text: str, *words: str) -> None:
    """What the program itself draws of a scene, in a folder."""
    ended = subprocess.run([program, "render", "/dev/stdin", *words], cwd=folder, input=text.encode(), stderr=subprocess.PIPE, check=False)
    assert ended.returncode == 0, ended.stderr


def by_bands(text: str, *words: str, folder: Path) -> None:
    (folder / "scene.rib").write_text(text)
    assert command.run(["render", str(folder / "scene.rib"), "-q", *words]) == 0


def wanted(examples: Path) -> dict[str, str]:
    return dict(reversed(line.split()) for line in (examples / "SHA256SUMS").read_text().splitlines())


@pytest.mark.parametrize("name", ["boxes", "first", "gallery", "prints", "teapot", "tins", "tour", "vtk"])
def test_examples_have_their_bytes(name: str, program: Path, examples: Path, tmp_path: Path, monkeypatch: pytest.MonkeyPatch) -> None:
    monkeypatch.chdir(tmp_path)
    assert command.run(["render", str(examples / f"{name}.rib"), "-q", "-j", "2", "-o", ".ppm"]) == 0
    made = sorted(tmp_path.iterdir())
    sums = {Path(file).stem: digest for file, digest in wanted(examples).items() if "/" not in file}
    assert made and all(hashlib.sha256(it.read_bytes()).hexdigest() == sums[it.stem] for it in made)


@settings(max_examples=25)
@given(
    width=st.integers(1, 70), height=st.integers(1, 70), samples=st.integers(1, 3), bucket=st.integers(4, 64),
    crop=st.none() | st.lists(st.integers(0, 1000), min_size=2, max_size=2, unique=True).flatmap(
        lambda x: st.lists(st.integers(0, 1000), min_size=2, max_size=2, unique=True).map(lambda y: [*sorted(x), *sorted(y)])),
    deep=st.booleans(), jobs=st.integers(1, 3),
)
def test_odd_sizes_crops_and_buckets(
    width: int, height: int, samples: int, bucket: int, crop: list[int] | None, deep: bool, jobs: int,
    program: Path, tmp_path_factory: pytest.TempPathFactory, monkeypatch: pytest.MonkeyPatch,
) -> None:
    folder = tmp_path_factory.mktemp("odd")
    monkeypatch.chdir(folder)
    options = "" if crop is None else f"CropWindow {' '.join(str(it / 1000) for it in crop)}\n"
    text = small("a.ppm", width, height, samples, options + ('Quantize "rgb" 65535 0 65535 0' if deep else ""))
    whole(program, folder, text)
    by_bands(text, "-o", "b.ppm", "-j", str(jobs), "--bucket", str(bucket), folder=folder)
    assert (folder / "a.ppm").read_bytes() == (folder / "b.ppm").read_bytes()


def film(frames: bool) -> str:
    """Three worlds, each with what the others must not see: declarations within a world, lights before it, options that stay."""
    begin, end = ("FrameBegin {0}", "FrameEnd") if frames else ("", "")
    light = 'LightSource "ambientlight" 7 "intensity" .3'
    text = f"Format 30 33 1\n{light}\nTranslate 0 0 1\n"
    for number in (4, 5, 9):
        text += begin.format(number) + f"""
Display "film{number}.ppm" "file" "rgb" CropWindow 0 {number / 10} 0 1
AttributeBegin Rotate {number} 0 0 1 {light if number != 5 else ""}
WorldBegin Declare "tint{number}" "uniform float" LightSource "distantlight" 3 "intensity" .5 Surface "matte" "Kd" [.{number}]
Sphere .5 -.5 .5 360 "tint{4}" [1]
WorldEnd AttributeEnd
{end} # {number}
"""
    return text


@pytest.mark.parametrize("frames", [True, False])
def test_each_frame_alone_is_the_frame_of_the_film(frames: bool, program: Path, tmp_path: Path, monkeypatch: pytest.MonkeyPatch) -> None:
    monkeypatch.chdir(tmp_path)
    whole(program, tmp_path, film(frames))
    by_bands(film(frames), "-o", "x.#.ppm", folder=tmp_path)
    numbers = (4, 5, 9) if frames else (1, 2, 3)
    for name, number in zip((4, 5, 9), numbers):
        assert (tmp_path / f"film{name}.ppm").read_bytes() == (tmp_path / f"x.{number}.ppm").read_bytes()


def test_frames_are_chosen_by_their_numbers(program: Path, tmp_path: Path, monkeypatch: pytest.MonkeyPatch) -> None:
    monkeypatch.chdir(tmp_path)
    by_bands(film(True), "--frames", "5-8", folder=tmp_path)
    assert sorted(it.name for it in tmp_path.iterdir()) == ["film5.ppm", "scene.rib"]


def test_several_scenes_and_none(program: Path, tmp_path: Path, monkeypatch: pytest.MonkeyPatch, capsys: pytest.CaptureFixture[str]) -> None:
    monkeypatch.chdir(tmp_path)
    for name in ("a", "b"):
        (tmp_path / f"{name} x.rib").write_text(small(f"{name}.ppm"))
    (tmp_path / "none.rib").write_text("Format 9 9 1")
    assert command.run(["render", "a x.rib", "none.rib", "b x.rib", "-q", "-o", ".png"]) == 0
    assert sorted(it.name for it in tmp_path.glob("*.p*")) == ["a.png", "b.png"]
    assert command.run(["render", "a x.rib", "b x.rib", "-o", "c.png"]) == 2
    assert command.run(["render", "a x.rib", "-o", "no/c.png"]) == 8
    assert command.run(["render", "a x.rib", "-q", "-o", "../" + tmp_path.name + "/a x.rib"]) == 2
    assert (tmp_path / "a x.rib").read_text() == small("a.ppm")
    assert command.run(["render", "a x.rib", "--frames", "2"]) == 1
    assert "none of its 1 frames" in capsys.readouterr().err


def test_other_size_samples_rate_and_crop(program: Path, tmp_path: Path, monkeypatch: pytest.MonkeyPatch) -> None:
    monkeypatch.chdir(tmp_path)
    by_bands(small(), "--size", "50%", "--samples", "3x2", "--rate", "9", "--crop", "0", ".5", ".25", "1", folder=tmp_path)
    text = small("b.ppm", 20, 25).replace("PixelSamples 2 1", "PixelSamples 3 2 CropWindow 0 .5 .25 1 ShadingRate 9")
    whole(program, tmp_path, text)
    assert (tmp_path / "a.ppm").read_bytes() == (tmp_path / "b.ppm").read_bytes()


def test_forms_by_their_endings(program: Path, tmp_path: Path, monkeypatch: pytest.MonkeyPatch) -> None:
    monkeypatch.chdir(tmp_path)
    for name in ("a.ppm", "a.png", "a.tif", "a.exr"):
        if name.endswith(("tif", "exr")):
            pytest.importorskip("OpenImageIO")
        by_bands(small(), "-o", name, folder=tmp_path)
    ppm = picture.read("a.ppm")
    assert np.array_equal(picture.read("a.png"), ppm) and np.array_equal(picture.read("a.tif"), ppm)
    assert np.array_equal(picture.read("a.exr") // 257, ppm)


class Broken(Silent):
    """Breaks a drawing off when so many bands are there."""

    def __init__(self, bands_there: int) -> None:
        self.bands_there = bands_there

    def tick(self, under_way: object) -> None:
        self.bands_there -= 1
        if self.bands_there <= 0:
            raise KeyboardInterrupt


def test_a_broken_run_goes_on_with_the_missing_bands(program: Path, tmp_path: Path, monkeypatch: pytest.MonkeyPatch) -> None:
    monkeypatch.chdir(tmp_path)
    text = small("a.ppm", 33, 160)
    whole(program, tmp_path, text)
    drawn = []

    def counting(self: bands.Run, *words: object) -> bytes:
        drawn.append(self.band.rows)
        return draw(self)

    draw = bands.Run.picture
    monkeypatch.setattr(bands.Run, "picture", counting)
    monkeypatch.setattr(rendering.progress, "counted", lambda *words: Broken(3))
    (tmp_path / "scene.rib").write_text(text)
    assert command.run(["render", "scene.rib", "-q", "-j", "1", "-o", "b.ppm"]) == 130
    left = len(list((tmp_path / "b.ppm.bands").iterdir()))
    assert 0 < left and not (tmp_path / "b.ppm").exists()
    monkeypatch.setattr(rendering.progress, "counted", lambda *words: Silent())
    before = len(drawn)
    by_bands(text, "-o", "b.ppm", "-j", "3", folder=tmp_path)
    assert (tmp_path / "b.ppm").read_bytes() == (tmp_path / "a.ppm").read_bytes()
    assert all(rows[0] >= 16 * left for rows in drawn[before:]) and not (tmp_path / "b.ppm.bands").exists()


HEAVY = small("a.ppm", 200, 400, 4).replace("Surface", "ShadingRate .1 Surface")


@pytest.mark.parametrize("number", [signal.SIGKILL, signal.SIGTERM, signal.SIGINT])
def test_a_run_that_is_killed_goes_on(number: signal.Signals, program: Path, tmp_path: Path, monkeypatch: pytest.MonkeyPatch) -> None:
    monkeypatch.chdir(tmp_path)
    (tmp_path / "scene.rib").write_text(HEAVY)
    words = [sys.executable, "-m", "reyes", "render", "scene.rib", "-q", "-j", "2", "-o", "b.ppm"]
    environment = {**os.environ, "PYTHONPATH": str(Path(__file__).resolve().parent.parent), "TMPDIR": str(tmp_path)}
    with subprocess.Popen(words, env=environment, stderr=subprocess.PIPE) as run:
        while run.poll() is None and not list(tmp_path.glob("b.ppm.bands/*.ppm")):
            time.sleep(0.01)
        run.send_signal(number)
        said = run.stderr.read() if run.stderr else b""
    assert said == (b"" if number == signal.SIGKILL else b"reyes: broken off\n")
    assert run.returncode == (-9 if number == signal.SIGKILL else 130) and not (tmp_path / "b.ppm").exists()
    assert number == signal.SIGKILL or not list(tmp_path.glob("reyes-*"))
    drawn: list[bands.Span] = []
    draw = bands.Run.picture
    monkeypatch.setattr(bands.Run, "picture", lambda self, *rest: (drawn.append(self.band.rows), draw(self, *rest))[1])
    by_bands(HEAVY, "-j", "2", "-o", "b.ppm", folder=tmp_path)
    whole(program, tmp_path, HEAVY, "--grid-points", "1000000")
    assert (tmp_path / "a.ppm").read_bytes() == (tmp_path / "b.ppm").read_bytes()
    assert sum(end - first for first, end in drawn) < 400


@pytest.mark.parametrize("change", ["scene", "shader", "texture", "program"])
def test_bands_of_another_text_are_never_joined(change: str, program: Path, tmp_path: Path, monkeypatch: pytest.MonkeyPatch) -> None:
    monkeypatch.chdir(tmp_path)
    text = small("a.ppm").replace('"matte"', '"printed" "string map" "../t.ppm"')
    (tmp_path / "in").mkdir()
    (tmp_path / "in/printed.sl").write_text('surface printed(string map = "";) { Ci = texture(map); Oi = 1; }')
    (tmp_path / "t.ppm").write_bytes(b"P6 1 1 255 abc")
    path, data = tmp_path / "in/scene.rib", text.encode()
    path.write_text(text)
    first = drawing.Drawing(data, "scene.rib", path, drawing.Settings())
    key = first.picture(first.frames[0], None).kept.key
    if change == "scene":
        data += b"#"
    elif change == "shader":
        (tmp_path / "in/printed.sl").write_text('surface printed(string map = "";) { Ci = 1 - texture(map); Oi = 1; }')
    elif change == "texture":
        (tmp_path / "t.ppm").write_bytes(b"P6 1 1 255 abd")
    else:
        other = tmp_path / "program"
        other.write_bytes(program.read_bytes() + b"\n")
        other.chmod(0o755)
        monkeypatch.setenv("REYES", str(other))
    second = drawing.Drawing(data, "scene.rib", path, drawing.Settings())
    assert (second.picture(second.frames[0], None).kept.key == key) is (change == "scene")  # a comment after the world is in no frame's text


def test_torn_and_foreign_bands_are_passed_over(tmp_path: Path) -> None:
    key = "0" * 64
    good = b"P6\n1 16\n255\n" + bytes(48)
    for name, data in {f"{key}.0-16.ppm": good, f"{key}.16-32.ppm": good[:-1], f"{'1' * 64}.32-48.ppm": good, f"{key}.40-56.ppm": good, f"{key}.8-24.ppm": good, f"{key}.x.ppm": b""}.items():
        (tmp_path / name).write_bytes(data)
    found = kept.Kept(tmp_path, key, (0, 50))
    assert sorted(found.parts) == [(0, 16)] and found.missing() == [(16, 50)]


def test_a_picture_grows(program: Path, tmp_path: Path) -> None:
    folder = tmp_path / "a.ppm.bands"
    it = drawing.Picture(scene.read(small().encode()).frames[0], "a.ppm", kept.Kept(folder, "0" * 64, (0, 50)))
    it.kept.add((16, 32), b"P6\n40 16\n255\n" + bytes(range(120)) * 16)
    rendering.progress.grow(it)
    seen = picture.read(folder / "so_far.png")
    assert seen.shape == (50, 40, 4) and seen[:, 0, 3].tolist() == [0] * 16 + [255] * 16 + [0] * 18 and seen[20, 1].tolist() == [3, 4, 5, 255]


def test_a_killed_process_is_started_again(program: Path, tmp_path: Path, monkeypatch: pytest.MonkeyPatch) -> None:
    monkeypatch.chdir(tmp_path)
    whole(program, tmp_path, small("a.ppm"))
    killed = []
    draw = bands.Run.picture

    def killing(self: bands.Run, *words: object) -> bytes:
        if not killed:
            killed.append(self)
            self.end()
        return draw(self)

    monkeypatch.setattr(bands.Run, "picture", killing)
    by_bands(small("a.ppm"), "-o", "b.ppm", "-j", "2", folder=tmp_path)
    assert killed and (tmp_path / "a.ppm").read_bytes() == (tmp_path / "b.ppm").read_bytes()


@pytest.mark.parametrize("line, status", [
    ("Colr 1 1 1", 3), ('Surface "nowhere"', 6), ("Translate 0 0", 3), ("AttributeBegin", 3), ('Patch "bilinear" "P" [0 0 0]', 5),
])
def test_faults_are_told_in_a_line(line: str, status: int, program: Path, tmp_path: Path, monkeypatch: pytest.MonkeyPatch, capsys: pytest.CaptureFixture[str]) -> None:
    monkeypatch.chdir(tmp_path)
    (tmp_path / "scene.rib").write_text(small().replace("WorldEnd", f"{line}\nSphere 1 -1 1 360 WorldEnd"))
    assert command.run(["render", "scene.rib"]) == status
    told = capsys.readouterr().err
    assert told.startswith("reyes: scene.rib:1") and told.count("\n") == 1 and sorted(it.name for it in tmp_path.iterdir()) == ["scene.rib"]


def test_a_small_picture_needs_no_numpy(program: Path, tmp_path: Path) -> None:
    (tmp_path / "scene.rib").write_text(small())
    words = ["import sys", "from reyes.command import run", "status = run(['render', 'scene.rib', '-q', '-o', 'a.png'])", "sys.exit(status or 'numpy' in sys.modules)"]
    environment = {**os.environ, "PYTHONPATH": str(Path(__file__).resolve().parent.parent)}
    ended = subprocess.run([sys.executable, "-c", "; ".join(words)], cwd=tmp_path, env=environment, stderr=subprocess.PIPE, check=False)
    assert ended.returncode == 0 and ended.stderr == b"" and (tmp_path / "a.png").is_file()


@pytest.mark.parametrize("most", [255, 65535, 1000])
def test_a_png_without_numpy_is_the_same(most: int) -> None:
    data = b"P6\n5 3\n%d\n" % most + bytes(range(3, 3 + 45 * (1 + (most > 255))))
    made = plain.png(data)
    assert (made is None) is (most == 1000) and (made is None or made == picture.to_png(picture.from_ppm(data)))


class Slow(checking.Asked):
    """A check whose answer is told as not there yet until it is waited for."""

    def is_there(self) -> bool:
        return False


@pytest.mark.parametrize("kept_folder", [False, True])
def test_a_refused_scene_that_is_drawn_meanwhile_leaves_nothing(
    kept_folder: bool, program: Path, tmp_path: Path, monkeypatch: pytest.MonkeyPatch, capsys: pytest.CaptureFixture[str],
) -> None:
    monkeypatch.chdir(tmp_path)
    monkeypatch.setattr(checking, "Asked", Slow)
    # the first frame is whole, so its bands are drawn before the fault behind it is told
    (tmp_path / "scene.rib").write_text(small("a.ppm") + "FrameBegin 2 Colr 1 1 1 FrameEnd")
    assert command.run(["render", "scene.rib", "-q", *([] if kept_folder else ["--no-bands"])]) == 3
    assert capsys.readouterr().err == "reyes: scene.rib:12:14: S1: no request has the name; the nearest known name is 'Color'\n"
    assert [it.name for it in tmp_path.iterdir()] == ["scene.rib"]


def test_a_scene_without_a_frame_is_told(program: Path, tmp_path: Path, monkeypatch: pytest.MonkeyPatch, capsys: pytest.CaptureFixture[str]) -> None:
    monkeypatch.chdir(tmp_path)
    (tmp_path / "none.rib").write_text("Format 9 9 1")
    for words, status in ((["render", "none.rib"], 0), (["farm", "none.rib", "-o", "none.farm"], 1), (["passes", "none.rib", "--alpha", "-o", "a.png"], 1)):
        assert command.run(words) == status
        assert capsys.readouterr().err == "reyes: none.rib: no picture comes of it, since it has no frame (WorldBegin .. WorldEnd)\n"
    assert [it.name for it in tmp_path.iterdir()] == ["none.rib"]
