"""The binding writes what the renderer accepts, says what it would refuse, and draws; random scenes by bands have the bytes of the program."""
import subprocess
from collections.abc import Callable
from pathlib import Path

import numpy as np
import pytest
from hypothesis import given, settings
from hypothesis import strategies as st

import reyes
from reyes import picture, ri
from reyes.errors import Trouble

MAPPED = 'surface mapped(string map = "";) { Ci = Cs * texture(map) * abs(normalize(N) . normalize(I)); Oi = Os; }'


def ball(*, deep: bool = False, frames: tuple[int, ...] = (1,)) -> str:
    """A ball over a floor, by most of the calls."""
    ri.Begin()
    ri.ArchiveRecord("structure", "RenderMan RIB-Structure")
    ri.Format(40, 30)
    ri.PixelSamples(2, 2)
    ri.PixelFilter("box", 1, 1)
    if deep:
        ri.Quantize("rgb", 65535, 0, 65535)
    ri.Projection("perspective", fov=40)
    ri.Translate(0, 0, 4)
    ri.Declare("map", "uniform string")
    for number in frames:
        with ri.FrameBegin(number):
            ri.Display(f"ball{number}.ppm")
            with ri.WorldBegin():
                light = ri.LightSource("distantlight", {"to": [1, -1, 1]})
                ri.Illuminate(light, True)
                ri.Surface("mapped", {"map": "maps/m.ppm"})
                ri.Color(1, 0.5, 0.2)
                with ri.AttributeBegin():
                    ri.Rotate(10 * number, 1, 0, 0)
                    ri.Sphere(1, -1, 1)
                ri.ConcatTransform(np.eye(4))
                ri.Patch("bilinear", P=np.array([[-2, -1, 1], [2, -1, 1], [-2, -1, 3], [2, -1, 3]]), Cs=np.ones((4, 3)))
                ri.PointsPolygons([3, 3], [0, 1, 2, 0, 2, 3], {"P": np.random.default_rng(0).random((4, 3)), "facevarying float s": [0.0] * 6})
                ri.PatchMesh("bilinear", 2, "nonperiodic", 3, "nonperiodic", {"P": np.zeros((6, 3)), "uniform color Cs": np.ones(6)})
    return ri.End()


def test_what_is_written_is_drawn(program: Path, tmp_path: Path) -> None:
    texture = np.random.default_rng(1).integers(0, 255, (8, 8, 3), dtype=np.uint8)
    drawn = reyes.render(ball(), shaders={"mapped": MAPPED}, textures={"maps/m.ppm": texture}, jobs=2)
    (tmp_path / "maps").mkdir()
    picture.write(tmp_path / "maps/m.ppm", texture)
    (tmp_path / "mapped.sl").write_text(MAPPED)
    subprocess.run([program, "render", "/dev/stdin"], input=ball().encode(), cwd=tmp_path, check=True)
    assert (drawn.name, drawn.number, drawn.array.shape) == ("ball1.ppm", 1, (30, 40, 3))
    assert drawn.ppm == (tmp_path / "ball1.ppm").read_bytes()
    assert np.array_equal(picture.from_png(drawn._repr_png_()), drawn.array)
    drawn.save(tmp_path / "x.png")
    assert np.array_equal(picture.read(tmp_path / "x.png"), drawn.array)


def test_sixteen_bits_and_frames(program: Path, tmp_path: Path) -> None:
    given_ = {"shaders": {"mapped": MAPPED}, "textures": {"maps/m.ppm": np.full((1, 1, 3), 65535, np.uint16)}}
    text = ball(deep=True, frames=(3, 1, 7))
    drawn = list(reyes.film(text, **given_))
    assert [it.number for it in drawn] == [3, 1, 7] and all(it.array.dtype == np.uint16 for it in drawn)
    assert reyes.render(text, frame=1, **given_).ppm == drawn[1].ppm
    with pytest.raises(Trouble, match="the scene has 3 frames"):
        reyes.render(text, **given_)
    with pytest.raises(Trouble, match="none of its 3 frames"):
        reyes.render(text, frame=2, **given_)


def test_a_file_and_archives(program: Path, tmp_path: Path) -> None:
    (tmp_path / "part.rib").write_text("Sphere .5 -.5 .5 360 # the last line")
    ri.Begin(tmp_path / "scene.rib")
    ri.Format(9, 9)
    with ri.WorldBegin():
        part = ri.ObjectBegin()
        ri.ReadArchive(tmp_path / "part.rib")
        ri.ObjectEnd()
        ri.ObjectInstance(part)
    ri.End()
    assert reyes.render(tmp_path / "scene.rib").array[4, 4].tolist() == [255, 255, 255]
    with pytest.raises(Trouble, match="none.rib: missing"):
        reyes.render("none.rib")


def test_faults_of_what_was_given(program: Path) -> None:
    with pytest.raises(Trouble, match=r"^mapped.sl:1:9: P2: "):
        reyes.render(ball(), shaders={"mapped": "surface !"})
    with pytest.raises(Trouble, match=r"^scene:13:9: missing: there is no shader 'mapped'$"):
        reyes.render(ball())
    with pytest.raises(Trouble, match="an array of uint8 or uint16"):
        reyes.render(ball(), textures={"a.ppm": np.zeros((2, 2, 3))})
    with pytest.raises(Trouble, match="can't lead out"):
        reyes.render(ball(), textures={"../a.ppm": b""})


@pytest.mark.parametrize("call, said", [
    (lambda: ri.Surface("matte", Kss=1), "S4: Surface 'Kss': .* the nearest known name is 'Ks'"),
    (lambda: ri.Surface("matte", {"foo float x": 1}), "S2: "),
    (lambda: ri.Surface("matte", Ks="1"), "S3: .* a float isn't made of strings"),
    (lambda: ri.Surface("matte", specularcolor=[1, 2]), "S5: .*: 2 values stand where 3 make a color"),
    (lambda: ri.Patch("bilinear", P=[1, 2, 3]), "G5: Patch 'P': 1 values stand where 4"),
    (lambda: ri.Patch("bilinear"), "S3: Patch: it needs its points"),
    (lambda: ri.Patch("blinear"), "the nearest is 'bilinear'"),
    (lambda: ri.Sphere(1, -1, 1, 360, P=[1, 2, 3]), "S3: Sphere: a quadric takes no P"),
    (lambda: ri.PointsPolygons([3], [0, 1, 3], P=np.zeros((3, 3))), "G5: "),
    (lambda: ri.Translate(1, 2, float("nan")), "S3: nan is no number"),
    (lambda: ri.Surface(3), "3: a RIB string"),
    (lambda: ri.Color(1, 2), "S3: 2 numbers stand where 3 are wanted"),
    (lambda: ri.Declare("x", "float3"), "S2: "),
    (lambda: ri.FrameBegin(1.5), "S3: 1.5 is no whole number"),
    (lambda: ri.Surface("a\x00"), "a RIB string holds"),
    (lambda: ri.ObjectInstance(0), "there is no such object"),
])
def test_what_is_refused(call: Callable[[], object], said: str) -> None:
    ri.Begin()
    with pytest.raises((Trouble, ValueError), match=said):
        call()


def test_unknown_calls() -> None:
    with pytest.raises(AttributeError, match="Torus is refused: S2"):
        ri.Torus
    with pytest.raises(AttributeError, match="the nearest known name is 'Sphere'"):
        ri.Sphre
    ri.Begin()
    ri.End()
    with pytest.raises(Trouble, match="ri.Begin"):
        ri.WorldBegin()


def test_the_declared_names_are_those_of_the_page() -> None:
    from reyes import checking, ri_text

    assert set(ri_text.START) == set(checking.FROM_THE_START)


PLACE = st.tuples(*[st.floats(-1, 1, width=16)] * 2, st.floats(1, 3, width=16))


@settings(max_examples=25)
@given(
    shapes=st.lists(st.tuples(st.sampled_from(["patch", "sphere", "cone", "polygon", "bicubic"]), st.lists(PLACE, min_size=16, max_size=16)), max_size=5),
    size=st.tuples(st.integers(1, 50), st.integers(1, 60)), rate=st.sampled_from([0.5, 1, 10]), perspective=st.booleans(), moves=st.booleans(), bucket=st.integers(4, 64), jobs=st.integers(1, 4),
)
def test_random_scenes_by_bands(
    shapes: list[tuple[str, list[tuple[float, float, float]]]], size: tuple[int, int], rate: float, perspective: bool, moves: bool, bucket: int, jobs: int,
    program: Path, tmp_path: Path,
) -> None:
    ri.Begin()
    ri.Format(*size)
    ri.Display("a.ppm")
    ri.Projection("perspective" if perspective else "orthographic")
    ri.Shutter(0, 0.7)
    with ri.WorldBegin():
        if moves:
            with ri.MotionBegin(0, 1):
                ri.Translate(0, 0, 0)
                ri.Translate(0.3, 0.2, 0.1)
        ri.LightSource("pointlight", {"from": [0, 2, 0]}, intensity=3)
        ri.ShadingRate(rate)
        for number, (kind, places) in enumerate(shapes):
            ri.Surface("plastic" if number % 2 else "constant")
            ri.Color(abs(places[0][0]), abs(places[0][1]), 0.7)
            ri.Opacity([0.3 + 0.7 * (number % 3 == 0)] * 3)
            if kind in ("patch", "bicubic"):
                ri.Patch("bilinear" if kind == "patch" else "bicubic", P=places[: 4 if kind == "patch" else 16])
            elif kind == "polygon":
                ri.Polygon(P=places[:3])
            else:
                with ri.AttributeBegin():
                    ri.Translate(*places[0])
                    ri.Sphere(0.5, -0.5, 0.5) if kind == "sphere" else ri.Cone(1, 0.5)
    text = ri.End()
    subprocess.run([program, "render", "/dev/stdin", "--bucket", str(bucket)], input=text.encode(), cwd=tmp_path, check=True)
    assert reyes.render(text, jobs=jobs).ppm == (tmp_path / "a.ppm").read_bytes()
