"""Scenes in the forms that people have: their text, their structure, what they say of the picture, and what is told of the changes."""
import gzip
import struct

import numpy as np
import pytest
from bringing import apart, bring, brought_and_drawn, drawn, world
from hypothesis import given
from hypothesis import strategies as st

from reyes import command as command_line
from reyes import picture
from reyes.bring import changes as kinds
from reyes.bring import command, culling, structure

BALL = "Sphere 1 -1 1 360"
PATCH = 'Patch "bilinear" "P" [-1 -1 0 1 -1 0 -1 1 0 1 1 0]'


def same(program, folder, text, native, kind="="):
    """Both texts draw the same bytes, and bringing the first is of this kind."""
    found, answer = brought_and_drawn(folder / "brought", text)
    assert answer.kinds() == kind, answer.changes.lines()
    assert (found == drawn(folder, native)).all()
    return answer


@pytest.fixture
def called(tmp_path, monkeypatch, capsys):
    """The command as it is called in a folder: its status, what it prints and its errors."""
    monkeypatch.chdir(tmp_path)

    def call(*words):
        try:
            status = command_line.run(["bring_in", *words])
        except SystemExit as it:
            status = it.code
        out, errors = capsys.readouterr()
        return status, out, errors

    return call


# ---- text
def test_a_scene_that_needs_no_change_keeps_its_bytes(examples):
    for scene in sorted(examples.glob("*.rib")):
        if scene.name == "broken.rib":
            continue
        brought = command.bring(scene, "=")
        assert brought.text == scene.read_bytes() and not brought.changes.lines(), scene.name
        for name, data in brought.files.items():
            assert data == (examples / name).read_bytes(), name


def test_a_scene_that_is_brought_twice_is_the_same(tmp_path):
    text = world('Torus 1 .3 0 360 300 # round\nGeneralPolygon [4 3] "P" [0 0 5 0 1 5 1 1 5 1 0 5 .25 .5 5 .75 .75 5 .75 .25 5]\nSurface "oak" "Kd" .5\n'
                 'LightSource "spotty" "a" Points "P" [0 0 0] Imager "background" "bgcolor" [.1 .2 .3] Skew 20 0 1 0 1 0 0\nSurface "paintedplastic" ' + BALL)
    once = bring(tmp_path, text)
    twice = command.bring(once.folder / "scene.rib", "=")
    assert twice.text.decode("latin-1") == once.text and not twice.changes.lines()
    assert all((once.folder / name).read_bytes() == data for name, data in twice.files.items())
    assert once.kinds() == "!=~"


def test_gzip_and_binary_are_text(program, tmp_path):
    plain = bring(tmp_path / "plain", world(BALL))
    packed = bring(tmp_path / "packed", gzip.compress(world(BALL).encode()))
    assert packed.text == plain.text and packed.kinds() == "="

    def request(code, name, *tokens):
        return bytes([0o314, code, 0o220 + len(name)]) + name.encode() + bytes([0o246, code]) + b"".join(tokens)

    def array(*values):
        return bytes([0o310, len(values)]) + struct.pack(f">{len(values)}f", *values)

    binary = world("").split("WorldEnd")[0].encode() + request(1, "Sphere", b"\x80\x01", b"\x80\xff", b"\x80\x01", b"\xa4" + struct.pack(">f", 360))
    binary += request(2, "Color", array(1, 0.5, 0.25)) + request(3, "Surface", bytes([0o315, 7, 0o225]) + b"matte", bytes([0o317, 7])) + b"\nWorldEnd\n"
    same(program, tmp_path, binary.decode("latin-1"), world(f'{BALL} Color [1 .5 .25] Surface "matte"'))


@pytest.mark.parametrize("data", [b"\x1f\x8bno gzip", b"\xa6", b"\xcc\x01", b"\x90\x91", b"\xcb\xff\xff\xff\xff"])
def test_damaged_files_are_told_in_a_line(tmp_path, called, data):
    (tmp_path / "a.rib").write_bytes(data)
    status, _, errors = called("a.rib", "out")
    assert status == 3 and len(errors.splitlines()) == 1 or status in (0, 3) and not errors


def test_strings_and_numbers_of_other_texts(program, tmp_path):
    text = world('Attribute "identifier" "name" ["caf\xe9 \\101 C:\\\\x"] Attribute "user" "file" "C:\\maps\\brick.tif" Surface ["plastic"] ' + BALL)
    answer = bring(tmp_path, text.replace("ShadingRate .25", "ShadingRate [.25]"))
    assert answer.kinds() == "=" and all(ord(it) < 128 for it in answer.text) and '"C:\\\\maps\\\\brick.tif"' in answer.text
    assert bring(tmp_path / "nan", world("Translate nan 0 0 " + BALL)).kinds() == "!"
    assert bring(tmp_path / "mac", world(BALL).replace("\n", "\r")).text == world(BALL)


def test_a_string_with_a_backslash_at_the_end_of_its_line_keeps_its_quote(program, tmp_path):
    text = world('Declare "a" "uniform float" Surface "plas\\\ntic" Skew 10 0 1 0 1 0 0 ' + BALL)
    answer = bring(tmp_path, text)
    assert 'Surface "plas\\\ntic"' in answer.text and "ConcatTransform" in answer.text


# ---- structure
def test_archives_objects_and_procedurals_stand_in_place(program, tmp_path):
    (tmp_path / "brought" / "parts").mkdir(parents=True)
    (tmp_path / "brought" / "parts" / "ball.rib").write_text(f"# a part\n{BALL}")
    native = world(f"{BALL} AttributeBegin Translate 1 0 0 {BALL} AttributeEnd")
    for text in (f'ReadArchive "parts/ball.rib" AttributeBegin Translate 1 0 0 ReadArchive "ball.rib" AttributeEnd',
                 'Procedural "DelayedReadArchive" ["ball.rib"] [-1 1 -1 1 -1 1] Translate 1 0 0 '
                 'Procedural2 "DelayedReadArchive2" "SimpleBound" "string filename" ["ball.rib"] "float[6] __bound" [0 1 0 1 0 1]',
                 f'ObjectBegin 7 {BALL} ObjectEnd ObjectInstance 7 Translate 1 0 0 ObjectInstance 7',
                 f'ArchiveBegin "b" {BALL} ArchiveEnd ReadArchive "b" Translate 1 0 0 ReadArchive "b"'):
        head = 'Option "searchpath" "archive" ["parts:&"]\n'
        same(program, tmp_path, head + world(text), native)


@pytest.mark.parametrize("text", ['ObjectBegin "a" ObjectInstance "a" ObjectEnd ObjectInstance "a"', 'ArchiveBegin "a" ReadArchive "a" ArchiveEnd ReadArchive "a"',
                                  'ReadArchive "scene_in.rib"'])
def test_what_reads_itself_is_refused_in_a_line(tmp_path, text):
    assert "X" in bring(tmp_path, world(text)).kinds()


def test_expansion_is_bounded(tmp_path, monkeypatch):
    monkeypatch.setattr(structure, "MOST_REQUESTS", 5000)
    rows = ['ObjectBegin "0" Sphere 1 -1 1 360 ObjectEnd'] + [
        f'ObjectBegin "{k}" ' + f'ObjectInstance "{k - 1}" ' * 10 + "ObjectEnd" for k in range(1, 9)]
    answer = bring(tmp_path, world(" ".join(rows) + ' ObjectInstance "8"'))
    assert "X" in answer.kinds()


def test_options_go_before_their_world_and_frames_of_depths_go(program, tmp_path):
    frame = 'FrameBegin 1 Display "z.tif" "shadow" "z" WorldBegin Sphere 1 -1 1 360 WorldEnd FrameEnd\n'
    text = frame + world(f'Clipping 3.4 100 {BALL}')
    same(program, tmp_path, text, world(BALL, before="Clipping 3.4 100"), kind="!=")


def test_conditions_and_detail(program, tmp_path):
    same(program, tmp_path / "if", world(f'IfBegin "1" {BALL} ElseIf "2" Sphere 2 -2 2 360 Else Sphere 3 -3 3 360 IfEnd'), world(BALL), kind="!")
    text = "Detail [-1 1 -1 1 -1 1] DetailRange [0 0 10 20] Sphere .5 -.5 .5 360 DetailRange [10 20 1e38 1e38] " + BALL
    same(program, tmp_path / "detail", world(text), world(BALL))


# ---- the graphics state
def test_transformations_in_other_words(program, tmp_path):
    matrix = "[1 0 0 0 .3639702 1 0 0 0 0 1 0 0 0 0 1]"
    same(program, tmp_path / "skew", world(f"Skew 20 0 1 0 1 0 0 {BALL}"), world(f"ConcatTransform {matrix} {BALL}"))
    same(program, tmp_path / "matrix", world(f"Translate 1 0 0 0 0 1 0 0 0 0 1 0 .5 0 0 1 {BALL}"), world(f"Translate .5 0 0 {BALL}"))
    same(program, tmp_path / "scaled", world(f"ConcatTransform [2 0 0 0 0 2 0 0 0 0 2 0 1 0 0 2] {BALL}"), world(f"Translate .5 0 0 {BALL}"))
    found, _ = brought_and_drawn(tmp_path / "space", world(f'CoordinateSystem "here" Translate 1 1 1 CoordSysTransform "here" {BALL}'))
    assert apart(found, drawn(tmp_path, world(BALL)))[0] <= 1


def test_hands_are_sides(program, tmp_path):
    for mirror in ("", "Scale 1 1 -1"):
        sides = {hand: brought_and_drawn(tmp_path / hand, world(f'{mirror} Orientation "{hand}" Sides 1 {PATCH}'))[0] for hand in ("lh", "rh")}
        outside = drawn(tmp_path, world(f"{mirror} Sides 1 {PATCH}"))
        assert (sides["rh" if mirror else "lh"] == outside).all() and (sides["lh"] != sides["rh"]).any()


def test_given_normals_are_not_reversed(program, tmp_path):
    polygon = 'Polygon "P" [-1 -1 0 -1 1 0 1 1 0 1 -1 0]'
    normals = ' "N" [0 0 1 0 0 1 0 0 1 0 0 1]'
    turned = world(f"ReverseOrientation {polygon}{normals}")
    same(program, tmp_path, turned, world(f'ReverseOrientation {polygon}{normals.replace("1", "-1")}'))
    agreeing = world(f'ReverseOrientation {polygon}{normals.replace("1", "-1")}')
    assert bring(tmp_path, agreeing).text == agreeing


def test_displacement_bounds_come_into_camera_space(tmp_path):
    text = world('Scale 2 2 2 Attribute "displacementbound" "coordinatesystem" ["shader"] "sphere" [.1] ' + BALL)
    answer = bring(tmp_path, text)
    bound = float(answer.text.split('"displacementbound" "sphere" [')[1].split("]")[0])
    assert answer.kinds() == "=" and 0.2 <= bound <= 0.4


def test_types_that_the_profile_has_not(program, tmp_path):
    textured = 'Surface "paintedplastic" "texturename" "a.ppm"\n'
    picture.write(tmp_path / "a.ppm", np.arange(48, dtype=np.uint8).reshape(4, 4, 3) * 5)
    for folder in ("brought", "."):
        (tmp_path / folder / "out").mkdir(parents=True, exist_ok=True)
        picture.write(tmp_path / folder / "a.ppm", np.arange(48, dtype=np.uint8).reshape(4, 4, 3) * 5)
    native = drawn(bring(tmp_path, world(f'{textured} {PATCH} "st" [0 0 2 0 0 2 2 2]')).folder, world(f'{textured} {PATCH} "st" [0 0 2 0 0 2 2 2]'))
    for st_ in ('"varying float[2] st"', '"vertex float [2] st"', '"st"'):
        found, _ = brought_and_drawn(tmp_path / "brought", world(f'Declare "st" "varying float[2]" {textured} {PATCH} {st_} [0 0 2 0 0 2 2 2]'))
        assert (found == native).all()
    found, _ = brought_and_drawn(tmp_path / "brought", world(f"TextureCoordinates 0 0 2 0 0 2 2 2 {textured} {PATCH}"))
    assert (found == native).all()
    weighted = PATCH.replace('"P" [-1 -1 0 1 -1 0 -1 1 0 1 1 0]', '"vertex hpoint P" [-2 -2 0 2 1 -1 0 1 -1 1 0 1 .5 .5 0 .5]')
    same(program, tmp_path / "points", world(f'{weighted} "double depth" [1] "uniform float[9] more" [1 2 3 4 5 6 7 8 9]'), world(PATCH))


def test_variables_of_a_wrong_count_go(program, tmp_path):
    polygon = 'Polygon "P" [-1 -1 0 1 -1 0 1 1 0] "N" [0 0 1 0 0 1] "uniform color Cs" [1 0 0]'
    same(program, tmp_path, world(polygon), world(polygon.replace('"N" [0 0 1 0 0 1]', "")), kind="!")
    text = world(f'{PATCH} "st" [0 0 1 0 0 1 1 1] "s" [0 1 0 1] Sphere 1 -1 1 360 "Cs" [1 0 0 0 1 0 0 0 1 1 1 1]')
    assert bring(tmp_path / "right", text).text == text


def test_vertex_values_of_a_b_spline_are_those_at_its_corners(tmp_path):
    points = " ".join(f"{x} {y} 0" for y in range(4) for x in range(5))
    ramp = " ".join(f"{x}" for y in range(4) for x in range(5))
    text = world(f'Basis "b-spline" 1 "b-spline" 1 PatchMesh "bicubic" 5 "nonperiodic" 4 "nonperiodic" "P" [{points}] "vertex float s" [{ramp}]')
    answer = bring(tmp_path, text)
    assert answer.kinds() == "~" and '"varying float s" [1 2 3 1 2 3]' in answer.text


# ---- lights and shaders
def test_lights_by_names_have_numbers_of_their_own(program, tmp_path):
    text = 'LightSource "pointlight" "key" "from" [0 0 -3] "intensity" [4] LightSource "pointlight" 1001 "from" [3 0 0] Illuminate "key" 0 ' + BALL
    native = 'LightSource "pointlight" 1002 "from" [0 0 -3] "intensity" [4] LightSource "pointlight" 1001 "from" [3 0 0] Illuminate 1002 0 ' + BALL
    same(program, tmp_path, world(text), world(native))


def test_a_number_that_is_given_again_stands_for_the_later_light(program, tmp_path):
    text = world('LightSource "pointlight" 1 "from" [0 0 -3] "intensity" [4] ' + BALL)
    native = world('Illuminate 1 0 LightSource "pointlight" 3 "from" [0 0 -3] "intensity" [4] ' + BALL)
    same(program, tmp_path, text, native)


def test_an_area_light_shines_from_its_middle(program, tmp_path):
    text = f'AttributeBegin Translate 0 2 0 AreaLightSource "arealight" 5 "intensity" [6] {PATCH} AttributeEnd Illuminate 5 1 {BALL}'
    native = f'AttributeBegin Translate 0 2 0 LightSource "pointlight" 5 "intensity" [6] {PATCH} AttributeEnd Illuminate 5 1 {BALL}'
    same(program, tmp_path, world(text), world(native), kind="~")


def test_the_standards_shaders_are_exact_and_others_stand_in(program, tmp_path):
    same(program, tmp_path / "painted", world('Surface "paintedplastic" "Kd" [.7] ' + BALL), world('Surface "plastic" "Kd" [.7] ' + BALL))
    text = world('Surface "shaders/mtorBlinn.slo" "float diffuseCoeff" [.7] "specularCoeff" [.2] "color baseColor" [1 0 0] ' + BALL)
    native = world('Color [.9 0 0] Surface "plastic" "Kd" [.7] "Ks" [.2] ' + BALL)
    found, answer = brought_and_drawn(tmp_path, text)
    assert answer.kinds() == "!" and apart(found, drawn(tmp_path, native))[0] <= 1


def test_surfaces_and_lights_that_came_later(program, tmp_path):
    text = 'Light "PxrSphereLight" "key" "float intensity" [.5] Bxdf "PxrDisney" "skin" "color baseColor" [1 0 0] "float roughness" [.2] '
    native = 'LightSource "stand_in_lamp" 7 "intensity" [.5] Surface "stand_in_material" "color diffusecolor" [1 0 0] "roughness" [.2] '
    found, answer = brought_and_drawn(tmp_path, world(text + BALL))
    assert answer.kinds() == "!=" and (found == drawn(answer.folder, world(native + BALL))).all()


def test_every_shader_of_the_library_is_accepted(program, tmp_path):
    from reyes import program as renderer
    from reyes import shader
    from reyes.bring.stand_ins import LIBRARY

    for path in sorted(LIBRARY.glob("*.sl")):
        declared = shader.declared(path.read_bytes())
        assert declared is not None and declared.name == path.stem
        request = {"surface": "Surface", "displacement": "Displacement", "volume": "Atmosphere", "light": "LightSource"}[declared.kind]
        (tmp_path / path.name).write_bytes(path.read_bytes())
        number = " 7" if declared.kind == "light" else ""
        drawn(tmp_path, world(f'{request} "{path.stem}"{number} {BALL}'))


def test_parameters_that_a_shader_has_not_go(program, tmp_path):
    text = world('Surface "plastic" "float Kd" .7 "uniform float glow" [2] "Ks" [.1 .2] ' + BALL)
    answer = same(program, tmp_path, text, world('Surface "plastic" "Kd" .7 ' + BALL), kind="!")
    assert any("`glow`" in it for it in answer.changes.lines())
    (tmp_path / "brought" / "own.sl").write_text("surface own(float a = 1; color b = 0;) { Ci = a * b; Oi = 1; }")
    same(program, tmp_path, world('Surface "own" "a" .5 "b" 1 ' + BALL), world('Surface "constant" Color [.5 .5 .5] ' + BALL))


def test_textures_become_ppm(program, tmp_path):
    texture = (np.arange(12 * 8 * 3, dtype=np.uint8).reshape(8, 12, 3) * 3)[:, :, :1]
    room = tmp_path / "brought"
    room.mkdir()
    picture.write(room / "grey.png", texture)
    text = world('MakeTexture "grey.png" "made.tex" "black" "black" "box" 1 1 Surface "paintedplastic" "texturename" "made.tex" ' + PATCH)
    found, answer = brought_and_drawn(room, text)
    assert answer.kinds() == "=" and picture.read(answer.folder / "made.ppm").shape == (8, 12, 3)
    missing, answer = brought_and_drawn(tmp_path / "none", world('Surface "paintedplastic" "texturename" "no.tif" ' + PATCH))
    assert answer.kinds() == "!=" and (found != missing).any()


def test_a_texture_never_has_the_name_of_a_picture(tmp_path):
    picture.write(tmp_path / "out.ppm", np.full((4, 4, 3), 9, dtype=np.uint8))
    answer = bring(tmp_path, world('Surface "paintedplastic" "texturename" "out.ppm" ' + PATCH))
    assert '"out_2.ppm"' in answer.text and (answer.folder / "out_2.ppm").read_bytes() == (tmp_path / "out.ppm").read_bytes()


def test_a_large_texture_is_made_smaller():
    from reyes.bring.textures import smaller

    wide = np.zeros((10, 5000, 3), dtype=np.uint8)
    wide[:, 2500:] = 200
    found = smaller(wide)
    assert found.shape == (4, 1667, 3) and found[0, 0, 0] == 0 and found[0, -1, 0] == 200


# ---- the picture
def test_pictures_are_files_beside_the_scene(tmp_path):
    text = world(BALL).replace('Display "out.ppm" "file" "rgb"', 'Display "{}" "{}" "{}"')
    for name, driver, mode, found in (("images/a.tif", "tiff", "rgba", '"a.tif"'), ("untitled", "it", "rgb", '"untitled.ppm"'),
                                      ("scene.rib", "file", "rgb", '"scene.rib.ppm"'), ("/tmp/x", "framebuffer", "rgb", '"x.ppm"')):
        assert f"Display {found}" in bring(tmp_path, text.format(name, driver, mode)).text


def test_a_background_lies_behind_everything(program, tmp_path):
    text = world(BALL, before='Imager "background" "uniform color bgcolor" [.2 .4 .6]')
    found, answer = brought_and_drawn(tmp_path, text)
    plain = drawn(tmp_path, world(BALL))
    empty = (plain == 0).all(axis=2)
    assert answer.kinds() == "=" and empty.sum() > 500 and (np.abs(found[empty] - [51, 102, 153]) <= 1).all()
    inside = (plain > 25).all(axis=2)
    assert np.abs(found - plain)[inside].mean() < 1


def test_filters_samples_and_levels(tmp_path):
    text = world(BALL).replace('PixelFilter "box" 1 1', 'PixelFilter "sinc" 4 4\nQuantize "rgba" 0 0 0 0\nClipping 0 1e30').replace("PixelSamples 2 2", "PixelSamples [.5 20]")
    answer = bring(tmp_path, text)
    assert answer.kinds() == "=~"
    for it in ('PixelFilter "gaussian" 2 2', 'Quantize "rgba" 65535 0 65535 0', "PixelSamples 1 16", "Clipping 0.000031 32767"):
        assert it in answer.text


def test_colours_of_other_samples(program, tmp_path):
    same(program, tmp_path, world("ColorSamples [.5 .5 .5  .5 .25 0] [1 0 1 0 1 0] Color [.8 .4] " + BALL), world("Color [.6 .5 .4] " + BALL))


# ---- motion
def test_motion_of_more_times_and_other_things(program, tmp_path):
    shutter = "Shutter 0 1"
    text = world(f"MotionBegin [0 .5 1] Translate 0 0 0 Translate .2 0 0 Translate 1 0 0 MotionEnd {BALL}", shutter)
    native = world(f"MotionBegin [0 1] Translate 0 0 0 Translate 1 0 0 MotionEnd {BALL}", shutter)
    same(program, tmp_path / "times", text, native, kind="~")
    same(program, tmp_path / "colour", world(f"MotionBegin [0 1] Color [1 0 0] Color [0 1 0] MotionEnd {BALL}"), world(f"Color [1 0 0] {BALL}"), kind="!")
    skews = "MotionBegin [0 1] Skew 0 0 1 0 1 0 0 Skew 20 0 1 0 1 0 0 MotionEnd"
    unit = "1 0 0 0 {} 1 0 0 0 0 1 0 0 0 0 1"
    matrices = f"MotionBegin [0 1] ConcatTransform [{unit.format(0)}] ConcatTransform [{unit.format(.3639702)}] MotionEnd"
    same(program, tmp_path / "skew", world(f"{skews} {BALL}", shutter), world(f"{matrices} {BALL}", shutter))


def test_bodies_that_change_their_form(program, tmp_path):
    shutter = "Shutter 0 1"
    still = drawn(tmp_path, world("Sphere .6 -.6 .6 360"))
    found, answer = brought_and_drawn(tmp_path / "ball", world("MotionBegin [0 1] Sphere .6 -.6 .6 360 Sphere .9 -.9 .9 360 MotionEnd"))
    assert answer.kinds() == "~" and apart(found, still)[0] <= 4
    found, _ = brought_and_drawn(tmp_path / "grows", world("MotionBegin [0 1] Sphere .6 -.6 .6 360 Sphere .9 -.9 .9 360 MotionEnd", shutter))
    assert (found > 0).sum() > (still > 0).sum()
    faces = 'PointsPolygons [4] [0 1 2 3] "P" [{0} -1 0 {1} -1 0 {1} 1 0 {0} 1 0]'
    text = world(f"MotionBegin [0 1] {faces.format(-1, 0)} {faces.format(0, 1)} MotionEnd", shutter)
    native = world(f'MotionBegin [0 1] Translate 0 0 0 Translate 1 0 0 MotionEnd {faces.format(-1, 0)}', shutter)
    found, answer = brought_and_drawn(tmp_path / "faces", text)
    assert answer.kinds() == "=" and apart(found, drawn(tmp_path, native))[0] <= 1


# ---- limits and what is told
def test_what_shows_nothing_goes_where_a_limit_is_passed(program, tmp_path, monkeypatch):
    box = "".join(f'Color [1 1 0] Polygon "P" [{row}]\n' for row in (
        "-1 -1 1 -1 -1 -1 1 -1 -1 1 -1 1", "-1 -1 1 -1 1 1 -1 1 -1 -1 -1 -1", "1 1 -1 -1 1 -1 -1 1 1 1 1 1",
        "1 1 -1 1 1 1 1 -1 1 1 -1 -1", "1 -1 1 1 1 1 -1 1 1 -1 -1 1", "-1 1 -1 1 1 -1 1 -1 -1 -1 -1 -1"))
    text = world(f"Sides 1 Scale .6 .6 .6 {box}")
    native = drawn(tmp_path, text)
    monkeypatch.setattr(culling, "MOST_PATCHES", 4)
    found, answer = brought_and_drawn(tmp_path / "few", text)
    assert answer.kinds() == "=" and answer.text.count("Polygon") <= 4 and answer.text.count("Color") == 2
    assert (found == native).all()
    rows = [it.split("[")[1].split("]")[0] for it in box.split("Polygon")[1:]]
    faces = f'PointsPolygons [4 4 4 4 4 4] [{" ".join(map(str, range(24)))}] "P" [{" ".join(rows)}]'
    found, answer = brought_and_drawn(tmp_path / "faces", world(f"Sides 1 Scale .6 .6 .6 Color [1 1 0] {faces}"))
    assert "PointsPolygons [4 4 4]" in answer.text and (found == native).all()


def test_statuses_and_what_is_held_back(program, tmp_path, called):
    for text, words, status in ((BALL, (), 0), ("Skew 20 0 1 0 1 0 0 " + BALL, (), 0), ("Torus 1 .2 0 360 360", (), 1), ("Torus 1 .2 0 360 360", ("--near",), 1),
                                ('Interior "smoke" ' + BALL, ("--without",), 2), ('Patch "bilinear" "P" [1 2 3]', ("--without",), 3), ("Sphere [", ("--without",), 3)):
        (tmp_path / "a.rib").write_text(world(text))
        found, out, errors = called(*words, "a.rib", "out")
        assert found == status, (text, out, errors)
        assert "Traceback" not in errors
        assert (tmp_path / "out" / "scene.rib").exists() == (status < 3)
        assert (tmp_path / "out" / "CHANGES").read_text().startswith("# = nothing is lost")
        for it in (tmp_path / "out").iterdir():
            it.unlink()


def test_places_are_told(tmp_path):
    answer = bring(tmp_path, world("\n\nTorus 1 .2 0 360 360\nTorus 1 .3 0 360 360"), may="=")
    (line,) = answer.changes.lines()
    at = world("\n\nTorus").count("\n", 0, world("\n\nTorus").index("Torus")) + 1
    assert line.startswith(f"~ scene_in.rib:{at}: ") and line.endswith(f"(2 times, to line {at + 1}) [needs --near]")
    assert "Torus 1 .2 0 360 360" in answer.text


def test_words_and_files(tmp_path, called):
    status, out, _ = called("--help")
    assert status == 0 and "example" in out
    assert called("nowhere.rib", "out")[0] == 6
    assert called()[0] == 2
    (tmp_path / "scene.rib").write_text(world("Skew 20 0 1 0 1 0 0 " + BALL))
    status, _, errors = called("scene.rib", ".")
    assert status == 2 and "input" in errors and "Skew" in (tmp_path / "scene.rib").read_text()


def test_an_input_stays_where_what_is_written_goes_again(program, tmp_path, called):
    (tmp_path / "scene.rib").write_text(world('Patch "bilinear" "P" [1 2 3]'))
    status, out, _ = called("scene.rib", ".")
    assert status == 3 and "refused by the renderer: G5" in out and (tmp_path / "scene.rib").exists()


def test_a_change_has_a_kind_and_a_place():
    found = kinds.Changes("=")
    assert found.tell("=", "a.rib", 3, "one") and not found.tell("~", "a.rib", 4, "two") and not found.tell("X", "a.rib", 5, "three")
    found.tell("=", "a.rib", 9, "one")
    assert found.status() == 3 and [it.kind for it in found.held()] == ["~"]
    assert found.lines()[0] == "= a.rib:3: one (2 times, to line 9)"
    with pytest.raises(ValueError):
        found.tell("?", "a.rib", 1, "")


WORDS = st.sampled_from("""Sphere Torus Polygon PointsPolygons PointsGeneralPolygons GeneralPolygon NuPatch SubdivisionMesh TrimCurve Curves Points
Blobby Patch PatchMesh Basis Surface LightSource AreaLightSource Illuminate MotionBegin MotionEnd Translate Skew Transform Display Quantize Format
Detail DetailRange Imager ColorSamples Color Attribute Declare ReadArchive ObjectBegin ObjectEnd ObjectInstance IfBegin IfEnd WorldBegin WorldEnd
AttributeBegin AttributeEnd SolidBegin SolidEnd TextureCoordinates MakeTexture Option Projection CoordSysTransform Nonsense [ ] [1] [0] [1 2 3]
[4] [0 1 2 3] [0 0 1 1] [] 0 1 2 3 4 -1 1e38 nan .5 "P" "Pw" "st" "loop" "catmull-clark" "cubic" "periodic" "bicubic" "bilinear" "b-spline"
"crease" ["hole" "corner"] "vertex float[2] st" "uniform color Cs" "displacementbound" "sphere" "plastic" "nothing" "a\\x" # " \xff""".split())


@given(st.lists(WORDS, max_size=60))
def test_nothing_that_is_read_ends_in_a_traceback(tmp_path, row):
    bring(tmp_path, " ".join(row))
