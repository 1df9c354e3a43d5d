"""Surfaces that the profile doesn't have, beside what it has: their pictures, and points that lie where they should."""
import numpy as np
import pytest
from bringing import apart, bring, brought_and_drawn, drawn, world

from reyes.bring import meshes, quadrics, subdivision, triangles
from reyes.bring.changes import Changes
from reyes.bring.reading import Folders
from reyes.bring.text import requests
from reyes.bring.work import Work

HALVES = {
    "Sphere": ("Sphere 1 -1 1 360", "Sphere 1 -1 0 360 Sphere 1 0 1 360"),
    "sphere of two angles": ("Sphere 1 -1 1 360", "Sphere 1 -1 1 200 Rotate 200 0 0 1 Sphere 1 -1 1 160"),
    "Cylinder": ("Cylinder .8 -.7 .7 360", "Cylinder .8 -.7 .7 120 Rotate 120 0 0 1 Cylinder .8 -.7 .7 240"),
    "Cone": ("Cone 1.2 .8 360", "Cone 1.2 .8 90 Rotate 90 0 0 1 Cone 1.2 .8 270"),
    "Disk": ("Disk .2 1 360", "Disk .2 1 300 Rotate 300 0 0 1 Disk .2 1 60"),
    "Hyperboloid as a cylinder": ("Cylinder .8 -.7 .7 360", "Hyperboloid [.8 0 -.7] [.8 0 .7] 360"),
    "Hyperboloid as a cone": ("Cone 1.2 .8 360", "Hyperboloid .8 0 0 0 0 1.2 360"),
    "Hyperboloid as a disk": ("Disk .2 1 360", "Hyperboloid [1 0 .2 0 0 .2] 360"),
}


@pytest.mark.parametrize("name", HALVES)
def test_parts_of_quadrics_look_like_whole_ones(program, tmp_path, name):
    whole, parts = HALVES[name]
    found, answer = brought_and_drawn(tmp_path / "parts", world(parts))
    most, mean = apart(found, drawn(tmp_path, world(whole)))
    assert answer.kinds() == "~"
    assert most <= 4 and mean < 0.4


@pytest.mark.parametrize("name", ["Sphere", "Cone", "Disk", "Hyperboloid as a cylinder"])
@pytest.mark.parametrize("side", ["outside", "inside"])
def test_parts_of_quadrics_have_the_sides_of_whole_ones(program, tmp_path, name, side):
    whole, parts = (f'Sides 1 Orientation "{side}" {it}' for it in HALVES[name])
    found, _ = brought_and_drawn(tmp_path / "parts", world(parts))
    assert apart(found, drawn(tmp_path, world(whole)))[0] <= 4


def net_of(text):
    (request,) = [it for it in requests(text.encode(), "a") if it.name]
    n = request.numbers()
    return quadrics.revolved(quadrics.meridian(request.name, n), n[-1])[::3, ::3]


def test_a_torus_and_a_paraboloid_have_their_corners_where_they_should():
    x, y, z = np.moveaxis(net_of("Torus 1 .3 0 360 300"), -1, 0)
    assert np.allclose((np.hypot(x, y) - 1) ** 2 + z**2, 0.09)
    x, y, z = np.moveaxis(net_of("Paraboloid .7 .2 1.1 200"), -1, 0)
    assert np.allclose(x**2 + y**2, 0.49 * z / 1.1)


def test_no_arc_goes_round_more_than_once():
    assert len(quadrics.arc(0, 1e9)) == 25 and len(quadrics.arc(0, -1e9)) == 25


def test_a_torus_is_seen_round_with_a_hole(program, tmp_path):
    text = world("Torus .8 .3 0 360 360", lights='Surface "constant"\n').replace("Rotate -50 1 0 0\n", "")
    found, _ = brought_and_drawn(tmp_path, text)
    y, x = np.mgrid[0:48, 0:64]
    distance = np.hypot(x - 31.5, y - 23.5) * 4 / (24 / np.tan(np.radians(20)))
    ring = (distance > 0.6) & (distance < 1.0)
    assert (found[ring] == 255).all() and (found[(distance < 0.4) | (distance > 1.2)] == 0).all()


def test_whole_quadrics_are_left_as_they_are(tmp_path):
    text = world("Sphere 1 -1 1 360 Cylinder [1 0 1 360] Cone 1 1 360 Disk 0 1 360")
    assert bring(tmp_path, text).text == text


def test_a_nurbs_circle_is_a_cylinder(program, tmp_path):
    h = 2**-0.5
    circle = [(1, 0, 1), (h, h, h), (0, 1, 1), (-h, h, h), (-1, 0, 1), (-h, -h, h), (0, -1, 1), (h, -h, h), (1, 0, 1)]
    rows = " ".join(f"{.8 * x} {.8 * y} {z * w} {w}" for z in (-.7, .7) for x, y, w in circle)
    knots = "0 0 0 1 1 2 2 3 3 4 4 4"
    text = f'NuPatch 9 3 [{knots}] 0 4 2 2 [0 0 1 1] 0 1 "Pw" [{rows}]'
    found, answer = brought_and_drawn(tmp_path / "nurbs", world(text))
    most, mean = apart(found, drawn(tmp_path, world("Cylinder .8 -.7 .7 360")))
    assert answer.kinds() == "~" and most <= 3 and mean < 0.3


def patch_points():
    return " ".join(f"{x - 1.5} {y - 1.5} {.4 * ((x * 2 + y * 3) % 4)}" for y in range(4) for x in range(4))


def test_a_nurbs_of_one_bezier_patch_draws_the_same_bytes(program, tmp_path):
    text = f'NuPatch 4 4 [0 0 0 0 1 1 1 1] 0 1 4 4 [0 0 0 0 1 1 1 1] 0 1 "P" [{patch_points()}]'
    found, answer = brought_and_drawn(tmp_path / "nurbs", world(text))
    assert answer.kinds() == "="
    assert (found == drawn(tmp_path, world(f'Patch "bicubic" "P" [{patch_points()}]'))).all()


def test_a_nurbs_of_even_knots_is_a_b_spline_mesh(program, tmp_path):
    points = " ".join(f"{x * .5 - 1} {y * .5 - 1} {.3 * ((x * 2 + y * 3) % 4)}" for y in range(5) for x in range(6))
    text = f'NuPatch 6 4 [0 1 2 3 4 5 6 7 8 9] 3 6 5 4 [0 1 2 3 4 5 6 7 8] 3 5 "P" [{points}]'
    native = f'Basis "b-spline" 1 "b-spline" 1 PatchMesh "bicubic" 6 "nonperiodic" 5 "nonperiodic" "P" [{points}]'
    found, answer = brought_and_drawn(tmp_path / "nurbs", world(text))
    most, mean = apart(found, drawn(tmp_path, world(native)))
    assert answer.kinds() == "=" and most <= 2 and mean < 0.2


def test_a_trimmed_surface_is_round_where_its_curve_is(program, tmp_path):
    h = 2**-0.5
    circle = [(1, 0, 1), (h, h, h), (0, 1, 1), (-h, h, h), (-1, 0, 1), (-h, -h, h), (0, -1, 1), (h, -h, h), (1, 0, 1)]
    u, v, w = ([f"{.5 * k + .4 * x}", f"{.5 * k + .4 * y}", f"{k}"] for x, y, k in circle), None, None
    u, v, w = zip(*u)
    trim = f'TrimCurve [1] [3] [0 0 0 1 1 2 2 3 3 4 4 4] [0] [4] [9] [{" ".join(u)}] [{" ".join(v)}] [{" ".join(w)}]'
    text = f'{trim} NuPatch 2 2 [0 0 1 1] 0 1 2 2 [0 0 1 1] 0 1 "P" [-1 -1 0 1 -1 0 -1 1 0 1 1 0]'
    found, answer = brought_and_drawn(tmp_path / "trimmed", world(text))
    most, mean = apart(found, drawn(tmp_path, world("Rotate 180 1 0 0 Disk 0 .8 360")))
    assert answer.kinds() == "~" and most <= 12 and mean < 0.6


def grid(height):
    return " ".join(f"{x * .6 - 1.2} {y * .6 - 1.2} {height(x, y)}" for y in range(5) for x in range(5))


def test_a_regular_cage_is_a_b_spline_mesh(program, tmp_path):
    points = grid(lambda x, y: .3 * ((x * 2 + y * 3) % 4))
    faces = [f"{5 * y + x} {5 * y + x + 1} {5 * y + x + 6} {5 * y + x + 5}" for y in range(4) for x in range(4)]
    text = f'SubdivisionMesh "catmull-clark" [{"4 " * 16}] [{" ".join(faces)}] "P" [{points}]'
    native = f'Basis "b-spline" 1 "b-spline" 1 PatchMesh "bicubic" 5 "nonperiodic" 5 "nonperiodic" "P" [{points}]'
    found, answer = brought_and_drawn(tmp_path / "cage", world(text))
    most, mean = apart(found, drawn(tmp_path, world(native)))
    assert answer.kinds() == "=" and most <= 2 and mean < 0.2


CUBE = ('[4 4 4 4 4 4] [0 1 3 2 2 3 5 4 4 5 7 6 6 7 1 0 1 7 5 3 6 0 2 4]', '[-1 -1 -1 1 -1 -1 -1 1 -1 1 1 -1 -1 1 1 1 1 1 -1 -1 1 1 -1 1]')


def test_a_cube_becomes_nearly_a_ball(program, tmp_path):
    """Beside the polygons of the same cage, refined four times, with the surface's own normals."""
    text = f'SubdivisionMesh "catmull-clark" {CUBE[0]} ["interpolateboundary"] [0 0] [] [] "P" {CUBE[1]}'
    found, answer = brought_and_drawn(tmp_path / "cage", world(text))
    request = [it for it in requests(text.encode(), "a") if it.name][0]
    mesh = subdivision.cage_of(Work(Changes(), Folders(tmp_path / "a")), request).mesh
    for _ in range(4):
        mesh = meshes.refined(mesh)
    nets = subdivision.nets_of(mesh)
    points = nets[:, [0, 0, 3, 3], [0, 3, 3, 0], :].reshape(-1, 3)
    along, up = nets[:, 0, 1] - nets[:, 0, 0], nets[:, 1, 0] - nets[:, 0, 0]
    normals = np.repeat(np.cross(along, up), 4, axis=0)
    rows = [" ".join(f"{it:.5f}" for it in row.ravel()) for row in (points, normals / np.linalg.norm(normals, axis=1, keepdims=True))]
    faces = f'PointsPolygons [{"4 " * len(nets)}] [{" ".join(map(str, range(len(points))))}] "P" [{rows[0]}] "facevarying normal N" [{rows[1]}]'
    most, mean = apart(found, drawn(tmp_path, world(faces)))
    assert answer.kinds() == "~" and most <= 16 and mean < 1


def test_creases_of_full_sharpness_are_edges(program, tmp_path):
    """A cube all of whose edges are sharp stays a cube."""
    loops = ["0 1 3 2 0", "4 5 7 6 4", "2 4", "3 5", "0 6", "1 7"]
    tags = " ".join(['"crease"'] * 6 + ['"corner"'])
    counts = " ".join(f"{len(it.split())} 1" for it in loops) + " 8 1"
    text = f'SubdivisionMesh "catmull-clark" {CUBE[0]} [{tags}] [{counts}] [{" ".join(loops)} 0 1 2 3 4 5 6 7] [{"10 " * 7}] "P" {CUBE[1]}'
    found, _ = brought_and_drawn(tmp_path / "cage", world("Sides 1 Scale .6 .6 .6 " + text))
    most, mean = apart(found, drawn(tmp_path, world(f'Sides 1 Scale .6 .6 .6 PointsPolygons {CUBE[0]} "P" {CUBE[1]}')))
    assert most <= 2 and mean < 0.2


def test_a_cage_of_many_faces_keeps_its_faces(program, tmp_path, monkeypatch):
    """Beside its patches: the faces have the surface's points and normals."""
    round_ = [(np.cos(2 * np.pi * k / 10), np.sin(2 * np.pi * k / 10)) for k in range(10)]
    points = " ".join(f"{x * (.7 + .3 * c):.5f} {y * (.7 + .3 * c):.5f} {.3 * s:.5f}" for c, s in round_ for x, y in round_)
    faces = [f"{10 * j + i} {10 * j + (i + 1) % 10} {10 * ((j + 1) % 10) + (i + 1) % 10} {10 * ((j + 1) % 10) + i}" for j in range(10) for i in range(10)]
    split = faces[0].split()
    faces[0:1] = [" ".join(split[:3]), f"{split[0]} {split[2]} {split[3]}"]
    text = world(f'SubdivisionMesh "catmull-clark" [3 3 {"4 " * 99}] [{" ".join(faces)}] ["interpolateboundary"] [0 0] [] [] "P" [{points}]')
    patches, _ = brought_and_drawn(tmp_path / "patches", text)
    monkeypatch.setattr(subdivision, "ROOM", 300)
    found, answer = brought_and_drawn(tmp_path / "faces", text)
    most, mean = apart(found, patches)
    assert answer.kinds() == "~" and "PointsPolygons" in answer.text and most <= 60 and mean < 5


def test_loops_scheme_keeps_a_plane_and_rounds_a_body(program, tmp_path):
    tetrahedron = '[3 3 3 3] [0 1 2 0 3 1 0 2 3 1 3 2] ["interpolateboundary"] [0 0] [] [] "P" [.9 .9 .9 -.9 -.9 .9 -.9 .9 -.9 .9 -.9 -.9]'
    found, answer = brought_and_drawn(tmp_path / "body", world(f'SubdivisionMesh "loop" {tetrahedron}'))
    assert answer.kinds() == "~" and (found.max(axis=2) > 30).sum() > 50
    plane = '[3 3] [0 1 2 2 1 3] ["interpolateboundary" "corner"] [0 0 4 1] [0 1 2 3] [10] "P" [-1 -1 0 1 -1 0 -1 1 0 1 1 0]'
    found, _ = brought_and_drawn(tmp_path / "plane", world(f'SubdivisionMesh "loop" {plane}'))
    most, mean = apart(found, drawn(tmp_path, world('Patch "bilinear" "P" [-1 -1 0 1 -1 0 -1 1 0 1 1 0]')))
    assert most <= 2 and mean < 0.5


def test_polygons_with_dents_and_holes_are_what_their_author_meant(program, tmp_path):
    dented = 'Polygon "P" [-1 -1 0 0 -.4 0 1 -1 0 0 1 0]'
    cut = 'Polygon "P" [-1 -1 0 0 -.4 0 0 1 0] Polygon "P" [0 -.4 0 1 -1 0 0 1 0]'
    found, answer = brought_and_drawn(tmp_path / "dented", world(dented))
    assert answer.kinds() == "=" and apart(found, drawn(tmp_path, world(cut)))[0] <= 1
    frame = 'GeneralPolygon [4 4] "P" [-1 -1 0 1 -1 0 1 1 0 -1 1 0 -.4 -.4 0 -.4 .4 0 .4 .4 0 .4 -.4 0]'
    bars = [(-1, -1, 1, -.4), (-1, .4, 1, 1), (-1, -.4, -.4, .4), (.4, -.4, 1, .4)]
    quads = " ".join(f'Polygon "P" [{a} {b} 0 {c} {b} 0 {c} {d} 0 {a} {d} 0]' for a, b, c, d in bars)
    found, answer = brought_and_drawn(tmp_path / "frame", world(frame))
    assert answer.kinds() == "=" and apart(found, drawn(tmp_path, world(quads)))[0] <= 1


def test_a_star_is_cut_into_as_many_triangles_as_it_has_corners_less_two():
    angles = np.arange(40) * np.pi / 20
    radii = np.where(np.arange(40) % 2, 0.4, 1.0)
    points = np.stack([radii * np.cos(angles), radii * np.sin(angles), np.zeros(40)], axis=1)
    found = triangles.cut(points, [range(40)])
    area = sum(triangles.newell(points[list(it)])[2] for it in found)
    assert len(found) == 38 and np.isclose(area, triangles.newell(points)[2])
    assert all(triangles.newell(points[list(it)])[2] > 0 for it in found)


def test_values_of_faces_follow_the_triangles(program, tmp_path):
    faces = '[4 3] [0 1 2 3 1 4 2] "P" [-1 -1 0 .2 -.4 0 1 -1 0 0 1 0 1.2 .2 0]'
    colours = '"uniform color Cs" [1 0 0 0 1 0]'
    text = world(f"PointsPolygons {faces} {colours}", lights='Surface "constant"\n')
    found, _ = brought_and_drawn(tmp_path / "cut", text)
    native = ('Color [1 0 0] Polygon "P" [-1 -1 0 .2 -.4 0 0 1 0] Polygon "P" [.2 -.4 0 1 -1 0 0 1 0]'
              'Color [0 1 0] Polygon "P" [.2 -.4 0 1.2 .2 0 1 -1 0]')
    assert apart(found, drawn(tmp_path, world(native, lights='Surface "constant"\n')))[0] <= 1


def test_curves_are_as_wide_as_they_say(program, tmp_path):
    lights = 'Surface "constant"\n'
    curve = 'Curves "linear" [2] "nonperiodic" "P" [-1 0 0 1 0 0] "constantwidth" [.4]'
    found, answer = brought_and_drawn(tmp_path / "curve", world(curve, lights=lights).replace("Rotate -50 1 0 0\n", ""))
    native = 'Polygon "P" [-1 -.2 0 1 -.2 0 1 .2 0 -1 .2 0]'
    assert answer.kinds() == "~"
    assert apart(found, drawn(tmp_path, world(native, lights=lights).replace("Rotate -50 1 0 0\n", "")))[0] <= 1
    cubic = 'Basis "bezier" 3 "bezier" 3 Curves "cubic" [4] "nonperiodic" "P" [-1 0 0 -.3333333 0 0 .3333333 0 0 1 0 0] "width" [.4 .4]'
    found, _ = brought_and_drawn(tmp_path / "cubic", world(cubic, lights=lights).replace("Rotate -50 1 0 0\n", ""))
    assert apart(found, drawn(tmp_path, world(native, lights=lights).replace("Rotate -50 1 0 0\n", "")))[0] <= 1


def test_points_are_nearly_discs(program, tmp_path):
    lights = 'Surface "constant"\n'
    found, answer = brought_and_drawn(tmp_path / "points", world('Points "P" [0 0 0] "width" [2]', lights=lights))
    native = drawn(tmp_path, world("Rotate -20 0 0 1 Rotate 50 1 0 0 Disk 0 1 360", lights=lights))
    assert answer.kinds() == "~"
    assert 0.85 < (found > 127).sum() / (native > 127).sum() <= 1


def test_ellipsoids_of_a_blobby(program, tmp_path):
    text = world('Blobby 1 [1001 0] [2 0 0 0 0 2 0 0 0 0 2 0 0 0 0 1] [""]')
    found, answer = brought_and_drawn(tmp_path / "blob", text)
    assert answer.kinds() == "!" and (found == drawn(tmp_path, world("Sphere 1 -1 1 360"))).all()


def test_solids_and_bases(program, tmp_path):
    solid = world('SolidBegin "union" SolidBegin "primitive" Sphere 1 -1 1 360 SolidEnd SolidEnd')
    found, answer = brought_and_drawn(tmp_path / "solid", solid)
    assert answer.kinds() == "=" and (found == drawn(tmp_path, world("Sphere 1 -1 1 360"))).all()
    matrix = "[-.5 1.5 -1.5 .5 1 -2.5 2 -.5 -.5 0 .5 0 0 1 0 0]"
    odd = "[-.25 .75 -.75 .25 .5 -1.25 1 -.25 -.25 0 .25 0 0 1 0 0]"
    body = f'Patch "bicubic" "P" [{patch_points()}]'
    native = drawn(tmp_path, world(f'Basis "catmull-rom" 1 "catmull-rom" 1 {body}'))
    found, answer = brought_and_drawn(tmp_path / "basis", world(f"Basis {matrix} 1 {matrix} 1 {body}"))
    assert answer.kinds() == "=" and (found == native).all()
    found, answer = brought_and_drawn(tmp_path / "odd", world(f"Basis {odd} 1 {odd} 1 {body}"))
    assert answer.kinds() == "=" and 'PatchMesh' not in answer.text and (found > 0).sum() > 100




HEIGHTS = {
    "bilinear patch": ('Patch "bilinear" "{}" [{}]', (2, 2), "", 0),
    "bicubic patch": ('Patch "bicubic" "{}" [{}]', (4, 4), "", 0),
    "bilinear mesh": ('PatchMesh "bilinear" 3 "nonperiodic" 2 "nonperiodic" "{}" [{}]', (3, 2), "", 0),
    "b-splines": ('PatchMesh "bicubic" 5 "nonperiodic" 4 "nonperiodic" "{}" [{}]', (5, 4), 'Basis "b-spline" 1 "catmull-rom" 1', 1),
}


@pytest.mark.parametrize("name", HEIGHTS)
def test_heights_are_points_over_u_and_v(tmp_path, program, name):
    form, (columns, rows), basis, before = HEIGHTS[name]
    z = [(3 * k * k + k) % 7 / 10 for k in range(columns * rows)]
    points = [((k % columns - before) / (columns - 1 - 2 * before), (k // columns - before) / (rows - 1 - 2 * before), it) for k, it in enumerate(z)]
    given, wanted = (form.format("Pz", " ".join(map(str, z))), form.format("P", " ".join(str(x) for it in points for x in it)))
    found, answer = brought_and_drawn(tmp_path / "heights", world(f"{basis} {given}"))
    assert answer.kinds() == "=" and "Pz" not in answer.text
    assert (found == drawn(tmp_path, world(f"{basis} {wanted}"))).all()


@pytest.mark.parametrize("text", [
    'PatchMesh "bilinear" 3 "periodic" 2 "nonperiodic" "Pz" [0 0 0 0 0 0]', 'Patch "bilinear" "Pz" [0 0 0]', 'Basis "power" 1 "power" 1 Patch "bicubic" "Pz" [0 0 0 0 0 0 0 0 0 0 0 0 0 0 0 0]',
])
def test_other_heights_stay_as_they_are(tmp_path, text):
    assert '"Pz"' in bring(tmp_path, world(text)).text
