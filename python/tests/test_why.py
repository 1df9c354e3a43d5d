"""`why`: the account of a pixel is read, and the page says what it holds."""
from __future__ import annotations

import json
import re
import subprocess
from pathlib import Path
from typing import Any
from xml.etree import ElementTree

import accounts
import pytest
from hypothesis import given
from hypothesis import strategies as st

from reyes.errors import Trouble
from reyes.why import coverage, reading
from reyes.why.account import Corner
from reyes.why.enlarged import in_reading_order
from reyes.why.film import Film
from reyes.why.page import page
from reyes.why.things import Things

SCENE = b"""# by hand


LightSource "distantlight" 1
WorldBegin
Surface "glass"
Patch "bilinear" "P" [0 0 0]
Surface "constant"
Sphere 1 -1 1 360 TransformBegin Disk 0 1 360 TransformEnd
"""
PICTURE = b"P6\n4 3\n255\n" + bytes(range(36))


def made(it: dict[str, Any], name: str = "a.rib", picture: bytes = PICTURE, asks: bool = False) -> str:
    """The page of an account."""
    account = reading.account(accounts.data(it))
    return page(account, Film(picture, 0, 0), Things(account, SCENE, name, {}), asks)


def elements(text: str) -> ElementTree.Element:
    """The page as a tree, without what its style and script hold."""
    return ElementTree.fromstring(re.sub(r"(?s)<!doctype html>|(?<=<style>).*?(?=</style>)|(?<=<script>).*?(?=</script>)", "", text))


def words(it: ElementTree.Element) -> str:
    """What an element says."""
    return "".join(it.itertext())


def test_an_account_is_read() -> None:
    account = reading.account(accounts.data(accounts.four()))
    assert (account.pixel, account.size, account.divisor, account.written) == ((1, 1), (4, 3), 4 * 65536, (64, 128, 0))
    first = account.samples[0]
    assert first.place == (400, 310) and first.colour == (32768, 32768, 0) and [it.passed[0] for it in first.fragments] == [32768, 0]
    piece = first.fragments[0].cell.piece
    assert (piece.u, piece.v, piece.columns, piece.primitive.line, piece.primitive.shaders[0].name) == ((16384, 32768), (0, 32768), 8, 7, "glass")
    assert [it.place for it in first.fragments[1].corners] == [(256, 256), (512, 256), (512, 512), (256, 512)]


@given(st.sampled_from(["frame", "samples", "sums", "mean", "bytes", "pixel"]), st.one_of(st.none(), st.integers(), st.text(max_size=3), st.lists(st.integers(), max_size=4)))
def test_what_is_no_account_is_told(key: str, other: object) -> None:
    try:
        reading.account(json.dumps({**accounts.four(), key: other}).encode())
    except Trouble as trouble:
        assert "no account of a pixel" in trouble.message
    with pytest.raises(Trouble, match="no account"):
        reading.account(b"{")


def test_the_corners_count_by_areas() -> None:
    corners = [Corner(place, depth, (0, 0, 0), (0, 0, 0)) for place, depth in (((0, 0), 0), ((8, 0), 80), ((8, 8), 160), ((0, 8), 40))]
    upper, lower = coverage.areas(corners, (6, 2)), coverage.areas(corners, (2, 6))
    assert upper is not None and upper.corners == (0, 1, 2) and (upper.parts, upper.whole) == ((16, 32, 16), 64)
    assert upper.mean([0, 80, 160, 40]) == 80
    assert lower is not None and lower.corners == (0, 2, 3) and lower.mean([0, 80, 160, 40]) == (160 * 16 + 40 * 32) // 64
    # a micropolygon that is turned the other way has the same places; a left edge is its own, and a right one isn't
    turned = coverage.areas(corners[::-1], (6, 2))
    assert turned is not None and turned.mean([40, 160, 80, 0]) == 70
    assert coverage.areas(corners, (0, 4)) is not None and coverage.areas(corners, (8, 4)) is None and coverage.areas([], (0, 0)) is None


def test_the_page_has_each_sample_with_its_stack() -> None:
    tree = elements(made(accounts.four()))
    told = tree.findall(".//section[@id='told']/section")
    assert [it.get("id") for it in told] == ["sample-0", "sample-1", "sample-2", "sample-3"]
    assert [len(it.findall("ol/li")) for it in told] == [2, 2, 1, 0]
    assert "Patch, line 7" in words(told[0]) and "primitive, line 9" in words(told[0]) and "32768 + ⌊32768 × 0 / 65536⌋ = 32768" in words(told[0])
    assert "sees nothing" in words(told[3])
    seen = [[words(cell) for cell in row] for row in tree.findall(".//table[@class='seen']/tr")[1:]]
    assert [it[:3] for it in seen] == [
        ["Patch, line 7 (glass) before primitive, line 9 (constant)", "2", "50.0\u00a0%"], ["primitive, line 9 (constant)", "1", "25.0\u00a0%"], ["nothing", "1", "25.0\u00a0%"],
    ]


def test_the_drawing_has_a_link_for_each_sample_and_a_polygon_for_each_micropolygon() -> None:
    drawing = elements(made(accounts.four())).find(".//svg[@id='enlarged']")
    assert drawing is not None
    assert [it.get("href") for it in drawing.iter("a")] == ["#sample-1", "#sample-0", "#sample-2", "#sample-3"]
    cells = [it for it in drawing.iter("g") if it.get("class") == "cell"]
    # the farthest first, and each with the samples that see it
    assert [it.get("data-samples") for it in cells] == ["0 1 2", "0 1"]
    assert cells[0][1].get("points") == "0,0 256,0 256,256 0,256"
    assert in_reading_order(reading.account(accounts.data(accounts.four()))) == [1, 0, 2, 3]


def test_the_sum_goes_to_the_bytes() -> None:
    said = words(elements(made(accounts.four())))
    for formula in ("⌊8589934592 / 262144⌋ = 32768 0.5", "⌊(2 × 255 × 16384 + 65536) / 131072⌋ = 64", "has the bytes 64, 128, 0 at"):
        assert formula in said
    assert "gain" not in said and "put into" not in said


def test_gain_limits_and_two_bytes_are_steps_of_their_own() -> None:
    said = words(elements(made(accounts.four(one=65535, gain=3 * 65536), picture=b"P6\n4 3\n65535\n" + bytes(72))))
    assert "⌊16384 × 196608 / 65536⌋ = 49152 0.75" in said and "98303 → 65535" in said and "65535 = 256 × 255 + 255: 255, 255" in said


def test_gamma_is_a_step_of_its_own() -> None:
    it = accounts.four()
    it["frame"]["gamma"], it["exposed"] = accounts.number(2 * 65536), accounts.triple((32768, 46341, 0))
    assert "0.25 1 / 2 = 32768 0.5" in words(elements(made(it))).replace("251 /", "25 1 /")


def test_a_pixel_without_samples_is_black() -> None:
    said = words(elements(made(accounts.account([]))))
    assert "no sample counts, so the mean is 0" in said and "has the bytes 0, 0, 0 at" in said


def test_smooth_colours_are_blended() -> None:
    colours = [(0, 0, 0), (65536, 0, 0), (65536, 0, 0), (0, 0, 0)]
    fragment = accounts.seen(7, ("plastic", 6), 65536, (16384, 0, 0), accounts.FULL, accounts.square((256, 256, 512, 512), 65536, colours, accounts.FULL), True)
    said = words(elements(made(accounts.account([accounts.sample(320, 400, 65536, [fragment])]))))
    assert "blended from the corners A, C, D" in said and "/ 65536⌋ = 16384" in said


def test_nothing_is_fetched_and_nothing_breaks_out() -> None:
    text = made(accounts.four(), name="<b>&\"'.rib")
    tree = elements(text)
    assert not re.search(r"https?:|url\(|@import|<link", text)
    sources = [it.get("src", "") for it in tree.iter() if it.get("src")]
    assert len(sources) == 1 and sources[0].startswith("data:image/png;base64,")
    assert "<b>&\"'.rib" in words(tree) and all(it.get("href", "#").startswith("#") for it in tree.iter("a"))


def test_a_page_that_asks_has_a_form() -> None:
    fields = elements(made(accounts.four(), asks=True)).findall(".//form//input")
    assert [(it.get("name"), it.get("value"), it.get("max")) for it in fields] == [("x", "1", "3"), ("y", "1", "2")]
    assert elements(made(accounts.four())).find(".//form") is None


def test_pixels_are_counted_in_the_frame() -> None:
    film = Film(PICTURE, 10, 20)
    assert film.bytes_at(11, 20) == (3, 4, 5) and film.bytes_at(9, 20) == () and film.bytes_at(14, 22) == ()
    assert film.colour(11, 20) == "#030405" and Film(b"P6\n1 1\n65535\n" + bytes([255, 255, 128, 0, 0, 0]), 0, 0).colour(0, 0) == "#ff8000"
    assert Film(b"P6\n1 1\n100\n" + bytes([100, 50, 0]), 0, 0).png()[:4] == b"\x89PNG"


def test_the_page_of_the_documents_has_the_numbers_of_its_pixels(why: Path, examples: Path) -> None:
    parts = re.split(r"    python3 python/reyes why examples/tea.rib ([0-9]+) ([0-9]+)\n", (examples.parent / "docs/WHY.md").read_text("utf-8"))[1:]
    assert len(parts) == 3 * 4
    for x, y, said in zip(parts[::3], parts[1::3], parts[2::3]):
        ran = subprocess.run([why, "tea.rib", x, y, "--points"], cwd=examples, capture_output=True, check=True)
        numbers = set(re.findall(rb"[0-9]+", ran.stdout))
        named = re.findall(r"`([0-9]+)`", said)
        assert len(named) > 3 and [it for it in named if it.encode() not in numbers] == []


def test_the_account_of_the_tour(why: Path, examples: Path) -> None:
    from reyes.why.explaining import Explained

    scene = examples / "tour.rib"
    account = Explained(scene.read_bytes(), str(scene), scene, 0).account(8, 20)
    assert account.written == (59, 84, 64) and len(account.samples) == 16 and account.divisor == 223518
    for sample in account.samples:
        for fragment in sample.fragments:
            found = coverage.areas(fragment.corners, sample.place)
            assert found is not None and found.mean([it.depth for it in fragment.corners]) == fragment.depth
