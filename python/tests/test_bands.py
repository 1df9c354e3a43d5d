"""What bands are cut of and joined to, how numbers of a scene are kept, and what is told on the way."""
from fractions import Fraction
from pathlib import Path

import pytest
from hypothesis import given
from hypothesis import strategies as st

from reyes import bands, breaking, drawing, files, kept, progress, scene
from reyes.errors import Trouble


@given(st.integers(0, 300), st.integers(1, 300), st.integers(1, 40), st.lists(st.integers(0, 300), max_size=6))
def test_bands_cover_what_is_missing(first: int, height: int, count: int, cuts: list[int]) -> None:
    rows = (first, first + height)
    places = sorted({it for it in cuts if rows[0] < it < rows[1]})
    missing = list(zip([rows[0], *places], [*places, rows[1]]))[::2]
    found = bands.cut(rows, missing, count)
    assert [row for a, b in found for row in range(a, b)] == [row for a, b in missing for row in range(a, b)]


@given(st.integers(1, 4096), st.data())
def test_a_bands_crop_has_its_rows(height: int, data: st.DataObject) -> None:
    first = data.draw(st.integers(0, height - 1))
    end = data.draw(st.integers(first + 1, height))
    frame = scene.Frame(0, 1, scene.Options("a.ppm", (8, height)), (0, 0), None, ())
    _, _, y0, y1 = (scene.raw(it) for it in scene.crop(frame, (first, end)).split())
    assert scene.pixels(y0, y1, height) == (first, end)


@given(st.sampled_from(["", "-", "+"]), st.text("0123456789", min_size=1, max_size=17), st.text("0123456789", max_size=17), st.integers(-30, 10) | st.just(-10**7) | st.just(10**7))
def test_numbers_are_kept_as_the_nearest(sign: str, whole: str, part: str, exponent: int) -> None:
    found = scene.raw(f"{sign}{whole}.{part}e{exponent}")
    if len((whole + part).lstrip("0")) <= 18 and abs(exponent) < 100:
        scaled = Fraction(f"{whole}.{part}0") * Fraction(10) ** exponent * scene.ONE
        nearest = min((2 * scaled.numerator + scaled.denominator) // (2 * scaled.denominator), 2**31 - 1)
        assert found == (-nearest if sign == "-" else nearest)
    assert abs(found) < 2**31


def test_later_digits_count_as_zero() -> None:
    assert scene.raw("0.0000076293945312500001") == 1 and scene.raw("7629394531249999999999e-27") == 0


@given(st.binary(max_size=30) | st.builds(lambda *it: b"P6\n%d %d\n%d\n" % it + bytes(12), *[st.integers(0, 70000)] * 3))
def test_what_is_no_band_is_refused(data: bytes) -> None:
    try:
        (width, most), part = bands.body(data, (3, 5))
        assert len(part) == 3 * width * 2 * (1 + (most > 255))
    except Trouble as trouble:
        assert trouble.message.startswith("rows 3 to 4: ")


def picture_of(rows: tuple[int, int]) -> drawing.Picture:
    frame = scene.Frame(0, 1, scene.Options("a.ppm", (2, rows[1])), (0, 0), None, ())
    return drawing.Picture(frame, "a.ppm", kept.Kept(None, "0" * 64, rows))


def test_a_picture_that_is_written_takes_no_memory(tmp_path: Path) -> None:
    it = kept.Kept(tmp_path / "a.bands", "0" * 64, (0, 2))
    it.add((0, 2), b"P6\n1 2\n255\nabcdef")
    assert it.whole() == b"P6\n1 2\n255\nabcdef"
    it.forget()
    assert not it.parts and it.done() == 2 and not it.missing() and not list(tmp_path.iterdir())


def test_a_line_every_ten_seconds(monkeypatch: pytest.MonkeyPatch, capsys: pytest.CaptureFixture[str]) -> None:
    now = [0.0]
    monkeypatch.setattr(progress.time, "monotonic", lambda: now[0])
    told, it = progress.Lines(100, False), picture_of((0, 100))
    told.begin(it)
    for second in range(31):
        now[0] = second
        if second == 5:
            it.kept.add((0, 20), b"P6\n2 20\n255\n" + bytes(120))
        told.tick([it])
    assert capsys.readouterr().err.splitlines() == ["20 of 100 rows, 20 %, 40 s to go", "20 of 100 rows, 20 %, 80 s to go", "20 of 100 rows, 20 %, 2 min to go"]


def test_a_bar(capsys: pytest.CaptureFixture[str]) -> None:
    told, it = progress.Bar(100, False), picture_of((0, 100))
    told.begin(it)
    told.tick([it])
    told.whole("a.png")
    told.close()
    assert "a.png" in capsys.readouterr().err


def test_a_signal_is_kept_until_it_is_asked_for() -> None:
    import signal

    with breaking.kept() as check:
        check()
        signal.raise_signal(signal.SIGTERM)
        with pytest.raises(KeyboardInterrupt):
            check()
        with pytest.raises(KeyboardInterrupt):
            signal.raise_signal(signal.SIGTERM)


def test_names_that_go_up_stay_within_the_folder(tmp_path: Path) -> None:
    (tmp_path / "in/deep").mkdir(parents=True)
    for name in ("a.ppm", "in/b.ppm", "in/deep/c.ppm"):
        (tmp_path / name).write_bytes(name.encode())
    text = 'Surface "s" "string x" ["../../a.ppm"] Surface "s" "string x" ["../b.ppm"] Surface "s" "string x" ["./c.ppm"] Surface "s" "string x" ["c.ppm"]'
    found = files.gather(scene.read(text.encode()), [tmp_path / "in/deep"])
    with files.folder_of_links(found) as folder:
        read = {name: (folder / name).read_bytes() for name in found}
    assert read == {"../../a.ppm": b"a.ppm", "../b.ppm": b"in/b.ppm", "./c.ppm": b"in/deep/c.ppm", "c.ppm": b"in/deep/c.ppm"}
    assert not files.changed(found)
    (tmp_path / "a.ppm").write_bytes(b"other bytes")
    assert files.changed(found) == ["../../a.ppm"]


def test_memory_chooses_how_much_is_kept(monkeypatch: pytest.MonkeyPatch) -> None:
    monkeypatch.setattr(drawing, "available", lambda: 8 << 30)
    assert drawing.speed(4, 1000) == ("--grid-points", "1000000", "--bucket", "32")
    monkeypatch.setattr(drawing, "available", lambda: 1 << 28)
    assert drawing.speed(4, 1000) == ("--grid-points", "65536", "--bucket", "16")
