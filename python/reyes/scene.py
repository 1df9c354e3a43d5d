"""Which frames a scene has, and the text that draws one of them alone, changed as the user asks.

A crop of a frame has exactly the pixels that the whole frame has there, so a frame is cut into bands of rows, and each is drawn by a
text of its own. The scene is taken to be accepted (`reyes check`); of one that isn't, the frames found here mean nothing.
"""
from __future__ import annotations

import bisect
from collections.abc import Iterator, Sequence
from dataclasses import dataclass, field, replace
from decimal import Context, Decimal
from functools import cached_property

from reyes import rib

ONE = 65536  # the numbers of a scene are multiples of 1/ONE
ENDS = {"FrameBegin": "FrameEnd", "WorldBegin": "WorldEnd", "AttributeBegin": "AttributeEnd", "TransformBegin": "TransformEnd", "MotionBegin": "MotionEnd"}
SHADERS = ("Surface", "Displacement", "Atmosphere", "LightSource")
EXACT = Context(prec=60, traps=[])
Span = tuple[int, int]


@dataclass(frozen=True)
class Options:
    """The options by which a frame's picture is found: its name, its size in pixels (width, height), and the crop in 65536ths
    (xmin, xmax, ymin, ymax).
    """

    display: str = "out.ppm"
    size: tuple[int, int] = (640, 480)
    crop: tuple[int, int, int, int] = (0, ONE, 0, ONE)


@dataclass(frozen=True)
class Frame:
    """A frame: its place among the frames from 0, its number (that of its FrameBegin, else counted from 1), its options, the offsets of
    its world from WorldBegin to after WorldEnd, and the ends of the blocks that are open around it.
    """

    place: int
    number: int
    options: Options
    world: Span
    block: Span | None
    ends: tuple[str, ...]

    @property
    def columns(self) -> Span:
        """The first column of the picture and the one after its last."""
        return pixels(*self.options.crop[:2], self.options.size[0])

    @property
    def rows(self) -> Span:
        """The first row of the picture and the one after its last."""
        return pixels(*self.options.crop[2:], self.options.size[1])


@dataclass(frozen=True)
class Changes:
    """What the user asks to be otherwise than in the scene: the size in pixels, a factor of the size, samples, shading rate, crop."""

    size: tuple[int, int] | None = None
    factor: float = 1.0
    samples: tuple[int, int] | None = None
    rate: float | None = None
    crop: tuple[int, int, int, int] | None = None

    def of(self, options: Options) -> Options:
        """The options with these changes: of the size and the crop."""
        width, height = self.size or options.size
        size = (max(1, round(width * self.factor)), max(1, round(height * self.factor)))
        return replace(options, size=size, crop=self.crop or options.crop)


@dataclass
class Scene:
    """A scene's bytes, and what is known of its requests: its frames, the places of `Declare` and of the numbers of `ShadingRate`, the
    shaders that it names with the first line of each, and the strings that may name textures.
    """

    data: bytes
    frames: list[Frame] = field(default_factory=list)
    declares: list[Span] = field(default_factory=list)
    rates: list[Span] = field(default_factory=list)
    names: set[str] = field(default_factory=set)
    shaders: dict[str, int] = field(default_factory=dict)

    @cached_property
    def _declared_at(self) -> list[int]:
        return [begin for begin, _ in self.declares]

    def kept(self, span: Span) -> bytes:
        """What of a part that isn't drawn still counts after it: its declarations."""
        first, last = (bisect.bisect_left(self._declared_at, it) for it in span)
        return b"".join(self.data[begin:end] + b"\n" for begin, end in self.declares[first:last])

    def text(self, frame: Frame, changes: Changes = Changes()) -> tuple[bytes, bytes]:
        """The text that draws this frame alone, in two halves: between them stand the requests that say which rows go where."""
        before, after = b"".join(self._before(frame)), self._rated(frame.world, changes.rate)
        ends = "".join(f" {it}" for it in frame.ends).encode()
        return before + _requests(frame, changes).encode(), after + ends + b"\n"

    def _before(self, frame: Frame) -> Iterator[bytes]:
        """The text before the frame's world, where other worlds draw nothing. Whole blocks of frames are left out but for one, since
        the first one turns lights off and makes their numbers free.
        """
        at, dropped = 0, False
        for other in self.frames[: frame.place]:
            if other.block is not None and other.block != frame.block:
                if other.block[0] < at:
                    continue
                yield self.data[at : other.block[0]]
                yield self.kept(other.block)
                if not dropped:
                    yield b"FrameBegin 0 " + NOTHING + b"WorldBegin WorldEnd FrameEnd "
                at, dropped = other.block[1], True
            else:
                yield self.data[at : other.world[0]]
                yield NOTHING + b"WorldBegin\n" + self.kept(other.world) + b"WorldEnd "
                at = other.world[1]
        yield self.data[at : frame.world[0]]

    def _rated(self, span: Span, rate: float | None) -> bytes:
        """A part of the text with another shading rate."""
        if rate is None:
            return self.data[slice(*span)]
        parts, at = [], span[0]
        for begin, end in self.rates:
            if span[0] <= begin < span[1]:
                parts += [self.data[at:begin], number(rate).encode()]
                at = end
        return b"".join([*parts, self.data[at : span[1]]])


def read(data: bytes) -> Scene:
    """The frames and requests of a scene that was accepted."""
    scene = Scene(data)
    reader = _Reader(scene)
    for request in rib.requests(data):
        reader.take(request)
    return scene


class _Reader:
    """The state that is followed through the requests: options with those that FrameBegin saved, and the open blocks."""

    def __init__(self, scene: Scene) -> None:
        self.scene = scene
        self.options = Options()
        self.saved = Options()
        self.open: list[str] = []
        self.number = 0
        self.block_at = -1
        self.in_block: list[int] = []

    def take(self, it: rib.Request) -> None:
        if it.name in ENDS:
            self._begin(it)
        elif it.name in ENDS.values():
            self._end(it)
        elif it.name == "Declare":
            self.scene.declares.append((it.start, it.end))
        elif it.name == "ShadingRate":
            self.scene.rates += [(token.start, token.end) for token in it.arguments if token.kind == "number"]
        elif it.name in SHADERS:
            self._shader(it)
        else:
            self._option(it)

    def _begin(self, it: rib.Request) -> None:
        if it.name == "FrameBegin":
            self.saved, self.block_at, self.in_block = self.options, it.start, []
            self.number = (*_wholes(it), 0)[0]
        if it.name == "WorldBegin":
            number = self.number if "FrameBegin" in self.open else len(self.scene.frames) + 1
            ends = tuple(ENDS[name] for name in reversed(self.open))
            self.in_block.append(len(self.scene.frames))
            self.scene.frames.append(Frame(len(self.scene.frames), number, self.options, (it.start, it.start), None, ends))
        self.open.append(it.name)

    def _end(self, it: rib.Request) -> None:
        if self.open:
            self.open.pop()
        end = it.start + len(it.name)
        if it.name == "WorldEnd" and self.scene.frames:
            frame = self.scene.frames[-1]
            self.scene.frames[-1] = replace(frame, world=(frame.world[0], end))
        if it.name == "FrameEnd" and self.block_at >= 0:
            self.options = self.saved
            for place in self.in_block:
                self.scene.frames[place] = replace(self.scene.frames[place], block=(self.block_at, end))
            self.block_at, self.in_block = -1, []

    def _option(self, it: rib.Request) -> None:
        if it.name == "Format" and len(_wholes(it)) >= 2:
            width, height = (max(1, size) for size in _wholes(it)[:2])
            self.options = replace(self.options, size=(width, height))
        elif it.name == "CropWindow" and len(_wholes(it)) == 4:
            x0, x1, y0, y1 = (raw(token.text) for token in it.arguments if token.kind == "number")
            self.options = replace(self.options, crop=(x0, x1, y0, y1))
        elif it.name == "Display" and it.arguments and not str(it.arguments[0].value).startswith("+"):
            self.options = replace(self.options, display=str(it.arguments[0].value))

    def _shader(self, it: rib.Request) -> None:
        """Notes the shader of a request, and the strings among its parameters: a texture is named by one of them, if at all."""
        strings = [str(token.value) for token in it.arguments if token.kind == "string"]
        if strings:
            self.scene.shaders.setdefault(strings[0], it.line)
            self.scene.names.update(strings[1:])


# The options of a world that is kept for its effect on the state alone: one pixel, which goes nowhere.
NOTHING = b'CropWindow 0 .0001 0 .0001 Display "/dev/null" "file" "rgb" '


def band(frame: Frame, rows: Span, display: str = "/dev/stdout") -> str:
    """The requests by which a frame's text draws only these rows of its picture, into a file of this name."""
    return f"CropWindow {crop(frame, rows)} Display {rib.quoted(display)} \"file\" \"rgb\" "


def crop(frame: Frame, rows: Span) -> str:
    """The four numbers of a `CropWindow` that leaves only these rows of a frame's picture."""
    x0, x1, _, _ = frame.options.crop
    height = frame.options.size[1]
    return " ".join(number(it / ONE) for it in (x0, x1, rows[0] * ONE // height, rows[1] * ONE // height))


def pixels(least: int, most: int, size: int) -> Span:
    """The pixels of a direction of this size from one place to another, both in 65536ths: each rounded up, and one where there is none."""
    first, end = -(-least * size // ONE), -(-most * size // ONE)
    return (first, end) if first < end else (min(first, size - 1), min(first, size - 1) + 1)


def raw(text: str) -> int:
    """A number of a scene's text as it is kept: the nearest multiple of 1/ONE, halves away from zero, as a count of these. Of its
    digits the first 18 count, leading zeros aside.
    """
    sign, digits, exponent = Decimal(text, EXACT).as_tuple()
    if not isinstance(exponent, int):
        return 0
    kept = "".join(map(str, digits)).lstrip("0")
    value = Decimal((0, tuple(map(int, kept[:18] + "0" * (len(kept) - 18))) or (0,), exponent))
    scaled = EXACT.multiply(value, Decimal(ONE))
    whole = 2**31 - 1 if scaled >= 2**31 else int(scaled.to_integral_value("ROUND_HALF_UP", EXACT))
    return -min(whole, 2**31 - 1) if sign else min(whole, 2**31 - 1)


def number(value: float) -> str:
    """A number as a scene's text has it, exact to far below 1/ONE."""
    text = f"{value:.9f}"
    return text.rstrip("0").rstrip(".")


def _requests(frame: Frame, changes: Changes) -> str:
    """The requests before a world that change its options."""
    words = ""
    if changes.size or changes.factor != 1:
        words += f"Format {frame.options.size[0]} {frame.options.size[1]} 1 "
    if changes.samples:
        words += f"PixelSamples {changes.samples[0]} {changes.samples[1]} "
    if changes.rate is not None:
        words += f"ShadingRate {number(changes.rate)} "
    return words


def _wholes(it: rib.Request) -> Sequence[int]:
    """The numbers of a request, rounded down and within what a scene can hold."""
    return [int(min(max(float(token.value), -ONE), ONE)) for token in it.arguments if token.kind == "number"]
