"""HTML and SVG as text: elements, numbers as they are shown, and colours."""
from __future__ import annotations

import html
from collections.abc import Iterable

from reyes.why.account import ONE, Options, Triple

EMPTY = ("br", "img", "input", "meta", "link", "rect", "line", "circle", "polygon", "path")


def text(it: object) -> str:
    """A text as it stands in a page."""
    return html.escape(str(it), quote=True)


def tag(name: str, /, *content: str, **attributes: object) -> str:
    """An element with markup in it. An attribute's underscores are hyphens, but a last one, as in `class_`; one that is None is left out."""
    said = "".join(f' {key.rstrip("_").replace("_", "-")}="{text(it)}"' for key, it in attributes.items() if it is not None)
    return f"<{name}{said}/>" if name in EMPTY and not content else f"<{name}{said}>{''.join(content)}</{name}>"


def raw(it: int) -> str:
    """A raw number, with its value for who points at it."""
    return tag("code", text(it), title=f"{it} / 65536 = {decimal(it)}")


def decimal(it: int) -> str:
    """The value of a raw number, to four decimals."""
    return f"{it / ONE:.4f}".rstrip("0").rstrip(".") if it else "0"


def percent(part: int, whole: int) -> str:
    """A part of a whole in hundredths."""
    share = 100 * part / whole if whole else 0.0
    return f"{share:.1f}\u00a0%" if share >= 0.05 or part == 0 else "<\u00a00.1\u00a0%"


def triple(it: Iterable[int]) -> str:
    """Numbers side by side, as values."""
    return ", ".join(map(decimal, it))


def hexadecimal(levels: Iterable[float]) -> str:
    """A colour of a page, of three levels from 0 to 255."""
    return "#" + "".join(f"{round(min(max(it, 0.0), 255.0)):02x}" for it in levels)


def shown(colour: Triple, options: Options) -> str:
    """A colour of a page, as the picture would show it."""
    bright = (max(it * options.gain, 0) / ONE**2 for it in colour)
    return hexadecimal(255 * (it ** (ONE / options.gamma) if options.gamma != ONE else it) for it in bright)


def swatch(colour: str, name: str = "swatch") -> str:
    """A small square of a colour."""
    return tag("i", class_=name, style=f"background:{colour}")
