"""The picture of a frame, as the renderer drew it: its pixels, and it as a PNG."""
from __future__ import annotations

from reyes import bands, plain
from reyes.errors import Trouble
from reyes.why.account import Account
from reyes.why.markup import hexadecimal


class Film:
    """The bytes of a frame's PPM; pixels are counted in the frame, whose pixel (left, top) is the picture's first."""

    def __init__(self, data: bytes, left: int, top: int) -> None:
        head = bands.HEADER.match(data)
        if head is None:
            raise Trouble("the renderer's picture isn't one")
        self.data, self.left, self.top = data, left, top
        self.width, self.height, self.most = map(int, head.groups())
        self._start, self._deep = head.end(), 1 + (self.most > 255)

    def bytes_at(self, x: int, y: int) -> tuple[int, ...]:
        """The bytes of a pixel; none where the picture doesn't have it."""
        column, row = x - self.left, y - self.top
        if not (0 <= column < self.width and 0 <= row < self.height):
            return ()
        at = self._start + 3 * self._deep * (row * self.width + column)
        return tuple(self.data[at : at + 3 * self._deep])

    def colour(self, x: int, y: int) -> str | None:
        """The colour of a pixel for a page; None where the picture doesn't have it."""
        found = self.bytes_at(x, y)
        levels = found if self._deep == 1 else [256 * high + low for high, low in zip(found[::2], found[1::2])]
        return hexadecimal(255 * it / self.most for it in levels) if found else None

    def png(self) -> bytes:
        """The picture as a PNG."""
        found = plain.png(self.data)
        if found is None:  # of other levels than 255 or 65535
            from reyes import picture  # which loads NumPy

            found = picture.to_png(picture.from_ppm(self.data))
        return found

    def agrees(self, account: Account) -> None:
        """Raises Trouble where the picture has other bytes at the pixel than the account ends with."""
        found = self.bytes_at(*account.pixel)
        if found != account.written:
            at, here, there = (", ".join(map(str, it)) for it in (account.pixel, found, account.written))
            raise Trouble(f"the picture has the bytes {here} at the pixel ({at}), and the account ends with {there}: are both programs of one version?")
