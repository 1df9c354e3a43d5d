"""Binary RIB (RenderMan Interface 3.2, appendix C.2) as text."""
from __future__ import annotations

import struct

from . import text as words


class Broken(Exception):
    """The bytes end within a token, or no token begins so."""


class Decoder:
    """Takes one text apart. `lines` are its requests and strings as text, one line for each request."""

    def __init__(self, data: bytes) -> None:
        self.data, self.at = data, 0
        self.requests: dict[int, bytes] = {}
        self.strings: dict[int, bytes] = {}
        self.out: list[bytes] = []

    def take(self, count: int) -> bytes:
        """The next bytes. `Broken` where there are fewer."""
        if self.at + count > len(self.data):
            raise Broken(f"the binary text ends early, at byte {self.at}")
        self.at += count
        return self.data[self.at - count:self.at]

    def whole(self, width: int, signed: bool = False) -> int:
        return int.from_bytes(self.take(width), "big", signed=signed)

    def bare(self, head: int) -> bytes:
        """The bytes of a string whose head is read: one of three binary forms, or text in quotes."""
        if head == ord('"'):
            end = self.at
            while end < len(self.data) and self.data[end] != ord('"'):
                end += 2 if self.data[end] == ord("\\") else 1
            value = self.take(end - self.at)
            self.take(1)
            return words.unescaped(value.decode("latin-1"), []).encode("latin-1", "replace")
        if 0o220 <= head < 0o240:
            return self.take(head & 15)
        if 0o240 <= head < 0o244:
            return self.take(self.whole((head & 3) + 1))
        raise Broken(f"byte {self.at - 1} of the binary text begins no string")

    def put_string(self, value: bytes) -> None:
        self.out.append(b' "' + value.replace(b"\\", b"\\\\").replace(b'"', b'\\"') + b'" ')

    def put_number(self, value: float) -> None:
        self.out.append(f" {value!r} ".encode())

    def token(self, head: int) -> None:
        """Reads what a byte of 128 or more begins."""
        if head < 0o220:
            width, fraction = (head & 3) + 1, head >> 2 & 3
            value = self.whole(width, signed=True)
            self.put_number(value / 256 ** fraction if fraction else value)
        elif head < 0o244:
            self.put_string(self.bare(head))
        elif head == 0o244:
            self.put_number(struct.unpack(">f", self.take(4))[0])
        elif head == 0o245:
            self.put_number(struct.unpack(">d", self.take(8))[0])
        elif head == 0o246:
            self.out.append(b"\n" + self.requests.get(self.whole(1), b"UnknownRequest") + b" ")
        elif 0o310 <= head < 0o314:
            count = self.whole((head & 3) + 1)
            row = struct.unpack(f">{count}f", self.take(4 * count))
            self.out.append(b" [" + " ".join(map(repr, row)).encode() + b"] ")
        elif head == 0o314:
            code = self.whole(1)
            self.requests[code] = self.bare(self.whole(1))
        elif head in (0o315, 0o316):
            code = self.whole(head - 0o314)
            self.strings[code] = self.bare(self.whole(1))
        elif head in (0o317, 0o320):
            self.put_string(self.strings.get(self.whole(head - 0o316), b""))
        else:
            raise Broken(f"byte {self.at - 1} of the binary text begins no token")

    def text(self) -> bytes:
        while self.at < len(self.data):
            head = self.data[self.at]
            self.at += 1
            if head >= 128:
                self.token(head)
            elif head == ord('"'):
                self.put_string(self.bare(head))
            else:
                self.out.append(bytes([head]))
        return b"".join(self.out)


def is_binary(data: bytes) -> bool:
    """Whether a text has a token that only binary RIB has, outside of comments: letters past ASCII stand in comments and strings."""
    return any(it in b"\xa6\xcc\xcd\xce" for it in data[:4]) or (b"\xa6" in data or b"\xcc" in data) and not is_text(data)


def is_text(data: bytes) -> bool:
    """Whether all bytes past ASCII stand in comments and strings."""
    for token in words.TOKEN.finditer(data[:65536]):
        if token.lastgroup in ("word", "array", "bad") and any(it >= 128 for it in token[0]):
            return False
    return True


def decoded(data: bytes) -> bytes:
    """Binary RIB as text. `Broken` with a message where the bytes aren't binary RIB."""
    return Decoder(data).text()
