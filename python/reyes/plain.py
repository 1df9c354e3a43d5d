"""Pictures as the renderer writes them, as PNG: without NumPy, whose loading takes longer than a small picture."""
from __future__ import annotations

import io

from reyes import bands


def png(data: bytes) -> bytes | None:
    """A PNG of the bytes of a PPM as the renderer writes it, where it uses all levels of eight bits or sixteen; None where not."""
    import png as pypng

    head = bands.HEADER.match(data)
    if head is None or int(head[3]) not in (255, 65535):
        return None
    width, height, most = map(int, head.groups())
    deep = 1 + (most > 255)
    row = 3 * deep * width
    out = io.BytesIO()
    rows = (data[at : at + row] for at in range(head.end(), head.end() + row * height, row))
    pypng.Writer(width, height, bitdepth=8 * deep, greyscale=False).write_packed(out, rows)
    return out.getvalue()
