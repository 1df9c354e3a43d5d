"""The renderer at hand, from the command line (`python3 -m reyes`) and from Python.

    import reyes
    from reyes import ri

    ri.Begin()
    ri.Format(320, 240)
    ri.WorldBegin()
    ri.Sphere(1, -1, 1)
    ri.WorldEnd()
    reyes.render(ri.End()).save("sphere.png")
"""
from __future__ import annotations

from typing import TYPE_CHECKING, Any

from reyes.errors import Trouble

if TYPE_CHECKING:
    from reyes.pictures import Rendered, film, render

__version__ = "0.1"
__all__ = ["Rendered", "Trouble", "film", "render"]


def __getattr__(name: str) -> Any:
    """What draws is loaded when it is first asked for: it needs NumPy and pypng, which not every command does."""
    if name in __all__:
        from reyes import pictures

        return getattr(pictures, name)
    raise AttributeError(f"module 'reyes' has no attribute {name!r}")
