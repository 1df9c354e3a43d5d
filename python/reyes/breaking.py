"""Breaking off at safe places: while bands are drawn, a signal to end is kept until what is being written is whole."""
from __future__ import annotations

import signal
import threading
from collections.abc import Callable, Iterator
from contextlib import contextmanager

SIGNALS = (signal.SIGINT, signal.SIGTERM)


@contextmanager
def kept() -> Iterator[Callable[[], None]]:
    """Within a `with`, the first signal to end is kept: the function that it gives raises KeyboardInterrupt where one has come. The
    second ends at once. In other threads than the main one, to which signals never come, nothing changes.
    """
    come: list[int] = []

    def note(number: int, frame: object) -> None:
        come.append(number)
        if len(come) > 1:
            raise KeyboardInterrupt

    def check() -> None:
        if come:
            raise KeyboardInterrupt

    if threading.current_thread() is not threading.main_thread():
        yield check
        return
    before = {number: signal.signal(number, note) for number in SIGNALS}
    try:
        yield check
    finally:
        for number, handler in before.items():
            signal.signal(number, handler)
