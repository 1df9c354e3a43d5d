"""Draws the frames of a scene by bands, on any executor, and joins them: the bytes are those of `reyes render`."""
from __future__ import annotations

import hashlib
import os
import threading
from collections.abc import Callable, Iterable, Iterator
from concurrent.futures import FIRST_COMPLETED, CancelledError, Executor, Future, ThreadPoolExecutor, wait
from contextlib import ExitStack
from dataclasses import dataclass, field, replace
from pathlib import Path

from reyes import bands, breaking, checking, files, program, scene
from reyes.errors import Trouble
from reyes.kept import Kept
from reyes.progress import Silent

TRIES = 3  # of a band whose process or worker was killed, or lacked memory
A_PROCESSOR = 4  # bands for each processor


@dataclass(frozen=True)
class Settings:
    """How a scene is drawn: changes of it, the numbers of its frames (None: all), processes at one time, further words of the program,
    further folders to search, an executor other than threads that wait for processes here, and a folder to search before all others.
    """

    changes: scene.Changes = scene.Changes()
    frames: Callable[[int], bool] | None = None
    jobs: int = 0
    words: tuple[str, ...] | None = None
    search: tuple[str, ...] = ()
    executor: Executor | None = None
    given: str | None = None


@dataclass
class Picture:
    """A frame's picture in the making: the frame, the name that its Display gives, and its bands."""

    frame: scene.Frame
    name: str
    kept: Kept
    runs: list[bands.Run] = field(default_factory=list)


class Drawing:
    """A scene that is ready to be drawn: read, and its files found. The program checks it meanwhile: `accepted` waits for that, and so
    does `draw` before it gives or keeps anything. Raises Trouble.

    `name` is what the user calls the scene, `place` its path, where it has one.
    """

    def __init__(self, data: bytes, name: str, place: Path | None, settings: Settings) -> None:
        self.settings = settings
        self.program = program.ready()
        read = scene.read(data)
        self.files = files.gather(read, [*map(Path, [settings.given] if settings.given else []), *files.folders(place, settings.search)])
        self._asked = checking.Asked(checking.Texts(data, name, self.files, self.program, {}))
        self.scene = read
        self.jobs = settings.jobs or len(os.sched_getaffinity(0))
        self.words = settings.words if settings.words is not None else speed(self.jobs, len(data))
        wanted = settings.frames or (lambda number: True)
        self.frames = [replace(it, options=settings.changes.of(it.options)) for it in read.frames if wanted(it.number)]
        if not self.frames:
            self.accepted()
            if read.frames:
                raise Trouble(f"{name}: none of its {len(read.frames)} frames is to be drawn")
        self._made_by = hashlib.sha256(self.program.read_bytes() + files.digest(self.files).encode()).hexdigest()

    def accepted(self) -> None:
        """Raises Trouble for the scene's first fault, as the program has it, where it has one."""
        self._asked.accepted()

    def is_known(self) -> bool:
        """Whether the program has answered, so that `accepted` doesn't wait."""
        return self._asked.is_there()

    def picture(self, frame: scene.Frame, folder: Path | None) -> Picture:
        """The picture of a frame, with the bands that are kept in a folder (None: none)."""
        text = self.scene.text(frame, self.settings.changes)
        columns = scene.band(replace(frame, options=replace(frame.options, crop=(*frame.options.crop[:2], 0, scene.ONE))), (0, 1))
        key = hashlib.sha256("\0".join([self._made_by, columns, *(hashlib.sha256(it).hexdigest() for it in text)]).encode()).hexdigest()
        return Picture(frame, frame.options.display, Kept(folder, key, frame.rows))

    def bands(self, picture: Picture) -> Iterator[bands.Band]:
        """What draws the rows of a picture that are missing."""
        missing = picture.kept.missing()
        if missing:
            head, tail = self.scene.text(picture.frame, self.settings.changes)
            for rows in bands.cut(picture.frame.rows, missing, -(-A_PROCESSOR * self.jobs // len(self.frames))):
                yield bands.Band((head, scene.band(picture.frame, rows).encode(), tail), rows, self.words)

    def draw(self, pictures: Iterable[Picture], told: Silent) -> Iterator[Picture]:
        """Draws pictures, and gives each when it is whole, in whatever order they come. Raises Trouble where one can't be drawn."""
        with ExitStack() as stack:
            stack.callback(self._asked.close)
            broken_off = stack.enter_context(breaking.kept())
            executor = self.settings.executor
            if executor is None:
                folder = stack.enter_context(files.folder_of_links(self.files))
                executor = ThreadPoolExecutor(self.jobs)
                stack.callback(executor.shutdown, cancel_futures=True)
                yield from _Work(self, executor, folder, told).through(pictures, broken_off)
            else:
                yield from _Work(self, executor, None, told).through(pictures, broken_off)


class _Work:
    """Bands on their way: handed to an executor as its workers come free, and tried again where one is lost."""

    def __init__(self, drawing: Drawing, executor: Executor, folder: Path | None, told: Silent) -> None:
        self.drawing, self.executor, self.folder, self.told = drawing, executor, folder, told
        self.most = drawing.jobs if folder is not None else 2 * drawing.jobs
        self.under_way: dict[Future[bytes], tuple[Picture, bands.Band, int]] = {}
        self.ended = threading.Event()
        self.brought = {name: it.path.read_bytes() for name, it in drawing.files.items()} if folder is None else {}

    def through(self, pictures: Iterable[Picture], broken_off: Callable[[], None]) -> Iterator[Picture]:
        """Gives each picture when it is whole. `broken_off` raises where the user wants no more."""
        waiting = ((picture, band) for picture in pictures for band in self._begun(picture))
        whole: list[Picture] = []
        try:
            more = True
            while more or self.under_way:
                while more and len(self.under_way) < self.most:
                    following = next(waiting, None)
                    more = following is not None
                    if following is not None and following[1] is None:
                        whole.append(following[0])
                    elif following is not None and following[1] is not None:
                        self._submit(following[0], following[1], 1)
                if whole:
                    self.drawing.accepted()
                yield from whole
                done = wait(self.under_way, timeout=0.2, return_when=FIRST_COMPLETED).done if self.under_way else ()
                if done:
                    self.drawing.accepted()
                whole = [it for it in map(self._take, done) if it is not None]
                if self.drawing.is_known():
                    self.drawing.accepted()
                    self.told.tick([it for it, _, _ in self.under_way.values()])
                broken_off()
            yield from whole
        finally:
            self._end()

    def _begun(self, picture: Picture) -> Iterator[bands.Band | None]:
        """The missing bands of a picture; where there are none, None once."""
        self.told.begin(picture)
        any_missing = False
        for band in self.drawing.bands(picture):
            any_missing = True
            yield band
        if not any_missing:
            yield None

    def _submit(self, picture: Picture, band: bands.Band, tries: int) -> None:
        if self.folder is None:
            future = self.executor.submit(bands.draw_parcel, bands.Parcel(band, self.brought))
        else:
            future = self.executor.submit(self._draw_here, picture, band)
        self.under_way[future] = (picture, band, tries)

    def _draw_here(self, picture: Picture, band: bands.Band) -> bytes:
        assert self.folder is not None
        run = bands.Run(band, self.folder, self.drawing.program)
        picture.runs.append(run)
        try:
            if self.ended.is_set():
                run.end()
            return run.picture()
        finally:
            picture.runs.remove(run)

    def _take(self, future: Future[bytes]) -> Picture | None:
        """Takes what a band came to: keeps it, or has it drawn again. Gives the picture where it is whole now."""
        picture, band, tries = self.under_way.pop(future)
        try:
            data = future.result()
        except Trouble:
            raise
        except bands.Fault as fault:
            if (fault.status >= 0 and fault.status != 9) or tries == TRIES:
                raise checking.fault_of_a_band(fault.status, fault.notes, band.rows) from fault
            self._submit(picture, replace(band, words=()), tries + 1)
            return None
        except (CancelledError, Exception) as fault:
            # an executor's own ways to say that a worker is gone differ
            if tries == TRIES:
                raise Trouble(f"rows {band.rows[0]} to {band.rows[1] - 1}: {TRIES} workers were lost: {_line(fault)}", 9) from fault
            self._submit(picture, band, tries + 1)
            return None
        changed = files.changed(self.drawing.files)
        if changed:
            raise Trouble(f"{self.drawing.files[changed[0]].path}: changed while the picture was drawn; the bands before it are kept", 7)
        picture.kept.add(band.rows, data)
        return None if picture.kept.missing() else picture

    def _end(self) -> None:
        """Ends what is still under way."""
        self.ended.set()
        for future, (picture, _, _) in self.under_way.items():
            future.cancel()
            for run in list(picture.runs):
                run.end()


def speed(jobs: int, length: int) -> tuple[str, ...]:
    """The words of the program that make it quick by the memory that is there, for so many processes at a time and a scene of so many
    bytes: they change no byte of a picture. A point of a kept grid takes 136 bytes.
    """
    room = available() // 2 // jobs - 40_000_000 - 40 * length
    points = min(1_000_000, max(65_536, room // 150))
    return ("--grid-points", str(points), "--bucket", "32" if points >= 300_000 else "16")


def available() -> int:
    """The bytes of memory that are free to be taken, as the system tells them; a small machine's where it doesn't."""
    try:
        with open("/proc/meminfo", encoding="ascii") as lines:
            for line in lines:
                if line.startswith("MemAvailable:"):
                    return int(line.split()[1]) * 1024
    except (OSError, ValueError, IndexError):
        pass
    return 1 << 30


def _line(fault: BaseException) -> str:
    return (str(fault).splitlines() or [type(fault).__name__])[0]
