"""A frame whose pixels are explained: its picture, which the renderer draws, and the account of each pixel, which the program `why` gives."""
from __future__ import annotations

import os
import subprocess
from pathlib import Path

from reyes import checking, files, program, progress, scene
from reyes.drawing import Drawing, Settings
from reyes.errors import USAGE, Trouble
from reyes.why import reading
from reyes.why.account import Account
from reyes.why.film import Film
from reyes.why.things import Things

SCENE = checking.SCENE


class Explained:
    """A scene that was accepted, and one frame of it (counted from 0) with its picture. Raises Trouble, the scene's own first.

    `name` is what the user calls the scene, `place` its path, where it has one.
    """

    def __init__(self, data: bytes, name: str, place: Path | None, frame: int, search: tuple[str, ...] = (), quiet: bool = True) -> None:
        self.data, self.name, self.number = data, name, frame
        frames = scene.read(data).frames
        numbers = {it.number for it in frames[frame : frame + 1]}
        self._drawing = Drawing(data, name, place, Settings(frames=(lambda it: it in numbers) if numbers else None, search=search))
        self._drawing.accepted()
        chosen = [it for it in self._drawing.frames if it.place == frame]
        if not chosen:
            raise Trouble(f"{name}: there is no frame {frame}; it has {len(frames)}, counted from 0", USAGE)
        self.frame = chosen[0]
        self._program = program.ready("why")
        self.film = self._drawn(quiet)

    def _drawn(self, quiet: bool) -> Film:
        picture = self._drawing.picture(self.frame, None)
        told = progress.counted(self.frame.rows[1] - self.frame.rows[0], False, quiet)
        try:
            (whole,) = self._drawing.draw([picture], told)
        finally:
            told.close()
        return Film(whole.kept.whole(), self.frame.columns[0], self.frame.rows[0])

    def account(self, x: int, y: int) -> Account:
        """The account of a pixel. Raises Trouble where the picture doesn't have it, or has other bytes there."""
        if not self.film.bytes_at(x, y):
            (left, right), (top, bottom) = self.frame.columns, self.frame.rows
            raise Trouble(f"the picture has no pixel ({x}, {y}): it has {left} to {right - 1} across and {top} to {bottom - 1} down", USAGE)
        found = reading.account(self._asked(x, y))
        self.film.agrees(found)
        return found

    def things(self, account: Account) -> Things:
        """What an account's numbers stand for in the scene's files."""
        return Things(account, self.data, self.name, self._drawing.files)

    def _asked(self, x: int, y: int) -> bytes:
        """What the program `why` writes of a pixel. Raises Trouble with its note where it answers another status than 0."""
        words = [os.fspath(self._program), SCENE, str(x), str(y), "--frame", str(self.number), "--points"]
        with files.folder_of_links(self._drawing.files) as folder:
            try:
                ran = subprocess.run(words, cwd=folder, input=self.data, capture_output=True, check=False)
            except OSError as fault:
                raise Trouble(f"{self._program}: {fault.strerror or fault}") from fault
        if ran.returncode != 0:
            notes = ran.stderr.decode("utf-8", "replace").splitlines() or [f"status {ran.returncode}"]
            raise Trouble(f"why: {notes[-1].replace(SCENE, self.name)}", ran.returncode if ran.returncode > 0 else 9)
        return ran.stdout
