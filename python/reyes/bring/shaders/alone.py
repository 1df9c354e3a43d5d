"""A shader without a scene: `python3 -m reyes bring_in SHADER.sl FOLDER` writes it in the words of the profile."""
from __future__ import annotations

import tempfile
from collections.abc import Sequence
from pathlib import Path

from reyes import program
from reyes.bring import writing
from reyes.bring.changes import NEVER, Changes
from reyes.bring.shaders import Lowered, lower
from reyes.errors import file_trouble

WORDS = {
    "surface": 'Surface "{name}"', "displacement": 'Displacement "{name}"', "volume": 'Atmosphere "{name}"', "light": 'LightSource "{name}" 1',
}
# A scene that uses the shader, so that the renderer reads it; nothing of it is drawn.
SCENE = 'Display "none.ppm" "file" "rgb"\nFormat 4 4 1\nWorldBegin\n{words}\nTranslate 0 0 5\nSphere 1 -1 1 360\nWorldEnd\n'


def searched(path: Path) -> list[Path]:
    """The folders where a shader's includes are looked for: its own, and `include` in it."""
    return [it for it in (path.parent, path.parent / "include") if it.is_dir()]


def bring_alone(path: Path, may: str, folders: Sequence[Path] = ()) -> tuple[Lowered, Changes]:
    """A shader's file in the words of the profile, and what that changed; `may` has the kinds of changes that are made.

    Raises Trouble where the file can't be read.
    """
    try:
        data = path.read_bytes()
    except OSError as fault:
        raise file_trouble(path, fault) from fault
    changes = Changes(may)
    return lower(data, path.name, [*searched(path), *folders], {}, changes), changes


def main(path: Path, folder: Path, may: str, folders: Sequence[Path] = ()) -> int:
    """Writes FOLDER/NAME.sl and the list CHANGES, and has the renderer check the shader; the status is that of the changes. `folders`
    are searched for what the shader includes, after its own.

    Where a change isn't allowed, or the shader can't be brought, CHANGES alone is written.
    """
    found, changes = bring_alone(path, may, folders)
    files = {path.name: found.text}
    writing.refuse_inputs(folder, {**files, writing.LIST: b""}, [path])
    if changes.status() < 3 and not changes.held():
        writing.put(folder, files)
        note = refused(folder, path.stem, found.kind)
        if note:
            changes.tell(NEVER, path.name, 0, f"refused by the renderer: {note}")
            writing.remove(folder, [path.name], [path])
    writing.put(folder, {writing.LIST: changes.text().encode("utf-8", "replace")})
    for line in changes.lines():
        print(line)
    return changes.status()


def refused(folder: Path, name: str, kind: str) -> str:
    """What the renderer notes about a shader in a folder, of textures that aren't there apart: "" where it takes it."""
    with tempfile.TemporaryDirectory() as place:
        scratch = Path(place)
        (scratch / "it.sl").write_bytes((folder / f"{name}.sl").read_bytes())
        (scratch / "scene.rib").write_text(SCENE.format(words=WORDS[kind].format(name="it")))
        answer = program.run(["check", "scene.rib"], scratch)
    note = answer.notes[-1] if answer.notes else ""
    return f"{name}{note[2:]}" if note.startswith("it.sl:") else ""
