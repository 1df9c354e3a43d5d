"""The examples: which scenes are drawn, each in a folder of its own, and the sums of their pictures in examples/SHA256SUMS."""
from __future__ import annotations

import contextlib
import hashlib
import os
import shutil
import subprocess
import tempfile
from collections.abc import Callable, Iterator, Sequence
from concurrent.futures import ThreadPoolExecutor
from pathlib import Path

import clone
import libraries
from clone import Trouble

FOLDER = clone.TOP / "examples"
SUMS = FOLDER / "SHA256SUMS"
REFUSED = ("broken.rib", "exporters/structured.rib")
# README's picture that the package draws, by its name among the sums: with shadows. The further words change no byte, and are the cheapest:
# one process after another draws tall bands, so that few grids are shaded twice.
SHADOWED = {"shadow_room.ppm": "shadow examples/room.rib --lights 2,3 --angle 0.5 --seek 16"}
CHEAPEST = ("-j", "1", "--bucket", "64", "--grid-points", "1000000", "-q")
# Pictures of prints.rib that stand in the folder, as the textures of other scenes.
PRINTS = "prints.rib"
TEXTURES = ("cloth.ppm", "label.ppm", "squares.ppm")


def program() -> Path:
    """The renderer: what REYES names, else the launcher, which builds it where it has to."""
    return Path(os.environ.get("REYES") or clone.TOP / "reyes").absolute()


def scenes() -> list[str]:
    """The scenes that are drawn: those of the folder, and what exporters wrote."""
    found = (f"{it.relative_to(FOLDER)}" for pattern in ("*.rib", "exporters/*.rib") for it in FOLDER.glob(pattern))
    return sorted(it for it in found if it not in REFUSED)


@contextlib.contextmanager
def room(scene: str) -> Iterator[tuple[Path, str]]:
    """A folder with a scene, all shaders, and the textures that it doesn't draw, and the scene's name there. What an exporter wrote is
    brought in. Raises Trouble where that fails.
    """
    with tempfile.TemporaryDirectory(prefix="reyes-example-") as made:
        folder = Path(made)
        if "/" in scene:
            bring_in(scene, folder)
            yield folder, "scene.rib"
            return
        for it in (*FOLDER.glob("*.sl"), *(FOLDER / it for it in TEXTURES if scene != PRINTS)):
            shutil.copy(it, folder)
        shutil.copy(FOLDER / scene, folder)
        yield folder, scene


def bring_in(scene: str, folder: Path) -> None:
    """Puts what an exporter wrote into a folder, in the words of the profile. Raises Trouble where that changes what is drawn."""
    words = [libraries.python(), "-m", "reyes", "bring_in", f"{FOLDER}/{scene}", f"{folder}"]
    ran = subprocess.run(words, cwd=clone.TOP / "python", stdin=subprocess.DEVNULL, capture_output=True, text=True)
    if ran.returncode:
        raise Trouble(f"{scene}: {ran.stderr.strip()}")


def shadowed(name: str) -> str:
    """The sum of a picture of SHADOWED, drawn by the package. Raises Trouble where it isn't drawn."""
    with tempfile.TemporaryDirectory(prefix="reyes-shadow-") as made:
        words = [libraries.python(), clone.TOP / "python/reyes", *SHADOWED[name].split(), *CHEAPEST, "-o", Path(made) / name]
        ran = subprocess.run(words, cwd=clone.TOP, stdin=subprocess.DEVNULL, capture_output=True, text=True, env={**os.environ, "REYES": os.fspath(program())})
        if ran.returncode:
            raise Trouble(f"{name}: status {ran.returncode}: {ran.stderr.strip()}")
        return sum_of(Path(made) / name)


def sum_of(path: Path) -> str:
    return hashlib.sha256(path.read_bytes()).hexdigest()


def drawn(scene: str) -> dict[str, str]:
    """The sum of each picture that a scene draws, by its name below examples/. Raises Trouble where it isn't drawn."""
    with room(scene) as (folder, name):
        before = set(folder.iterdir())
        ran = subprocess.run([program(), "render", name], cwd=folder, stdin=subprocess.DEVNULL, capture_output=True)
        if ran.returncode:
            raise Trouble(f"{scene}: status {ran.returncode}: {ran.stderr.decode(errors='replace').strip()}")
        pictures = sorted(set(folder.iterdir()) - before)
        return {f"{Path(scene).parent / it.name}": sum_of(it) for it in pictures}


def stored() -> dict[str, str]:
    """The stored sums, by picture."""
    rows = (line.split() for line in SUMS.read_text(encoding="utf-8").splitlines())
    return {name: total for total, name in rows}


def all_drawn(names: Sequence[str], told: Callable[[int], object] = lambda count: None) -> dict[str, str]:
    """The sums of the pictures of these scenes, drawn side by side. Raises Trouble at the first that isn't drawn."""
    found = dict[str, str]()
    with ThreadPoolExecutor(os.cpu_count()) as lanes:
        for pictures in lanes.map(drawn, names):
            found.update(pictures)
            told(1)
    return found


def compared(names: Sequence[str], told: Callable[[int], object] = lambda count: None) -> list[tuple[str, bool]]:
    """Each picture of these scenes, and whether it has the stored bytes; so too the textures in the folder that prints.rib drew, and, where
    all scenes are drawn, pictures that are stored and that none draws.
    """
    sums, found = stored(), all_drawn(names, told)
    rows = [(name, sums.get(name) == total) for name, total in found.items()]
    rows += [(f"examples/{name}", sums.get(name) == sum_of(FOLDER / name)) for name in TEXTURES]
    if set(names) == set(scenes()):
        rows += [(name, False) for name in sums if name not in found and name not in SHADOWED]
    return rows
