"""Bands by other schedulers and other workers: the same bytes, also where one is killed."""
import os
import subprocess
import sys
from concurrent.futures import ProcessPoolExecutor, ThreadPoolExecutor
from pathlib import Path

import pytest

from reyes import bands, command, drawing
from reyes.progress import Silent

SCENE = """Format 40 90 1
{declare}
FrameBegin 1 Display "one.ppm" "file" "rgb" WorldBegin Surface "printed" "map" ["../in/t.ppm"] Sphere .6 -.6 .6 360 WorldEnd FrameEnd
FrameBegin 2 Display "two and.ppm" "file" "rgb" WorldBegin Rotate 40 1 0 0 Surface "printed" "map" ["../in/t.ppm"] Sphere .6 -.6 .6 360 WorldEnd FrameEnd
"""
PACKAGE = Path(__file__).resolve().parent.parent
# A scheduler that runs each task of an array where it is called.
SBATCH = """#!/bin/bash
while [ $# -gt 0 ]; do case $1 in --array) array=$2; shift;; --wrap) wrap=$2; shift;; esac; shift; done
if [ -n "${array:-}" ]; then for i in $(seq ${array%-*} ${array#*-}); do SLURM_ARRAY_TASK_ID=$i sh -c "$wrap" >&2; done; else sh -c "$wrap" >&2; fi
echo 7
"""


@pytest.fixture
def place(tmp_path: Path, program: Path) -> Path:
    """A folder with a scene of two frames, a shader and a texture, and the pictures that the program draws of it."""
    folder = tmp_path / "in"
    folder.mkdir()
    (folder / "scene.rib").write_text(SCENE.format(declare='Declare "map" "uniform string"'))
    (folder / "printed.sl").write_text('surface printed(string map = "";) { Ci = texture(map, s, t) * abs(normalize(N).normalize(I)); Oi = 1; }')
    (folder / "t.ppm").write_bytes(b"P6 4 4 255 " + bytes(range(48)))
    assert subprocess.run([program, "render", "scene.rib"], cwd=folder, check=False).returncode == 0
    return folder


def same(place: Path, folder: Path) -> bool:
    return all((place / name).read_bytes() == (folder / name).read_bytes() for name in ("one.ppm", "two and.ppm"))


def test_make_goes_on_where_it_stopped(place: Path, tmp_path: Path) -> None:
    farm = tmp_path / "a farm"
    assert command.run(["farm", str(place / "scene.rib"), "-o", str(farm), "--bands", "4"]) == 0
    names = [line.split()[0] for line in (farm / "list").read_text().splitlines()]
    assert len(names) == 12
    assert subprocess.run([farm / "join"], stderr=subprocess.PIPE, check=False).returncode == 6
    subprocess.run(["make", "-s", "-j2", f"bands/{names[3]}.ppm"], cwd=farm, check=True)
    (farm / f"bands/{names[3]}.ppm").chmod(0o444)
    inode = (farm / f"bands/{names[3]}.ppm").stat().st_ino
    subprocess.run(["make", "-s", "-j2"], cwd=farm, check=True)
    assert same(place, farm) and (farm / f"bands/{names[3]}.ppm").stat().st_ino == inode


def test_a_list_by_hand_and_slurm(place: Path, tmp_path: Path) -> None:
    for name, words in {"list": ["sh", "-c", "cut -d' ' -f1 list | xargs -P 2 -n 1 ./band && ./join"], "slurm": ["./slurm", "--time", "10"]}.items():
        farm = tmp_path / name
        assert command.run(["farm", str(place / "scene.rib"), "-o", str(farm), "--bands", "2"]) == 0
        (tmp_path / "sbatch").write_text(SBATCH)
        (tmp_path / "sbatch").chmod(0o755)
        subprocess.run(words, cwd=farm, env={**os.environ, "PATH": f"{tmp_path}:{os.environ['PATH']}"}, check=True, stdout=subprocess.DEVNULL)
        assert same(place, farm)


def test_bands_of_another_text_are_other_bands(place: Path, tmp_path: Path) -> None:
    for text in ("wood", "stone"):
        (place / "printed.sl").write_text(f'surface {text}(string map = "";) {{ Ci = 1; Oi = 1; }}')
        assert command.run(["farm", str(place / "scene.rib"), "-o", str(tmp_path / text)]) == 0
    first, second = ({line.split()[0] for line in (tmp_path / text / "list").read_text().splitlines()} for text in ("wood", "stone"))
    assert not first & second


@pytest.mark.parametrize("kind", [ThreadPoolExecutor, ProcessPoolExecutor])
def test_any_executor(kind: type, place: Path) -> None:
    with kind(2) as executor:
        made = drawing.Drawing((place / "scene.rib").read_bytes(), "scene.rib", place / "scene.rib", drawing.Settings(jobs=2, executor=executor))
        for whole in made.draw([made.picture(frame, None) for frame in made.frames], Silent()):
            assert whole.kept.whole() == (place / whole.name).read_bytes()


class Lost(ThreadPoolExecutor):
    """An executor whose workers fail at three bands."""

    count = 0

    def submit(self, *words: object, **named: object) -> object:  # type: ignore[override]
        Lost.count += 1
        return super().submit(_lose if Lost.count in (1, 4, 6) else bands.draw_parcel, *words[1:])


def _lose(parcel: bands.Parcel) -> bytes:
    raise ConnectionError("the worker is gone")


def test_a_lost_band_is_handed_out_again(place: Path) -> None:
    with Lost(2) as executor:
        made = drawing.Drawing((place / "scene.rib").read_bytes(), "scene.rib", place / "scene.rib", drawing.Settings(jobs=2, executor=executor))
        for whole in made.draw([made.picture(frame, None) for frame in made.frames], Silent()):
            assert whole.kept.whole() == (place / whole.name).read_bytes()
    assert Lost.count > 12


DASK = """
import os, pathlib, signal, sys, threading, time
import distributed
from reyes import drawing
from reyes.progress import Silent

class Killing(Silent):
    victim = 0
    def begin(self, picture):
        if not self.victim:
            self.victim = next(iter(client.run(os.getpid).values()))
            os.kill(self.victim, signal.SIGKILL)

if __name__ == "__main__":
    place = pathlib.Path(sys.argv[1])
    with distributed.LocalCluster(n_workers=2, threads_per_worker=1, dashboard_address=None) as cluster, distributed.Client(cluster) as client:
        with client.get_executor(pure=False) as executor:
            made = drawing.Drawing((place / "scene.rib").read_bytes(), "scene.rib", place / "scene.rib", drawing.Settings(jobs=2, executor=executor))
            for whole in made.draw([made.picture(frame, None) for frame in made.frames], Killing()):
                print(whole.kept.whole() == (place / whole.name).read_bytes(), whole.name)
"""


def test_dask_with_a_worker_killed(place: Path, tmp_path: Path) -> None:
    pytest.importorskip("distributed")
    (tmp_path / "by_dask.py").write_text(DASK)
    ended = subprocess.run([sys.executable, "by_dask.py", place], cwd=tmp_path, env={**os.environ, "PYTHONPATH": str(PACKAGE)}, stdout=subprocess.PIPE, check=True)
    assert sorted(ended.stdout.decode().splitlines()) == ["True one.ppm", "True two and.ppm"]


def test_mpi(place: Path, tmp_path: Path) -> None:
    pytest.importorskip("mpi4py")
    words = ["mpiexec", "--allow-run-as-root", "--oversubscribe", "-n", "3", sys.executable, "-m", "mpi4py.futures", "-m", "reyes", "render", str(place / "scene.rib"), "-q", "--on", "mpi"]
    environment = {**os.environ, "PYTHONPATH": str(PACKAGE), "OMPI_MCA_rmaps_base_oversubscribe": "1"}
    try:
        ended = subprocess.run(words, cwd=tmp_path, env=environment, stderr=subprocess.PIPE, check=False)
    except FileNotFoundError:
        pytest.skip("there is no mpiexec")
    assert ended.returncode == 0, ended.stderr
    assert same(place, tmp_path)
