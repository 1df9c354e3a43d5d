"""Who draws the bands: processes of this machine, or the workers of Dask or MPI."""
from __future__ import annotations

import argparse
import os
from collections.abc import Iterator
from concurrent.futures import Executor
from contextlib import contextmanager
from typing import Any

from reyes.errors import USAGE, Trouble, missing_library


def add_arguments(parser: argparse.ArgumentParser) -> None:
    """The words that say where and how bands are drawn."""
    parser.add_argument("-j", "--jobs", type=_jobs, default=0, metavar="N", help="draw with N processes at a time (the number of processors)")
    parser.add_argument("--on", default="here", metavar="WHERE", help="here; dask, or dask=ADDRESS of a scheduler; mpi, under `mpiexec -n N python3 -m mpi4py.futures -m reyes render ..`")


def words(arguments: argparse.Namespace) -> tuple[str, ...] | None:
    """The further words of the program, or None where they are to be chosen. Raises Trouble for numbers out of their range."""
    if arguments.bucket is None and arguments.grid_points is None:
        return None
    bucket = 16 if arguments.bucket is None else arguments.bucket
    points = 65_536 if arguments.grid_points is None else arguments.grid_points
    if not (4 <= bucket <= 64 and 289 <= points <= 1_000_000):
        raise Trouble("--bucket is 4 to 64, --grid-points 289 to 1,000,000", USAGE)
    return ("--grid-points", str(points), "--bucket", str(bucket))


@contextmanager
def chosen(arguments: argparse.Namespace) -> Iterator[tuple[Executor | None, int]]:
    """The executor (None: processes here) and how many bands it draws at a time. Raises Trouble where it can't be had."""
    kind, _, address = arguments.on.partition("=")
    if kind == "here" and not address:
        yield None, arguments.jobs or len(os.sched_getaffinity(0))
    elif kind == "dask":
        yield from _dask(address, arguments.jobs)
    elif kind == "mpi" and not address:
        yield from _mpi(arguments.jobs)
    else:
        raise Trouble(f"--on {arguments.on}: it is here, dask, dask=ADDRESS or mpi", USAGE)


def _dask(address: str, jobs: int) -> Iterator[tuple[Executor, int]]:
    try:
        import distributed
    except ModuleNotFoundError as fault:
        raise missing_library("distributed") from fault
    make: Any = distributed.Client  # it has no types
    try:
        if address:
            client = make(address, timeout=30)
        else:
            client = make(n_workers=jobs or len(os.sched_getaffinity(0)), threads_per_worker=1, dashboard_address=None)
    except (OSError, TimeoutError) as fault:
        raise Trouble(f"dask={address}: no scheduler answers there") from fault
    with client:
        count = sum(client.ncores().values())
        if not count:
            raise Trouble(f"dask={address}: the scheduler has no workers")
        with client.get_executor(pure=False) as executor:
            yield executor, jobs or count


def _mpi(jobs: int) -> Iterator[tuple[Executor, int]]:
    try:
        from mpi4py import MPI
        from mpi4py.futures import MPIPoolExecutor
    except ModuleNotFoundError as fault:
        raise missing_library("mpi4py") from fault
    with MPIPoolExecutor(jobs or None) as executor:
        yield executor, jobs or max(1, MPI.COMM_WORLD.Get_size() - 1)


def _jobs(word: str) -> int:
    if word.isdecimal() and 1 <= int(word) <= 4096:
        return int(word)
    raise argparse.ArgumentTypeError(f"{word!r} is no number of processes from 1 to 4096")
