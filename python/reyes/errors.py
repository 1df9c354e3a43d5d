"""What the commands tell a user when something is wrong: one line and a status."""
from __future__ import annotations

# A module that a command needs: its package in Debian, and its name for pip.
PACKAGES = {
    "numpy": ("python3-numpy", "numpy"),
    "png": ("python3-png", "pypng"),
    "rich": ("python3-rich", "rich"),
    "OpenImageIO": ("python3-openimageio", "OpenImageIO"),
    "distributed": ("python3-distributed", "distributed"),
    "mpi4py": ("python3-mpi4py", "mpi4py"),
}
FAULT, USAGE, MISSING = 1, 2, 6


class Trouble(Exception):
    """Something that the user is told in one line.

    `status` is what the command ends with: 1 where nothing else is said, 2 for wrong words, 6 for a missing file, or the
    renderer's own.
    """

    def __init__(self, message: str, status: int = FAULT) -> None:
        super().__init__(message)
        self.message = message
        self.status = status


def missing_library(module: str) -> Trouble:
    """The line about a library that isn't there."""
    name = module.partition(".")[0]
    debian, pip = PACKAGES.get(name, (None, name))
    ways = f"`pip install {pip}`" if debian is None else f"Debian's package {debian} (for /usr/bin/python3), or `pip install {pip}`"
    return Trouble(f"the Python library {name} isn't there: {ways}")


def file_trouble(path: object, fault: OSError) -> Trouble:
    """The line about a file that can't be read or written, by the system's own words."""
    if isinstance(fault, FileNotFoundError):
        return Trouble(f"{path}: missing", MISSING)
    return Trouble(f"{path}: {fault.strerror or fault}")
