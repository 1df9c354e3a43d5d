"""`python3 -m reyes COMMAND`, and `python3 FOLDER/python/reyes COMMAND` in a clone."""
import sys
from pathlib import Path

if sys.version_info < (3, 10):
    sys.exit("reyes: this needs Python 3.10 or later")
if not __package__:
    # started as a folder: its parent is where the package is to be found, and not the folder itself
    sys.path[0] = str(Path(__file__).resolve().parent.parent)

from reyes.command import run

if __name__ == "__main__":
    sys.exit(run(sys.argv[1:]))
