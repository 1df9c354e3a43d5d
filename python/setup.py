"""Puts the pages that `explain` reads into the package that is installed; in the repository they stand in docs/, once."""
from pathlib import Path

from setuptools import setup
from setuptools.command.build_py import build_py

DOCS = Path(__file__).resolve().parent.parent / "docs"
PAGES = ("FARM", "RIB", "SHADING", "STOCK")


class WithPages(build_py):
    """Copies the modules, and then the pages."""

    def run(self) -> None:
        super().run()
        folder = Path(self.build_lib) / "reyes" / "pages"
        folder.mkdir(parents=True, exist_ok=True)
        for name in PAGES:
            (folder / f"{name}.md").write_bytes((DOCS / f"{name}.md").read_bytes())


setup(cmdclass={"build_py": WithPages})
