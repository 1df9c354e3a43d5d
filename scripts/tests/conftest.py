"""What the tests of the scripts share."""
import importlib.machinery
import importlib.util
import sys
from collections.abc import Callable
from pathlib import Path
from types import ModuleType

import pytest

TOP = Path(__file__).resolve().parent.parent.parent
sys.path.insert(0, str(TOP / "scripts"))


@pytest.fixture
def top() -> Path:
    """The top of the repository."""
    return TOP


@pytest.fixture
def script() -> Callable[[str], ModuleType]:
    """Loads a script, whose name has no ending, as a module."""

    def load(name: str) -> ModuleType:
        loader = importlib.machinery.SourceFileLoader(f"script_{name}", str(TOP / "scripts" / name))
        spec = importlib.util.spec_from_loader(loader.name, loader)
        assert spec is not None
        module = importlib.util.module_from_spec(spec)
        sys.modules[loader.name] = module
        loader.exec_module(module)
        return module

    return load
