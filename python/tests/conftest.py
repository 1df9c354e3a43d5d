"""What all tests share: the renderer's program, and hypothesis without chance or clock."""
import tempfile
from pathlib import Path

import pytest
from hypothesis import HealthCheck, configuration, settings

from reyes import program as renderer
from reyes.errors import Trouble

settings.register_profile(
    "gate", derandomize=True, deadline=None, database=None, max_examples=60,
    suppress_health_check=[HealthCheck.function_scoped_fixture, HealthCheck.too_slow],
)
settings.load_profile("gate")
# hypothesis keeps tables of characters in a folder, which is gone when the tests end
HOME = tempfile.TemporaryDirectory()
configuration.set_hypothesis_home_dir(HOME.name)

CLONE = Path(__file__).resolve().parent.parent.parent


@pytest.fixture(scope="session")
def program() -> Path:
    """The renderer's program (REYES, or that of the clone); tests that draw are passed over where there is none."""
    try:
        found = renderer.find()
    except Trouble as trouble:
        pytest.skip(trouble.message)
    if found == CLONE / "reyes":
        pytest.skip("the renderer isn't built: REYES may name another")
    return found


@pytest.fixture(scope="session")
def why(program: Path) -> Path:
    """The program `why` (WHY, or that of the clone); tests that ask it are passed over where there is none."""
    try:
        found = renderer.find("why")
    except Trouble as trouble:
        pytest.skip(trouble.message)
    if found == CLONE / "why":
        pytest.skip("the program why isn't built: WHY may name another")
    return found


@pytest.fixture
def examples() -> Path:
    """The folder of the repository's examples."""
    return CLONE / "examples"
