"""The camera's matrix: its place goes to the origin, its aim onto +z, and up goes up."""
import numpy as np
import pytest
from hypothesis import assume, given
from hypothesis import strategies as st

from reyes import command, look_at, rib

PLACE = st.tuples(*[st.integers(-20, 20)] * 3)


@given(PLACE, PLACE, PLACE, st.booleans())
def test_the_matrix(place: tuple[int, ...], aim: tuple[int, ...], up: tuple[int, ...], right_handed: bool) -> None:
    ahead = np.subtract(aim, place)
    assume(np.cross(ahead, up).any())
    matrix = np.array(look_at.matrix(place, aim, up, right_handed))
    assert np.allclose(np.append(place, 1) @ matrix, [0, 0, 0, 1])
    assert np.allclose(np.append(aim, 1) @ matrix, [0, 0, np.linalg.norm(ahead), 1])
    x, y, _, _ = np.append(up, 0) @ matrix
    assert abs(x) < 1e-6 < y and np.isclose(np.linalg.det(matrix), -1 if right_handed else 1)


def test_what_is_printed(capsys: pytest.CaptureFixture[str]) -> None:
    assert command.run(["look_at", "0", "0", "-5", "0", "0", "0"]) == 0
    (request,) = rib.requests(capsys.readouterr().out.encode())
    assert request.name == "Transform" and [it.value for it in request.arguments if it.kind == "number"] == [1, 0, 0, 0, 0, 1, 0, 0, 0, 0, 1, 0, 0, 0, 5, 1]
    assert command.run(["look_at", "0", "1", "0", "0", "0", "0"]) == 2
