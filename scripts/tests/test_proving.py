"""The order of proofs and the time that they are said to take."""
import io
from pathlib import Path

import pytest

import clone
import proving

SECONDS = {"base": 10.0, "left": 30.0, "right": 20.0, "top": 5.0, "aside": 40.0}
STANDS = {"base": [], "left": ["base"], "right": ["base"], "top": ["left", "right"], "aside": []}


@pytest.fixture
def small(monkeypatch: pytest.MonkeyPatch) -> None:
    """A repository of five crates."""
    monkeypatch.setattr(clone, "named", lambda: STANDS)
    for it in (clone.below, proving.way, proving.seconds):
        it.cache_clear()
    monkeypatch.setattr(proving, "seconds", SECONDS.__getitem__)


@pytest.fixture(autouse=True)
def forgets() -> None:
    for it in (clone.below, proving.way, proving.seconds):
        it.cache_clear()


@pytest.mark.usefixtures("small")
def test_the_longest_way_up_counts() -> None:
    assert [proving.way(it) for it in ("base", "left", "right", "top", "aside")] == [45, 35, 25, 5, 40]


@pytest.mark.usefixtures("small")
@pytest.mark.parametrize("lanes, wanted", [(1, 105), (2, 65), (3, 45)])
def test_the_time_that_proofs_take_side_by_side(lanes: int, wanted: float) -> None:
    assert proving.makespan(SECONDS, lanes) == wanted


@pytest.mark.usefixtures("small")
def test_what_is_proved_takes_no_time() -> None:
    assert proving.makespan({"right": 20.0, "top": 5.0}, 2) == 25


def test_the_table_has_a_time_for_each_crate_below_the_program() -> None:
    proving.table.cache_clear()
    known = proving.table()
    assert {it for it in clone.below("reyes") | {"reyes"} if it not in known} == set()
    assert min(known.values()) > 0


def test_the_longest_way_begins() -> None:
    order = sorted(clone.below("reyes"), key=lambda name: (-proving.way(name), name))
    assert order[0] == "fixed_math"
    assert proving.way(order[0]) >= max(map(proving.way, clone.named()))


@pytest.mark.parametrize("seconds, words", [(1, "1 minute"), (89, "1 minute"), (91, "2 minutes"), (1800, "30 minutes")])
def test_times_in_words(seconds: float, words: str) -> None:
    assert proving.minutes(seconds) == words


@pytest.fixture
def proofs(small: None, monkeypatch: pytest.MonkeyPatch, tmp_path: Path) -> list[str]:
    """The crates that are proved, in order, by a prover that takes all but those whose name is refused."""
    proved: list[str] = []
    monkeypatch.setattr(proving, "LIBRARIES", tmp_path)
    monkeypatch.setattr(proving, "key", lambda name: f"key of {name}")
    monkeypatch.setattr(proving, "rattle_words", lambda call, name: [name])

    def runs(words: list[str], folder: Path, log: object) -> tuple[bool, float]:
        assert proving.clone.below(words[0]) <= {it.stem for it in tmp_path.glob("*.key")}
        proved.append(words[0])
        return words[0] != "right", 1.0

    monkeypatch.setattr(proving, "runs", runs)
    return proved


def test_a_crate_waits_for_those_below_it(proofs: list[str], monkeypatch: pytest.MonkeyPatch, capsys: pytest.CaptureFixture[str]) -> None:
    work = proving.Build(io.StringIO(), "left")
    assert work.run()
    assert proofs == ["base"]
    assert capsys.readouterr().err == "reyes: base is proved, 1 of 1 libraries, some 1 minute to go\n"
    assert proving.Build(io.StringIO(), "left").run()
    assert proofs == ["base"]


def test_a_crate_that_is_not_proved_ends_the_build(proofs: list[str]) -> None:
    work = proving.Build(io.StringIO(), "top")
    assert not work.run()
    assert work.failed == {"right"}
    assert set(proofs) == {"base", "left", "right"}
