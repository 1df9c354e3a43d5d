"""What is told of counts of instructions."""
import counting


def test_what_became_dearer_by_more_than_three_per_cent_is_told() -> None:
    known = {"a.rib": 100.0, "b.rib": 100.0, "c.rib": 100.0}
    lines, dearer = counting.told_of({"a.rib": 102.9, "b.rib": 103.1, "c.rib": 90.0, "d.rib": 1.0}, known)
    assert dearer == 2
    assert lines == [
        "a.rib: 103 million instructions, +2.9 per cent: as stored",
        "b.rib: 103 million instructions, +3.1 per cent: DEARER",
        "c.rib: 90 million instructions, -10.0 per cent: cheaper",
        "d.rib: 1 million instructions, and none are stored",
    ]
