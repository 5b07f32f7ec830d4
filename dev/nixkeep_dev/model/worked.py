"""Tests of the model itself, on values that were worked out by hand or published."""
from . import worked_stores, worked_texts

GROUPS = [*worked_texts.GROUPS, *worked_stores.GROUPS]


def test() -> tuple[int, list]:
    """How many checks there are, and a line for each that fails."""
    count, wrong = 0, []
    for group in GROUPS:
        for at, (came, wanted) in enumerate(group(), 1):
            count += 1
            if came != wanted:
                wrong.append(f"{group.__name__} {at}: wanted {wanted!r}, came {came!r}")
    return count, wrong
