"""What is tried a part of each day, so that all is tried within some days."""
from collections.abc import Callable, Iterable, Sequence

from nixkeep_dev.testing.runs import spent

DAYS = 8
# The seeds that a day has for itself.
A_DAY = 100_000
# The days of wrong bodies and definitions, which take longer.
DAYS_OF_EDITS = 12
# A round of the days begins a third further on than the one before.
ROUNDS = 3


def of_seed(seed: int) -> int:
    """The day that a seed is of; a number below the seeds of the second day is a day itself."""
    return seed // A_DAY or seed


def of_day(items: Iterable, day: int, count: int = DAYS) -> list:
    """The items of a day: each has one of this many days, and neighbours come on days one after another."""
    return [item for at, item in enumerate(items) if at % count == day % count]


def balanced(items: Iterable, cost: Callable, count: int = DAYS) -> list[list]:
    """The items of each of this many days, so that no day costs much more than another: those that cost most are placed
    first."""
    shares, taken = [[] for _ in range(count)], [0] * count
    for item in sorted(items, key=lambda item: -cost(item)):
        at = taken.index(min(taken))
        shares[at].append(item)
        taken[at] += cost(item)
    return shares


def in_turn(items: Sequence, day: int, count: int = DAYS) -> list:
    """The same items, from another one on in each round of the days: so what a bound leaves out in one round is among
    the first in another."""
    at = day // count % ROUNDS * len(items) // ROUNDS
    return [*items[at:], *items[:at]]


class Bound:
    """The processor minutes within which what is tried a part of each day may begin, or None; and what was left out
    since they were spent."""

    def __init__(self, minutes: float | None):
        self.minutes, self.left_out = minutes, []

    def is_spent(self) -> bool:
        return self.minutes is not None and spent() > 60 * self.minutes

    def leaves_out(self, items: Iterable) -> bool:
        """Whether the minutes are spent, so that these items are left out."""
        is_spent = self.is_spent()
        self.left_out.extend(items if is_spent else [])
        return is_spent
