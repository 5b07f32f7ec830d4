"""What the tests of wrong bodies and of wrong definitions share: which words choose edits, and what each has to come
to."""
from collections.abc import Callable, Iterable

import pytest

from nixkeep_dev.sources import bodies
from nixkeep_dev.sources.verdicts import Kind, Verdict, wrong
from nixkeep_dev.testing import days, report
from nixkeep_dev.testing.runs import spent


class Words:
    """How edits are chosen: whether a part of all, of which day, which are always tried, and within
    which bound."""

    def __init__(self, option: Callable):
        self.option, self.seed, self.day = option, option("--seed"), days.of_seed(option("--seed"))
        self.is_part = any(map(option, ("--gate", "--today", "--changed")))
        self.always = bodies.always() if option("--gate") else []
        self.bound = days.Bound(option("--minutes") or None)

    def judge(self, what: str, edit: bodies.Edit, verdict: Verdict | None) -> None:
        """Fails where what came of an edit isn't what has to come. What the bound left out is skipped, and so is an
        edit of the day that is refused for a name alone."""
        __tracebackhide__ = True
        if verdict is None:
            pytest.skip(f"{what} of the day, since {self.bound.minutes:g} processor minutes are spent")
        why, is_of_day = wrong(edit, verdict), self.is_part and edit.key() not in self.always
        if why and verdict.kind == Kind.EMPTY and is_of_day:
            pytest.skip(f"{what} of the day, refused for what they leave out: {edit}")
        if why:
            pytest.fail(f"{edit}: {why}", pytrace=False)

    def tell(self, what: str, of_how_many: int, verdicts: Iterable[Verdict]) -> None:
        """Has the last lines say how many were tried and refused; fails where there was time for none."""
        kinds = [verdict.kind for verdict in verdicts]
        refused, searched = kinds.count(Kind.REFUSED), kinds.count(Kind.BY_SEARCH)
        of_day = f", of the day by seed {self.seed}" if self.option("--today") else ""
        report.ends_with(f"{len(kinds)} of {of_how_many} {what} tried{of_day}, and {refused + searched} of them"
                         f" refused, {searched} by a search alone, in {spent() / 60:.1f} processor minutes")
        if self.bound.left_out and not kinds:
            pytest.fail(f"no {what} were tried", pytrace=False)


def to_run(request: pytest.FixtureRequest) -> list[bodies.Edit]:
    """The edits of the tests that are to run, in their order."""
    return [item.callspec.params["edit"] for item in request.session.items if item.path == request.path]


def together(edits: Iterable[bodies.Edit], key: Callable) -> dict:
    """The edits that have the same key, by it."""
    groups = {}
    for edit in edits:
        groups.setdefault(key(edit), []).append(edit)
    return groups
