"""Tries wrong bodies of a crate, many in one check.

An edit of a body leaves every contract as it is, so whether another function is proved doesn't hang on it. So edits are
laid into one copy of the crate, one for each function, and one check of these functions has to refuse each. All other
functions are only stated there: the check takes them by their contracts, which `rt ci` has proved, and doesn't prove
them once more. Where it refuses a function for another one that an edit changes and that it calls, or two edits are of
one function, a further check tries what is left. A refusal counts where a search failed, or an error is of a goal of
the function's own and isn't for a name that the edit took away; where only such errors are left, or a goal has become
one in which nothing is to be proved, the body has survived.
"""
import tempfile
import time
from collections.abc import Iterable
from typing import Self

from nixkeep_dev.sources import bodies, copies
from nixkeep_dev.sources.verdicts import Kind, Verdict
from nixkeep_dev.testing.days import Bound

NOT_ONCE = Verdict(Kind.NOT_TRIED, "its text doesn't stand once in the sources")
FOR_ANOTHER = Verdict(Kind.EMPTY, "it is refused for another function alone")


def together(edits: Iterable[bodies.Edit], texts: dict[str, str]) -> tuple:
    """Edits of different functions, and the texts with them; and those that are left."""
    taken, left, changed = [], [], set()
    for edit in edits:
        made = None if changed & {*edit.functions} else bodies.laid(edit.pairs, texts)
        if made is None:
            left.append(edit)
        else:
            taken, texts, changed = [*taken, edit], made, changed | {*edit.functions}
    return taken, texts, left


def not_checked(checked):
    """What a check printed that says nothing of any function; None where it says something."""
    lines = checked.output.split("\n")
    errors = [line for line in lines if "error" in line][:6]
    return None if checked.said else Verdict(Kind.NOT_TRIED, "\n".join(["nothing was checked:", *errors, *lines[-4:]]))


def verdict_of(edit, checked):
    """What a check says of a wrong body; None where its functions wait for others."""
    if fault := not_checked(checked):
        return fault
    by_function = {function: checked.is_refused(function) for function in edit.functions}
    refused = [function for function, is_so in by_function.items() if is_so]
    if refused:
        return Verdict(Kind.BY_SEARCH if all(map(checked.is_by_search_alone, refused)) else Kind.REFUSED)
    if None in by_function.values():
        return None
    is_empty = any(map(checked.is_not_proved, edit.functions))
    why = f"NOT REFUSED for what it does ({'; '.join(map(checked.why_not, edit.functions))})"
    return Verdict(Kind.EMPTY if is_empty else Kind.SURVIVES, why)


def verdict_of_equal(edit, checked):
    """What a check says of an edit that changes nothing."""
    if fault := not_checked(checked):
        return fault
    refused = [checked.why_not(name) for name in edit.functions if not checked.is_proved(name)]
    return Verdict(Kind.REFUSED if refused else Kind.SURVIVES, "; ".join(refused))


class Tried:
    """What came of edits of a crate, by the edit. Once the bound is spent only those of `always` are tried, and of the
    others nothing has come."""

    def __init__(self, crate: str, named: dict[str, list], always: Iterable[tuple], bound: Bound):
        self.crate, self.named, self.always, self.bound = crate, named, always, bound
        self.texts, self.verdicts, self.seconds = bodies.sources(crate), {}, 0.0

    def check(self, texts: dict[str, str], edits: Iterable[bodies.Edit], kept: str) -> bodies.Check:
        """A check of the functions that edits change, over these texts, in which all others are only stated."""
        changed = {function for edit in edits for function in edit.functions}
        return copies.check_stated(self.crate, self.named, texts, changed, kept)

    def try_all(self, edits: Iterable[bodies.Edit], is_tried_without: bool) -> Self:
        """Tries wrong bodies, at first without the edits if that is to be, and those that change nothing."""
        since, wrong = time.monotonic(), [edit for edit in edits if not edit.is_equal()]
        with tempfile.TemporaryDirectory(prefix="rt-edits-") as kept:
            self.try_bodies(self.proved_without(wrong, kept) if wrong and is_tried_without else wrong, kept)
        with tempfile.TemporaryDirectory(prefix="rt-edits-") as kept:
            self.try_equal([edit for edit in edits if edit.is_equal()], kept)
        self.seconds = time.monotonic() - since
        return self

    def proved_without(self, edits, kept):
        """Those of these edits whose functions are proved without them; the others show nothing."""
        checked = self.check(self.texts, edits, kept)
        if fault := not_checked(checked):
            self.verdicts |= dict.fromkeys(edits, fault)
            return []
        for edit in edits:
            if fault := [checked.why_not(name) for name in edit.functions if not checked.is_proved(name)]:
                self.verdicts[edit] = Verdict(Kind.NOT_TRIED, f"not proved without its edit: {'; '.join(fault)}")
        return [edit for edit in edits if edit not in self.verdicts]

    def try_bodies(self, edits, kept):
        while edits := self.within(edits):
            taken, changed, left = together(edits, self.texts)
            if not taken:
                self.verdicts |= dict.fromkeys(left, NOT_ONCE)
                return
            checked = self.check(changed, taken, kept)
            verdicts = {edit: verdict_of(edit, checked) for edit in taken}
            waiting = [edit for edit in taken if not verdicts[edit]]
            if len(waiting) == len(taken):
                verdicts, waiting = dict.fromkeys(taken, FOR_ANOTHER), []
            self.verdicts |= {edit: verdict for edit, verdict in verdicts.items() if verdict}
            edits = [*waiting, *left]

    def try_equal(self, edits, kept):
        while edits and not self.bound.leaves_out(edits):
            taken, changed, edits = together(edits, self.texts)
            if not taken:
                self.verdicts |= dict.fromkeys(edits, NOT_ONCE)
                return
            checked = self.check(changed, taken, kept)
            self.verdicts |= {edit: verdict_of_equal(edit, checked) for edit in taken}

    def within(self, edits):
        """The edits that are still to be tried: once the bound is spent, those that are always tried."""
        others = [edit for edit in edits if edit.key() not in self.always]
        return [edit for edit in edits if edit not in others] if self.bound.leaves_out(others) else edits
