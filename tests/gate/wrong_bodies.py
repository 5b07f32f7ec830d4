"""Tries wrong bodies of crates, many in one check: each has to be refused for what it does.

They are the edits of crates/NAME/further/ (dev/nixkeep_dev/sources/tried_bodies.py tries them). Edits outside bodies,
of definitions and constants, are passed over: tests/gate/edits.py tries these, each alone. The libraries beneath are
those that lie in the folders out/, as `rt ci` leaves them, or `rt lib`. `-k "[nar/"` tries those of one crate.

An error in a goal that a proof by hand states says that the body doesn't do what the contract says. A search that ends
without a proof says less, since it may do so of a goal that is true. So those that are refused by a search alone are
named, and there is a control: the edits of crates/NAME/further/equal/ change nothing, and have to survive. Those that
are refused nevertheless are named in tests/gate/equal.txt, each with the reason: a wrong body of their kind shows
nothing.

A wrong body that survives fails, unless tests/gate/survivors.txt names it with the reason why no clause can forbid it.
One that is named there and refused fails, too. Where a function isn't proved only for a name that the edit took away,
or since the check doesn't read such a body, the refusal shows nothing. It fails as well; one of the day is skipped, and
the last lines name it.

Without an option each crate is checked first without its edits: every function that they change has to be proved there.

With --gate it tries the edits that tests/gate/mistakes.txt names, and with --today a twelfth of the others and of the
crates that have a control, by --seed, which is the day: all within twelve days. With --changed it tries all of the
crates that aren't as they were when tests/gate/tried.txt got their sums, before the others. With several of these
options it tries them together, in the same checks. With --minutes those of the table are all tried, but once these
processor minutes are spent none of the others is tried any more, and what is left out is skipped. Each twelve days
begin with other crates than the twelve days before, so what is left out then is tried later.

--record, without these options, writes the sums of the crates whose wrong bodies are all refused to
tests/gate/tried.txt.
"""
import functools
from concurrent.futures import ThreadPoolExecutor

import pytest

from nixkeep_dev.build import program
from nixkeep_dev.sources import bodies, copies, recorded
from nixkeep_dev.sources.tried_bodies import Tried
from nixkeep_dev.sources.verdicts import Kind, is_known, wrong
from nixkeep_dev.testing import days, edits, report

WHAT = "wrong bodies"


@functools.cache
def changed():
    return recorded.changed_crates(bodies.having_bodies(), program.listed())


def of_bodies(crate):
    return [edit for edit in bodies.further(crate) if edit.is_of_bodies()]


def equal_of(crate):
    return bodies.further(crate, bodies.EQUAL)


def chosen(words):
    """The edits to try, those of a crate together: all, or those of the mistakes, of changed crates and of the day."""
    crates = bodies.having()
    if not words.is_part:
        return [edit for crate in crates for edit in [*of_bodies(crate), *equal_of(crate)]]
    now, keys, equal = changed() if words.option("--changed") else [], {*words.always}, []
    if words.option("--today"):
        keys |= {*bodies.others_of_day(words.day)}
        crates, equal = days.in_turn(crates, words.day, bodies.DAYS), bodies.equal_of_day(words.day)
    # (those of changed crates come first, so that a bound leaves out others)
    crates = sorted(crates, key=lambda crate: crate not in now)
    tried = lambda crate: [edit for edit in of_bodies(crate) if crate in now or edit.key() in keys]
    return [edit for crate in crates for edit in [*tried(crate), *(equal_of(crate) if crate in equal else [])]]


def pytest_generate_tests(metafunc):
    words = edits.Words(metafunc.config.getoption)
    if words.is_part and words.option("--record"):
        raise pytest.UsageError("what tries a part records nothing")
    metafunc.parametrize("edit", chosen(words), ids=str)


@pytest.fixture(scope="module")
def words(pytestconfig):
    return edits.Words(pytestconfig.getoption)


@pytest.fixture(scope="module")
def tried(request, words):
    """By its crate the running checks of the edits that are to run."""
    named, by_crate = program.listed(), edits.together(edits.to_run(request), lambda edit: edit.crate)
    begin = lambda crate: Tried(crate, named, words.always, words.bound).try_all(by_crate[crate], not words.is_part)
    with ThreadPoolExecutor(copies.lanes()) as pool:
        running = {crate: pool.submit(begin, crate) for crate in by_crate}
        yield running
        pool.shutdown(cancel_futures=True)
    tell(words, [future.result() for future in running.values() if not future.cancelled()], named)


def tell(words, done, named):
    """Has the last lines say what came of all edits, and records the sums of crates if that is to be."""
    for result in done:
        kinds = [verdict.kind for edit, verdict in result.verdicts.items() if not edit.is_equal()]
        refused = sum(kind in (Kind.REFUSED, Kind.BY_SEARCH) for kind in kinds)
        report.ends_with(f"{result.crate}: {refused} of {len(kinds)} wrong bodies refused in {result.seconds:.0f} s,"
                         f" of them {kinds.count(Kind.BY_SEARCH)} by a search alone;"
                         f" {len(result.verdicts) - len(kinds)} equal ones tried")
        for edit, verdict in result.verdicts.items():
            if verdict.kind == Kind.BY_SEARCH:
                report.ends_with(f"  by a search alone: {edit}")
            elif not edit.is_equal() and is_known(edit):
                report.ends_with(f"  named in {bodies.SURVIVORS}: {edit}: {verdict.why}")
    if words.option("--changed"):
        report.ends_with(f"changed since {recorded.NAME} got their sums: {' '.join(changed()) or 'none of its crates'}")
    if words.option("--record"):
        whole = [result for result in done if {*of_bodies(result.crate), *equal_of(result.crate)} == {*result.verdicts}]
        recorded.record([result.crate for result in whole
                         if not any(wrong(*came) for came in result.verdicts.items())], named)
    verdicts = [verdict for result in done for edit, verdict in result.verdicts.items() if not edit.is_equal()]
    words.tell(WHAT, len(bodies.every(True)), verdicts)


def test_refused(edit, tried, words):
    words.judge(WHAT, edit, tried[edit.crate].result().verdicts.get(edit))
