"""Tries wrong definitions and constants of crates, each alone: each has to be refused.

They are the edits of crates/NAME/further/ that tests/gate/wrong_bodies.py passes over, since they are of no body
(dev/nixkeep_dev/sources/tried_definitions.py tries them). The libraries beneath are those that lie in the folders out/,
as `rt ci` leaves them, or `rt lib`. `-k "[nar/"` tries those of one crate, and with --bodies its wrong bodies, too.

Without --gate and --today each check is made without its edit first, and has to pass. One that survives fails, unless
tests/gate/survivors.txt names it with the reason; so does one that is named there and refused.

With --gate it tries those that tests/gate/mistakes.txt names and those of `laws`, and with --today a twelfth of the
others, by --seed, which is the day: all within twelve days. With --minutes no further edit of the day is tried once
these processor minutes are spent: what is left out is skipped. Each twelve days begin with other edits than the twelve
days before, so what is left out then is tried later.
"""
from concurrent.futures import ThreadPoolExecutor

import pytest

from nixkeep_dev.build import program
from nixkeep_dev.sources import bodies, copies
from nixkeep_dev.sources.tried_definitions import try_each
from nixkeep_dev.testing import edits

WHAT = "wrong definitions"
# How many edits are tried one after another at most, each over what was kept of the one before.
IN_TURN = 30


def chosen(words):
    """The edits to try: all, or those of the day and those that are always tried."""
    every = {edit.key(): edit for _, edit in bodies.every(False)}
    if not words.is_part:
        return [*every.values(), *(edit for _, edit in (bodies.every(True) if words.option("--bodies") else []))]
    # (those of the day come first: they have a bound)
    of_day = bodies.definitions_of_day(words.day) if words.option("--today") else []
    return [every[key] for key in [*of_day, *(name for name in words.always if name in every)]]


def pytest_generate_tests(metafunc):
    metafunc.parametrize("edit", chosen(edits.Words(metafunc.config.getoption)), ids=str)


def group(edit):
    """What edits have in common that are tried one after another: a check of one takes what another has kept."""
    return edit.crate, *sorted({*bodies.crates_below(edit)})


@pytest.fixture(scope="module")
def words(pytestconfig):
    return edits.Words(pytestconfig.getoption)


@pytest.fixture(scope="module")
def tried(request, words):
    """By the edit the running checks of those that are to run."""
    named, groups, running = program.listed(), edits.together(edits.to_run(request), group), {}
    in_turn = [of_one[at : at + IN_TURN] for of_one in groups.values() for at in range(0, len(of_one), IN_TURN)]
    with ThreadPoolExecutor(copies.lanes()) as pool:
        for some in in_turn:
            running |= dict.fromkeys(some, pool.submit(try_each, some, named, words.bound, not words.is_part))
        yield running
        pool.shutdown(cancel_futures=True)
    done = [future.result() for future in dict.fromkeys(running.values()) if not future.cancelled()]
    words.tell(WHAT, len(bodies.every(False)), [verdict for verdicts in done for verdict in verdicts.values()])


def test_refused(edit, tried, words):
    words.judge(WHAT, edit, tried[edit].result().get(edit))
