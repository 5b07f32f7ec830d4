"""Has `rt plant` make wrong bodies for functions of crates, and compares those that the contracts accept with a list.

tests/gate/plants.txt has these of each crate that was tried. The list may only get shorter: what it doesn't have fails,
and so does what it has and is refused now. --lower takes that out, and writes the first list of a crate. Each needs a
clause, or an explanation in the README.md of the crate. `-k "[nar]"` names a crate; all together take days. Where
`rt plant` has no time for some bodies, the test is skipped: --minutes is for each crate, by the clock, after a first
check of the crate, or else an hour. What it lists then may be more than it would list at its end, so nothing new fails.

With --today it tries a crate of the list, by --seed, which is the day: as many days as the list has crates try each. It
is skipped where the toolchain is another release than the one whose bodies the list has, and where that has no crate.

It works in a copy of the repository, since `rt plant` locks the crate and those below it. The libraries below are those
that bin/nixkeep keeps; what isn't kept is proved first. It needs the Rattle toolchain.
"""
import importlib.machinery
import subprocess
import types
from pathlib import Path

import pytest

from nixkeep_dev.build import program
from nixkeep_dev.sources import plants
from nixkeep_dev.testing import days, report
from nixkeep_dev.testing.runs import spent
from nixkeep_dev.testing.tracked import copy_to

FOLDERS = ("bench/", "completion/", "docs/", "examples/", "man/", "packaging/", "release/", "tests/", "tools/")
# The minutes of a crate, unless a command line says more or less.
MINUTES = 60


def put_libraries(top, crate):
    """Puts the proved libraries below a crate where rt has those that it built, marked as it marks them: else it
    proves them once more."""
    file = f"{program.toolchain()}/bin/rtlib.py"
    rt = types.ModuleType("rtlib")
    rt.__file__ = file
    importlib.machinery.SourceFileLoader("rtlib", file).exec_module(rt)
    for below in rt.Crate(f"{top}/crates/{crate}", top, {}).below():
        room = Path(below.rlib).parent
        if not Path(below.rlib).is_dir():
            room.mkdir(parents=True, exist_ok=True)
            program.take_library(below.name, str(room))
        (room / "stamp").write_text(below.stamp())


def planted(top, crate, minutes):
    """What `rt plant` says of a crate in the copy; it fails where that is no list."""
    words = ["rt", "plant", "--all", "--max", "10000", "--minutes", f"{minutes:g}", "--jobs", "1"]
    how = {"stdin": subprocess.DEVNULL, "stdout": subprocess.PIPE, "text": True, "errors": "replace"}
    ran = subprocess.run(words, cwd=f"{top}/crates/{crate}", **how)
    if ran.returncode or not plants.COUNTS.search(ran.stdout):
        report.fail(f"{crate}: rt plant didn't come to its end:\n{ran.stdout[-2000:]}")
    return plants.Said(ran.stdout)


def pytest_generate_tests(metafunc):
    option = metafunc.config.getoption
    if not option("--today"):
        crates = sorted(plants.listed())
    elif why := why_not_today():
        crates = [pytest.param("none", marks=pytest.mark.skip(why))]
    else:
        crates = plants.of_day(days.of_seed(option("--seed")))
    metafunc.parametrize("crate", crates)


def why_not_today():
    """Why nothing can be compared with the list; None where something can."""
    release = (program.toolchain_version() or "none").split()[0]
    if release != plants.RELEASE:
        return f"{plants.NAME} has the bodies of {plants.RELEASE}, and the toolchain is {release}"
    return None if plants.recorded_crates() else f"{plants.NAME} has no crate that was tried"


@pytest.fixture(scope="module")
def top(shared_folder, pytestconfig):
    """A copy of the repository."""
    made = f"{shared_folder}/nixkeep"
    copy_to(made, FOLDERS)
    subprocess.run(["git", "init", "-q", made], check=True)
    yield made
    of_day = f"of the day by seed {pytestconfig.getoption('--seed')}, " if pytestconfig.getoption("--today") else ""
    report.ends_with(f"tried {of_day}in {spent() / 60:.1f} processor minutes")


def differences(said, known):
    """What a run says of a crate otherwise than the list."""
    rows, unknown = said.accepted(), {row for row in known if not said.is_known(row)}
    wrong = [f"{plants.NAME} has it, and it isn't accepted now: {row}" for row in sorted(known - rows - unknown)]
    added = [] if said.is_cut() else sorted(rows - known)
    return [*wrong, *(f"accepted, and {plants.NAME} doesn't have it: {row}" for row in added)]


def test_accepted(crate, top, pytestconfig):
    program.prove(tuple(program.with_below(crate, program.listed())[:-1]))
    put_libraries(top, crate)
    said, listed = planted(top, crate, pytestconfig.getoption("--minutes") or MINUTES), plants.listed()
    if pytestconfig.getoption("--lower") and not said.is_cut():
        rows = listed[crate]
        listed[crate] = sorted(said.accepted() if rows is None else said.accepted() & {*rows})
        plants.write(listed)
    known, tried = {*(listed[crate] or [])}, sum(kind != "not-run" for kind in said.kinds.values())
    report.ends_with(f"{said.line}\n{tried:,} of {len(said.kinds):,} bodies tried")
    if wrong := differences(said, known):
        pytest.fail("\n".join(wrong), pytrace=False)
    report.passes(said.counts["refused"] + len(said.accepted() & known))
    if left := said.counts["not-run"]:
        pytest.skip(f"{left} bodies of {crate}, for which there was no time")
