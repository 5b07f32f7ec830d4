"""Runs `rt ci`, then all that tries the program that it built, and prints what took how long.

After `rt ci` it compares the bytes of the program with those of release/. Then come, side by side: wrong bodies, and
after them wrong definitions: those of the mistakes that a store must not make, all wrong definitions of `laws`, all
wrong bodies of the crates that tests/gate/tried.txt has with another sum, and those of the day; the bodies that `rt
plant` makes of the day's crate; the program as `bin/nixkeep` builds it, and as Rattle's own compiler does; the cases,
comparisons, the tests of the tools, a clean Debian with the package, and a part of each fault script, chosen by the
day; the planted faults of the day; and which lines of the tools some tests run. At the end is a table of processor
minutes: for each crate its proof, its tests (proved and run) and its edits; then one of the parts, with the minutes of
the clock too. Both begin with what took most. It fails where a part does, and where all took more than MINUTES. The
whole is what the system counts; what each crate took is seen by looking at the running processes, so the row `else`
has what no look has caught. The last lines are what was skipped, the comparison with the release, and `N passed, M
failed`: those of `rt ci` and of each part and, where it is exceeded, the budget. The program stays, and bin/nixkeep
runs it. `bin/test all` calls this after the checks of the repository, and `bin/run dev/nixkeep_dev/commands/gate.py
MINUTES` does without them.
"""
import collections
import os
import re
import shutil
import sys
import threading
import time
from pathlib import Path

from nixkeep_dev.build import program, release
from nixkeep_dev.testing import parts, report, skips
from nixkeep_dev.testing.libraries import BUILT
from nixkeep_dev.testing.processes import children, processes
from nixkeep_dev.testing.runs import file_of, run, spent, together

TICKS = os.sysconf("SC_CLK_TCK")
# The minutes that `rt ci` may take, and wrong bodies, and definitions: on two processors the first take hours.
PROOFS, EDITS = 360, 120
# The processor minutes within which one of the day's may begin, of the wrong bodies (with those that are always tried)
# and of the wrong definitions: somewhat more than a day takes.
OF_DAY = {"wrong_bodies": 54, "edits": 12}
KINDS = ("proof", "tests", "edits")


def work_of(pid):
    """The crate for which a process of rt works, and which kind of work it does; None where it doesn't say."""
    try:
        words = Path(f"/proc/{pid}/cmdline").read_bytes().decode(errors="replace").split("\0")
        room = os.readlink(f"/proc/{pid}/cwd")
    except OSError:
        return None
    crate, of_tests = None, "--test" in words
    in_crate = re.search(r"/crates/([a-z0-9_]+)$", room)
    ran = re.search(r"/rt-run-[^/\0]*/bin/([a-z0-9_]+?)(_tests)?(?:\0|$)", "\0".join(words))
    if "--crate-name" in words:
        crate = words[words.index("--crate-name") + 1]
    elif in_crate or ran:
        crate = in_crate[1] if in_crate else ran[1]
        of_tests = f"out/{crate}_tests.o" in words or bool(ran and ran[2])
    return crate and (crate, "edits" if "/rt-edit-" in room else "tests" if of_tests else "proof")


class Watch:
    """The ticks of each process that a script has started, with all that this has started in turn."""

    def __init__(self):
        self.ticks, self.work = {}, {}

    def look(self, top: int) -> None:
        now = processes()
        above = children(now)
        for pid in above.get(top, []):
            key, below, ticks = (pid, now[pid][1]), [pid], 0
            while below:
                at = below.pop()
                ticks += now[at][2]
                below += above[at]
            self.ticks[key] = max(ticks, self.ticks.get(key, 0))
            self.work[key] = self.work.get(key) or work_of(pid)

    def minutes(self) -> dict[str, collections.Counter]:
        """Minutes by crate and kind."""
        by_crate = collections.defaultdict(collections.Counter)
        for crate, kind, ticks in [(*self.work[key], count) for key, count in self.ticks.items() if self.work[key]]:
            by_crate[crate][kind] += ticks / TICKS / 60
        return by_crate


def clear_libraries():
    """Takes away the libraries of earlier checks, so that those of `rt ci` stay where it makes them."""
    for crate in program.listed():
        shutil.rmtree(f"{program.HERE}/crates/{crate}/out/rlib", ignore_errors=True)


def try_parts():
    """Runs edits and all parts side by side; returns the runs, and what was seen of the edits."""
    # (all parts have one seed, also where a run goes on into the next day)
    watch, given = Watch(), {"program": program.FILE, "libraries": BUILT, "seed": report.today()}
    bodies_ended = threading.Event()

    def try_edits(name):
        words = ["--gate", "--today", "--seed", str(given["seed"]), "--minutes", str(OF_DAY[name])]
        more = ["--changed"] if name == "wrong_bodies" else []
        return run([file_of(f"gate/{name}"), *words, *more], False, watch.look, EDITS)

    def bodies():
        try:
            return try_edits("wrong_bodies")
        finally:
            bodies_ended.set()

    def definitions():
        # (both take all processors, and much memory)
        bodies_ended.wait()
        return try_edits("edits")

    tried = [*parts.of_gate(given), *parts.of_program(given, is_whole=True)]
    return parts.side_by_side(tried, [bodies, definitions]), watch.minutes()


def show_table(by_crate, cases, whole, since):
    rows = sorted(by_crate.items(), key=lambda row: -sum(row[1].values()))
    print(f"\n{'processor minutes':22}" + "".join(f"{kind:>8}" for kind in (*KINDS, "all")))
    for crate, row in rows:
        print(f"{crate:22}" + "".join(f"{row[kind]:8.1f}" for kind in KINDS) + f"{sum(row.values()):8.1f}")
    other = whole - cases - sum(sum(row.values()) for row in by_crate.values())
    print(f"{'what tries the program':46}{cases:8.1f}\n{'else':46}{other:8.1f}")
    columns = "".join(f"{sum(row[kind] for _, row in rows):8.1f}" for kind in KINDS)
    print(f"{'together':22}{columns}{whole:8.1f}")
    print(f"in {(time.monotonic() - since) / 60:.1f} minutes on {len(os.sched_getaffinity(0))} processors")


def gate(budget: float, may_skip: bool) -> int:
    """Runs all of it within a budget of processor minutes; returns the status."""
    since, watch = time.monotonic(), Watch()
    clear_libraries()
    runs = [run(["rt", "ci"], each_second=watch.look, limit=PROOFS)]
    # (its last line counts crates and edits, and not the tests that it runs)
    runs[0].passed += sum(map(int, re.findall(r"^test result: \w+\. (\d+) passed;", runs[0].output, re.M)))
    before, by_crate, cases = spent() / 60, watch.minutes(), 0
    is_same, compared = True, "not compared with release/: no program was built"
    if runs[0].is_good():
        is_same, compared = release.compare(program.FILE)
        # (`launched` takes the libraries from there)
        program.keep_built()
        more, edits = try_parts()
        runs += more
        for crate, row in edits.items():
            by_crate[crate]["edits"] += row["edits"]
        cases = max(spent() / 60 - before - sum(row["edits"] for row in edits.values()), 0)
    whole = spent() / 60
    show_table(by_crate, cases, whole, since)
    if whole > budget:
        print(f"bin/test: {whole:.1f} processor minutes are more than its budget of {budget:g}")
    anew = {*re.findall(r"^rt: (\w+) proved$", runs[0].output, re.M)}
    said = f"proved anew: {len(anew)} of {len(program.listed())} crates; the others passed here before\n{compared}"
    failed = int(whole > budget) + int(not is_same)
    return together(runs, failed, say=lambda: report.tell(f"\n{said}"), may_skip=may_skip)


def main() -> int:
    parser = report.parser(__doc__)
    parser.add_argument("budget", metavar="MINUTES", type=float, help="the processor minutes that all may take")
    parser.add_argument("--no-skips", action="store_true", help=f"what is skipped fails, unless {skips.NAME} names it")
    words = parser.parse_args()
    return gate(words.budget, not words.no_skips)


if __name__ == "__main__":
    sys.exit(main())
