"""Prints how many processor seconds the proof of each function takes.

    bin/run bench/proofs.py [CRATE..] [--modules] [--above SECONDS] [--at-once N]

Checks each crate of crates.txt, or those that are named, anew by one process, and takes the processor time between
the lines by which the check says that it has ended with a function. What a proof needs first, as a lemma, counts
for the first function that needs it; `(loading and)` marks the first, to which loading what is below is counted,
and `(after)` is what follows the last. Prints a table of the functions, longest first, and one of the crates;
each may take 20 seconds. --above says from how many seconds on a function is printed,
2 where nothing is given, and --at-once how many crates are checked side by side, half the processors where nothing
is given. Libraries below that aren't proved yet are proved first. Needs the toolchain.

With --modules it prints the modules of each check in place of functions, by the times at which the check keeps them.
A function has several. `Lts` says what is in each of its variables at each step, and grows faster than its code.
`Tie` and others are made of its code too. `Proof` is where goals are searched for, and `Answers` has the proofs that
are written. A file of lemmas is a module.
"""
import os
import re
import subprocess
import sys
import tempfile
from concurrent.futures import ThreadPoolExecutor
from itertools import pairwise
from pathlib import Path

from nixkeep_dev.bench.figures import add_records, ended, limit, title
from nixkeep_dev.build import program, proving
from nixkeep_dev.testing import report

LONG = 20
FIRST, AFTER = "(loading and) ", "(after)"
TICKS = os.sysconf("SC_CLK_TCK")


def spent(pid):
    """The processor seconds of a process, and of those below it that have ended."""
    return sum(map(int, Path(f"/proc/{pid}/stat").read_text().rpartition(")")[2].split()[11:15])) / TICKS


def lines_of(ran, said):
    """The names that a check prints, each with the processor seconds until then; adds the other lines to those said."""
    for line in ran.stdout:
        checked = re.match(r"checked (.*), \d+ of \d+$", line)
        if checked:
            yield checked[1], spent(ran.pid)
        else:
            said.append(line)


def start(crate, named, room, *more):
    """Begins a check of a crate by one process."""
    words = [*program.words_of(crate, named, lambda library: room, 1), "--links", f"{crate}=", *more]
    how = {"stdin": subprocess.DEVNULL, "stdout": subprocess.PIPE, "stderr": subprocess.STDOUT, "text": True}
    words = [f"{program.toolchain()}/bin/rattle", "check", *words]
    return subprocess.Popen(words, cwd=f"{program.HERE}/crates/{crate}", errors="replace", **how)


def unproved(crate, said):
    return proving.Stopped(f"{''.join(said[-30:])}bench/proofs.py: {crate} isn't proved")


def timed(crate, named, room):
    """The functions of a crate with the seconds of each, in the order of the check."""
    ran, said, spans, last = start(crate, named, room, "--progress"), [], [], 0
    for name, now in lines_of(ran, said):
        spans.append((now - last, crate, f"{'' if spans else FIRST}{name.removeprefix(f'{crate}::')}"))
        last = now
    _, status, used = os.wait4(ran.pid, 0)
    if status:
        raise unproved(crate, said)
    return [*spans, (used.ru_utime + used.ru_stime - last, crate, AFTER)]


def parted(crate, named, room):
    """The modules of a check of a crate, each with the seconds since the one before was kept."""
    with tempfile.TemporaryDirectory(prefix="rt-modules-") as kept:
        ran = start(crate, named, room, "--incremental", kept)
        said = ran.stdout.readlines()
        if ran.wait():
            raise unproved(crate, said)
        files = sorted((file.stat().st_mtime_ns, file.name.removesuffix(".oantt"))
                       for file in Path(kept).rglob("*.oantt"))
    return [((at - before) / 1e9, crate, name) for (before, _), (at, name) in pairwise(files)]


def show(by_crate, above, what):
    """The functions or modules that take at least `above` seconds, longest first, and the crates."""
    title(f"processor seconds of {what}, {above:g} and more")
    for seconds, crate, name in sorted((row for rows in by_crate.values() for row in rows), reverse=True):
        if seconds >= above:
            is_alone = name != AFTER and not name.startswith(FIRST)
            limit(f"{crate} {name}", seconds, LONG if is_alone else None)
    title("processor seconds of crates")
    sums = {crate: sum(row[0] for row in rows) for crate, rows in by_crate.items()}
    for crate in sorted(sums, key=lambda crate: -sums[crate]):
        limit(f"{crate}, {sum(name != AFTER for *_, name in by_crate[crate])} {what}", sums[crate], None)
    limit("together", sum(sums.values()), None)


def arguments(named):
    parser = report.parser(__doc__)
    add_records(parser)
    parser.add_argument("crates", nargs="*", metavar="CRATE", help="a crate of crates.txt")
    parser.add_argument("--modules", action="store_true", help="print the modules of the checks")
    parser.add_argument("--above", type=float, default=2, metavar="SECONDS", help="print functions from there on")
    half = max(1, proving.processors() // 2)
    parser.add_argument("--at-once", type=int, default=half, metavar="N", help="how many crates are checked at once")
    words = parser.parse_args()
    if unknown := [crate for crate in words.crates if crate not in named]:
        parser.error(f"crates.txt has no crate {' '.join(unknown)}")
    return words


def main():
    named = program.listed()
    words = arguments(named)
    crates = words.crates or [*named]
    below = {library for crate in crates for library in program.with_below(crate, named)[:-1]}
    program.prove(sorted(below))
    with proving.room_with(below) as room, ThreadPoolExecutor(words.at_once) as pool:
        try:
            take = parted if words.modules else timed
            by_crate = dict(zip(crates, pool.map(lambda crate: take(crate, named, room), crates)))
        except proving.Stopped as stopped:
            sys.exit(str(stopped))
    show(by_crate, words.above, "modules" if words.modules else "functions")
    ended(words)


if __name__ == "__main__":
    main()
