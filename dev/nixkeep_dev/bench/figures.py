"""How the programs of this folder are called, and how they report: each figure with its limit, where it has one."""
import argparse
import json
import math
import os
import statistics
import subprocess
import sys
import tempfile
import time
from collections.abc import Callable, Sequence
from pathlib import Path
from typing import Any

from nixkeep_dev.testing import report

ROUNDS = 5
MIB = 1_048_576
# What the exponent of a growth may be: nothing is quadratic.
EXPONENT = 1.2
records = []
section = None


def title(text: str) -> None:
    """Begins a section of figures."""
    global section
    section = text
    report.tell(text)


def note(text: str) -> None:
    report.tell(f"  {text}")


def shown(value: float, unit: str) -> str:
    """A figure with its unit; seconds in the unit that suits them."""
    if unit == "s":
        value, unit = (value, "s") if value >= 1 else (value * 1e3, "ms") if value >= 1e-3 else (value * 1e6, "us")
    return f"{value:,.3g} {unit}" if value < 1000 else f"{value:,.0f} {unit}"


def spread(rounds):
    """By how much the greatest of some rounds is above the least, as a part of it."""
    return max(rounds) / min(rounds) - 1 if len(rounds) > 1 and min(rounds) else None


def line_of(figure):
    """A figure that is kept, next to its peer's and its limit, as it is printed."""
    if "skipped" in figure:
        return f"skipped: {figure['skipped']}"
    ratio, unit = figure.get("ratio"), figure["unit"]
    peer = "" if ratio is None else f", {figure['peer']} {shown(figure['theirs'], unit)}: {ratio:.2f} times"
    verdict = f"limit: {figure['limit']}; {'ok' if figure['is_met'] else 'MISSED'}" if figure["limit"] else "no limit"
    return f"{figure['what']}: {shown(figure['value'], unit)}{peer} ({verdict})"


def put(what: str, value: float, unit: str, limit: float | None, more: dict, is_least: bool = False) -> None:
    """Keeps a figure and prints it: its value, or its ratio to a peer's, next to its limit."""
    ratio = more.get("ratio")
    measured = value if ratio is None else ratio
    is_met = None if limit is None else measured >= limit if is_least else measured <= limit
    of = unit if ratio is None else "times"
    wanted = None if limit is None else f"at {'least' if is_least else 'most'} {limit:g} {of}"
    kept = {"section": section, "what": what, "value": value, "unit": unit, "limit": wanted, "is_met": is_met, **more}
    records.append(kept)
    note(line_of(kept))


def versus(what: str, theirs: float | Sequence[float], ours: float | Sequence[float], most: float | None = None,
           peer: str = "C SQLite", of: Callable = min, unit: str = "s") -> None:
    """The figure of nixkeep next to that of a peer, in seconds if not otherwise said, round by round: the least of
    each, since what else the machine does only adds to it, or what else is asked for."""
    theirs, ours = [theirs] if isinstance(theirs, float) else theirs, [ours] if isinstance(ours, float) else ours
    more = {"peer": peer, "theirs": of(theirs), "ratio": of(ours) / of(theirs), "spread": spread(ours)}
    put(what, of(ours), unit, most, more)


def limit(what: str, rounds: float | list, most: float | None, unit: str = "s", is_least: bool = False,
          of: Callable = min) -> None:
    """A figure of nixkeep alone, of one or more rounds, and its limit."""
    rounds = [rounds] if isinstance(rounds, (int, float)) else rounds
    put(what, of(rounds), unit, most, {"spread": spread(rounds)}, is_least)


def median(what: str, rounds: float | list, most: float | None, unit: str = "s") -> None:
    limit(what, rounds, most, unit, of=statistics.median)


def exponent(what: str, few: list, many: list, times: float, is_limited: bool = True) -> None:
    """The power by which the least time of some rounds grows with the work: 1 is in proportion, 2 is quadratic."""
    power = math.log(min(many) / min(few)) / math.log(times)
    what = f"{what}: {shown(min(few), 's')} and {shown(min(many), 's')}"
    limit(what, power, EXPONENT if is_limited else None, "power")


def skipped(*needed: str) -> bool:
    """Whether a peer isn't installed, which is printed and kept."""
    why = report.missing(needed)
    if why:
        report.tell(f"skipped: {why}")
        records.append({"section": section, "skipped": why})
    return bool(why)


def timed(call: Callable, *words: Any) -> float:
    """The seconds of a call."""
    start = time.perf_counter()
    call(*words)
    return time.perf_counter() - start


def rounds(call: Callable, *words: Any) -> list[float]:
    return [timed(call, *words) for _ in range(ROUNDS)]


class Runs:
    """A program on a file, called by root: the time of each run, from the start of the process, and what it printed."""

    def __init__(self, file: str):
        self.file = file

    def words(self, path: str, *words: str) -> list[str]:
        return [self.file, "--db", path, "--user", "root", *words]

    def __call__(self, path, *words, given=b""):
        start = time.perf_counter()
        ran = subprocess.run(self.words(path, *words), input=given, capture_output=True)
        took = time.perf_counter() - start
        if ran.returncode:
            sys.exit(f"{words}: {ran.stderr.decode()}")
        return took, ran.stdout


def command(words: list, given: str | None = None, env: dict | None = None) -> tuple[float, int]:
    """Seconds and KiB of a run from the start of the process to its end, which has to be with 0; its input is a
    file. So is what it says on standard error, of any length: Nix has a line for each object that it deletes."""
    with open(given or os.devnull, "rb") as source, tempfile.TemporaryFile() as said:
        start = time.perf_counter()
        ran = subprocess.Popen(words, env=env, stdin=source, stdout=subprocess.DEVNULL, stderr=said)
        _, status, usage = os.wait4(ran.pid, 0)
        took = time.perf_counter() - start
        ran.returncode = os.waitstatus_to_exitcode(status)
        if ran.returncode:
            said.seek(0)
            sys.exit(f"{' '.join(words)[:200]}: status {ran.returncode}: {said.read().decode(errors='replace')}")
    return took, usage.ru_maxrss


def commands(each: dict[str, list], count: int, given: str | None = None) -> dict[str, tuple]:
    """The seconds and the most MiB of commands that run in turn, by name."""
    runs = {name: [] for name in each}
    for _ in range(count):
        for name, words in each.items():
            runs[name].append(command(words, given))
    return {name: ([run[0] for run in ran], max(run[1] for run in ran) / 1024) for name, ran in runs.items()}


def memory_of(words: list) -> float:
    """The most memory in MiB that a command held: what this process holds would count in what is measured of its
    children."""
    code = "import resource, subprocess, sys; subprocess.run(sys.argv[1:], stdout=subprocess.DEVNULL, check=True); "
    code += "print(resource.getrusage(resource.RUSAGE_CHILDREN).ru_maxrss)"
    return int(subprocess.check_output([sys.executable, "-c", code, *words])) / 1024


def add_records(parser: argparse.ArgumentParser) -> None:
    """Adds the option that each benchmark takes."""
    parser.add_argument("--records", metavar="FILE", help="writes the figures, for bin/bench")


def ended(words: argparse.Namespace) -> None:
    """Writes the figures where that is asked for, and ends with 1 where one misses its limit."""
    if words.records:
        Path(words.records).write_text(json.dumps(records))
    sys.exit(1 if any(record.get("is_met") is False for record in records) else 0)


def program(words: argparse.Namespace) -> Runs:
    return Runs(report.program_file(words))


def main(doc: str, parts: list, begin: Callable = program, more: Callable = lambda parser: None) -> None:
    """Runs the parts of a benchmark, or some: functions of what `begin` gives once, of the words and of a folder."""

    def also(parser):
        add_records(parser)
        parser.add_argument("--quick", action="store_true", help="a tenth of the objects")
        more(parser)

    words = report.options(doc, also, parts)
    with tempfile.TemporaryDirectory() as words.folder:
        try:
            begun = begin(words)
            for part in words.parts:
                part(begun, words, words.folder)
        except report.Failed as why:
            sys.exit(str(why))
    ended(words)
