"""Running the scripts of tests/ and bench/, which are modules that bin/run starts: which there are, what each prints,
and how much passed and failed."""
import functools
import os
import re
import resource
import subprocess
import sys
import threading
import time
from collections.abc import Callable, Sequence
from pathlib import Path
from typing import Any

from nixkeep_dev.build import program
from nixkeep_dev.testing import processes, report, skips

TESTS = f"{program.HERE}/tests"
# The minutes after which a script hangs, where all run together: many times what it takes on a machine that is busy.
# The second number is for those that take minutes; one that is run alone may try each place there is, for hours.
LIMIT, LONG, ALONE = 30, 120, 24 * 60
LONG_ONES = ("cases", "examples/team/try", "gate/by_rattle", "gate/coverage", "gate/launched", "gate/sabotage",
             "gate/started", "package/clean_machine", "compare/model", "compare/nix_store", "compare/sqlite",
             "faults/stop_writes", "tools/test_cache", "tools/test_large", "tools/test_remote", "tools/test_units")
# How many of the last lines of a run that failed are shown again.
LAST = 30


def spent() -> float:
    """The processor seconds of all that has run and ended below this process."""
    used = resource.getrusage(resource.RUSAGE_CHILDREN)
    return used.ru_utime + used.ru_stime


def scripts(folder: str, start: str = "") -> list[str]:
    """The scripts of a folder of tests/, by name."""
    return sorted(path.stem for path in Path(TESTS, folder).glob(f"{start}*.py"))


def file_of(name: str) -> str:
    """The file of a script by its name below tests/: a module, the folder of cases or, of examples/, an executable."""
    # (normpath: Path leaves `..` in a path, or takes links out of it)
    file = os.path.normpath(f"{TESTS}/{name}")
    return file if Path(file).exists() else f"{file}.py"


def command(words: list[str]) -> list[str]:
    """The command that starts a script with words: bin/run of its repository, if it is a module or of the cases."""
    file = str(Path(words[0]).absolute())
    if not file.endswith((".py", ".txt", "/tests/cases")):
        return [*words]
    top = next(folder for folder in Path(file).parents if (folder / "bin/run").exists())
    return [f"{top}/bin/run", file, *words[1:]]


def compile_modules(top: str) -> None:
    """Compiles the modules of a copy of the repository, so that not each process that imports one has to do it. What
    was made of other bytes than a module has now isn't used."""
    words = [sys.executable, "-m", "compileall", "-qq", "-j", "0", "--invalidation-mode", "checked-hash"]
    subprocess.run([*words, *(f"{top}/{name}" for name in ("bench", "dev", "examples", "tests", "tools"))])


@functools.cache
def help_of(file):
    """What a script prints as its help."""
    return subprocess.run(command([file, "--help"]), capture_output=True, text=True).stdout


def options_of(file: str, given: dict) -> list[str]:
    """The options that a script takes, as its help says, of those that are given by name."""
    taken = [name for name, value in given.items() if value is not None and f"--{name}" in help_of(file)]
    return [word for name in taken for word in (f"--{name}", str(given[name]))]


def name_of(words: Sequence[str]) -> str:
    """A script's path without that of tests/, or the whole of another command."""
    file = words[0].removeprefix(f"{program.HERE}/").removeprefix("tests/").removesuffix(".py")
    return file if "/" in words[0] else " ".join(words)


def limit_of(words):
    """The minutes after which a script hangs, where all run together."""
    return LONG if name_of(words) in LONG_ONES else LIMIT


class Ran:
    """A run of a script: its status, how much passed, failed and was skipped, what it printed, its minutes and those of
    processors."""

    def __init__(self, words: list, status: int | bool, counts: tuple, output: str, seconds: float, used: Any):
        self.name, self.status, self.output = name_of(words), status, output
        self.passed, self.failed, self.skipped = counts
        self.minutes, self.work = seconds / 60, (used.ru_utime + used.ru_stime) / 60

    def is_good(self) -> bool:
        return self.status == 0

    def seed(self) -> str | None:
        """What chance began with, as it said; None where it left nothing to chance."""
        said = re.findall(r"\b(?:seed|scenarios) (\d+)", self.output)
        return said[-1] if said else None

    def part(self) -> str:
        """What it tried of what there is, as it said; empty where it said nothing of that."""
        said = re.findall(r"^([\d,]+ of [\d,]+ [a-z ]+?)(?: tried| measured|,|$)", self.output, re.M)
        return said[-1] if said else ""

    def end_of_failed(self) -> list[str]:
        """Its last lines, after those before them that name what failed."""
        lines = self.output.splitlines()
        named = [line for line in lines[:-LAST] if re.search(r"\bFAILED\b", line)]
        return [*named[:LAST], *lines[-LAST:]]

    def skips(self) -> list[str]:
        """What it said that it skipped, each once."""
        return [*dict.fromkeys(re.findall(r"^\s*skipped: (.*)$", self.output, re.M | re.I))]


def run(words: list[str], is_shown: bool = True, each_second: Callable = lambda pid: None,
        limit: float | None = None) -> Ran:
    """Runs a script, in the folder above tests/. What it prints is shown line by line, or kept. One that goes on after
    `limit` minutes, or its own limit, is ended, and has failed; so has one that left something that may still print."""
    limit = limit or limit_of(words)
    since, kept, counts, ended, hangs = time.monotonic(), [], None, threading.Event(), threading.Event()
    how = {"cwd": program.HERE, "stdin": subprocess.DEVNULL, "stdout": subprocess.PIPE}
    how |= {"stderr": None if is_shown else subprocess.STDOUT, "text": True, "errors": "replace"}
    ran = subprocess.Popen(command(words), **how)

    def watch():
        while not ended.is_set():
            each_second(ran.pid)
            if time.monotonic() - since > 60 * limit:
                hangs.set()
                # (again, since what it has started may start more meanwhile)
                processes.end(ran.pid, ran.stdout)
            ended.wait(1)

    threading.Thread(target=watch, daemon=True).start()
    for line in ran.stdout:
        counted = re.fullmatch(r"(\d+) passed, (\d+) failed(?:, (\d+) skipped)?\n", line)
        counts = tuple(int(group or 0) for group in counted.groups()) if counted else counts
        kept.append(line)
        if is_shown:
            print(line, end="", flush=True)
    _, status, used = os.wait4(ran.pid, 0)
    ended.set()
    ran.returncode = status = os.waitstatus_to_exitcode(status)
    if hangs.is_set():
        kept.append(f"it hangs: it was ended after {limit:g} minutes\n")
        status = status or 1
    # (one that says nothing of what passed, or ends badly, has failed once at least)
    passed, failed, skipped = counts or (0, 0, 0)
    failed = max(failed, 1) if status or counts is None else failed
    counts, seconds = (passed, failed, skipped), time.monotonic() - since
    return Ran(words, status or counts is None, counts, "".join(kept), seconds, used)


def show(ran: Ran) -> None:
    """Prints what a script printed that wasn't shown, and how long it took."""
    report.tell(f"\n{ran.name}: {60 * ran.minutes:.0f} s\n{ran.output}".rstrip("\n"))


def show_parts(ended):
    """A table of the runs, those first that took most of the processors, and the ends of those that failed. Numbers of
    a run with a seed may differ with another one, as each day has. Some say what they tried of what there is."""
    columns = "".join(f"{title:>8}" for title in ("clock", "passed", "failed", "skipped"))
    report.tell(f"\n{'minutes of parts':30}{'processor':>10}{columns}  {'seed':6}  tried")
    for ran in sorted(ended, key=lambda ran: -ran.work):
        numbers = f"{ran.minutes:8.1f}{ran.passed:8}{ran.failed:8}{ran.skipped:8}  {ran.seed() or '':6}"
        report.tell(f"{ran.name:30}{ran.work:10.1f}{numbers}  {ran.part()}".rstrip())
    for ran in ended:
        if ran.failed:
            report.tell("\n".join([f"\n{ran.name} failed, and ended so:", *ran.end_of_failed()]))


def show_skips(ended, left_out):
    """What was skipped, and why, a line each."""
    lines = [f"  {ran.name}: {what}" for ran in ended for what in ran.skips()] + [f"  {name}" for name in left_out]
    if lines:
        report.tell("\nskipped:\n" + "\n".join(lines))


def not_allowed(ended: list[Ran]) -> int:
    """Prints what was skipped that the list of skips doesn't name, where a skip is a failure; how many there are."""
    lines = [line for ran in ended for line in skips.faults(ran, skips.allowed())]
    if lines:
        report.tell(f"\nskipped, and {skips.NAME} doesn't name it:\n" + "\n".join(f"  {line}" for line in lines))
    return len(lines)


def together(ended: list[Ran], more_failed: int = 0, left_out: Sequence[str] = (), say: Callable = lambda: None,
             may_skip: bool = True) -> int:
    """Prints what each run took where there are several, what was skipped (`left_out` are whole parts), what is to be
    said besides, and how much passed, failed and was skipped in all; returns the status. Where nothing may be skipped,
    what the list of skips doesn't name has failed."""
    if len(ended) > 1:
        show_parts(ended)
    show_skips(ended, left_out)
    more_failed += 0 if may_skip else not_allowed(ended)
    say()
    passed, failed = sum(ran.passed for ran in ended), sum(ran.failed for ran in ended) + more_failed
    report.tell(report.ending(passed, failed, sum(ran.skipped for ran in ended) + len(left_out)))
    return 1 if failed else 0
