"""The cases of tests/cases: pages with commands and what they print. tests/README.md says how one is written."""
import contextlib
import difflib
import os
import re
import signal
import subprocess
import sys
import tempfile
from pathlib import Path

from nixkeep_dev.build.program import HERE
from nixkeep_dev.testing.http_messages import free_port

CASES = f"{HERE}/tests/cases"
# What a case may take.
SECONDS = 1200
# A property of the tests of steps that only prepare something: where they pass they aren't counted.
PREPARES = ("only prepares", True)

# Runs the steps in one shell, so that a later one sees the variables, the folder and the jobs of those before it.
SHELL = """
. "$PRELUDE"
for step in "$STEPS"/*.step; do
  eval "$(<"$step")" </dev/null >"$step.output" 2>"$step.errors"
  echo "$?" >"$step.status"
done
"""


# What compares something in a step of which nothing is wanted.
COMPARES = re.compile(r"\b(cmp|diff|test|grep|comm)\b|\[\[? |\|\| *echo")
# A step that only says what a function does.
FUNCTION = re.compile(r"[\w-]+\(\) \{\s.*\s\}", re.S)


class Ran:
    """A case that ran: the number of its steps, those that came out otherwise, each with what differs, those that were
    skipped, each with what isn't here, and how many of the others only prepare something: these aren't counted."""

    def __init__(self, count: int, wrong: list, skipped: list, prepared: int = 0):
        self.count, self.wrong, self.skipped, self.prepared = count, wrong, skipped, prepared

    def passed(self) -> int:
        return self.count - len(self.wrong) - len(self.skipped) - self.prepared


class Step:
    """A command, the number of its line, and the lines after it: what has to come."""

    def __init__(self, line, command):
        self.line, self.command, self.wanted = line, command, []

    def only_prepares(self) -> bool:
        """Whether nothing is wanted of it but that it says nothing, and it compares nothing."""
        return not self.wanted and bool(not COMPARES.search(self.command) or FUNCTION.fullmatch(self.command))

    def parts(self) -> tuple[list[str], list[str], int]:
        """The lines of standard output, those of standard error, and the status."""
        output, errors, status = [], [], 0
        for line in self.wanted:
            ends = re.fullmatch(r"\[(\d+)\]", line)
            if ends:
                status = int(ends[1])
            elif line.startswith("2> ") or line == "2>":
                errors.append(line[3:])
            else:
                output.append(line)
        return output, errors, status


def steps_of(text: str) -> list[Step]:
    """The steps of a case: what is indented by two blanks; all else is prose."""
    steps, is_open = [], False
    for number, line in enumerate(text.split("\n"), 1):
        if line.startswith("  $ "):
            steps.append(Step(number, line[4:]))
        elif is_open and (line.startswith("  > ") or line == "  >"):
            steps[-1].command += "\n" + line[4:]
        elif steps and line.startswith("  ") and (is_open or steps[-1].wanted):
            steps[-1].wanted.append(line[2:])
        elif line.startswith("  "):
            raise ValueError(f"line {number}: what is indented begins with a line '  $ COMMAND'")
        is_open = line.startswith(("  $ ", "  > ")) or is_open and line == "  >"
    return steps


def lines_of(written: bytes) -> list[str]:
    """What was written, as lines; one without its line feed says so."""
    lines = written.decode("utf-8", "backslashreplace").split("\n")
    last = lines.pop()
    return lines + [last + " (no newline)"] * bool(last)


def is_line(wanted, line):
    if wanted == "|" or wanted.startswith("| "):
        return line == wanted[2:]
    if wanted.endswith(" (glob)"):
        return re.fullmatch(".*".join(map(re.escape, wanted[:-7].split("*"))), line) is not None
    return line == wanted


def are_lines(wanted, lines):
    """Whether the lines are those wanted, where '...' stands for any number of them."""
    for at, line in enumerate(wanted):
        if line == "...":
            return any(are_lines(wanted[at + 1 :], lines[skipped:]) for skipped in range(at, len(lines) + 1))
        if at == len(lines) or not is_line(line, lines[at]):
            return False
    return len(wanted) == len(lines)


def missing(path):
    """What a step was skipped without; None where it was done."""
    file = Path(f"{path}.skipped")
    return file.read_text().split("\n")[0] if file.exists() else None


def difference(step, path):
    """What came of a step in place of what was wanted, or None."""
    if not Path(f"{path}.status").exists():
        return "the shell ended, or was stopped, before this step did"
    output, errors, status = (Path(f"{path}.{kind}").read_bytes() for kind in ("output", "errors", "status"))
    wanted, came = step.parts(), (lines_of(output), lines_of(errors), int(status))
    if are_lines(wanted[0], came[0]) and are_lines(wanted[1], came[1]) and wanted[2] == came[2]:
        return None
    return "\n".join(difflib.unified_diff(shown(*wanted), shown(*came), "wanted", "came", lineterm=""))


def shown(output, errors, status):
    return [*output, *("2> " + line for line in errors), *[f"[{status}]"] * (status != 0)]


def environment(room):
    """What the steps see: the program and the tools of the cases, before those of the system, and a port that no other
    case or script chooses meanwhile."""
    path = [f"{room}/bin", f"{CASES}/steps", "/usr/local/bin", "/usr/bin", "/bin", str(Path(sys.executable).parent)]
    places = {"HOME": f"{room}/work", "STEPS": f"{room}/steps", "PRELUDE": f"{CASES}/prelude.sh"}
    return {**places, "PATH": ":".join(path), "LANG": "C.UTF-8", "FREE_PORT": str(free_port())}


def run_steps(steps, room, programs, seconds):
    """Runs the steps in a folder of their own; returns where each has left what it gave."""
    for name in ("bin", "steps", "work"):
        os.mkdir(f"{room}/{name}")
    for name, file in programs.items():
        os.symlink(file, f"{room}/bin/{name}")
    paths = [f"{room}/steps/{at:04}.step" for at in range(len(steps))]
    for step, path in zip(steps, paths):
        Path(path).write_text(step.command)
    where = {"cwd": f"{room}/work", "env": environment(room), "stdin": subprocess.DEVNULL, "start_new_session": True}
    shell = subprocess.Popen(["bash", "-c", SHELL], **where)
    try:
        with contextlib.suppress(subprocess.TimeoutExpired):
            shell.wait(seconds)
    finally:
        # (also what a step has left running)
        with contextlib.suppress(ProcessLookupError):
            os.killpg(shell.pid, signal.SIGKILL)
        shell.wait()
    return paths


def run_case(case: str, programs: dict[str, str], seconds: float = SECONDS) -> Ran:
    """Runs a case with these programs by name, which come before the tools."""
    steps = steps_of(Path(case).read_text())
    if not steps:
        raise ValueError("it has no step")
    with tempfile.TemporaryDirectory(prefix="case-") as room:
        paths = run_steps(steps, room, programs, seconds)
        results = [(step, difference(step, path), missing(path)) for step, path in zip(steps, paths)]
    wrong = [(step, why) for step, why, _ in results if why]
    prepared = sum(step.only_prepares() for step, why, what in results if not why and not what)
    return Ran(len(steps), wrong, [(step, what) for step, why, what in results if what and not why], prepared)
