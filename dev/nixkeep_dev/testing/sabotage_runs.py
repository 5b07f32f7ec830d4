"""Running the parts of the tests that have to notice planted faults, without a fault and with one."""
import contextlib
import os
import signal
import subprocess
import tempfile
import time
from collections.abc import Sequence
from concurrent.futures import Executor, Future

from nixkeep_dev.testing import by_pytest, days, report, sabotage
from nixkeep_dev.testing.runs import command, options_of

# What a part may take at least with a fault, and how many times as long as without it. One that doesn't end by then has
# noticed the fault.
SECONDS, TIMES = 900, 5
# What it may take without a fault, on a machine that is slow and busy.
PLAIN = 3600


class Run:
    """A run of a part in a copy of the repository, with more words and at most some seconds: its status, None where it
    didn't end, what it printed, its seconds and those of processors."""

    def __init__(self, top: str, part: Sequence[str], program: str, most: float, more: Sequence[str] = ()):
        file = f"{top}/{part[0]}"
        words = command([file, *part[1:], *more])
        if os.access(words[0], os.X_OK):
            words += options_of(file, {"program": program})
        with tempfile.TemporaryDirectory(prefix="sabotage-tmp-") as folder, tempfile.TemporaryFile() as out:
            since, how = time.monotonic(), {"stdin": subprocess.DEVNULL, "stdout": out, "stderr": subprocess.STDOUT}
            ran = subprocess.Popen(words, cwd=top, env={**os.environ, "TMPDIR": folder}, start_new_session=True, **how)
            self.status, self.work = ended(ran, since + most)
            self.seconds = time.monotonic() - since
            out.seek(0)
            self.output = out.read().decode(errors="replace") + "it didn't end\n" * (self.status is None)

    def is_empty(self) -> bool:
        """Whether it ended well and tried nothing."""
        return self.status == 0 and "\n0 passed" in f"\n{self.output}"

    def last(self) -> str:
        return "\n".join(self.output.splitlines()[-12:])


def ended(ran, until):
    """Waits for a part, and ends it at a time, with all that it has started and left: its status, None where it was
    ended, and the processor seconds that it took."""
    pid = 0
    try:
        while not pid and time.monotonic() < until:
            pid, status, used = os.wait4(ran.pid, os.WNOHANG)
            time.sleep(0 if pid else 0.05)
    finally:
        with contextlib.suppress(ProcessLookupError):
            os.killpg(ran.pid, signal.SIGKILL)
    if not pid:
        _, _, used = os.wait4(ran.pid, 0)
    # (it has been waited for)
    ran.returncode = 0
    return os.waitstatus_to_exitcode(status) if pid else None, used.ru_utime + used.ru_stime


def without_fault(copies: sabotage.Copies, part: Sequence[str], program: str, bound: days.Bound) -> Run | None:
    """A run of a part where nothing is wrong, the second one where the first fails; None where the bound leaves it
    out."""
    for _ in range(2):
        if bound.is_spent():
            return None
        with copies.one() as top:
            ran = Run(top, part, program, PLAIN)
        if ran.status == 0:
            break
        report.tell(f"{' '.join(part)}: it fails without a fault, and is run once more at most:\n{ran.last()}")
    return ran


def with_fault(copies, fault, program, bound, running):
    """A run of the part that has to notice a fault, with it, after one without it; None where the bound leaves it
    out."""
    plain = running.result()
    if bound.leaves_out([fault]):
        return None
    # (what pytest runs needn't go on after the first test that fails)
    more = ["-x"] if by_pytest.has_tests(f"{copies.base}/{fault.part[0]}") else []
    with tempfile.TemporaryDirectory(prefix="sabotage-") as room, copies.one() as top:
        if fault.is_of_program():
            program = sabotage.changed_program(fault, program, room)
        else:
            sabotage.change_files(fault, top)
        return Run(top, fault.part, program, max(SECONDS, TIMES * (plain.seconds if plain else 0)), more)


def begun(pool: Executor, faults: Sequence[sabotage.Fault], copies: sabotage.Copies, program: str,
          bound: days.Bound) -> dict[str, tuple[Future, Future]]:
    """By the name of each fault its run, and the one of its part without a fault. Since a fault's run waits for that,
    those of a part come after the one of the next part without a fault."""
    parts = [*dict.fromkeys(tuple(fault.part) for fault in faults)]
    plain, running = {}, {}
    for part, before in zip([*parts, None], [None, *parts]):
        if part:
            plain[part] = pool.submit(without_fault, copies, part, program, bound)
        for fault in [fault for fault in faults if tuple(fault.part) == before]:
            running[fault.name] = pool.submit(with_fault, copies, fault, program, bound, plain[before]), plain[before]
    return running
