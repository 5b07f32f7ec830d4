"""The processes of this machine, as /proc has them."""
import collections
import contextlib
import os
import signal
from pathlib import Path
from typing import IO


def processes() -> dict[int, tuple]:
    """The parent, the start and the processor ticks, those of its ended children too, of each process."""
    running = {}
    for name in os.listdir("/proc"):
        if name.isdigit():
            with contextlib.suppress(OSError):
                fields = Path(f"/proc/{name}/stat").read_text().rpartition(")")[2].split()
                running[int(name)] = int(fields[1]), fields[19], sum(map(int, fields[11:15]))
    return running


def children(now: dict) -> dict[int, list]:
    """The processes that each process of these has started."""
    above = collections.defaultdict(list)
    for pid, (parent, _, _) in now.items():
        above[parent].append(pid)
    return above


def memory(pid: int, key: str = "VmHWM") -> int:
    """The KiB of memory that a process had at most; with VmRSS those that it has now."""
    return int(Path(f"/proc/{pid}/status").read_text().partition(f"{key}:")[2].split()[0])


def writing_to(pipe: IO) -> list[int]:
    """The processes that have the other end of a pipe open: one that is left alone by what started it may, too."""
    wanted, pids = os.fstat(pipe.fileno()), []
    for file in Path("/proc").glob("[0-9]*/fd/*"):
        with contextlib.suppress(OSError):
            # (samestat: the pipe is known by its number, and has no name)
            if os.path.samestat(file.stat(), wanted):
                pids.append(int(file.parts[2]))
    return [pid for pid in pids if pid != os.getpid()]


def end(top: int, pipe: IO | None = None) -> None:
    """Ends a process, all that it has started, and all that may still write to this pipe."""
    above, left = children(processes()), [top, *(writing_to(pipe) if pipe else [])]
    while left:
        at = left.pop()
        left += above[at]
        with contextlib.suppress(ProcessLookupError):
            os.kill(at, signal.SIGKILL)
