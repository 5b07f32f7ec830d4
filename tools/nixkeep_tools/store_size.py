"""How large the file of a store may be, so that a server can open it again."""
import contextlib
import os
import struct
from collections.abc import Iterator

from . import store_file

# What a process that opens a file needs besides the bytes of the file: the page cache, which has all of a smaller file,
# and the rest.
CACHE, REST = 255 << 20, 200_000_000
CGROUPS, OWN = "/sys/fs/cgroup", "/proc/self/cgroup"


def opened(file):
    # (whoever has taken a service over may put a pipe there, which isn't waited for)
    return open(file, "rb", buffering=0, opener=lambda name, flags: os.open(name, flags | os.O_NONBLOCK))


def used(file: str) -> int:
    """The bytes of the pages that a store's file uses, with those in its log. Other processes may have it open."""
    with opened(file) as data:
        head = data.read(100) or b""
    size, pages, free = (int.from_bytes(head[at : at + more], "big") for at, more in ((16, 2), (28, 4), (36, 4)))
    pages, free = of_log(store_file.log_of(file)) or (pages, free)
    return (pages - free) * (size if size != 1 else 65_536)


def of_log(file):
    """The number of pages of the database and how many of them are free, by the last commit of a log; None without one.

    Frames that are left from before the log was begun anew have another salt.
    """
    with contextlib.suppress(FileNotFoundError), opened(file) as log:
        head, at, first, last = log.read(32) or b"", 32, None, None
        size = int.from_bytes(head[8:12], "big") if len(head) == 32 else 0
        while size and len(frame := os.pread(log.fileno(), 24, at)) == 24 and frame[8:16] == head[16:24]:
            number, pages = struct.unpack(">2I", frame[:8])
            first = at + 24 if number == 1 else first
            last = (pages, first) if pages else last
            at += 24 + size
        if last and last[1]:
            return last[0], int.from_bytes(os.pread(log.fileno(), 4, last[1] + 36), "big")
    return None


def limits() -> Iterator[int]:
    """Yields the limits of memory (`MemoryMax=`) of the control groups that this process is in, by either version of
    control groups."""
    with open(OWN, encoding="utf-8") as file:
        for line in file:
            _, controllers, own = line.rstrip("\n").split(":", 2)
            if controllers and "memory" not in controllers.split(","):
                continue
            place, name = ("memory", "memory.limit_in_bytes") if controllers else ("", "memory.max")
            own = own.rstrip("/")
            # (a container sees its own group as the first one, "")
            for at in (at for at in range(len(own) + 1) if own[at:at + 1] in ("/", "")):
                with contextlib.suppress(OSError), open(f"{CGROUPS}/{place}{own[:at]}/{name}") as limit:
                    yield from (int(word) for word in limit.read().split() if word.isdigit())


def machine() -> int:
    """The bytes of the machine's memory."""
    return os.sysconf("SC_PHYS_PAGES") * os.sysconf("SC_PAGE_SIZE")


def memory() -> int:
    """The bytes of memory that this service may use: the least of its limits, or the machine's."""
    with contextlib.suppress(OSError):
        return min([machine(), *limits()])
    return machine()


def resident(process: int | str = "self") -> int:
    """The bytes of memory that a process has. Raises OSError or ValueError for one that has ended."""
    with open(f"/proc/{process}/statm", encoding="ascii") as file:
        return int(file.read().split()[1]) * os.sysconf("SC_PAGE_SIZE")


def highest(process: int) -> int:
    """The most bytes of memory that a process has had. Raises OSError or ValueError for one that has ended."""
    with open(f"/proc/{process}/status", encoding="ascii", errors="replace") as file:
        peaks = [int(line.split()[1]) << 10 for line in file if line.startswith("VmHWM:")]
    if not peaks:
        raise ValueError("a process that has ended")
    return peaks[0]


def opened_with(limit: int) -> int:
    """The bytes of the largest file that a server opens with so much memory: docs/OPERATING.md, Growth."""
    left = max(0, limit - REST)
    return max(min(left // 2, CACHE), left - CACHE)
