"""What keeps nixkeep from opening a file, whatever its tables hold: its path, its access, its locks and its log."""
import collections
import contextlib
# (os.path, not Path: the caller may not be allowed to look at a file, and a link may lead to itself)
import os
import stat
import struct

from . import store_file

# Why nixkeep refuses a file. `is_readable` says whether its rows can be examined all the same.
Reason = collections.namedtuple("Reason", "text is_readable")
HEAD = b"SQLite format 3\0"
# How a journal begins, and ends where it names another file.
JOURNAL = bytes.fromhex("d9d505f920a163d7")
LONGEST_NAME = 4_096
# How much of a command line is shown.
LONGEST = 300


# ---- the path and the file


def of_path(path: str) -> list[Reason]:
    """The Reasons that the path gives by itself, and the file at it."""
    if path in ("", ":memory:") or path.startswith("file:"):
        return [Reason("nixkeep opens no such path: it names a file by its path alone", False)]
    if not os.path.exists(path):
        return of_missing(path)
    if not os.path.isfile(path):
        return [Reason("a folder or a device, and no file", False)]
    return [*of_file(os.path.realpath(path), "the file"), *of_log(path), *of_journal(path)]


def of_missing(path):
    folder = os.path.dirname(os.path.realpath(path))
    if os.path.isdir(folder):
        return []
    return [Reason(f"there is no folder {folder}", False)]


def of_file(path, what):
    """Why nixkeep, as this user, can't have the file for itself."""
    if not os.access(path, os.R_OK):
        return [Reason(f"{what} may not be read by this user: {owned(path)}", False)]
    reasons = []
    if not os.access(path, os.W_OK):
        reasons.append(Reason(f"{what} may not be written by this user: {owned(path)}", True))
    if os.stat(path).st_nlink > 1:
        reasons.append(Reason(f"{what} has {os.stat(path).st_nlink} names (hard links), and may have one", True))
    return [*reasons, *of_locks(path, what)]


def owned(path):
    """The owner and the mode of a file, as numbers."""
    seen = os.stat(path)
    return f"its owner is {seen.st_uid}:{seen.st_gid}, its mode {stat.S_IMODE(seen.st_mode):o}"


def of_log(path):
    log = store_file.log_of(path)
    if not os.path.lexists(log):
        folder = os.path.dirname(log)
        return [] if os.access(folder, os.W_OK) else [Reason(f"this user may make no log in the folder {folder}", True)]
    if os.path.islink(log) or not os.path.isfile(log):
        return [Reason(f"its log {log} is a link, a folder or a device, and no file", False)]
    return [*of_file(log, f"its log {log}"), *of_pages(path, log)]


def of_pages(path, log):
    """A log for pages of another size belongs to another file, if it has a frame. SQLite may pass over it."""
    try:
        with store_file.opened(path) as file, store_file.opened(log) as data:
            own, head, more = file.read(18), data.read(32), data.read(24)
    except OSError:
        return []
    size, of_log = int.from_bytes(own[16:18], "big"), int.from_bytes(head[8:12], "big")
    size = 65_536 if size == 1 else size
    if len(more) < 24 or own[:16] != HEAD or not store_file.is_log_head(head) or of_log == size:
        return []
    return [Reason(f"its log {log} has pages of {of_log} bytes, and the file has others", True)]


def of_journal(path):
    """A journal that SQLite left holds what a change that was stopped has overwritten."""
    journal = os.path.realpath(path) + "-journal"
    if not os.path.lexists(journal):
        return []
    if os.path.islink(journal) or not os.path.isfile(journal):
        return [Reason(f"{journal} is a link, a folder or a device, and no journal", False)]
    with store_file.opened(journal) as file:
        if file.read(1) in (b"", b"\0"):
            return []
        named = named_by(file)
    text = f"another program stopped in a change, and left {journal}: sqlite3 undoes the change when it opens the file"
    return [Reason(f"{text}, and deletes {named}, which the journal names" if named else text, False)]


def named_by(journal):
    """The file that a journal names at its end, or None. SQLite deletes it, whichever it is, once the change is undone:
    if the change was one of several databases, it has the names of their journals."""
    size = os.fstat(journal.fileno()).st_size
    length, end = struct.unpack(">I4x8s", os.pread(journal.fileno(), 16, max(0, size - 16)).rjust(16, b"\0"))
    if end != JOURNAL or not 0 < length <= min(LONGEST_NAME, size - 16):
        return None
    return os.fsdecode(os.pread(journal.fileno(), length, size - 16 - length))


def unreadable(path: str, error: Exception) -> str:
    """Why SQLite can't read a file: it is no database, or a damaged one."""
    with open(path, "rb") as file:
        is_database = file.read(len(HEAD)) == HEAD
    return f"a damaged database: {error}" if is_database else "no SQLite database: the file doesn't begin as one"


# ---- locks


def of_locks(path: str, what: str) -> list[Reason]:
    with open(path, "rb") as file:
        pid = store_file.locker(file)
    if pid is None:
        return []
    holders = [holder for holder in {*locking(path), *([pid] if pid else [])}
               if is_running(holder)] or having_open(path)
    named = ", ".join(map(described, sorted(holders))) or "a process that this user can't see"
    return [Reason(f"{what} is locked by {named}", True)]


def is_running(pid):
    return os.path.exists(f"/proc/{pid}")


def locking(path):
    """The processes that the system lists with a lock on the file."""
    seen, pids = os.stat(path), set()
    name = f"{os.major(seen.st_dev):02x}:{os.minor(seen.st_dev):02x}:{seen.st_ino}"
    with contextlib.suppress(OSError), open("/proc/locks") as file:
        for line in file:
            words = line.split()
            if name in words and words[4].isdigit():
                pids.add(int(words[4]))
    return pids - {os.getpid()}


def having_open(path):
    """The processes that have the file open: a lock of an open file belongs to no process by itself."""
    seen, pids = os.stat(path), set()
    for pid in (int(name) for name in os.listdir("/proc") if name.isdigit()):
        with contextlib.suppress(OSError):
            for name in os.listdir(f"/proc/{pid}/fd"):
                with contextlib.suppress(OSError):
                    if os.path.samestat(seen, os.stat(f"/proc/{pid}/fd/{name}")):
                        pids.add(pid)
    return pids - {os.getpid()}


def described(pid):
    """The number of a process and its command line."""
    words = b""
    with contextlib.suppress(OSError), open(f"/proc/{pid}/cmdline", "rb") as file:
        words = file.read()
    shown = " ".join(words.decode("utf-8", "backslashreplace").replace("\0", " ").split())[:LONGEST]
    return f"process {pid} ({shown})" if shown else f"process {pid}"
