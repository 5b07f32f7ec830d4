"""The file of a store, read and never written: its objects and roots, what keeps what, and how much of it.

    with store_file.open_store("store.db") as conn:
        store = store_file.read(conn)
    for root, usage in store_file.usage_of_roots(store, store_file.edges(store)):
        print(usage.all, usage.alone, root.label)

Nothing here tests the rows: `nixkeep-explain` reports whether a file is sound, and nixkeep tests it at each opening.
All sizes are bytes of archives, as in `nixkeep report`. Paths are base names.
"""
import collections
import contextlib
import errno
import fcntl
import functools
import hashlib
import operator
import os
import sqlite3
import stat
import struct
import sys
import urllib.parse
from collections.abc import Callable, Iterable, Iterator
from pathlib import Path
from typing import BinaryIO

# Each table of the third schema: its columns, `?` where NULL is allowed, and how many of them make its key.
FORMS = {
    "meta": (["word TEXT", "val TEXT"], 1),
    "object": (["base TEXT", "nar BLOB", "hash BLOB", "deriver TEXT ?", "ca TEXT ?"], 1),
    "refs": (["base TEXT", "target TEXT"], 2),
    "outs": (["base TEXT", "name TEXT", "target TEXT"], 2),
    "permanent": (["name TEXT", "target TEXT"], 1),
    "user_root": (["owner TEXT", "name TEXT", "target TEXT"], 2),
    "profile": (["owner TEXT", "name TEXT", "cur INTEGER"], 2),
    "generation": (["owner TEXT", "name TEXT", "num INTEGER", "target TEXT"], 3),
    "runtime": (["label TEXT", "target TEXT"], 2),
    "piece": (["base TEXT", "num INTEGER", "bytes BLOB"], 2),
    "temp_root": (["owner TEXT", "session INTEGER", "target TEXT"], 3),
}
# The tables that each schema lacks.
LACKS = {1: ["piece", "temp_root"], 2: ["temp_root"], 3: []}
# The bytes of an archive in its object's row, and in each piece but the last.
PART = 65_536
# How a log begins, by the order of bytes in its sums.
LOG_ORDERS = {b"\x37\x7f\x06\x82": "<", b"\x37\x7f\x06\x83": ">"}
# The bytes that SQLite and nixkeep lock.
LOCKED = (1 << 30, 512)

# An object: the length of its archive, the 32 bytes of the archive's SHA-256, the deriver and the content address or
# None, a rising list of references, and a dictionary of outputs from name to path.
Object = collections.namedtuple("Object", "size digest deriver address references outputs")
# A root: one of KINDS, the path that it keeps, its label in listings, and its owner. `name` is the name of a root or a
# profile, `number` that of a generation or a session. What a kind of root hasn't is None. Sessions of two users with
# one number and one target are two roots here, and one root in nixkeep's listings.
Root = collections.namedtuple("Root", "kind target label owner name number")
KINDS = ["permanent", "user", "profile", "runtime", "temporary"]
# The contents of a file: the number of its schema, its store directory, a dictionary of objects by path, a list of
# roots in nixkeep's order, and a dictionary of current generations by owner and name of the profile.
Store = collections.namedtuple("Store", "schema store_dir objects roots current")
# What some roots keep: the bytes of all that they reach, and the bytes of what no other root reaches.
Usage = collections.namedtuple("Usage", "all alone")


# ---- opening


class Locked(OSError):
    """Another process has locked the file. `pid` is its number, or 0 if the system doesn't say."""

    def __init__(self, path: str, pid: int):
        super().__init__(f"{path} is locked by {f'process {pid}' if pid else 'another process'}")
        self.path, self.pid = path, pid


def opened(path: str) -> BinaryIO:
    """A file that is open for reading. Raises OSError for what is no file: a pipe would be waited for."""
    file = open(path, "rb", opener=lambda name, flags: os.open(name, flags | os.O_NONBLOCK))
    if stat.S_ISREG(os.fstat(file.fileno()).st_mode):
        return file
    file.close()
    raise OSError(errno.EINVAL, "it is no file", path)


def locker(file: BinaryIO) -> int | None:
    """The number of the process whose lock keeps nixkeep from an open file, or None if there is no lock.

    The number is 0 if the system doesn't say.
    """
    query = struct.pack("hhqqi4x", fcntl.F_WRLCK, os.SEEK_SET, *LOCKED, 0)
    kind, _, _, _, pid = struct.unpack("hhqqi4x", fcntl.fcntl(file, fcntl.F_GETLK, query))
    return None if kind == fcntl.F_UNLCK else max(pid, 0)


def lock(file: int) -> bool:
    """Takes the lock by which a server has an open file for itself, until the file is closed. Returns whether it could.
    The file has to be open for writing."""
    record = struct.pack("hhqqi4x", fcntl.F_WRLCK, os.SEEK_SET, *LOCKED, 0)
    with contextlib.suppress(BlockingIOError):
        fcntl.fcntl(file, fcntl.F_OFD_SETLK, record)
        return True
    return False


def log_of(path: str) -> str:
    """The path of the log of a file. If the file is a link, the log is next to its target."""
    # (Path.resolve raises an error for a link that leads to itself)
    return os.path.realpath(path) + "-wal"


def stamps(path: str) -> list[tuple[int, int, int]]:
    """A value that changes whenever the file or its log is written."""
    stamps = []
    for file in (path, log_of(path)):
        with contextlib.suppress(FileNotFoundError):
            seen = os.stat(file)
            stamps.append((seen.st_ino, seen.st_size, seen.st_mtime_ns))
    return stamps


def _sum(data, order, first, second):
    """The sum of a log over these bytes, which goes on from that over those before."""
    words = struct.unpack(f"{order}{len(data) // 4}I", data)
    for at in range(0, len(words), 2):
        first = first + words[at] + second & 0xFFFFFFFF
        second = second + words[at + 1] + first & 0xFFFFFFFF
    return first, second


def checksum(data: bytes) -> bytes:
    """The checksum of a page as SQLite's cksumvfs computes it, which is that of a log in one byte order."""
    return struct.pack("<2I", *_sum(data, "<", 0, 0))


def is_log_head(head: bytes) -> bool:
    """Whether these are the 32 bytes with which a log begins."""
    order = LOG_ORDERS.get(head[:4])
    return order is not None and len(head) == 32 and _sum(head[:24], order, 0, 0) == struct.unpack(">2I", head[24:])


def page_of_log(head: bytes) -> int | None:
    """The bytes of a page in a log that begins with these 32 bytes; None if SQLite takes nothing from it."""
    size = int.from_bytes(head[8:12], "big")
    return size if is_log_head(head) and 512 <= size <= 65_536 and not size & size - 1 else None


def commits(path: str) -> Iterator[tuple[bytes | None, int, int]]:
    """Yields the commits that SQLite takes from the log of a file.

    Each is the first page, or None if the log has none so far, the number of pages of the database, and the number of
    frames of the log up to there.
    """
    try:
        log = opened(log_of(path))
    except OSError:
        return
    with log:
        head, first = log.read(32), None
        if not (size := page_of_log(head)):
            return
        order = LOG_ORDERS[head[:4]]
        so_far = struct.unpack(">2I", head[24:])
        count = 0
        while len(frame := log.read(24 + size)) == 24 + size:
            number, pages, *sums = struct.unpack(">2I8x2I", frame[:24])
            so_far = _sum(frame[24:], order, *_sum(frame[:8], order, *so_far))
            if frame[8:16] != head[16:24] or tuple(sums) != so_far or not number:
                return
            first, count = frame[24:] if number == 1 else first, count + 1
            if pages:
                yield first, pages, count


def is_schema(text: str) -> bool:
    """Whether a text is the number of a schema, of this version or a later one."""
    return text.isascii() and text.isdigit() and len(text) < 10 and str(int(text)) == text


def quoted(path: str) -> str:
    """A path as it is written after `file:` in a URI of SQLite."""
    return urllib.parse.quote(os.fsencode(Path(path).absolute()))


def connect(path):
    """An SQLite connection that reads the file and its log. It takes no lock, and writes and makes no file.

    A text that isn't UTF-8 is returned with surrogates for its bad bytes.
    """
    where = quoted(path)
    # SQLite deletes a log without a commit, or next to an empty file, so it must not look for such a log.
    # It makes no file of shared memory next to a log if it has the file for itself.
    is_in_log = Path(path).stat().st_size and next(commits(path), None)
    how = "mode=ro&vfs=unix-none" if is_in_log else "mode=ro&immutable=1"
    conn = sqlite3.connect(f"file:{where}?{how}", uri=True, isolation_level=None)
    conn.text_factory = lambda text: text.decode("utf-8", "surrogateescape")
    conn.execute("PRAGMA locking_mode = EXCLUSIVE")
    return conn


def bytes_of(conn: sqlite3.Connection, pages: str) -> int:
    """The bytes of the pages of a connection's file: of all (`page_count`) or of the unused ones (`freelist_count`)."""
    count, size = (conn.execute(f"PRAGMA {name}").fetchone()[0] for name in (pages, "page_size"))
    return count * size


@contextlib.contextmanager
def open_store(path: str, despite_lock: bool = False) -> Iterator[sqlite3.Connection]:
    """A connection as from `connect`, under a lock that keeps others from writing. Raises Locked if one has the file.

    With `despite_lock` a locked file is read all the same. Its rows may be torn if `stamps` changes meanwhile.
    """
    with opened(path) as file:
        pid = locker(file)
        if pid is not None and not despite_lock:
            raise Locked(path, pid)
        if pid is None:
            fcntl.lockf(file, fcntl.LOCK_SH | fcntl.LOCK_NB, LOCKED[1], LOCKED[0])
        with contextlib.closing(connect(path)) as conn:
            yield conn


# ---- rows as objects and roots


def tables_of(conn: sqlite3.Connection) -> list[str]:
    """The names of the store's tables that exist."""
    names = {name for name, in conn.execute("SELECT name FROM sqlite_schema WHERE type = 'table'")}
    return [table for table in FORMS if table in names]


def version(path: str) -> str | None:
    """A digest of the paths of a store's objects and of its roots, or None if they can't be read, as while they are
    written. It needs no lock, and stays as it is where a log is copied into its file."""
    digest = hashlib.sha256()
    try:
        with open_store(path, despite_lock=True) as conn:
            for row in conn.execute("SELECT base FROM object ORDER BY base"):
                digest.update(repr(row).encode())
            for name in tables_of(conn):
                if name not in ("object", "refs", "outs", "piece"):
                    digest.update(repr((name, sorted(conn.execute(f"SELECT * FROM {name}")))).encode())
    except (OSError, sqlite3.Error):
        return None
    return digest.hexdigest()


def archive(conn: sqlite3.Connection, base: str) -> Iterator[bytes]:
    """Yields the bytes of an object's archive in pieces."""
    yield from (data for data, in conn.execute("SELECT nar FROM object WHERE base = ?", (base,)))
    if "piece" in tables_of(conn):
        yield from (piece for piece, in conn.execute("SELECT bytes FROM piece WHERE base = ? ORDER BY num", (base,)))


def _lists(rows):
    """Lists of rows by their first column, which is left out of the rows."""
    by_base = collections.defaultdict(list)
    for base, *rest in rows:
        by_base[base].append(rest)
    return by_base


def read_objects(conn: sqlite3.Connection) -> dict[str, Object]:
    """The objects by path, in the order of paths."""
    references = collections.defaultdict(list)
    for base, target in conn.execute("SELECT base, target FROM refs ORDER BY base, target"):
        # (one text for all that refer to an object, since there may be millions of references)
        references[base].append(sys.intern(target))
    outputs = _lists(conn.execute("SELECT base, name, target FROM outs ORDER BY base, name"))
    more = {}
    if "piece" in tables_of(conn):
        more = dict(conn.execute("SELECT base, sum(length(bytes)) FROM piece GROUP BY base"))
    rows = conn.execute("SELECT base, length(nar), hash, deriver, ca FROM object ORDER BY base")
    return {base: Object(size + more.get(base, 0), digest, deriver, address, references.get(base, []),
                         dict(outputs.get(base, []))) for base, size, digest, deriver, address in rows}


def read_roots(conn):
    """All roots, in nixkeep's order: by kind, target and label."""
    roots = []
    for name, base in conn.execute("SELECT * FROM permanent"):
        roots.append(Root("permanent", base, f"gcroots/{name}", None, name, None))
    for owner, name, base in conn.execute("SELECT * FROM user_root"):
        roots.append(Root("user", base, f"gcroots/per-user/{owner}/{name}", owner, name, None))
    for owner, name, num, base in conn.execute("SELECT * FROM generation"):
        roots.append(Root("profile", base, f"profiles/per-user/{owner}/{name}-{num}-link", owner, name, num))
    for label, base in conn.execute("SELECT * FROM runtime"):
        roots.append(Root("runtime", base, label, None, None, None))
    if "temp_root" in tables_of(conn):
        for owner, session, base in conn.execute("SELECT * FROM temp_root"):
            roots.append(Root("temporary", base, f"{{temp:{session}}}", owner, None, session))
    return sorted(roots, key=lambda root: (KINDS.index(root.kind), root.target, root.label, root.owner or ""))


def read(conn: sqlite3.Connection) -> Store:
    """The Store of a connection."""
    settings = dict(conn.execute("SELECT * FROM meta"))
    current = {(owner, name): cur for owner, name, cur in conn.execute("SELECT * FROM profile")}
    return Store(int(settings["schema"]), settings["store-dir"], read_objects(conn), read_roots(conn), current)


# ---- what keeps what


def edges(store: Store, keep_outputs: bool = False, keep_derivers: bool = True) -> dict:
    """A list for each path: the objects that this object keeps directly, under these settings of a configuration."""
    edges = {}
    for base, item in store.objects.items():
        outputs = item.outputs.values() if keep_outputs else []
        derivers = [item.deriver] if keep_derivers else []
        edges[base] = [to for to in (*item.references, *outputs, *derivers) if to in store.objects]
    return edges


def reach(kept: dict[str, list[str]], starts: Iterable[str]) -> set[str]:
    """The set of objects that some paths reach, themselves included. `kept` is from `edges`."""
    seen, left = set(), [base for base in starts if base in kept]
    while left:
        at = left.pop()
        if at not in seen:
            seen.add(at)
            left += kept[at]
    return seen


def _components(kept):
    """The paths in groups, each group before what it keeps. Those of a cycle, which keep one another, are together.
    (Tarjan's algorithm: nobody's chain of cycles takes longer than its length.)"""
    numbers, lows, left, components, grouped = {}, {}, [], [], set()
    for start in kept:
        open_ones = [] if start in numbers else [(start, iter(kept[start]))]
        while open_ones:
            at, rest = open_ones[-1]
            if at not in numbers:
                numbers[at] = lows[at] = len(numbers)
                left.append(at)
            to = next((other for other in rest if other not in grouped), None)
            if to is None:
                open_ones.pop()
                if open_ones:
                    lows[open_ones[-1][0]] = min(lows[open_ones[-1][0]], lows[at])
                if lows[at] == numbers[at]:
                    components.append([left.pop()])
                    while components[-1][-1] != at:
                        components[-1].append(left.pop())
                    grouped.update(components[-1])
            elif to in numbers:
                lows[at] = min(lows[at], numbers[to])
            else:
                open_ones.append((to, iter(kept[to])))
    return components[::-1]


def keepers(store: Store, kept: dict[str, list[str]],
            bit: Callable[[int, Root], int] = lambda at, root: at) -> dict[str, int]:
    """A number for each path: bit N is set if `store.roots[N]` reaches it. The number of a dead path is 0. Other bits
    than these are given by `bit`, of a root and its place."""
    bits = dict.fromkeys(kept, 0)
    for at, root in enumerate(store.roots):
        if root.target in bits:
            bits[root.target] |= 1 << bit(at, root)
    for group in _components(kept):
        together = functools.reduce(operator.or_, (bits[at] for at in group))
        bits.update(dict.fromkeys(group, together))
        for to in (target for at in group for target in kept[at] if together):
            if bits[to] != together:
                bits[to] |= together
    return bits


def _sizes(store, bits):
    """The bytes of the objects that share a number of `keepers`, by this number."""
    sizes = collections.Counter()
    for base, mask in bits.items():
        sizes[mask] += store.objects[base].size
    return sizes


def _usage(sizes, roots):
    """The Usage of some roots, whose bits are set in the number `roots`."""
    reached = sum(size for mask, size in sizes.items() if mask & roots)
    return Usage(reached, sum(size for mask, size in sizes.items() if mask and not mask & ~roots))


def owner_of(root):
    """The owner of a root: a user's name, or `(permanent)` or `(runtime)`."""
    return root.owner or f"({root.kind})"


def _largest_first(pairs):
    return sorted(pairs, key=lambda pair: (-pair[1].all, -pair[1].alone))


def usage_of_roots(store: Store, kept: dict[str, list[str]]) -> list[tuple[Root, Usage]]:
    """Pairs of a root and its Usage, largest first. To delete a generation frees what its root keeps alone."""
    sizes = _sizes(store, keepers(store, kept))
    return _largest_first([(root, _usage(sizes, 1 << at)) for at, root in enumerate(store.roots)])


def usage_of_owners(store: Store, kept: dict[str, list[str]]) -> list[tuple[str, Usage]]:
    """Pairs of an owner, as from `owner_of`, and the Usage of all roots of this owner together, largest first."""
    sizes, owned = _sizes(store, keepers(store, kept)), collections.Counter()
    for at, root in enumerate(store.roots):
        owned[owner_of(root)] += 1 << at
    return _largest_first([(owner, _usage(sizes, roots)) for owner, roots in owned.items()])


def usage_of_all(store: Store, kept: dict[str, list[str]]) -> tuple[int, int, int]:
    """The bytes of the live objects, of the dead, and of all."""
    sizes = _sizes(store, keepers(store, kept))
    return sum(sizes.values()) - sizes[0], sizes[0], sum(sizes.values())
