"""Transfers of closures between stores: references first, without what is there, and with what is under way kept.

A source has `closure(tops)` and `archive(record)`. A target has `valid(bases)`, `keep(base)`, `put(record, archive)`
and `set_root(kind, name, base)`. Both have `folder`, `full(base)`, `check_folder()` and `end_session()`. A nixkeep
store and Nix can each be both. Paths are base names.
"""
import collections
import hashlib
from collections.abc import Iterable, Iterator

from . import nar, objects, paths, pointers, streams
from .count_of import count_of
from .failures import DENIED, FAILED, REFUSED, Stop
from .progress import Progress
from .real_nix import Nix

MOST_REFERENCES = 4_096
SESSIONS = 4_194_304
Done = collections.namedtuple("Done", "sent bytes there")


class Refused(Stop):
    """A refusal of a transfer before it begins, with a line for each object that is to blame."""


def session_of(tops: Iterable[str]) -> int:
    """The number of the session for a transfer of these paths, the same whenever it is repeated."""
    digest = hashlib.sha256("\n".join(sorted(tops)).encode()).digest()
    return 1 + int.from_bytes(digest[:8], "little") % SESSIONS


def references_first(records: dict[str, objects.Record]) -> list[str]:
    """The paths of the records, each after those that it refers to."""
    order, seen = [], set()
    for top in sorted(records):
        left = [(top, False)]
        while left:
            base, is_done = left.pop()
            if is_done:
                order.append(base)
            elif base not in seen:
                seen.add(base)
                left.append((base, True))
                left += [(to, False) for to in records[base].refs if to in records and to not in seen]
    return order


def reached(records: dict[str, objects.Record], base: str, seen: set[str]) -> set[str]:
    """The closure of a path without what was seen before, as a set, which is seen now."""
    new, left = set(), [base]
    while left:
        at = left.pop()
        if at not in seen:
            seen.add(at)
            new.add(at)
            left += records[at].refs
    return new


def is_large(record: objects.Record) -> bool:
    return record.nar_size > nar.LIMIT


class Transfer:
    """A transfer of the closure of the paths `tops`. `what` is its name in the line of progress."""

    def __init__(self, source: objects.Store | Nix, target: objects.Store | Nix, tops: list[str], what: str):
        self.source, self.target, self.tops, self.what = source, target, tops, what
        self.records, self.missing, self.done, self.is_sending = {}, [], 0, False

    def prepare(self) -> None:
        """Finds what is missing in the target. Raises Refused if not all of it can be sent."""
        try:
            self.find()
        except Refused:
            self.end_sessions()
            raise

    def find(self) -> None:
        self.target.check_folder()
        self.source.check_folder()
        records = self.source.closure(self.tops)
        self.records = {base: objects.with_address(record, self.target.folder) for base, record in records.items()}
        self.refuse_large()
        self.refuse_pointers()
        there = self.held(self.target.valid(self.records))
        self.missing = [base for base in references_first(self.records) if base not in there]
        self.refuse_untrusted()
        self.refuse_full()

    def refuse_large(self):
        large = [record for record in self.records.values() if is_large(record)]
        large = [] if large and self.target.takes_large() else large
        many = [record for record in self.records.values() if len(record.refs) > MOST_REFERENCES]
        lines = [f"refused: 8 too-large {self.source.full(record.base)} {record.nar_size} bytes" for record in large]
        lines += [f"refused: 33 too-many-references {self.source.full(record.base)}" for record in many]
        if lines:
            raise Refused("\n".join(lines), REFUSED)

    def refuse_pointers(self):
        """Raises Refused for what stands for a large archive in a store, and isn't one: nixkeep-cache has that."""
        lines = []
        for record in self.records.values():
            if pointers.may_be(record.nar_size, record.ca):
                pointer = pointers.read(self.archive(record), self.source.full(record.base))
                lines += [f"failed: pointer {pointer.path}: its archive of {pointer.nar_size} bytes is in the blobs of "
                          f"this store's nixkeep-cache: transfer it from there"] if pointer else []
        if lines:
            raise Refused("\n".join(lines), FAILED)

    def held(self, there: set[str], is_careful: bool = False) -> set[str]:
        """Keeps the paths that are there, and returns them, without those that a collection has deleted meanwhile.

        A path that is kept keeps what it refers to. `is_careful` keeps each path by itself all the same.
        """
        held, seen = set(), set()
        for base in reversed(references_first(self.records)):
            if base in there and (is_careful or base not in held) and self.target.keep(base):
                held |= {base} if is_careful else reached(self.records, base, seen) & there
        return held

    def refuse_untrusted(self):
        """Raises Refused if an object without a content address is missing, and the caller isn't trusted."""
        left = [self.records[base] for base in self.missing
                if not self.records[base].ca or is_large(self.records[base])]
        if not left or not isinstance(self.target, objects.Store) or self.target.is_trusted():
            return
        folder = self.target.folder
        unproved = [record for record in left
                    if is_large(record) or not objects.text_address(record, self.archive(record), folder)]
        if unproved:
            raise Refused("\n".join(f"denied: trusted-import {self.target.full(record.base)}" for record in unproved),
                          DENIED)

    def refuse_full(self):
        """Raises Refused where what is missing has no room on the disk of the target."""
        try:
            self.target.demand_room(self.size())
        except Stop as stop:
            raise Refused(stop.line, stop.status) from None

    def size(self) -> int:
        """The bytes of the archives that are missing."""
        return sum(self.records[base].nar_size for base in self.missing)

    def archive(self, record: objects.Record) -> bytes:
        """The archive of an object, tested by its record."""
        data = self.source.archive(record)
        if len(data) != record.nar_size or paths.sha256([data]) != record.nar_hash:
            raise self.other_hash(record)
        return data

    def other_hash(self, record):
        return Stop(f"failed: archive: {self.source.full(record.base)} in {self.source} has another hash than its "
                    "record")

    def pieces(self, record: objects.Record) -> Iterator[bytes]:
        """Yields a large archive. It is tested by its record ahead of its last piece."""
        digest, size, held = hashlib.sha256(), 0, b""
        for piece in self.source.pieces(record):
            digest.update(piece)
            size += len(piece)
            if size > record.nar_size:
                break
            if held:
                yield held
            held = piece
        if size != record.nar_size or digest.digest() != record.nar_hash:
            raise self.other_hash(record)
        yield held

    def send(self) -> Done:
        """Sends what is missing, and returns what was done."""
        self.is_sending, total = True, self.size()
        count, progress = len(self.records) - len(self.missing), Progress(self.what, total, len(self.missing))
        try:
            for base in self.missing:
                self.put(self.records[base])
                self.done += 1
                progress.add(self.records[base].nar_size, 1)
        finally:
            progress.end()
        return Done(self.done, total, count)

    def put(self, record: objects.Record) -> None:
        for _ in range(3):
            if self.target.put(record, *self.given(record)):
                return
            self.restore(record)
        raise Stop(f"refused: 24 missing-reference {self.target.full(record.base)}", REFUSED)

    def given(self, record: objects.Record) -> tuple:
        """The archive of an object, as a target takes it."""
        return (b"", lambda: self.pieces(record)) if is_large(record) else (self.archive(record),)

    def restore(self, record):
        """Sends what is missing of the references of an object.

        That is needed if an object in the target has other references than the same path in the source, so that it
        doesn't keep these.
        """
        needed = reached(self.records, record.base, set()) - {record.base}
        there = self.held(self.target.valid(needed), is_careful=True)
        for base in references_first(self.records):
            if base in needed and base not in there:
                self.target.put(self.records[base], *self.given(self.records[base]))

    def finish(self, root: tuple[str, str] | None) -> None:
        """Sets the root, a kind and a name, unless it is None, and ends the sessions."""
        if root:
            kind, name = root
            streams.write([self.target.set_root(kind, name, self.tops[0]).encode()])
        self.end_sessions()

    def end_sessions(self):
        self.target.end_session()
        self.source.end_session()

    def plan(self) -> str:
        """The bytes and the path of each object that is missing, a line each."""
        return "".join(f"{self.records[base].nar_size:>10} {self.target.full(base)}\n" for base in self.missing)

    def stopped(self) -> str:
        """The line that is printed of a transfer that was broken off."""
        kept = [store for store in (self.source, self.target) if isinstance(store, objects.Store)]
        lines = [f"session {store.session} of {store.me} at {store} keeps what is there" for store in kept]
        return "; ".join(
            [f"{self.done} of {len(self.missing)} objects were sent, and the same command goes on there", *lines]
        )


def summary(what: str, done: Done) -> str:
    phrase = f"{done.there} {'was' if done.there == 1 else 'were'} there"
    return f"{what} {count_of(done.sent, 'object')}, {count_of(done.bytes, 'byte')}; {phrase}\n"
