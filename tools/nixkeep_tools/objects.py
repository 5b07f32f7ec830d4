"""The objects of a nixkeep store over HTTP: records, archives, imports, roots, and a session for what is under way.

Paths are base names. A request that isn't done raises Stop with the line of `nixkeep`, the path, and the exit status.
"""
import collections
import itertools
import os
import re
import socket
import subprocess
import tempfile
from collections.abc import Callable, Iterable, Iterator
from pathlib import Path

from . import nar, paths, streams
from .failures import DONE, REFUSED, Stop
from .http_client import Foreign, Lost, Place, Server, SocketConnection

# `nar_hash` is 32 bytes, `refs` a list of base names, `deriver` a base name or None, `ca` a content address or None.
Record = collections.namedtuple("Record", "base nar_hash nar_size refs deriver ca")
NOT_VALID, MISSING_REFERENCE, BAD_BODY, BAD_NAME, NO_ROUTE = 23, 24, 41, 34, 39
TRIES = 10
# The references of an object, and the objects of a closure and the references of all of them, at most: a server may
# name one after another without an end.
REFERENCES, CLOSURE, LINKS = 4_096, 1_000_000, 20_000_000


def lines(*pairs: tuple) -> bytes:
    """The lines of a body, and the empty one after them."""
    return "".join(f"{key}: {value}\n" for key, value in pairs).encode() + b"\n"


def read_record(text: str) -> Record:
    """The Record in a text of `nixkeep info`."""
    fields = dict(line.partition(": ")[::2] for line in text.splitlines())
    base = fields["StorePath"].rpartition("/")[2]
    digest = paths.unbase32(fields["NarHash"].removeprefix("sha256:"), 32)
    refs = fields["References"].split()
    return Record(base, digest, int(fields["NarSize"]), refs, fields.get("Deriver"), fields.get("CA"))


def is_sound(record: Record) -> bool:
    """Whether a Record of a server may be one of a store."""
    named = [*record.refs, *([record.deriver] if record.deriver is not None else [])]
    is_size = 0 <= record.nar_size < 1 << 63
    return is_size and len(record.refs) <= REFERENCES and all(map(paths.is_base_name, named))


def source_address(record: Record, folder: str) -> str | None:
    """The content address of a source if the path is that of one, else None."""
    if record.base in record.refs:
        return None
    base = paths.path_of("source", record.nar_hash, record.base[33:], record.refs, folder)
    return paths.address("source", record.nar_hash) if base == record.base else None


def contents(archive: bytes) -> bytes | None:
    """The contents of an archive that is a regular file and not executable, else None."""
    data = bytearray()
    try:
        kinds = [node.kind for node in nar.walk([archive], lambda _, part: data.extend(part))]
    except nar.Fault:
        return None
    return bytes(data) if kinds == ["r"] else None


def text_address(record: Record, archive: bytes, folder: str) -> str | None:
    """The content address of a text if the path is that of one, else None."""
    text = None if record.base in record.refs else contents(archive)
    if text is None:
        return None
    digest = paths.sha256([text])
    base = paths.path_of("text", digest, record.base[33:], record.refs, folder)
    return paths.address("text", digest) if base == record.base else None


def _is_address(text):
    try:
        return text is not None and bool(paths.read_address(text))
    except paths.Malformed:
        return False


def with_address(record: Record, folder: str) -> Record:
    """The record with its content address if nixkeep has such addresses, else with that of a source, or none."""
    is_kept = _is_address(record.ca) and record.base not in record.refs
    return record._replace(ca=record.ca if is_kept else source_address(record, folder))


class Child:
    """A process `nixkeep serve` on a database file, over a pair of sockets."""

    def __init__(self, program: str, file: str, config: str | None):
        self.socket, theirs = socket.socketpair()
        words = [program, "--db", file, *(["--config", config] if config else []), "serve"]
        try:
            # (a full disk has no room for this file)
            self.errors = tempfile.TemporaryFile()
            self.process = subprocess.Popen(words, stdin=theirs, stdout=theirs, stderr=self.errors)
        except OSError as error:
            raise Stop(f"failed: program: {program}: {error.strerror}") from None
        finally:
            theirs.close()

    def server(self, place: "FilePlace", caller: dict[str, str]) -> Server:
        return Server(place, caller, connection=SocketConnection(self.socket))

    def end(self) -> tuple[str, int]:
        """Ends the process, and returns its standard error and its exit status."""
        self.socket.close()
        status = self.process.wait()
        self.errors.seek(0)
        return self.errors.read().decode("utf-8", "backslashreplace").strip(), status


class FilePlace(Place):
    """The place of a server that is a child process."""

    is_private, prefix, host = True, "", None

    def __init__(self, file: str):
        self.url = file


class Store:
    """A nixkeep store with a caller, named `me` there, and the number of the caller's session.

    `folder` is the store directory. `child` is the process for a database file.
    """

    def __init__(self, server: Server, me: str, folder: str, child: Child | None = None):
        self.server, self.me, self.folder, self.child = server, me, folder, child
        self.session = None

    def __str__(self):
        return self.server.place.url

    def ask(self, method: str, target: str, body: bytes | Iterable[bytes] = b"", about: str | None = None,
            allowed: tuple[int, ...] = (), length: int | None = None) -> tuple[int | None, bytes]:
        """The number of the refusal, None if the request is done, and the bytes of the reply.

        Raises Stop for a request that isn't done, except refusals whose numbers are `allowed`. `about` is a full path.
        A body that isn't bytes yields them, and has a `length`.
        """
        try:
            reply = self.server.ask(method, target, body, length, is_repeated=length is None)
            text = b"".join(reply.bounded())
        except Lost:
            # A child that ended has printed why.
            said, status = self.child.end() if self.child else ("", 0)
            if said:
                raise Stop(said, status) from None
            raise
        number = reply.refusal()
        if reply.status != DONE and number not in allowed:
            line = text.decode("utf-8", "backslashreplace").rstrip("\n")
            raise Stop(f"{line} {about}" if about else line, reply.status)
        return number, text

    def full(self, base: str) -> str:
        return f"{self.folder}/{base}"

    def check_folder(self) -> None:
        """Tests the store directory, by a deletion that is denied to everybody."""
        head = lines(("path", self.full("0" * 32 + "-none")), ("ignore-liveness", "true"))
        if self.probe("POST", "/delete", head) == BAD_BODY:
            raise Stop(f"failed: store-dir: {self}: it isn't a store of {self.folder}")

    def probe(self, method: str, target: str, body: bytes = b"") -> int | None:
        """The number of the refusal of a request that is never done; None if a rule or a proxy forbids it."""
        try:
            return self.ask(method, target, body, allowed=(BAD_BODY, BAD_NAME))[0]
        except Foreign:
            return None
        except Stop as stop:
            if stop.line in ("denied: no-ignore-liveness", "denied: trusted-permanent-root"):
                return None
            raise

    def is_trusted(self) -> bool:
        """Whether the caller is trusted. Only then the server looks at the bad name of a permanent root."""
        return self.probe("DELETE", "/root/permanent/-") == BAD_NAME

    # ---- what is there

    def record(self, base: str) -> Record:
        return self.record_in(self.ask("GET", f"/info/{base}", about=self.full(base))[1], base)

    def record_in(self, text: bytes, base: str) -> Record:
        """The Record of a path in a reply. Raises Stop for a reply that isn't its record."""
        try:
            record = read_record(text.decode())
        except (KeyError, ValueError):
            record = None
        if not record or record.base != base or not is_sound(record):
            raise Stop(f"failed: answer: {self}: it isn't the record of {self.full(base)}")
        return record

    def closure(self, tops: Iterable[str]) -> dict:
        """The records of the closure of these paths, by base names. The session keeps it."""
        for base in tops:
            if not self.keep(base):
                raise Stop(f"refused: {NOT_VALID} not-valid {self.full(base)}", REFUSED)
        records, left, names, count = {}, list(tops), {base: base for base in tops}, 0
        while left:
            record = self.record(left.pop())
            left += {base for base in record.refs if base not in names}
            # (one text for all that refer to an object)
            records[record.base] = record._replace(refs=[names.setdefault(base, base) for base in record.refs])
            count += len(record.refs)
            if len(names) > CLOSURE:
                raise Stop(f"failed: answer: {self}: the closure has more than {CLOSURE} objects")
            if count > LINKS:
                raise Stop(f"failed: answer: {self}: the closure has more than {LINKS} references")
        return records

    def valid(self, bases: Iterable[str]) -> set[str]:
        """The valid ones of these paths, as a set."""
        _, text = self.ask("GET", "/paths")
        return {line.rpartition("/")[2] for line in text.decode("ascii", "replace").splitlines()} & set(bases)

    def archive(self, record: Record) -> bytes:
        return self.ask("GET", f"/nar/{record.base}", about=self.full(record.base))[1]

    def pieces(self, record: Record) -> Iterator[bytes]:
        """Yields a large archive."""
        reply = self.server.ask("GET", f"/nar/{record.base}")
        if reply.status != DONE:
            raise Stop(f"{reply.text().rstrip()} {self.full(record.base)}", reply.status)
        yield from reply.parts()

    def takes_large(self) -> bool:
        """Whether archives of any size may be put here."""
        return self.server.takes_large()

    def demand_room(self, size: int) -> None:
        """Raises Stop where the disk of a database file has no room for archives of `size` bytes. They first take what
        is unused inside the file. (Of a server's disk nothing is known.)"""
        if not self.child:
            return
        # (no command but those on a file needs SQLite)
        from . import disk_room, store_file

        file = self.server.place.url
        with store_file.open_store(file, despite_lock=True) as conn:
            size -= store_file.bytes_of(conn, "freelist_count")
        if size > 0:
            disk_room.demand(size, str(Path(file).resolve()), 0)

    # ---- what is put there

    def keep(self, base: str) -> bool:
        """Keeps a path by the session, and returns whether the path is valid."""
        target = f"/temp/{self.me}/{self.session}"
        number, _ = self.ask("POST", target, lines(("path", base)), self.full(base), (NOT_VALID,))
        return number is None

    def put(self, record: Record, archive: bytes, of_large: Callable[[], Iterable[bytes]] | None = None) -> bool:
        """Imports an object and keeps it. Returns False if a reference of it isn't valid. `of_large` returns an
        iterable of the bytes of a large archive, which isn't given whole."""
        pairs = [("path", record.base), ("nar-hash", paths.nar_hash(record.nar_hash))]
        pairs += [("reference", base) for base in record.refs]
        address = None if of_large else record.ca or text_address(record, archive, self.folder)
        pairs += [(key, value) for key, value in (("deriver", record.deriver), ("ca", address)) if value]
        head, about = lines(*pairs), self.full(record.base)
        length = len(head) + record.nar_size if of_large else None
        for _ in range(TRIES):
            body = itertools.chain([head], of_large()) if of_large else head + archive
            number, _ = self.ask("POST", "/import", body, about, (MISSING_REFERENCE,), length)
            if number is not None:
                return False
            # A collection may have deleted it before it is kept.
            if self.keep(record.base):
                return True
        raise Stop(f"failed: collected: {about} was deleted {TRIES} times before it could be kept")

    def set_root(self, kind: str, name: str, base: str) -> str:
        """Sets a root, and returns the text of the reply. `kind` is root, permanent or profile."""
        targets = {
            "permanent": f"/root/permanent/{name}",
            "root": f"/root/user/{self.me}/{name}",
            "profile": f"/profile/{self.me}/{name}",
        }
        text = self.ask("POST", targets[kind], lines(("path", base)), self.full(base))[1]
        return streams.printable(text.decode("utf-8", "backslashreplace"))

    def end_session(self) -> None:
        self.ask("DELETE", f"/temp/{self.me}/{self.session}")

    def close(self) -> None:
        if self.child:
            self.child.end()
        else:
            self.server.connection.close()


def is_url(text: str) -> bool:
    return re.match(r"(?:https?|unix):", text) is not None


def program_beside(folder: Path) -> str:
    """The program `nixkeep` in a folder if it is there, else the name of the one on the path."""
    near = folder / "nixkeep"
    return str(near) if os.access(near, os.X_OK) and not near.is_dir() else "nixkeep"
