"""The objects of a store of Nix, by `nix-store --serve --write`, which Nix itself runs for a store over ssh.

One process answers for a whole transfer, and holds temporary roots in Nix for the paths that it was asked about. Paths
are base names.
"""
import os
import subprocess
import tempfile
from collections.abc import Callable, Iterable, Iterator

from . import paths
from .failures import Stop, reason
from .objects import Record

MAGIC, ANSWER, VERSION = 0x390C9DEB, 0x5452EECB, 0x205
VALID_PATHS, PATH_INFOS, DUMP, CLOSURE, ADD = 1, 2, 3, 7, 9

CHUNK = 1 << 20


def number(value):
    return value.to_bytes(8, "little")


def string(text):
    data = text.encode()
    return number(len(data)) + data + bytes(-len(data) % 8)


def strings(texts):
    return number(len(texts)) + b"".join(map(string, texts))


def read_hash(text):
    """The 32 bytes of a SHA-256 that Nix writes as `sha256:` and digits, of base 32 or hexadecimal."""
    digits = text.removeprefix("sha256:")
    return bytes.fromhex(digits) if len(digits) == 64 else paths.unbase32(digits, 32)


class Nix:
    """A store of Nix. `store` is a URL such as `local?root=/FOLDER`, or None for Nix's own default."""

    def __init__(self, store: str | None, folder: str):
        self.folder, self.store = folder, store
        self.options = ["--store", store] if store else []
        try:
            # (a full disk has no room for this file)
            self.errors = tempfile.TemporaryFile()
            pipe, words = subprocess.PIPE, ["nix-store", *self.options, "--serve", "--write"]
            self.process = subprocess.Popen(words, stdin=pipe, stdout=pipe, stderr=self.errors)
        except OSError as error:
            raise Stop(f"failed: nix: nix-store: {reason(error)}") from None
        self.send(number(MAGIC) + number(VERSION))
        if self.number() != ANSWER:
            raise Stop("failed: nix: nix-store doesn't speak its protocol")
        self.number()

    def __str__(self):
        return f"Nix {self.store or ''}".rstrip()

    # ---- the protocol

    def failed(self) -> Stop:
        """Stop with the last line of the standard error of nix-store, which has ended."""
        self.close()
        self.errors.seek(0)
        said = self.errors.read().decode("utf-8", "backslashreplace").strip().splitlines()
        return Stop(f"failed: nix: {said[-1].removeprefix('error: ') if said else 'nix-store ended'}")

    def send(self, *parts: bytes) -> None:
        try:
            for part in parts:
                self.process.stdin.write(part)
            self.process.stdin.flush()
        except OSError:
            raise self.failed() from None

    def read(self, count: int) -> bytes:
        data = self.process.stdout.read(count)
        if len(data) < count:
            raise self.failed()
        return data

    def number(self) -> int:
        return int.from_bytes(self.read(8), "little")

    def string(self) -> str:
        length = self.number()
        return self.read(length + -length % 8)[:length].decode()

    def strings(self) -> list[str]:
        return [self.string() for _ in range(self.number())]

    def full(self, base: str) -> str:
        return f"{self.folder}/{base}"

    def base(self, path: str) -> str:
        return path.rpartition("/")[2]

    # ---- what is there

    def valid(self, bases: Iterable[str]) -> set[str]:
        """The valid ones of these paths, as a set. Nix keeps them until the process ends."""
        self.send(number(VALID_PATHS), number(1), number(0), strings([*map(self.full, bases)]))
        return set(map(self.base, self.strings()))

    def closure(self, tops: list[str]) -> dict[str, Record]:
        """The records of the closure of these paths, by base names."""
        missing = sorted({*tops} - self.valid(tops))
        if missing:
            raise Stop(f"failed: nix: {self.full(missing[0])} isn't valid in {self}")
        self.send(number(CLOSURE), number(0), strings([*map(self.full, tops)]))
        names = self.strings()
        self.send(number(PATH_INFOS), strings(names))
        return {record.base: record for record in iter(self.record, None)}

    def record(self) -> Record | None:
        """Reads the next record, or None after the last."""
        path = self.string()
        if not path:
            return None
        deriver, refs = self.base(self.string()) or None, sorted(map(self.base, self.strings()))
        self.number()
        size, digest, ca = self.number(), read_hash(self.string()), self.string() or None
        self.strings()
        return Record(self.base(path), digest, size, refs, deriver, ca)

    def archive(self, record: Record) -> bytes:
        return b"".join(self.pieces(record))

    def pieces(self, record: Record) -> Iterator[bytes]:
        """Yields an archive. All of it is read, also where the rest isn't wanted."""
        self.send(number(DUMP), string(self.full(record.base)))
        left = record.nar_size
        try:
            while left:
                piece = self.read(min(left, CHUNK))
                left -= len(piece)
                yield piece
        finally:
            while left:
                left -= len(self.read(min(left, CHUNK)))

    def takes_large(self) -> bool:
        """Whether archives of any size may be put here."""
        return True

    def demand_room(self, size: int) -> None:
        """Nix says itself where its disk is full."""

    # ---- what is put there

    def keep(self, base: str) -> bool:
        return base in self.valid([base])

    def put(self, record: Record, archive: bytes, of_large: Callable[[], Iterable[bytes]] | None = None) -> bool:
        """Adds an object, which Nix keeps until the process ends. Returns True. `of_large` returns an iterable of the
        bytes of a large archive, which isn't given whole."""
        deriver = self.full(record.deriver) if record.deriver else ""
        self.send(number(ADD), string(self.full(record.base)), string(deriver), string(record.nar_hash.hex()))
        self.send(strings([*map(self.full, record.refs)]))
        # The time of registration, the size, whether it was built here, and signatures.
        self.send(number(0), number(record.nar_size), number(0), strings([]), string(record.ca or ""))
        for piece in of_large() if of_large else [archive]:
            # (one by one: a server may say any size, and all of them would be in memory)
            self.send(piece)
        self.number()
        self.valid([record.base])
        return True

    def set_root(self, kind: str, name: str, base: str) -> str:
        """Makes a link to a path that is a root, or a generation of a profile, and returns its name and a line feed."""
        words = ["nix-store", *self.options, "--realise", self.full(base), "--add-root", name]
        if kind == "profile":
            words = ["nix-env", *self.options, "--profile", name, "--set", self.full(base)]
        ran = subprocess.run(words, stdin=subprocess.DEVNULL, capture_output=True, text=True, errors="backslashreplace")
        if ran.returncode:
            said = ran.stderr.strip().splitlines()
            raise Stop(f"failed: nix: {said[-1].removeprefix('error: ') if said else words[0]}")
        # (Path.absolute leaves `..` in it)
        return f"{os.path.abspath(name)}\n"

    def check_folder(self) -> None:
        pass

    def end_session(self) -> None:
        pass

    def close(self) -> None:
        for end in (self.process.stdin, self.process.stdout):
            try:
                end.close()
            except OSError:
                pass
        self.process.wait()
