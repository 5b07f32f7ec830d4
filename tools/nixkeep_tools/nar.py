"""Archives (NAR), read as a stream: the nodes of one, or the first fault of what is none.

`walk` yields the nodes of an archive, `check` returns its first fault, and `listing` yields the lines of `nixkeep ls`.
Each takes the archive as an iterable of pieces of any length, and keeps one string or one piece in memory at a time.
"""
from __future__ import annotations

# (for hints alone: see `http_connection`)
TYPE_CHECKING = False
if TYPE_CHECKING:
    from collections.abc import Callable, Iterable, Iterator

# An archive has at most this many bytes, and at most this many nodes inside one another.
LIMIT = 16_777_216
DEPTH = 256
# The names of the faults, with the numbers of their refusals.
FAULTS = {
    "truncated": 1,
    "bad-tag": 2,
    "bad-padding": 3,
    "bad-name": 4,
    "not-sorted": 5,
    "too-deep": 6,
    "trailing": 7,
    "too-large": 8,
}
CHUNK = 65_536


class Fault(ValueError):
    """The first fault of an input: its number and name, and the offset in bytes of the string that has it."""

    def __init__(self, name: str, offset: int):
        super().__init__(f"{name} at byte {offset}")
        self.number, self.name, self.offset = FAULTS[name], name, offset


class Node:
    """A node of an archive.

    `kind` is its letter in a listing: `d`, `r`, `x` (executable) or `l`. `name` is `.` for the top, and `above` the
    folder that it is in, or None. `size` is the length of a file's contents, `target` the bytes of a link; both are
    None elsewhere.
    """

    def __init__(self, kind: str, name: bytes, above: Node | None, size: int | None = None,
                 target: bytes | None = None):
        self.kind, self.name, self.above, self.size, self.target = kind, name, above, size, target
        self.made = name if above is None else None

    @property
    def path(self) -> bytes:
        """The path: `.` for the top and `./a/b` below. It is made where it is asked for: a folder may have a name of
        megabytes, which is in the path of each of the many nodes in it."""
        if self.made is None:
            self.made = self.above.path + b"/" + self.name
        return self.made


class _Input:
    """The strings of an archive, one after another."""

    def __init__(self, pieces):
        self.pieces, self.piece, self.at = iter(pieces), b"", 0
        self.offset = self.start = 0

    def fault(self, name):
        return Fault(name, self.start)

    def some(self, count):
        """At most this many bytes, at least one, and none at the end of the input."""
        while self.at == len(self.piece):
            self.piece, self.at = next(self.pieces, None), 0
            if self.piece is None:
                self.piece = b""
                return b""
        part = self.piece[self.at:self.at + count]
        self.at += len(part)
        self.offset += len(part)
        return part

    def chunks(self, count):
        """Exactly this many bytes, in parts."""
        while count:
            chunk = self.some(min(count, CHUNK))
            if not chunk:
                raise self.fault("truncated")
            count -= len(chunk)
            yield chunk

    def length(self):
        """The length of the next string, which the limit allows."""
        self.start = self.offset
        length = int.from_bytes(b"".join(self.chunks(8)), "little")
        if self.offset + length + -length % 8 > LIMIT:
            raise self.fault("too-large")
        return length

    def padding(self, length):
        if any(b"".join(self.chunks(-length % 8))):
            raise self.fault("bad-padding")

    def string(self):
        length = self.length()
        text = b"".join(self.chunks(length))
        self.padding(length)
        return text

    def word(self, *words):
        """The next string, which is one of these."""
        word = self.string()
        if word not in words:
            raise self.fault("bad-tag")
        return word

    def name(self, previous):
        """The next string, which is the name of an entry after that of this name; None before the first."""
        name = self.string()
        if name in (b"", b".", b"..") or b"/" in name or b"\0" in name:
            raise self.fault("bad-name")
        if previous is not None and name <= previous:
            raise self.fault("not-sorted")
        return name

    def contents(self, take):
        """The length of the next string, whose bytes are passed on."""
        length = self.length()
        for chunk in self.chunks(length):
            take(chunk)
        self.padding(length)
        return length


def _file(given, name, above, contents):
    is_executable = given.word(b"executable", b"contents") == b"executable"
    if is_executable:
        given.word(b"")
        given.word(b"contents")
    size = given.contents((lambda part: contents(above is None, part)) if contents else len)
    return Node("x" if is_executable else "r", name, above, size)


def _node(given, name, above, contents):
    """A node whole, or of a directory what comes before its entries."""
    given.word(b"(")
    given.word(b"type")
    kind = given.word(b"regular", b"symlink", b"directory")
    if kind == b"directory":
        return Node("d", name, above)
    if kind == b"regular":
        node = _file(given, name, above, contents)
    else:
        given.word(b"target")
        node = Node("l", name, above, target=given.string())
    given.word(b")")
    return node


def walk(pieces: Iterable[bytes], contents: Callable[[bool, bytes], object] | None = None) -> Iterator[Node]:
    """Yields the nodes of an archive, parents first and entries in order. Raises the first Fault of any other input.

    `contents`, if given, is called for each part of a file's contents, before the file's node: with whether the file is
    the top, and the part.
    """
    given, folders = _Input(pieces), []
    given.word(b"nix-archive-1")
    top = _node(given, b".", None, contents)
    yield top
    if top.kind == "d":
        folders.append([top, None])
    while folders:
        folder = folders[-1]
        if given.word(b"entry", b")") == b")":
            folders.pop()
            # (the end of the entry that holds this folder)
            if folders:
                given.word(b")")
            continue
        given.word(b"(")
        given.word(b"name")
        folder[1] = given.name(folder[1])
        given.word(b"node")
        if len(folders) == DEPTH:
            raise given.fault("too-deep")
        node = _node(given, folder[1], folder[0], contents)
        yield node
        if node.kind == "d":
            folders.append([node, None])
        else:
            given.word(b")")
    given.start = given.offset
    if given.some(1):
        raise given.fault("trailing")


def check(pieces: Iterable[bytes]) -> Fault | None:
    """The first Fault of the input, or None where it is an archive."""
    try:
        for _ in walk(pieces):
            pass
    except Fault as fault:
        return fault
    return None


def _shown(text):
    return "".join(chr(byte) if 33 <= byte <= 126 and byte != 92 else f"\\x{byte:02x}" for byte in text)


def line(node):
    """The line of a node in a listing, without its line feed."""
    path = _shown(node.path)
    if node.kind == "d":
        return f"d {path}"
    return f"l {path} -> {_shown(node.target)}" if node.kind == "l" else f"{node.kind} {node.size} {path}"


def listing(pieces: Iterable[bytes]) -> Iterable[str]:
    """Yields the lines of the listing of an archive, as `nixkeep ls` prints it."""
    return map(line, walk(pieces))


def _string(text):
    return len(text).to_bytes(8, "little") + text + bytes(-len(text) % 8)


def regular_file(contents: bytes, is_executable: bool = False) -> bytes:
    """The archive of a regular file."""
    mark = [b"executable", b""] if is_executable else []
    words = [b"nix-archive-1", b"(", b"type", b"regular", *mark, b"contents", contents, b")"]
    return b"".join(map(_string, words))
