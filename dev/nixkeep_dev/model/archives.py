"""Archives (the NAR format): reading with the first fault, writing and listing.

A node is ("regular", is_executable, contents), ("symlink", target) or ("directory", [(name, node)]), over bytes.
"""
import sys

from .texts import refuse

# (reading or writing an archive uses some frames for each node on the way down)
sys.setrecursionlimit(10_000)
LIMIT = 16_777_216
DEPTH = 256


def spell(*strings: bytes) -> bytes:
    """Each string as an archive has it: its length in 8 bytes, least first, its bytes, and zeros to a multiple of 8."""
    return b"".join(len(string).to_bytes(8, "little") + string + bytes(-len(string) % 8) for string in strings)


class Reader:
    """The strings of an archive, from the beginning on."""

    def __init__(self, data):
        self.data, self.at = data, 0

    def string(self) -> bytes:
        start = self.at + 8
        refuse(1, start > len(self.data))
        size = int.from_bytes(self.data[self.at : start], "little")
        end = start + size + -size % 8
        refuse(8, end > LIMIT)
        refuse(1, end > len(self.data))
        refuse(3, any(self.data[start + size : end]))
        self.at = end
        return self.data[start : start + size]

    def one_of(self, *tags):
        tag = self.string()
        refuse(2, tag not in tags)
        return tag

    def name(self, before: bytes | None) -> bytes:
        """The name of an entry, which is above that of the entry before it."""
        name = self.string()
        refuse(4, name in (b"", b".", b"..") or b"/" in name or b"\0" in name)
        refuse(5, before is not None and name <= before)
        return name

    def entries(self, depth: int) -> list[tuple]:
        entries = []
        while self.one_of(b"entry", b")") == b"entry":
            self.one_of(b"(")
            self.one_of(b"name")
            name = self.name(entries[-1][0] if entries else None)
            self.one_of(b"node")
            refuse(6, depth == DEPTH)
            entries.append((name, self.node(depth + 1)))
            self.one_of(b")")
        return entries

    def regular(self):
        is_executable = self.one_of(b"executable", b"contents") == b"executable"
        if is_executable:
            self.one_of(b"")
            self.one_of(b"contents")
        return "regular", is_executable, self.string()

    def symlink(self) -> tuple[str, bytes]:
        self.one_of(b"target")
        return "symlink", self.string()

    def node(self, depth: int) -> tuple:
        """A node; depth counts it and those around it."""
        self.one_of(b"(")
        self.one_of(b"type")
        kind = self.one_of(b"regular", b"symlink", b"directory")
        if kind == b"directory":
            return "directory", self.entries(depth)
        node = self.regular() if kind == b"regular" else self.symlink()
        self.one_of(b")")
        return node


def read(data: bytes) -> tuple | None:
    """The node of an archive."""
    reader = Reader(data)
    reader.one_of(b"nix-archive-1")
    node = reader.node(1)
    refuse(7, reader.at < len(data))
    return node


def node_bytes(node):
    if node[0] == "regular":
        inner = spell(b"regular", *[b"executable", b""] * node[1], b"contents", node[2])
    elif node[0] == "symlink":
        inner = spell(b"symlink", b"target", node[1])
    else:
        inner = spell(b"directory") + b"".join(entry_bytes(*entry) for entry in node[1])
    return spell(b"(", b"type") + inner + spell(b")")


def entry_bytes(name, node):
    return spell(b"entry", b"(", b"name", name, b"node") + node_bytes(node) + spell(b")")


def write(node: tuple) -> bytes:
    return spell(b"nix-archive-1") + node_bytes(node)


def file_archive(contents: bytes, is_executable: bool = False) -> bytes:
    """The archive of a regular file with these contents."""
    return write(("regular", is_executable, contents))


def nested(count: int) -> bytes:
    """The archive of this many directories, each inside the one before."""
    node = ("directory", [])
    for _ in range(count - 1):
        node = ("directory", [(b"a", node)])
    return write(node)


def plain_contents(node: tuple) -> bytes | None:
    """The contents of a regular file that isn't executable; else None."""
    return node[2] if node[:2] == ("regular", False) else None


def shown(text: bytes) -> str:
    return "".join(chr(byte) if 33 <= byte <= 126 and byte != 92 else f"\\x{byte:02x}" for byte in text)


def listing(node: tuple, path: str = ".") -> str:
    """The lines of a node and of all nodes inside it."""
    if node[0] == "regular":
        return f"{'x' if node[1] else 'r'} {len(node[2])} {path}\n"
    if node[0] == "symlink":
        return f"l {path} -> {shown(node[1])}\n"
    return f"d {path}\n" + "".join(listing(inner, f"{path}/{shown(name)}") for name, inner in node[1])
