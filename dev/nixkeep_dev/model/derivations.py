"""Derivation texts (the ATerm form of a .drv file): their outputs, and writing them."""
import re
from collections.abc import Iterable

from .texts import is_base, is_store_name, refuse

# A string: bytes other than quotes and backslashes, or one of five escapes.
STRING = re.compile(rb'"((?:[^"\\]|\\["\\nrt])*)"', re.S)
ESCAPES = {b"\\n": b"\n", b"\\r": b"\r", b"\\t": b"\t", b'\\"': b'"', b"\\\\": b"\\"}


class Text:
    def __init__(self, data):
        self.data, self.at = data, 0

    def skip(self, word: bytes) -> None:
        refuse(17, not self.data.startswith(word, self.at))
        self.at += len(word)

    def string(self) -> bytes:
        match = STRING.match(self.data, self.at)
        refuse(17, not match)
        self.at = match.end()
        return re.sub(rb"\\.", lambda escape: ESCAPES[escape[0]], match[1])

    def list_of(self, item):
        self.skip(b"[")
        items = []
        while not self.data.startswith(b"]", self.at):
            if items:
                self.skip(b",")
            items.append(item())
        self.skip(b"]")
        return items

    def tuple_of(self, *parts):
        self.skip(b"(")
        values = []
        for part in parts:
            if values:
                self.skip(b",")
            values.append(part())
        self.skip(b")")
        return values


def read(data):
    """The outputs of a whole text, each a name, a path, and two more strings."""
    text = Text(data)
    string = text.string
    strings = lambda: text.list_of(string)
    outputs = lambda: text.list_of(lambda: text.tuple_of(string, string, string, string))
    inputs = lambda: text.list_of(lambda: text.tuple_of(string, strings))
    env = lambda: text.list_of(lambda: text.tuple_of(string, string))
    text.skip(b"Derive")
    listed = text.tuple_of(outputs, inputs, strings, string, string, strings, env)[0]
    refuse(17, text.at < len(data))
    return listed


def outputs(data: bytes, store_dir: str) -> list[tuple] | None:
    """Name and base name of each output that has a path, in the order of the text."""
    pairs = [(name.decode("latin-1"), path.decode("latin-1")) for name, path, _, _ in read(data)]
    for name, path in pairs:
        is_full = path.startswith(store_dir + "/") and is_base(path[len(store_dir) + 1 :])
        refuse(17, not is_store_name(name) or path and not is_full)
    names = [name for name, _ in pairs]
    refuse(18, len(set(names)) < len(names))
    return [(name, path[len(store_dir) + 1 :]) for name, path in pairs if path]


def quoted(data):
    for escape, byte in reversed(ESCAPES.items()):
        data = data.replace(byte, escape)
    return b'"' + data + b'"'


def listed(items):
    return b"[" + b",".join(items) + b"]"


def tupled(*parts):
    return b"(" + b",".join(parts) + b")"


def write(outs: list, inputs: Iterable = (), sources: Iterable = (), platform: bytes = b"p", builder: bytes = b"b",
          args: Iterable = (), env: Iterable = ()) -> bytes:
    """The text of a derivation with these parts."""
    return b"Derive" + tupled(
        listed(tupled(*map(quoted, out)) for out in outs),
        listed(tupled(quoted(path), listed(map(quoted, names))) for path, names in inputs),
        listed(map(quoted, sources)),
        quoted(platform),
        quoted(builder),
        listed(map(quoted, args)),
        listed(tupled(*map(quoted, pair)) for pair in env),
    )
