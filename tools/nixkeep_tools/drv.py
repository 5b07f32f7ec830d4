"""Derivation texts: the outputs that one records."""
from . import paths

_ESCAPES = {b'\\"': b'"', b"\\\\": b"\\", b"\\n": b"\n", b"\\r": b"\r", b"\\t": b"\t"}


class _Text:
    """What is left of a text. A part that isn't there raises refusal 17, bad-derivation."""

    def __init__(self, text):
        self.text, self.at = text, 0

    def is_next(self, word):
        return self.text.startswith(word, self.at)

    def word(self, word):
        if not self.is_next(word):
            raise paths.Malformed(17, "bad-derivation")
        self.at += len(word)

    def string(self):
        self.word(b'"')
        content, quote = bytearray(), -1
        while not self.is_next(b'"'):
            if self.is_next(b"\\"):
                escape = self.text[self.at:self.at + 2]
                self.word(escape if escape in _ESCAPES else b"no escape")
                content += _ESCAPES[escape]
            else:
                # (nothing is looked for beyond the next quote, nor that twice: a text may have millions of strings)
                quote = quote if quote >= self.at else self.text.find(b'"', self.at)
                if quote < 0:
                    raise paths.Malformed(17, "bad-derivation")
                escape = self.text.find(b"\\", self.at, quote)
                end = quote if escape < 0 else escape
                content += self.text[self.at:end]
                self.at = end
        self.word(b'"')
        return bytes(content)

    def items(self, item):
        """A list of items."""
        self.word(b"[")
        items = []
        while not self.is_next(b"]"):
            if items:
                self.word(b",")
            items.append(item())
        self.word(b"]")
        return items

    def parts(self, *parts):
        """A tuple of these parts."""
        self.word(b"(")
        values = []
        for at, part in enumerate(parts):
            if at:
                self.word(b",")
            values.append(part())
        self.word(b")")
        return values


def _output(name, path, store):
    """An output's name and the base name of its path, or None where it has no path."""
    try:
        name, path = name.decode("ascii"), path.decode("ascii")
    except UnicodeDecodeError:
        raise paths.Malformed(17, "bad-derivation") from None
    if not paths.is_store_name(name) or path and not path.startswith(store + "/"):
        raise paths.Malformed(17, "bad-derivation")
    try:
        return name, paths.base_name(path, store) if path else None
    except paths.Malformed:
        raise paths.Malformed(17, "bad-derivation") from None


def outputs(text: bytes, store: str = paths.STORE) -> list[tuple] | None:
    """The outputs of a derivation text that have a path, as pairs of name and base name in the text's order.

    Raises refusal 17, bad-derivation, for a text that is none, and 18, double-output, for two outputs of one name.
    """
    given = _Text(text)
    string = given.string
    strings = lambda: given.items(string)
    given.word(b"Derive(")
    listed = given.items(lambda: given.parts(string, string, string, string))
    rest = [lambda: given.items(lambda: given.parts(string, strings)), strings, string, string, strings]
    for part in [*rest, lambda: given.items(lambda: given.parts(string, string))]:
        given.word(b",")
        part()
    given.word(b")")
    if given.at != len(text):
        raise paths.Malformed(17, "bad-derivation")
    named = [_output(name, path, store) for name, path, _, _ in listed]
    if len({name for name, _ in named}) != len(named):
        raise paths.Malformed(18, "double-output")
    return [(name, path) for name, path in named if path]
