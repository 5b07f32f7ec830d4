"""Values made of bytes that chance has drawn: names, paths, archives, derivation texts and configurations.

Bytes that are zero make the simplest value, so what draws the bytes can make a failing example smaller.
"""
import functools
import zlib
from collections.abc import Collection, Iterable, Sequence
from typing import Any

from . import archives, derivations, texts

USERS = ["ann", "bob", "eve", "root"]
GROUPS = ["users", "wheel"]
ODD_NAMES = ["-x", "a" * 64, "a" * 65, "a*b", ".", "..", "A.b_c-1", "a@b", "%41", "0", "", "\u00fc"]
ODD_NUMBERS = ["0", "007", "+1", "-1", "1 ", "x", "1e3", "9999", "10000", "123456789012", "\u0661"]
STORE_NAMES = ["p", "x", "y", "o", "lib-1.0", "a+b?c=d_e", "d.drv", "e.drv", ".x", ".drv"]
ODD_STORE_NAMES = [".", "..", "..-x", ".-x", "", "a b", "a/b", "a" * 211, "a" * 212, "a\u00e9", "..x", "a:b", "x.drv "]
STORE_DIRS = ["/nix/store", "/nix/store", "/nix/store", "/nix/store", "/a", "/tmp/s.t-o/r=e"]
LABELS = ["a", "b", "/proc/1/exe", "/proc/2/exe", "{temp:2}", "{censored}", "gcroots/r", "~", "a:b"]
ODD_LABELS = ["", "a\u00e9", "l" * 256, "l" * 257, "a\tb", "\x7f"]
QUOTED = '"keep-derivations" '
OUTPUTS = [b"out", b"dev", b"lib"]
ODD_OUTPUTS = [b"", b".", b"a b", b"a" * 211, b"a" * 212, b"\xff"]
WORDS = [b"", b"x", b"hello", b"mycontent\n", b"name: a\n\n", b"12345678", bytes(range(16)), b"\xff\x00\r\n"]
# The names of the entries of a directory; the last ones are no names, or not in their order.
ENTRIES = [b"b|a", b"a|a", b"a|B", b"", b".", b"..", b"a/b", b"a\0", b"a|a\0|b"]
# Lines of a configuration that are against the rules.
ODD_LINES = [
    "x = 1", 'store-dir = "/"', 'store-dir = "nix"', "store-dir = 1", 'store-dir = "/a/../b"', 'store-dir = "/a/"',
    'groups = { wheel = ["@users"] }', 'allowed-users = "ann"', 'allowed-users = ["@"]', 'allowed-users = ["-a"]',
    "allowed-users = [1]", 'trusted-users = ["a b"]', 'trusted-users = ["@*"]', "keep-outputs = 1",
    'keep-derivations = "true"', 'groups = ["ann"]', "groups = { wheel = 1 }", 'groups = { wheel = ["*"] }',
    'groups = { "a b" = [] }', "keep-outputs = ", "= 1", 'a = "', 'Store-Dir = "/nix/store"', "[[groups]]",
    f'store-dir = "/{"a" * 199}"', f'store-dir = "/{"a" * 200}"', "keep-outputs = true\nkeep-outputs = true",
]


@functools.cache
def place_of(item: Any) -> int:
    """A number of two bytes for an item."""
    return zlib.crc32(repr(item).encode()) & 0xFFFF


def nearest(number: int, items: Collection) -> Any:
    """The item whose place comes next after a number. So the number means the same item as long as that is there,
    whatever else comes or is left out."""
    return min(items, key=lambda item: ((place_of(item) - number) % 65_536, item))


class Choices:
    """Choices that bytes make, from the last byte to the first, and then each is the first of what there is. So if the
    bytes are a number, it is smaller the simpler what was chosen is, and zeros at its beginning change nothing."""

    def __init__(self, data: bytes):
        self.data, self.at = data[::-1], 0

    def number(self, count: int) -> int:
        """A number below a count, 0 too."""
        return int.from_bytes(self.bytes(1 if count <= 256 else 2 if count <= 65_536 else 4), "little") % count

    def bytes(self, count: int) -> bytes:
        """The next bytes, as many as there are up to a count."""
        self.at += count
        return self.data[self.at - count : self.at]

    def pick(self, items: Sequence) -> Any:
        return items[self.number(len(items))]

    def chance(self, share: float) -> bool:
        """Whether something is made that has this share; the simplest is that it isn't."""
        return self.number(256) >= 256 * (1 - share)

    def some(self, items: Sequence, most: int) -> list:
        """Up to a number of the items, in any order, where one may come again."""
        return [self.pick(items) for _ in range(self.number(most + 1))]

    def turned(self, items: Sequence) -> list:
        """The items from another one on, or the other way round."""
        number = self.number(2 * len(items)) if items else 0
        at = number // 2
        return [*items[at:], *items[:at]][:: -1 if number % 2 else 1]


class Values:
    """Makes values of choices. What is against the rules, or at their border, comes where `faults` names it; the
    choices `form` say how."""

    def __init__(self):
        self.dir, self.faults, self.form = "/nix/store", (), Choices(b"")

    def often(self, fault: str, items: Sequence, odd: Sequence, by: Choices) -> Any:
        """One of the items, or an odd one where that is the fault."""
        return self.form.pick(odd) if fault in self.faults else by.pick(items)

    def plain_name(self, items: Sequence[str], by: Choices) -> str:
        is_odd = "name" in self.faults and self.form.chance(0.5)
        return self.form.pick(ODD_NAMES) if is_odd else by.pick(items)

    def contents(self, by: Choices) -> bytes:
        if "pieces" in self.faults:
            return self.form.bytes(1) * (65_536 * (1 + self.form.number(2)) + self.form.number(141) - 130)
        return by.bytes(by.number(40)) if by.chance(0.3) else by.pick(WORDS)

    def base(self, number: int) -> str:
        """A base name that any scenario makes again soon."""
        number, digit = divmod(number, 4)
        number, name = divmod(number, len(STORE_NAMES))
        digits = str(digit) * 32 if number % 32 < 31 else texts.base32(texts.sha256(bytes([digit]))[:20])
        return f"{digits}-{STORE_NAMES[name]}"

    def known(self, number: int) -> str:
        """A base name to name in a text; where a store is in sight, most often one of its paths."""
        return self.base(number)

    def odd_path(self, base):
        """A text that may be no path text at all."""
        digits, name = base[:32], base[33:]
        return self.form.pick([
            "", base[1:], "e" + base[1:], base[:32], f"{digits}-", f"{digits}_{name}", f"{digits}-..-{name}",
            f"/other/store/{base}", f"{self.dir}//{base}", f"{self.dir}/", f"{base} ", f"{digits.upper()}-{name}",
            f"{self.dir}/{base}/x", f"{digits}-" + "n" * 211, f"{digits}-" + "n" * 212, f" {base}", f"{base}\u00e9",
        ])

    def path_text(self, base: str, number: int = 0) -> str:
        """A path, whole or its base name, by a number."""
        if "path" in self.faults and self.form.chance(0.6):
            return self.odd_path(base)
        return base if number // 16 % 5 > 2 else f"{self.dir}/{base}"

    def node(self, by: Choices, depth: int = 0) -> tuple:
        kind = by.pick(["regular"] * 6 + ["symlink"] + ["directory"] * (3 if depth < 3 else 0))
        if kind == "regular":
            return kind, by.chance(0.2), self.contents(by)
        if kind == "symlink":
            return kind, by.pick([b"a", b"../b c", b"", b"\\\xff", b"/nix/store"])
        names = by.some([b"a", b"b", b"A", b"c d", b"\xc3\xa9", b"\\x", b"..."], 3)
        return kind, [(name, self.node(by, depth + 1)) for name in sorted({*names})]

    def broken(self, data: bytes, by: Choices) -> bytes:
        """The bytes with one change."""
        at, change = by.number(max(len(data), 1)), by.number(5)
        if change == 0:
            return data[:at]
        if change == 1:
            return data + by.pick([b"\0", b"x", b"\0" * 8])
        if change == 2:
            return data[:at] + bytes([by.number(256)]) + data[at + 1 :]
        if change == 3:
            return data[:at] + data[at + 1 :]
        return data[: at // 8 * 8] + by.pick([b"\xff" * 8, archives.spell(by.pick(WORDS))]) + data[at // 8 * 8 :]

    def odd_archive(self):
        """Archives that are near a rule for entries or for depth."""
        leaf, names = ("regular", False, b""), self.form.pick(ENTRIES).split(b"|")
        if self.form.chance(0.2):
            return archives.nested(self.form.pick([256, 257]))[: self.form.pick([None, None, 34_839, 34_840])]
        return archives.write(("directory", [(name, leaf) for name in names]))

    def archive(self, by: Choices, base: str = "") -> bytes:
        """An archive; for a name of a derivation most often one of its text."""
        if base.endswith(".drv") and not by.chance(0.07):
            node = "regular", "derivation" in self.faults and self.form.chance(0.2), self.derivation(by)
        else:
            node = self.node(by)
        if "archive" in self.faults and self.form.chance(0.3):
            return self.odd_archive()
        return self.broken(archives.write(node), self.form) if "archive" in self.faults else archives.write(node)

    def output(self, by: Choices) -> tuple[bytes, bytes, bytes, bytes]:
        is_odd = "derivation" in self.faults and self.form.chance(0.3)
        number, kind = by.number(65_536), by.number(16)
        path = "" if kind > 13 else f"{self.dir}/{self.known(number)}"
        if is_odd and self.form.chance(0.6):
            path = self.odd_path(self.base(number))
        name = self.form.pick(ODD_OUTPUTS) if is_odd and self.form.chance(0.4) else OUTPUTS[kind % 3]
        return name, path.encode(), [b"", b"sha256", b"r:sha256"][number % 3], [b"", b"00ff"][number % 2]

    def derivation(self, by: Choices) -> bytes:
        outs = [self.output(by) for _ in range(by.number(4))]
        if not by.chance(0.2):
            outs = [*{out[0]: out for out in outs}.values()]
        text = derivations.write(
            outs,
            [(by.pick(WORDS), by.some(OUTPUTS, 2)) for _ in range(by.number(3))],
            by.some(WORDS, 2),
            by.pick([b"p", b"x86_64-linux", b'"\\\n\r\t']),
            by.pick(WORDS),
            by.some(WORDS, 2),
            [(by.pick(WORDS), by.pick(WORDS)) for _ in range(by.number(3))],
        )
        if "derivation" not in self.faults or self.form.chance(0.3):
            return text
        if self.form.chance(0.3):
            return text.replace(b"p", self.form.pick([b"\\x", b"\\0", b"\\"]), 1)
        return self.broken(text, self.form)

    def file_contents(self, by: Choices, name: str) -> bytes:
        """The contents of a text with this name."""
        return self.derivation(by) if name.endswith(".drv") and not by.chance(0.05) else self.contents(by)

    def label(self, by: Choices) -> str:
        return self.often("label", LABELS, ODD_LABELS, by)

    def written(self, items: Iterable[int], by: Choices, odd: Sequence[str] = ODD_NUMBERS) -> str:
        return self.often("number", [str(item) for item in items], odd, by)


# ---- configurations


def text(value: str, by: Choices) -> str:
    """A text of a configuration, in one of the ways to write it."""
    return by.pick([f'"{value}"', f'"{value}"', f"'{value}'"])


def listed(items: Iterable[str], by: Choices) -> str:
    """An array of a configuration, on one line or on more."""
    if by.chance(0.2):
        return "[\n" + "".join(f"  {text(item, by)}, # one\n" for item in items) + "]"
    return "[" + ", ".join(text(item, by) for item in items) + "]"


def entries(by: Choices) -> str:
    return listed(by.some([*USERS, *(f"@{group}" for group in GROUPS), "@admins", "nobody", "*"], 3), by)


def group_lines(by: Choices) -> tuple[list[str], list[str]]:
    """Lines of a configuration before all tables, and its table, for names of groups, each with its members."""
    groups = {name: by.some(USERS, 2) for name in ("wheel", "users", "admins") if by.chance(0.6)}
    form, lines = by.number(3), [f"{name} = {listed(users, by)}" for name, users in groups.items()]
    if form == 0 and groups:
        pairs = [f"{name} = [{', '.join(text(user, by) for user in users)}]" for name, users in groups.items()]
        return [f"groups = {{ {', '.join(pairs)} }}"], []
    if form == 1:
        return [f"groups.{line}" for line in lines], []
    return [], [by.pick(["[groups]", '[ "groups" ] # all'])] * bool(groups) + lines


def config(store_dir: str, by: Choices) -> bytes:
    """The text of a valid configuration with a store directory."""
    lines = [f"store-dir = {text(store_dir, by)}"] * (store_dir != "/nix/store" or by.chance(0.2))
    trusted = by.pick(['["ann"]', '["@wheel"]', '["root", "ann"]', '["*"]', "[]", None]) or entries(by)
    lines += [f"trusted-users = {trusted}"] * by.chance(0.5)
    lines += [f"keep-outputs = {by.pick(['true', 'false'])}"] * by.chance(0.7)
    lines += [f'{by.pick(["keep-derivations", QUOTED])}={by.pick(["true", "false"])}'] * by.chance(0.6)
    lines += [f"allowed-users = {entries(by)}"] * by.chance(0.15)
    before, table = group_lines(by) if by.chance(0.5) else ([], [])
    return "\n".join([*by.turned([*lines, *before]), *table, ""]).encode()


def odd_config(by: Choices) -> bytes:
    """The text of a configuration with one line against the rules, or two."""
    lines = [by.pick(ODD_LINES) for _ in range(by.pick([1, 1, 2]))]
    return b"\xff\n" if by.chance(0.3) else "\n".join([*lines, ""]).encode()
