"""Compares archives with Nix over random trees of files.

For each of `--count` trees (40): what `nix-store --dump` writes is read, and written again byte for byte; the archive
that is written is restored by `nix-store --restore` to a tree whose dump is the same; the checker takes it in small
pieces; and the listing has the paths, types, sizes and targets of `nix nar ls` (where names are text, as its JSON is).
Of archives with one bit changed, or cut short, one that is taken here is dumped as it is by a Nix that restores it,
except where the target of a link has a zero byte, where a link of the system ends. `--libraries FILE` names the
program of crates/bench; else it is proved and built. Skipped where Nix isn't installed (Debian: nix-bin).
"""
import json
import os
import shutil
from pathlib import Path

import pytest

from nixkeep_dev.testing import folders, nar, report
from nixkeep_dev.testing.nix import TOOLS, Nix

pytestmark = pytest.mark.needs(*TOOLS)
COUNT = 40
# Bytes of names: plain ones, the ends of the escaped ranges, a backslash, and bytes that are no UTF-8.
BYTES = b"abcXYZ019.-_ \t\n\\!~\"'\x01\x7f\x80\xc3\xa9\xff"
PLAIN = b"abcXYZ019.-_"
SPOILED = 10


def some_text(rng, alphabet, sizes):
    return bytes(rng.choice(alphabet) for _ in range(rng.choice(sizes)))


def name(rng, alphabet):
    text = some_text(rng, alphabet, [1, 1, 2, 3, 8, 9, 40])
    return name(rng, alphabet) if text in (b".", b"..") or text.startswith(b"-") else os.fsdecode(text)


def grow(rng, path, alphabet):
    """Makes a random file, link or folder at the path."""
    folders.grow(rng, path, 4, lambda _: name(rng, alphabet), lambda: some_text(rng, alphabet + b"/", [1, 5, 8, 60]),
                 lambda: rng.randbytes(rng.choice([0, 1, 7, 8, 9, 13, 14, 100, 5000])))


def deep(path, depth):
    """Makes directories inside one another."""
    for _ in range(depth):
        os.mkdir(path)
        path += "/d"


class Compared:
    def __init__(self, ours, nix):
        self.ours, self.nix, self.folder = ours, nix, nix.folder

    def restored(self, text):
        """What Nix dumps of the archive that it restored; nothing where it refuses it."""
        path = f"{self.folder}/restored"
        is_taken = self.nix.ran("nix-store", "--restore", path, given=text).returncode == 0
        dumped = self.nix.ran("nix-store", "--dump", path) if is_taken else None
        if Path(path).is_symlink() or Path(path).is_file():
            os.remove(path)
        else:
            shutil.rmtree(path, ignore_errors=True)
        return dumped.stdout if dumped else None

    def is_archive(self, text, size):
        return self.ours("archives", "check", size, given=text).startswith(b"an archive\n")

    def one(self, path, is_plain):
        """Compares the archive of a tree, which is returned."""
        dump = self.nix("nix-store", "--dump", path)
        report.same("an archive that is written as it was read", self.ours("archives", "rewrite", given=dump), dump,
                    dump)
        report.same("the tree that Nix restores", self.restored(dump), dump, dump)
        for size in ("1", "100", "65536"):
            report.same(f"an archive in pieces of {size} bytes", self.is_archive(dump, size), True, dump)
        if is_plain:
            Path(archive := f"{self.folder}/archive.nar").write_bytes(dump)
            tree = json.loads(self.nix("nix", "nar", "ls", "--json", "-R", archive, "/"))
            ours = self.ours("archives", "list", given=dump).decode().splitlines()
            report.same("a listing", ours, nar.listing(tree), dump)
        return dump

    def spoiled(self, rng, dump):
        """Where an archive that is cut short, or has one bit changed, is taken, Nix dumps it as it is."""
        where = rng.randrange(len(dump))
        text = dump[:where]
        if rng.random() >= 0.3:
            text += bytes([dump[where] ^ (1 << rng.randrange(8))]) + dump[where + 1 :]
        is_taken, again = self.is_archive(text, "100"), self.ours("archives", "rewrite", given=text)
        report.same("what a reader and a checker take", again.startswith(text or b"?"), is_taken, text)
        if is_taken and b"\\x00" not in self.ours("archives", "list", given=text):
            theirs = self.restored(text)
            if theirs is not None:
                report.same("the tree that Nix restores of a changed archive", theirs, text, text)


def test_trees(libraries, folder, rng, count):
    compared = Compared(libraries, Nix(folder))
    for at in range(count or COUNT):
        path, is_plain = f"{folder}/tree{at}", at % 2 == 0
        if at == 0:
            deep(path, 256)
        else:
            grow(rng, path, PLAIN if is_plain else BYTES)
        dump = compared.one(path, is_plain)
        for _ in range(SPOILED):
            compared.spoiled(rng, dump)
