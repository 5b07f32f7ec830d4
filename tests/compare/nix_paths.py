"""Compares paths of texts and folders, and the base 32 in them, with what Nix computes, over random inputs:

  - the path of a text without references, and with some in any order and with repeats, with `builtins.toFile`;
  - the 32 digits of each path, with `nix-hash --to-base32` of the digest of its fingerprint, folded here;
  - the path of a folder's archive as `nix-store --dump` writes it, with `nix-store --add`, and the archive's listing,
    with the folder itself.

`--count` texts of each kind and as many folders are tried (150). Skipped where Nix isn't installed (Debian: nix-bin).
"""
import subprocess
from pathlib import Path

import pytest

from nixkeep_dev.testing import folders, nar, report
from nixkeep_dev.testing.nix import NAME, TOOLS, Nix, literal

pytestmark = pytest.mark.needs(*TOOLS)
COUNT = 150
ENTRY = "abcXYZ019_+.~ \\-"
CONTENTS = "abc XYZ019/:-_.,;<>()[]{}#%&*!~^|@\n\t"


def text(rng, length, alphabet):
    return "".join(rng.choices(alphabet, k=length))


def put_folder(rng, path):
    folders.grow(rng, path, 3, lambda _: f"{text(rng, rng.randrange(1, 9), ENTRY)}x",
                 lambda: text(rng, 6, "abc /.\\"), lambda: text(rng, rng.randrange(200), CONTENTS).encode(),
                 (1, 5), "folder")


class Texts:
    """The program and Nix, and some texts."""

    def __init__(self, file, nix, rng, count):
        self.file, self.nix = file, nix
        self.names = [text(rng, 1, NAME) + text(rng, rng.randrange(30), NAME + ".-") for _ in range(count)]
        self.contents = [text(rng, rng.randrange(200), CONTENTS) + "." for _ in range(count)]
        self.plain = self.files("plain", [literal(content) for content in self.contents])

    def ran(self, *words, given=b""):
        return subprocess.run([self.file, *words], input=given, capture_output=True, check=True).stdout

    def files(self, name, contents, before=""):
        """The paths that Nix gives to texts, each an expression, in a file of this name."""
        made = [f'(builtins.toFile "{name}" ({content}))\n' for name, content in zip(self.names, contents)]
        Path(path := f"{self.nix.folder}/{name}.nix").write_text(f"{before}[\n{''.join(made)}]\n")
        return self.nix.value(path)


@pytest.fixture
def nix(folder):
    made = Nix(folder)
    yield made
    made.clear()


@pytest.fixture
def texts(program, nix, rng, count):
    return Texts(program, nix, rng, count or COUNT)


def test_texts_without_references(texts, nix):
    """The path, and the base 32 in it, of its fingerprint's folded digest."""
    for name, contents, theirs in zip(texts.names, texts.contents, texts.plain):
        ours = texts.ran("text-path", name, given=contents.encode()).decode().strip()
        report.same(f"the path of a text named {name}", ours, theirs)
        fingerprint = f"text:sha256:{nar.sha256(contents.encode()).hex()}:{nar.STORE}:{name}"
        folded = nar.folded(nar.sha256(fingerprint.encode())).hex()
        digits = nix("nix-hash", "--type", "sha1", "--to-base32", folded).decode().strip()
        report.same(f"base 32 in the path of {name}", Path(ours).name[:32], digits)


def test_texts_with_references(texts, nix, rng):
    """References are given as full paths and as base names, some twice."""
    chosen = [rng.choices(texts.plain, k=rng.randrange(1, 5)) for _ in texts.names]
    at = {path: f"${{builtins.elemAt t {number}}} " for number, path in enumerate(texts.plain)}
    written = ['"' + "".join(at[ref] for ref in refs) + '"' for refs in chosen]
    theirs = texts.files("referring", written, f"let t = import {nix.folder}/plain.nix; in ")
    for name, refs, wanted in zip(texts.names, chosen, theirs):
        words = [word for ref in refs for word in (ref, Path(ref).name)]
        ours = texts.ran("text-path", name, *words, given="".join(f"{ref} " for ref in refs).encode())
        report.same(f"the path of {name} with references", ours.decode().strip(), wanted)


def test_folders(texts, nix, rng):
    for at, name in enumerate(texts.names):
        path = f"{nix.folder}/folders/{at}/{name}"
        put_folder(rng, path)
        dump = nix("nix-store", "--dump", path)
        ours = texts.ran("source-path", name, given=dump)
        report.same(f"the path of folder {at}", ours, nix("nix-store", "--add", path))
        listed = nar.listing(folders.tree(path))
        report.same(f"the listing of folder {at}", texts.ran("ls", given=dump).decode().splitlines(), listed)
