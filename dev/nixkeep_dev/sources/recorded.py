"""The crates whose wrong bodies were all tried as they are now, by the sums of a list in the repository.

The sum of a crate is of what the prover's judgement of its wrong bodies depends on: the crate's own files without lines
of comments, its edits, and of each crate below what it promises, which is its definitions and its sources without the
bodies of functions. So a comment, or another body below, leaves the sum as it is, and another clause or definition
doesn't.
"""
import functools
import hashlib
import re
from collections.abc import Iterable
from pathlib import Path

from nixkeep_dev.build import program
from nixkeep_dev.sources import bodies, functions

NAME, NOT_RECORDED = "tests/gate/tried.txt", "not recorded"
# A line of a comment, of a source and of a definition or a proof.
COMMENTS = {".rt": re.compile(r"^ *//.*\n", re.M), ".antt": re.compile(r"^ *--( .*|-*)\n", re.M)}


def without_comments(path: str, text: str) -> str:
    """A file without the lines that are comments."""
    comments = COMMENTS.get(Path(path).suffix)
    return comments.sub("", text) if comments else text


def promised(path: str, text: str) -> str:
    """A file of sources without comments and without the bodies of functions, but for those of constants."""
    lines = without_comments(path, text).split("\n")
    for at, line in enumerate(lines):
        head = line is not None and functions.FUNCTION.match(line)
        if head and not head[2] and (body := functions.body_of(lines, at)):
            lines[body[0] + 1 : body[1]] = [None] * (body[1] - body[0] - 1)
    return "\n".join(line for line in lines if line is not None)


def sum_of(crate: str, named: dict[str, list]) -> str:
    """The sum of a crate of crates.txt."""
    *below, _ = program.with_below(crate, named)
    edits = sorted(Path(program.HERE, "crates", crate, "further").glob("*.edit"))
    own = [*(Path(program.HERE, name) for name in program.files_of(crate)), *edits]
    texts = {str(path.relative_to(program.HERE)): path.read_text("utf-8") for path in own}
    whole = [(path, without_comments(path, text)) for path, text in texts.items()]
    return hashlib.sha256(repr((whole, [promises_of(library) for library in below])).encode()).hexdigest()


@functools.cache
def promises_of(crate: str) -> str:
    """The sum of what a crate promises to those above it."""
    sources = {file: promised(file, text) for file, text in bodies.sources(crate).items()}
    specs = {file: without_comments(file, text) for file, text in bodies.sources(crate, "specs").items()}
    texts = sorted({**sources, **specs}.items())
    return hashlib.sha256(repr((crate, texts)).encode()).hexdigest()


def listed() -> dict[str, str]:
    """What the list has of each crate: the sum at which all of its wrong bodies were refused, or that there is none."""
    lines = Path(program.HERE, NAME).read_text().splitlines()
    return dict(line.split(": ") for line in lines if line and not line.startswith("#"))


def record(crates: Iterable[str], named: dict[str, list]) -> None:
    """Writes the present sums of these crates."""
    path = Path(program.HERE, NAME)
    comments = [line for line in path.read_text().splitlines() if line.startswith("#")]
    sums = {**listed(), **{crate: sum_of(crate, named) for crate in crates}}
    path.write_text("\n".join([*comments, *(f"{crate}: {sums[crate]}" for crate in sorted(sums)), ""]))


def changed_crates(crates: Iterable[str], named: dict[str, list]) -> list[str]:
    """Those of these crates that aren't as they were when the list got their sums, and those that it doesn't name."""
    sums = listed()
    compared = [crate for crate in crates if sums.get(crate) != NOT_RECORDED]
    return [crate for crate in compared if sums.get(crate) != sum_of(crate, named)]
