"""The rows of tables, the links and the names on pages: which are too long, and which lead nowhere."""
import glob
import os
import re
from pathlib import Path

from nixkeep_dev.build.program import HERE
from nixkeep_dev.testing.prose import line_at, without_blocks
from nixkeep_dev.testing.tracked import text_of

ROW = 160
# The roots of paths that documents name, and what git doesn't track there.
FOLDERS = r"(?:bin|tests|docs|crates|bench|dev|tools|examples|man|completion|packaging|\.ci)"
PATH = re.compile(rf"(?<![\w./~$}}:-]){FOLDERS}/(?:[\w.*-]+/)*[\w.*-]*\w|(?<![\w./-])[A-Z][A-Z_]+\.md\b")
MADE = re.compile(r"/(?:out|target)(?:/|$)")
LINK = re.compile(r"\[[^\]\n]*\]\(([^)\s]+)\)")
SPAN = re.compile(r"`([^`\n]+)`")
CRATE = re.compile(r"\b[Cc]rates? ((?:`\w+`(?:, | and |, and | or )?)+)|((?:`\w+`(?:, | and |, and )?)+) crates?\b")


def long_rows(name: str, text: str) -> list[str]:
    """The rows of tables on a page that are too long."""
    rows = [(at, line) for at, line in enumerate(without_blocks(text).split("\n"), 1) if line.lstrip().startswith("|")]
    return [f"{name}:{at}: a row of {len(row)} characters" for at, row in rows if len(row) > ROW]


def anchors(text: str) -> list[str]:
    """The names under which the headings of a page are found, as GitHub makes them."""
    names = []
    for heading in re.findall(r"^#+ +(.*?) *#*$", without_blocks(text), re.M):
        shown = re.sub(r"\[([^\]]*)\]\([^)]*\)", r"\1", heading)
        made = re.sub(r"[^\w\- ]", "", shown.lower()).replace(" ", "-")
        names.append(f"{made}-{names.count(made)}" if made in names else made)
    return names


def dead_links(name: str, text: str) -> list[str]:
    """The links on a page that lead nowhere."""
    dead, bare = [], without_blocks(text)
    for link in LINK.finditer(bare):
        place, _, anchor = link[1].partition("#")
        if re.match(r"\w+:", link[1]):
            continue
        # (normpath: the link is read as it is written, and Path leaves `..` in it)
        to = os.path.normpath(Path(name).parent / place) if place else name
        is_there = Path(f"{HERE}/{to}").exists()
        if not is_there or anchor and to.endswith(".md") and anchor not in anchors(text_of(to)):
            dead.append(f"{name}:{line_at(bare, link.start())}: the link {link[1]} leads nowhere")
    return dead


def is_path(name, path):
    """Whether it is there, from the top, the folder of the document or docs/; a part in capitals is any name."""
    parts = [re.sub(r"^[A-Z][A-Z_]*(?=$|\.edit$)", "*", part) for part in path.split("/")]
    path = "/".join(parts)
    return any(glob.glob(str(Path(HERE, base, path))) for base in ("", Path(name).parent, "docs"))


def columns_of_crates(text):
    """The cells under the headings `Crate`, `Crates` and `Where` of tables, each with its place."""
    for table in re.finditer(r"(?:^ *\|.*\| *$\n?)+", text, re.M):
        wanted = []
        for row in re.finditer(r"^ *\|(.*)\| *$", table[0], re.M):
            cells = [cell.strip() for cell in row[1].split("|")]
            wanted = [at for at, cell in enumerate(cells) if cell in ("Crate", "Crates", "Where")] or wanted
            yield from ((table.start() + row.start(), cells[at]) for at in wanted if at < len(cells))


def crates_named(text):
    """What a text calls a crate, each with its place."""
    for match in CRATE.finditer(text):
        yield from ((match.start(), name) for name in SPAN.findall(match[0]))
    for at, cell in columns_of_crates(text):
        yield from ((at, name) for name in SPAN.findall(cell) if re.fullmatch(r"[a-z][a-z0-9_]*", name))


def dead_names(name: str, text: str, crates: set[str]) -> list[str]:
    """The paths and the crates that a page names and that aren't there."""
    text = re.sub(r"\]\([^)\s]*\)", "]", text)
    paths = [(match.start(), match[0]) for match in PATH.finditer(text) if not MADE.search(match[0])]
    dead = [(at, path, "path") for at, path in paths if not is_path(name, path)]
    dead += [(at, crate, "crate") for at, crate in crates_named(text) if crate not in crates]
    return [f"{name}:{line_at(text, at)}: there is no {kind} {missing}" for at, missing, kind in sorted(set(dead))]
