"""Checks the documents of the repository, and the comments of its crates and scripts, as texts. Needs git.

Documents are the tracked files in Markdown. `-k GUIDE` checks one page, and `-k links` one thing of each.
"""
import functools
import re
from pathlib import Path

import pytest

from nixkeep_dev.build import program
from nixkeep_dev.build.program import HERE
from nixkeep_dev.testing import links, prose
from nixkeep_dev.testing.pages import command_blocks
from nixkeep_dev.testing.report import finds_nothing
from nixkeep_dev.testing.tracked import of_language, text_of, tracked

README_BYTES, CRATE_BYTES, SENTENCE_WORDS = 6_000, 4_096, 20
PARTS_OF_CRATE = ["What it is", "Example", "Guarantees", "Not proved"]
PROSE = ["README.md", *(f"docs/{name}.md" for name in ("GUIDE", "OPERATING", "REFERENCE", "FILE_FORMAT", "TESTING"))]
SHOWN = ["README.md", *(f"docs/{name}.md" for name in ("GUIDE", "REFERENCE", "OPERATING"))]
NUMBERED = "docs/REFERENCE.md"
NUMBER = re.compile(r"(?<![\w./,-])(?:\d{1,3}(?:,\d{3})+|\d{3,})(?![\w,]*\w)")
# Numbers of that page that come from elsewhere, each with its origin.
OTHER_NUMBERS = {"0644": "a mode of files", "9112": "an RFC", "20,987,904": "a head and a body: 16,384 + 20,971,520"}
# The comments of crates, and the start of a line of them.
COMMENTS = {"crates/*/src/*.rt": "//[/!](?!/) ?", "crates/*/specs/*.antt": "--+ "}


def each(pages):
    return pytest.mark.parametrize("page", pages)


@functools.cache
def words_to_avoid():
    return prose.words_pattern(prose.rows_of_words())


@functools.cache
def crates():
    """What documents may call a crate."""
    libraries = program.listed()
    return {*libraries, *(name for named in libraries.values() for name in named), "std"}


@finds_nothing
def test_size():
    """README.md has at most 6,000 bytes."""
    size = Path(f"{HERE}/README.md").stat().st_size
    return [f"README.md: {size} bytes, and at most {README_BYTES} are allowed"] * (size > README_BYTES)


@each(PROSE)
@finds_nothing
def test_sentences(page):
    """A sentence of these pages has fewer than 20 words on average (tables, headings and code aren't counted)."""
    words = prose.average(text_of(page))
    if words >= SENTENCE_WORDS:
        yield f"{page}: {words:.1f} words a sentence on average, and fewer than {SENTENCE_WORDS} are wanted"


@finds_nothing
def test_table_of_words():
    """The table of words in CONTRIBUTING.md has the rows that need a pattern of their own."""
    gone = [cell for cell in prose.PATTERNS if cell not in prose.rows_of_words()]
    return [f"{prose.WORDS_OF}: there is no row `{cell}`, as PATTERNS expects" for cell in gone]


@finds_nothing
def test_numbers():
    """A number of three digits or more in the prose of REFERENCE is in a source or a definition of crates/."""
    known = {number.replace("_", "") for path in tracked("crates/*/specs/*.antt", "crates/*/src/*.rt")
             for number in re.findall(r"\b\d[\d_]*\b", text_of(path, "replace"))}
    text = prose.without_code(text_of(NUMBERED))
    for number in NUMBER.finditer(text):
        if number[0].replace(",", "") not in known and number[0] not in OTHER_NUMBERS:
            yield f"{NUMBERED}:{prose.line_at(text, number.start())}: {number[0]}, which no source of crates/ has"


@each(SHOWN)
@finds_nothing
def test_shown(page):
    """Every block of commands in README, GUIDE, REFERENCE and OPERATING, `$ COMMAND` or ```sh, is run by a case:
    `as-shown` runs all commands of each section that it names."""
    cases = "\n".join(map(text_of, tracked("tests/cases/*.txt")))
    run = " ".join(re.findall(rf"as-shown {re.escape(page)}((?:\\\n|[^\n])*)", cases))
    for section in command_blocks(text_of(page)):
        if not re.search(rf"""(?<![\w-]){re.escape(section)}(?![\w-])""", run):
            yield f"{page}: no case runs the commands of the section {section!r}"


@each(tracked("crates/*/README.md"))
@finds_nothing
def test_readmes(page):
    """A README.md in crates/ has at most 4,096 bytes and the four headings that CONTRIBUTING.md names."""
    text, wanted = text_of(page), [f"# {page.split('/')[1]}", *(f"## {part}" for part in PARTS_OF_CRATE)]
    if (size := len(text.encode())) > CRATE_BYTES:
        yield f"{page}: {size} bytes, and at most {CRATE_BYTES} are allowed"
    if (headings := re.findall(r"^#+ .*$", prose.without_blocks(text), re.M)) != wanted:
        yield f"{page}: the headings are {', '.join(headings)}, and {', '.join(wanted)} are wanted"


@each(tracked("*.md"))
@finds_nothing
def test_words(page):
    """No document has a word of the left column of the table in CONTRIBUTING.md."""
    return prose.words_in(page, text_of(page), words_to_avoid())


@each(tracked("*.md"))
@finds_nothing
def test_rows(page):
    """No row of a table has more than 160 characters."""
    return links.long_rows(page, text_of(page))


@each(tracked("*.md"))
@finds_nothing
def test_links(page):
    """Every link between documents resolves, and so does its heading."""
    return links.dead_links(page, text_of(page))


@each(tracked("*.md"))
@finds_nothing
def test_names(page):
    """Every path and crate that documents name exists."""
    return links.dead_names(page, text_of(page), crates())


@each(tracked("tests/cases/*.txt"))
@finds_nothing
def test_cases(page):
    """The prose of cases has none of these words."""
    return prose.words_in(page, prose.prose_of_case(text_of(page)), words_to_avoid())


@each(of_language("python"))
@finds_nothing
def test_scripts(page):
    """The docstrings and comments of scripts in Python have none of these words."""
    return prose.words_in(page, prose.prose_of_script(text_of(page)), words_to_avoid())


@pytest.mark.parametrize("files, start", COMMENTS.items())
@finds_nothing
def test_comments(files, start):
    """The comments of crates have none of these words."""
    for name in tracked(files):
        yield from prose.words_in(name, prose.comments_of(name, start), words_to_avoid())


@pytest.mark.parametrize("files, start", COMMENTS.items())
@finds_nothing
def test_pronouns(files, start):
    """No comment of crates begins with a pronoun."""
    for name in tracked(files):
        yield from prose.begun_by_pronoun(name, start)
