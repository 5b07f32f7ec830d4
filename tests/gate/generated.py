"""Checks the pages that a script writes, or that have a limit of size.

--write writes PERFORMANCE.md and its picture, and the columns of PROMISES.md. A clause that no row names gets a row
with a question mark, in whose place its promise has to be written.
"""
import json
import re
import xml.etree.ElementTree
from pathlib import Path

import pytest

from nixkeep_dev.bench import chosen
from nixkeep_dev.build.program import HERE
from nixkeep_dev.commands import bench
from nixkeep_dev.sources import promises
from nixkeep_dev.testing.report import finds_nothing
from nixkeep_dev.testing.tracked import text_of, tracked

FIGURES, PROMISES = "bench/figures.json", "docs/PROMISES.md"
LIMITS = {"docs/PERFORMANCE.md": 8_192, "docs/DECISIONS.md": 25_600, PROMISES: 44_032}


@pytest.fixture(scope="module", autouse=True)
def written(pytestconfig):
    """Writes the pages before they are checked, where that is asked for."""
    if pytestconfig.getoption("--write"):
        bench.write_pages(json.loads(text_of(FIGURES)))
        Path(HERE, PROMISES).write_text(promises.page_made(text_of(PROMISES)), encoding="utf-8")


@finds_nothing
def test_sizes():
    """Pages are no larger than LIMITS says."""
    for name, most in LIMITS.items():
        if (size := Path(f"{HERE}/{name}").stat().st_size) > most:
            yield f"{name} has {size} bytes, and at most {most} are allowed"


@finds_nothing
def test_performance():
    """PERFORMANCE.md and its picture are what `bin/bench --print` writes of bench/figures.json, and each figure that
    they name is there, unless its benchmark isn't measured yet."""
    figures = json.loads(text_of(FIGURES))
    for file, text in bench.pages(figures).items():
        if text_of(str(Path(file).relative_to(HERE))) != text:
            yield f"{str(Path(file).relative_to(HERE))} isn't what `bin/bench --print` writes"
    for figure in chosen.FIGURES:
        if figure.bench in figures and not chosen.figure_in(figures, *figure[1:]):
            yield f"{FIGURES} has no figure {figure.label!r}"
    xml.etree.ElementTree.fromstring(text_of("docs/performance.svg"))


def test_performance_of_missed_limits():
    """The page has no more bytes than LIMITS says, whatever limits are missed."""
    figures = json.loads(text_of(FIGURES))
    for figure in [figure for of in figures.values() for figure in of["figures"] if figure.get("limit")]:
        figure["is_met"] = False
    assert len(bench.pages(figures)[bench.PAGE].encode()) <= LIMITS["docs/PERFORMANCE.md"]


@finds_nothing
def test_promises():
    """The columns `Call` and `Clauses` of PROMISES.md are those of the sources, so each clause that is named exists,
    and each clause of each call of the ten public crates, each law and each field of a record that is listed is
    named."""
    return promises.faults(text_of(PROMISES))


@finds_nothing
def test_texts():
    """The index of REFERENCE.md has each failure that a tool's source names: the words after `failed:`."""
    index = text_of("docs/REFERENCE.md").partition("### Index of texts")[2].partition("\n## ")[0]
    listed = {word for row in re.findall(r"^\| (`(?:failed|denied): [^|]*)\|", index, re.M)
              for word in re.findall(r"[a-z][a-z-]+", row)}
    for file in tracked("tools/nixkeep_tools/*.py"):
        for word in re.findall(r"\b(?:failed|denied): ([a-z-]+)(?=[:\"\\ {;])", text_of(file)):
            if word not in listed:
                yield f"the index of REFERENCE.md doesn't have {word} of {file}"
