"""The columns `Call` and `Clauses` of docs/PROMISES.md, made of the sources, and what the page doesn't name of them."""
import os
import re
from collections.abc import Iterator

from nixkeep_dev.sources import contracts
from nixkeep_dev.sources.contracts import DASH

ROW = re.compile(r"^\| (`[^|]*`) \| ([^|]*) \| (.*) \|$", re.M)
SECTION = re.compile(r"^## `(\w+)`\n(.*?)(?=^## |\Z)", re.M | re.S)
RECORD = re.compile(r"^[^\n]*\(`(\w+)`\):\n\n((?:- .*\n(?:  .*\n)*)+)", re.M)
LAWS = re.compile(r"^## The model's laws\n(.*?)(?=^## )", re.M | re.S)
LAW = re.compile(r"`laws::(\w+)::(\w+)`")
# What a row says in place of clauses: all of them.
ALL = "*"
UNSAID = "?"


def named(cell):
    """The calls of a cell, `one::{a, b}` spelled out."""
    for span in re.findall(r"`([^`]+)`", cell):
        prefix, brace, last = span.partition("{")
        yield from (prefix + name.strip() for name in last.rstrip("}").split(",")) if brace else [span]


def cell(calls):
    """The cell of some calls: what they begin with is written once."""
    if len(calls) == 1:
        return f"`{calls[0]}`"
    # (commonprefix: it is of any texts, and they needn't be paths)
    prefix = os.path.commonprefix(calls).rpartition("::")[0] + "::"
    return f"`{prefix}{{{', '.join(call.removeprefix(prefix) for call in calls)}}}`"


def clause_cell(text, calls, known):
    """The clauses of some calls in the order of the source: those that the cell asks for and that there are."""
    clauses = list(dict.fromkeys(clause for call in calls for clause in known[call]))
    words = clauses if text.strip() == ALL else text.replace("`", "").replace(",", " ").split()
    wanted = [clause for clause in clauses if clause in words]
    return spelled(wanted)


def spelled(clauses):
    return ", ".join(clause if clause == DASH else f"`{clause}`" for clause in clauses)


def section_made(crate, text, known):
    """A section with its columns anew: rows of calls that aren't there any more are gone, and what no row names has one
    with a question mark as its promise."""
    said = {}

    def row(match):
        calls = [call for call in named(match[1]) if call in known]
        if not calls:
            return ""
        clauses = clause_cell(match[2], calls, known)
        for call in calls:
            said.setdefault(call, []).extend(clauses.replace("`", "").split(", "))
        return f"| {cell(calls)} | {clauses} | {match[3]} |"

    made, more = ROW.sub(row, text), []
    for call, clauses in known.items():
        if left := [clause for clause in clauses if clause not in said.get(call, [])]:
            more.append(f"| {cell([call])} | {spelled(left)} | {UNSAID} |\n")
    last = [match.end() for match in ROW.finditer(made)]
    at = last[-1] + 1 if last else len(made)
    return f"## `{crate}`\n{made[:at]}{''.join(more)}{made[at:]}"


def page_made(page: str) -> str:
    """The page with the columns as the sources have them."""
    return SECTION.sub(lambda match: section_made(match[1], match[2], contracts.calls_of(match[1])), page)


def faults_of_records(page):
    for match in RECORD.finditer(page):
        fields = contracts.fields(match[1])
        listed = [name for line in re.findall(r"^- ((?:`\w+`(?:, )?)+):", match[2], re.M)
                  for name in re.findall(r"`(\w+)`", line)]
        for name in sorted({*fields} ^ {*listed}):
            yield f"the record {match[1]} " + (
                f"has {name}, and the page doesn't" if name in fields else f"has no {name}")


def law_parts(text):
    """The laws of the page, those of a paragraph or an item together, each part with the clauses that it names."""
    starts = [match.start() for match in re.finditer(r"^(?:- )?`laws::", text, re.M)]
    for begin, end in zip(starts, [*starts[1:], len(text)]):
        part = re.split(r"^#", text[begin:end], flags=re.M)[0]
        head = re.split(r"\n *- |: |\. ", part)[0]
        items = re.findall(r"^ *- ((?:`\w+`(?:, )?)+):", part, re.M)
        listed = re.findall(r"clauses ((?:`\w+`(?:, | and )?)+)", part.replace("\n", " "))
        yield LAW.findall(head), {clause for line in [*items, *listed] for clause in re.findall(r"`(\w+)`", line)}


def faults_of_laws(page):
    known, said = contracts.calls_of("laws"), set()
    for laws, clauses in law_parts(LAWS.search(page)[1]):
        names = [f"laws::{module}::{name}" for module, name in laws]
        said |= {*names}
        wanted = {clause for name in names for clause in known.get(name, [])} - {DASH}
        for clause in sorted(wanted ^ clauses):
            yield f"{', '.join(names)}: the clause {clause} " + ("isn't named" if clause in wanted else "doesn't exist")
    for law in sorted(said - known.keys()):
        yield f"there is no law {law}"
    for law in sorted(known.keys() - said):
        yield f"the law {law} isn't named"


def faults(page: str) -> Iterator[str]:
    """What is wrong with the page: a line for each."""
    if page_made(page) != page:
        yield "its columns aren't those of the sources: bin/run tests/gate/generated.py --write"
    for match in ROW.finditer(page_made(page)):
        if match[3] == UNSAID:
            yield f"nothing says what {match[1]} promises by {match[2]}"
    for crate in contracts.PUBLIC:
        if crate not in [section[1] for section in SECTION.finditer(page)]:
            yield f"there is no section of {crate}"
    for call in re.findall(r"`((?:\w+::)+\w+)`", page):
        crate = call.split("::")[0]
        if crate in contracts.PUBLIC and call not in contracts.calls_of(crate):
            yield f"there is no call {call}"
    yield from faults_of_records(page)
    yield from faults_of_laws(page)
