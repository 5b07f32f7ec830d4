"""Tries wrong definitions and constants, each alone, and by hand bodies too.

What a definition says is in the contracts of many functions. So some of those that cite it are checked with it, over
the others, which are only stated: one has to be refused. Where none is, the whole crate has to be. An edit of `laws`
may change a definition of a crate below, as `file: ../model/specs/Step.antt`. Then the laws are checked over the
sources of this crate and of those between the two, in one check; where no law is refused, what they prove themselves
has to be. A check takes what an earlier one has kept of a crate and is still true. An error counts if it isn't for a
name that the edit took away, and a text that can't be read isn't refused for what it says.
"""
import os
import re
import tempfile
from collections.abc import Iterable

from nixkeep_dev.build import program
from nixkeep_dev.sources import bodies, citations, copies, functions
from nixkeep_dev.sources.verdicts import Kind, Verdict
from nixkeep_dev.testing.days import Bound

# How many of the functions that cite a definition are checked alone, before the whole crate is.
CITING = 3
ERROR = re.compile(r"(?:\./)?(\S+?):\d+:\d+: error: (?:(`[^`]*`): )?(.*)")
# What an error says of a text that can't be read.
UNREAD = re.compile(r"is not in scope|is no name|operand is missing|expected the end|cannot continue")


def changes_of(edit):
    """The changes of an edit by the crate that they are of, with the files' paths in it."""
    by_crate = {}
    for file, old, new in edit.pairs:
        # (normpath: of crate `laws` they lead to other crates by `..`, which Path leaves)
        at = os.path.normpath(f"{edit.crate}/{file}")
        by_crate.setdefault(at.split("/")[0], []).append((at.partition("/")[2], old, new))
    return by_crate


def errors_of(said):
    return [ERROR.match(line) for line in said.splitlines() if ERROR.match(line)]


def unread(said, changed):
    """The errors that a check said of these files, which were changed, and whose text can't be read."""
    return [error[0] for error in errors_of(said)
            if error[1].endswith(changed) and (not error[2] or UNREAD.search(error[3]))]


def judged(status, said, changed):
    """Why what a check said is no refusal; None where it is one."""
    if status == 0:
        return "NOT REFUSED"
    if status != 1:
        return f"NOT TRIED: a check ended with status {status}:\n{said[-600:]}"
    if faults := unread(said, changed):
        return f"its text can't be read: {faults[0]}"
    if any(not any(name in error[3] for name in bodies.OF_NAMES)
           for error in errors_of(said)) or "it is not proved" in said:
        return None
    return f"NOT REFUSED for what it says:\n{said[-600:]}"


def is_refused_by_some(edit, named, kept, is_tried_without):
    """Whether some of the functions that cite what an edit changes are refused with it, over the others. Where they are
    tried without it too, all have to be proved then."""
    crate, texts = edit.crate, {**bodies.sources(edit.crate), **bodies.sources(edit.crate, "specs")}
    citing, made = citations.citing(edit.pairs, texts)[:CITING], bodies.laid(edit.pairs, texts)
    if not citing or made is None:
        return False
    check = lambda texts: copies.check_stated(crate, named, texts, {*citing}, f"{kept}/{crate}")
    if is_tried_without and not all(map(check(texts).is_proved, citing)):
        return False
    checked, files = check(made), tuple(file for file, _, _ in edit.pairs)
    if unread(checked.output, files):
        return False
    # (an error may be of a lemma on which the function's proof depends)
    not_proved = [name for name in citing if checked.said.get(name, "").startswith("not proved")]
    return any(map(checked.is_refused, citing)) or bool(not_proved and judged(1, checked.output, files) is None)


def why_not_over_sources(among, changed, named, kept, is_tried_without):
    """Tries changes of crates over the sources of all that are changed and those above: why they aren't refused."""
    crate, files = among[-1], tuple(file for of_one in changed.values() for file, _, _ in of_one)
    laws = [path for *_, path in functions.functions(bodies.sources(crate))] if len(among) > 1 else []
    with tempfile.TemporaryDirectory(prefix="rt-edit-") as room:
        check = lambda top, only: copies.check_sources(among, named, top, only, f"{kept}/{among[0]}")
        if is_tried_without:
            [copies.put(one, [], f"{room}/without") for one in among]
            if check(f"{room}/without", laws)[0]:
                return "NOT TRIED: without it the check fails, too"
        if not all([copies.put(one, changed.get(one, []), room) for one in among]):
            return "its text doesn't stand once in the sources"
        # (with no law that is refused, all that the crates prove is checked)
        for only in [laws, []] if laws else [[]]:
            status, said = check(room, only)
            if status:
                break
        return judged(status, said, files)


def why_not(edit, named, kept, is_tried_without):
    """Tries an edit alone, over what was kept of each crate: why it isn't refused, or None."""
    crate, changed = edit.crate, changes_of(edit)
    among = [other for other in program.with_below(crate, named) if {*program.with_below(other, named)} & {*changed}]
    for other in among:
        os.makedirs(f"{kept}/{other}", exist_ok=True)
    if among == [crate] and is_refused_by_some(edit, named, kept, is_tried_without):
        return None
    return why_not_over_sources(among, changed, named, kept, is_tried_without)


def try_each(edits: Iterable[bodies.Edit], named: dict[str, list], bound: Bound,
             is_tried_without: bool) -> dict[bodies.Edit, Verdict]:
    """Tries edits of a crate that change the same crates, one after another; returns what came of each. Once the bound
    is spent only those are tried that the gate always tries."""
    verdicts = {}
    with tempfile.TemporaryDirectory(prefix="rt-edits-") as kept:
        for edit in edits:
            if edit.key() in bodies.always() or not bound.leaves_out([edit]):
                why = why_not(edit, named, kept, is_tried_without)
                verdicts[edit] = Verdict(Kind.SURVIVES, why) if why else Verdict(Kind.REFUSED)
    return verdicts
