"""Wrong bodies and definitions: which the gate tries on which day, and what a check's refusal of one is worth."""
import collections
import functools
import glob
import re
from collections.abc import Iterable
from pathlib import Path

from nixkeep_dev.build import program
from nixkeep_dev.sources import functions
from nixkeep_dev.testing import days, report

# The mistakes that a store must not make, each with the edits that make it, or with what else notices it.
MISTAKES, ELSEWHERE = "tests/gate/mistakes.txt", ("case", "test")
# The crate that has what follows from the definitions of a store. Its wrong definitions are always tried.
LAWS = "laws"
# Edits that change nothing: they have to survive. Those that a check refuses nevertheless, each with the reason.
EQUAL, EXCUSED = "further/equal", "tests/gate/equal.txt"
# Wrong bodies that a check doesn't refuse for what they do, each with the reason.
SURVIVORS = "tests/gate/survivors.txt"
# An error for a name that an edit took away, or for what fell with it: it says nothing of what the body does.
OF_NAMES = "has no field", "has no goal", "that depend", "that can be named from here"
# A goal in which nothing is left to prove, which a proof of another shape doesn't fit.
OF_NOTHING = re.compile(r"(?:expected type|checked against) `(?:\w+\.)*Unit(?: \{\d+\})?`")
# What a check takes, whatever it checks, as a number of edits; and what one edit of crates with long functions takes.
CHECK, HEAVY = 6, dict.fromkeys(("store", "store_adds", "tables", "tables_make", "tables_recognize", "tables_writes",
                                 "tool", "wire"), 4)
# How many edits of definitions are tried one after another at most, and the days within which all edits are tried.
NEIGHBOURS, DAYS = 5, days.DAYS_OF_EDITS
# The functions that a function calls and that aren't proved.
CALLS = re.compile(r"(?:it calls|a call of) (.*), which (?:(?:is|are) not proved|has no proof)")
ERROR = re.compile(r"^\./proofs/(\S+)/\w+\.antt:\d+:\d+: error: (.*(?:\n(?:  |\t).*)*)", re.M)


class Edit:
    """A wrong body or definition: what it replaces, in which file, and the functions whose bodies it changes."""

    def __init__(self, crate: str, path: str, texts: dict[str, str]):
        self.crate, self.name, self.path, self.pairs = crate, Path(path).stem, path, changes(path)
        self.functions = [functions.function_at(file, texts, old) for file, old, _ in self.pairs]

    def __str__(self):
        return f"{self.crate}/{'equal/' if self.is_equal() else ''}{self.name}"

    def key(self) -> tuple[str, str]:
        """The crate and the name, by which lists name an edit."""
        return self.crate, self.name

    def is_of_bodies(self) -> bool:
        return None not in self.functions

    def is_equal(self) -> bool:
        """Whether it changes nothing."""
        return Path(self.path).parent.name == Path(EQUAL).name


def sources(crate: str, part: str = "src") -> dict[str, str]:
    """The texts of a crate's sources, or of its specs, by their path in it."""
    top = Path(f"{program.HERE}/crates/{crate}")
    return {str(file.relative_to(top)): file.read_text(encoding="utf-8") for file in top.glob(f"{part}/**/*")
            if file.is_file()}


@functools.cache
def further(crate: str, folder: str = "further") -> list[Edit]:
    """The further edits of a crate, in the order of their names."""
    texts = sources(crate)
    return [Edit(crate, path, texts) for path in sorted(glob.glob(f"{program.HERE}/crates/{crate}/{folder}/*.edit"))]


def mistakes() -> list[tuple[str, list]]:
    """The mistakes of the table, each with pairs: of a crate and a name, or of what else notices it and its name."""
    lines = [line for line in Path(f"{program.HERE}/{MISTAKES}").read_text().splitlines()
             if line and not line.startswith("#")]
    return [(mistake, [tuple(pair.split()) for pair in by.split(", ")]) for mistake, _, by in
            (line.rpartition(": ") for line in lines)]


@functools.cache
def always() -> list[tuple]:
    """The edits that the gate always tries, those of the mistakes and the wrong definitions of the laws: pairs of a
    crate and a name."""
    of_mistakes = [pair for _, by in mistakes() for pair in by if pair[0] not in ELSEWHERE]
    return [*dict.fromkeys([*of_mistakes, *((crate, edit.name) for crate, edit in every(False) if crate == LAWS)])]


@functools.cache
def every(of_bodies: bool) -> list[tuple[str, Edit]]:
    """All further edits of bodies, or all others: pairs of a crate and the edit."""
    return [(crate, edit) for crate in having() for edit in further(crate) if edit.is_of_bodies() == of_bodies]


def having_bodies() -> list[str]:
    """The crates that have further edits of bodies."""
    return sorted({crate for crate, _ in every(True)})


@functools.cache
def others() -> list[list]:
    """The edits of bodies that the gate doesn't always try, in lists that one check tries: they are of one crate, and
    change different functions."""
    groups = []
    for crate, edit in every(True):
        if (crate, edit.name) not in always():
            free = [group for group in groups if group[0][0] == crate
                    and not any({*edit.functions} & {*one.functions} for _, one in group)]
            if free:
                free[0].append((crate, edit))
            else:
                groups.append([(crate, edit)])
    return groups


@functools.cache
def definitions() -> list[list]:
    """The edits of definitions and constants that the gate doesn't always try, in lists of neighbours: they are of one
    crate, and change the same crates below it, so a check of one takes much of what another has kept."""
    groups = {}
    for crate, edit in every(False):
        if (crate, edit.name) not in always():
            groups.setdefault((crate, *sorted({*crates_below(edit)})), []).append((crate, edit))
    return [of_one[at : at + NEIGHBOURS] for of_one in groups.values() for at in range(0, len(of_one), NEIGHBOURS)]


def crates_below(edit: Edit) -> list[str]:
    """The crates below its own that an edit changes."""
    return [file.split("/")[1] for file, _, _ in edit.pairs if file.startswith("../")]


def others_of_day(day: int) -> list[tuple]:
    """The edits of bodies that the gate tries on a day, but for those that it always tries: pairs of a crate and a
    name."""
    on = days.balanced(others(), lambda group: CHECK + len(group) * HEAVY.get(group[0][0], 1), DAYS)[day % DAYS]
    return names(days.in_turn(on, day, DAYS))


def definitions_of_day(day: int) -> list[tuple]:
    """The edits of definitions that the gate tries on a day, but for those that it always tries."""
    return names(days.in_turn(days.balanced(definitions(), len, DAYS)[day % DAYS], day, DAYS))


def names(lists: Iterable[list]) -> list[tuple]:
    """The edits of these lists, as pairs of a crate and a name."""
    return [(crate, edit.name) for edits in lists for crate, edit in edits]


def having_equal() -> list[str]:
    """The crates that have edits which change nothing."""
    return [crate for crate in having() if glob.glob(f"{program.HERE}/crates/{crate}/{EQUAL}/*.edit")]


def equal_of_day(day: int) -> list[str]:
    """Those of them whose control the gate tries on a day."""
    return days.of_day(having_equal(), day, DAYS)


def having(names: Iterable[str] = ()) -> list[str]:
    """The crates that have further edits; fails where one of these names isn't among them."""
    crates = sorted({path.split("/")[-3] for path in glob.glob(f"{program.HERE}/crates/*/further/*.edit")})
    if unknown := [name for name in names if name not in crates]:
        report.fail(f"no further edits in crates/: {' '.join(unknown)}")
    return crates


def excused(file: str = EXCUSED) -> list[tuple]:
    """The edits that change nothing and that a check refuses nevertheless, or those that another file excuses: pairs of
    a crate and a name."""
    lines = Path(f"{program.HERE}/{file}").read_text().splitlines()
    return [tuple(line.partition(":")[0].split()) for line in lines if line and not line.startswith("#")]


def changes(path: str) -> list[tuple]:
    """The changes of an edit: the file, the old text and the new."""
    edited, file, old = [], None, None
    for line in Path(path).read_text(encoding="utf-8").split("\n"):
        kind, _, text = line.partition(": ")
        if kind == "file":
            file = text.strip()
        elif kind == "old":
            old = text
        elif line.startswith("new:"):
            edited.append((file, old, text))
    return edited


def laid(changed: Iterable[tuple], texts: dict[str, str]) -> dict[str, str] | None:
    """The texts with these changes, or None where an old text isn't there exactly once."""
    made = dict(texts)
    for file, old, new in changed:
        if made.get(file, "").count(old) != 1:
            return None
        made[file] = made[file].replace(old, new)
    return made


def plain(name):
    """A function's path without what distinguishes it from a type or a module of its name."""
    return name.replace("fn::", "")


class Check:
    """What a check of a crate said: a line for each function that was changed, and for those in them, and errors in
    proofs."""

    def __init__(self, crate: str, output: str, edited: Iterable[str]):
        self.crate, self.output, self.edited = crate, output, {plain(name) for name in edited}
        self.said = dict(re.findall(rf"^fn {crate}::(\S+): (.*)", output, re.M))
        self.errors = collections.defaultdict(list)
        for folder, text in ERROR.findall(output):
            self.errors[folder].append(text)

    def errors_of(self, function: str) -> list[str]:
        """The errors in the proofs of a function and of its closures."""
        folder = function.replace("fn::", "+").replace("::", "/")
        return [text for at, texts in self.errors.items() if f"{at}/".startswith(f"{folder}/") for text in texts]

    def others(self, function: str) -> set[str]:
        """The functions that were changed, that aren't proved and that this one calls, its own closures left out."""
        own = {name: text for name, text in self.said.items() if f"{plain(name)}::".startswith(f"{plain(function)}::")}
        calls = CALLS.findall("\n".join(own.values()))
        named = {plain(name.removeprefix(f"{self.crate}::")) for name in re.findall(r"`(.*?)`", " ".join(calls))}
        return (named & self.edited) - {plain(name) for name in own}

    def is_proved(self, function: str) -> bool:
        """Whether a function is proved, over others that are only stated."""
        return self.said.get(function, "").startswith(("no holes", "depends on a hole"))

    def is_refused(self, function: str) -> bool | None:
        """Whether a function is refused for what its body does: a search failed, or an error is of a goal of its own
        and neither of a name that is gone nor of a goal in which nothing is left. None where another that it calls is
        refused first."""
        said, errors = self.said.get(function, ""), self.errors_of(function)
        if not self.is_not_proved(function):
            return False
        if "did not prove" in said or any(is_of_meaning(error) for error in errors):
            return True
        return None if self.others(function) else False

    def is_not_proved(self, function: str) -> bool:
        """Whether it is said of a function that it isn't proved, for whatever reason."""
        return self.said.get(function, "").startswith(("not proved", "no proof"))

    def is_by_search_alone(self, function: str) -> bool:
        """Whether a function is refused for a search alone that found no proof, as it may of a goal that is true."""
        errors = [error for error in self.errors_of(function) if is_of_meaning(error)]
        return "did not prove" in self.said.get(function, "") and not errors

    def why_not(self, function: str) -> str:
        """What was said of a function that isn't refused for what its body does."""
        errors = [error.split("\n")[0] for error in self.errors_of(function)]
        said = self.said.get(function, "nothing is said of it")
        return f"{function}: {'; '.join([said, *errors[:2]])}"


def is_of_meaning(error):
    return not any(name in error for name in OF_NAMES) and not OF_NOTHING.search(error)
