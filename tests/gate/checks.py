"""Checks the repository itself, as texts: what it holds, and the style of its scripts. It proves nothing and needs git.

Numbers that may only be lowered or only be raised are in files of tests/gate/: --lower writes lower ones there, and
--raise higher ones. `-k NAME` runs one check.
"""
import ast
import collections
import os
import re
import subprocess
import sys
import warnings
from pathlib import Path

import pytest

from nixkeep_dev.build import program, release
from nixkeep_dev.sources import bodies, clauses, plants, recorded
from nixkeep_dev.testing import answers, covered, days, hints, packages, parts, report, sabotage
from nixkeep_dev.testing.lowered import Lowered, Raised
from nixkeep_dev.testing.report import finds_nothing
from nixkeep_dev.testing.tracked import git, is_script, of_language, text_of, tracked

HERE = program.HERE
ITSELF = "tests/gate/checks.py"
# What may set the path of Python: the commands, two tools that PYTHONSAFEPATH would keep from their modules, and an
# example that finds the installed tools.
SET_PATH = ("bin/", "tools/nixkeep-cache", "tools/nixkeep-overview", "examples/team/parts.py")
GRAMMAR = "crates/tool_words/src/grammar.rt"
MACHINE = r"(^|[^A-Za-z0-9_.-])/(work|farm|opt|home|Users)/"
CITATION = (r"\b(T[1-5]|D([1-9]|1[0-9]|2[0-2])|W([1-9]|[12][0-9]|3[0-6])|R([1-9]|1[0-5]))\b"
            r"|[Dd]ocument 0[1-4]|[Pp]aper 0[1-4]|\b0[1-4] (§|section)")
# Where a flag of this form is: one for copies of crates in which functions are only stated, and two of other programs.
ALLOWS = ("dev/nixkeep_dev/sources/copies.py:", "tests/package/clean_machine.py:", "docs/OPERATING.md:")
# What has no planted fault: they read what only the program of crates/bench writes, which the toolchain builds.
NOT_PLANTED = ("tests/compare/nix_archives.py", "tests/compare/nix_derivations.py")
# Parameters of types, and digits in base 16, aren't citations.
NO_CITATION = r"<[A-Z][0-9]?|[A-Z][0-9]?>|0x"
# Names that don't say what a thing is.
NO_NAMES = {"it", "found", "asked", "told", "beside", "goes_wrong"}


def holding(pattern):
    """The lines of tracked files, this one left out, that match."""
    return git("grep", "-nIE", "-e", pattern, "--", ".", f":!{ITSELF}")


# ---- files


@finds_nothing
def test_handles():
    """HANDLES is the one line that it has to be."""
    return [] if text_of("HANDLES") == "Handles allowed: Net.\n" else ["HANDLES"]


@finds_nothing
def test_machine():
    """No tracked file has a path of a machine."""
    return holding(MACHINE)


@finds_nothing
def test_citations():
    """Nothing is cited by a number; a rule belongs where it is used."""
    return [line for line in holding(CITATION) if not re.search(NO_CITATION, line.split(":", 2)[2])]


@finds_nothing
def test_sources():
    """Each source in Rattle is one that a check reads."""
    read = r"crates/[a-z0-9_]+/(src|specs|proofs)/"
    return [path for path in git("ls-files", "*.rt", "*.antt") if not re.match(read, path)]


@finds_nothing
def test_allowed():
    """No file has a flag that allows a check to pass over open goals, but for copies of crates with wrong bodies."""
    return [line for line in holding("--allow-") if not line.startswith(ALLOWS)]


@finds_nothing
def test_crates():
    """Each crate has a README.md, an edit that must fail where there is code, and the tactic in its root file."""
    return [f"crates/{crate}: {why}" for crate in program.listed() for why in lacking(Path(HERE, "crates", crate))]


def lacking(folder):
    """What a crate lacks."""
    if not (folder / "README.md").exists():
        yield "no README.md"
    is_library = (folder / "src/lib.rt").exists()
    root = (folder / ("src/lib.rt" if is_library else "src/main.rt")).read_text()
    if is_library and has_code(root) and not [*folder.glob("must-fail/*.edit"), *folder.glob("further/*.edit")]:
        yield "no edit that must fail"
    if "#![tactic(auto)]" not in root.split("\n"):
        yield "its root file lacks #![tactic(auto)]"


def has_code(root):
    """Whether a library has a module that isn't of tests alone: such a one has nothing to edit."""
    of_tests = r"^#\[cfg\(test\)\]\nmod \w+;|^mod tests;"
    return re.search(r"^(?:pub )?mod ", re.sub(of_tests, "", root, flags=re.M), re.M) is not None


@finds_nothing
def test_executable():
    """A script that says by what it is run can be run, and nothing else can."""
    for path in [path for path in tracked() if not path.startswith("packaging/")]:
        if is_script(path) != os.access(f"{HERE}/{path}", os.X_OK):
            what = "it is a script and has no x bit" if is_script(path) else "it has an x bit and says no program"
            yield f"{path}: {what}"


@finds_nothing
def test_released():
    """release/ is that of the present sources, and tests/stores has a file that this version wrote."""
    yield from [f"{why} (bin/release makes it anew)" for why in release.faults()]
    if not Path(f"{HERE}/tests/stores/release-{release.version()}.tar.xz").exists():
        yield f"tests/stores has no file of version {release.version()} (tests/stores/make makes it)"


@finds_nothing
def test_versions():
    """The texts of the program have the version of the file VERSION."""
    texts = re.findall(r'^const (VERSION|ABOUT): &str = "(?:nixkeep )?([0-9.]+)[":]', text_of(GRAMMAR), re.M)
    if texts != (wanted := [(name, release.version()) for name in ("VERSION", "ABOUT")]):
        yield f"{GRAMMAR} has {texts}, and the file VERSION {wanted}"


@finds_nothing
def test_packages_named():
    """README.md names the Debian packages of tests/packages.txt in one line."""
    line = packages.install_line(packages.listed())
    return [] if line in " ".join(text_of("README.md").split()) else [f"README.md hasn't the line: {line}"]


# ---- what the tests have to have


@finds_nothing
def test_mistakes():
    """Each mistake of tests/gate/mistakes.txt has a wrong body or definition that doesn't survive, or a case, or a test
    in crates."""
    there = {(crate, edit.name) for of_bodies in (True, False) for crate, edit in bodies.every(of_bodies)}
    there |= {("case", Path(path).stem) for path in tracked("tests/cases/*.txt")}
    there |= {("test", name) for file in tracked("crates/tests/src/*.rt")
              for name in re.findall(r"^#\[test\]\nfn (\w+)\(", text_of(file), re.M)}
    there -= {*bodies.excused(bodies.SURVIVORS)}
    for mistake, by in bodies.mistakes():
        yield from [f"{mistake}: there is no {' '.join(name)}, or it survives" for name in by if name not in there]


@finds_nothing
def test_found():
    """Each text that a wrong body or definition replaces is in its file, exactly once."""
    for path in tracked("crates/*.edit"):
        changed, crate = bodies.changes(f"{HERE}/{path}"), Path(HERE, *Path(path).parts[:2])
        texts = {file: (crate / file).read_text("utf-8") for file, _, _ in changed if (crate / file).is_file()}
        if not changed or bodies.laid(changed, texts) is None:
            yield f"{path}: what it replaces isn't there exactly once"


@finds_nothing
def test_survivors():
    """Each wrong body of tests/gate/survivors.txt is there, and has a reason."""
    there = {(crate, edit.name) for of_bodies in (True, False) for crate, edit in bodies.every(of_bodies)}
    for line in text_of(bodies.SURVIVORS).splitlines():
        edit, _, reason = line.partition(": ")
        if not line.startswith("#") and (tuple(edit.split()) not in there or not reason.strip()):
            yield f"{bodies.SURVIVORS}: {line}"


@finds_nothing
def test_listed():
    """tests/gate/plants.txt has an entry for each crate of the product, tests/gate/tried.txt for each crate with wrong
    bodies, and coverage.txt for each test of a tool that is measured, and no other."""
    product = {crate for crate in program.listed() if crate not in clauses.NO_PRODUCT}
    yield from [f"{plants.NAME}: {crate}" for crate in sorted(product ^ plants.listed().keys())]
    yield from [f"{recorded.NAME}: {crate}" for crate in sorted({*bodies.having_bodies()} ^ recorded.listed().keys())]
    measured = {covered.OF_ALL, *map(covered.of_one, covered.measured_tests())}
    yield from [f"coverage.txt: {name}" for name in sorted(measured ^ Raised("coverage.txt").kept.keys())]


@finds_nothing
def test_by_day():
    """What the gate tries a part of each day, eight days try all of, and nothing of it twice; of wrong bodies and
    definitions twelve days do, and of crates with bodies by `rt plant` as many as there are."""
    every = {of: [(crate, edit.name) for crate, edit in bodies.every(of)] for of in (True, False)}
    always = bodies.always()
    tried = {"wrong bodies": ([edit for edit in every[True] if edit not in always], bodies.others_of_day, bodies.DAYS),
             "definitions": ([edit for edit in every[False] if edit not in always], bodies.definitions_of_day,
                             bodies.DAYS),
             "controls": (bodies.having_equal(), bodies.equal_of_day, bodies.DAYS),
             "bodies by rt plant": (plants.recorded_crates(), plants.of_day, len(plants.recorded_crates())),
             "planted faults": ([fault.name for fault in sabotage.table()],
                                lambda day: [fault.name for fault in sabotage.of_day(day)], days.DAYS)}
    for what, (meant, of_day, count) in tried.items():
        counts = collections.Counter(name for day in range(count) for name in of_day(report.today() + day))
        if counts != collections.Counter(meant):
            yield f"{count} days try {counts.total()} {what}, of {len(meant)}"
    for day in range(days.DAYS * days.ROUNDS):
        if sorted(days.in_turn(every[True], day)) != sorted(every[True]):
            yield f"in its turn day {day} has other edits"
    if days.Bound(10_000).leaves_out(every[True]):
        yield "a bound leaves out all, although its minutes aren't spent"


@finds_nothing
def test_planted():
    """Each comparison, each test of the faults and each test of a tool has a planted fault to notice."""
    noticing, scripts_of = {word for fault in sabotage.table() for word in fault.part}, parts.by_name()
    files = [file for of in ("compare", "faults", "tools") for file in scripts_of[of].values()]
    modules = {str(Path(file).relative_to(HERE)) for file in files}
    yield from [f"{file} has no planted fault to notice" for file in sorted(modules - noticing - {*NOT_PLANTED})]
    yield from [f"{file} has one, or isn't there" for file in NOT_PLANTED if file in noticing or file not in modules]
    yield from [f"{str(Path(sabotage.COSTS).relative_to(HERE))} has {' '.join(part)}, by which no fault is noticed"
                for part in sorted(sabotage.costs().keys() - sabotage.parts_of_table())]
    for fault in sabotage.table():
        yield from [f"{fault.name}: {why}" for why in sabotage.gone_of(fault, HERE)]


def lines_that_match(pattern, *paths):
    return sum(len(re.findall(pattern, text_of(path), re.M)) for path in tracked(*paths))


def counts():
    """What there is of the tests, by the names of counts.txt."""
    sizes = {"cases": len(tracked("tests/cases/*.txt")),
             "steps of cases": lines_that_match(r"^  \$ ", "tests/cases/*.txt"),
             "tests of modules": lines_that_match(r"^def test_", "tests/*/*.py"),
             "tests in crates": lines_that_match(r"^ *#\[test\]", "crates/*/src/*.rt"),
             "files of stores": len(tracked("tests/stores/*.xz")), "planted faults": len(sabotage.table()),
             "edits tried alone": len(tracked("crates/*/must-fail/*.edit")),
             "further edits": sum(len(bodies.further(crate)) for crate in bodies.having()),
             "edits of definitions": len(bodies.every(False)),
             "edits that change nothing": sum(len(bodies.further(crate, bodies.EQUAL)) for crate in bodies.having()),
             "edits that the gate always tries": len(bodies.always())}
    return {**sizes, **{f"modules of {part}": len(names) for part, names in parts.by_name().items()}}


@finds_nothing
def test_counted(pytestconfig):
    """There are as many cases, steps, modules, tests, wrong bodies and planted faults as tests/gate/counts.txt says;
    these numbers may only be raised."""
    return Raised("counts.txt").faults(counts(), pytestconfig.getoption("--raise"))


@finds_nothing
def test_wanted():
    """A step of a case wants each refusal of the reference, on the command line and over HTTP where it can come there,
    each denial, and each failure but those of memory and output."""
    return answers.not_wanted()


@finds_nothing
def test_tabled():
    """tests/cases/refusals.txt has a row for each refusal of each subcommand of the reference."""
    return answers.not_in_table()


@finds_nothing
def test_routed():
    """tests/cases/http-routes.txt has a row for each refusal of each route, but of those that add objects."""
    return answers.not_in_table_of_routes()


@finds_nothing
def test_clauses(pytestconfig):
    """crates/*/src have no more lines of clauses of over 120 characters than tests/gate/clauses.txt says, nor
    crates/*/specs more lines of definitions, no larger part of the clauses has the text of another, no more public
    functions of the product have no clause on what they return or change, tests/gate/survivors.txt names no more wrong
    bodies, and no more crates lack a list in tests/gate/plants.txt; these numbers may only be lowered."""
    return Lowered("clauses.txt").faults(clauses.counted(), pytestconfig.getoption("--lower"))


# ---- scripts


def compiled(path):
    """What python says of a file as it reads it."""
    with warnings.catch_warnings(record=True) as said:
        warnings.simplefilter("always")
        try:
            compile(text_of(path), path, "exec", dont_inherit=True)
        except (SyntaxError, ValueError) as error:
            return [f"{path}: {error}"]
    return [f"{path}:{warning.lineno}: {warning.message}" for warning in said]


@finds_nothing
def test_scripts():
    """Python has no fault and no warning."""
    return [why for path in of_language("python") for why in compiled(path)]


@pytest.mark.parametrize("language, words", [
    pytest.param("python", ["/usr/bin/python3", "-m", "pyflakes"], id="pyflakes",
                 marks=pytest.mark.needs("python3-pyflakes")),
    pytest.param("shell", ["shellcheck", "-f", "gcc"], id="shellcheck", marks=pytest.mark.needs("shellcheck"))])
@finds_nothing
def test_scripts_by(language, words):
    """pyflakes says nothing of Python, and shellcheck nothing of shell."""
    ran = subprocess.run([*words, *of_language(language)], cwd=HERE, capture_output=True, text=True)
    return (ran.stdout + ran.stderr).splitlines()


@finds_nothing
def test_imports():
    """Only what SET_PATH has sets the path of Python, and no module has the name of one of the standard library."""
    for path in of_language("python"):
        if path.endswith(".py") and Path(path).stem in sys.stdlib_module_names:
            yield f"{path} has the name of a module of the standard library"
        if not path.startswith(SET_PATH) and sets_path(ast.parse(text_of(path))):
            yield f"{path} sets sys.path, which is for the commands of bin/ (bin/run starts any module)"


def sets_path(tree):
    return any(isinstance(node, ast.Attribute) and node.attr == "path" and isinstance(node.value, ast.Name)
               and node.value.id == "sys" for node in ast.walk(tree))


@finds_nothing
def test_columns():
    """A line of a script has at most 120 characters."""
    for path in [*of_language("python"), *of_language("shell")]:
        if count := sum(len(line) > clauses.COLUMNS for line in text_of(path).split("\n")):
            yield f"{path}: {count} lines above {clauses.COLUMNS} characters"


@finds_nothing
def test_hinted():
    """Functions that another module calls have type hints."""
    return hints.faults(of_language("python"))


@finds_nothing
def test_names():
    """No parameter, variable or function has a name that doesn't say what it is."""
    for path in of_language("python"):
        yield from [f"{path}:{node.lineno}: what is {name_in(node)!r}?" for node in ast.walk(ast.parse(text_of(path)))
                    if name_in(node) in NO_NAMES]


def name_in(node):
    """The name that a node gives, if it gives one."""
    if isinstance(node, ast.Name):
        return node.id if isinstance(node.ctx, ast.Store) else None
    return node.arg if isinstance(node, ast.arg) else getattr(node, "name", None)


@finds_nothing
def test_paths():
    """A comment says why Path won't do where a script uses os.path: before that in the function, or above all
    functions. It names one of the two, or what is called."""
    for path in of_language("python"):
        yield from [f"{path}:{line}: why isn't it Path?" for line in unexplained(text_of(path))]


def unexplained(text):
    """The lines that call os.path without such a comment."""
    lines, nodes = text.split("\n"), [*ast.walk(ast.parse(text))]
    begins = sorted(node.lineno for node in nodes if isinstance(node, ast.FunctionDef | ast.AsyncFunctionDef))
    says_why = lambda name, begin, end: re.search(rf"#.*(\bPath\b|\bos\.path|{name}:)", "\n".join(lines[begin:end]))
    for node in nodes:
        if isinstance(node, ast.Attribute) and ast.unparse(node.value) == "os.path":
            begin = max([0, *(line for line in begins if line <= node.lineno)])
            if not (says_why(node.attr, 0, begins[0] if begins else None) or says_why(node.attr, begin, node.lineno)):
                yield node.lineno
