"""The calls of the public crates with the clauses of their contracts, as the sources in Rattle have them.

A call is a function that a public crate exports, or a public method of a type that it declares, by the path under which
users reach it. A clause is the name after `ensures`; one without a name is a dash. The methods of a type that a public
crate passes on from another crate are on the page of that crate, or, of a part of its own, on its page.
"""
import functools
import re
from collections.abc import Iterator
from pathlib import Path

from nixkeep_dev.build.program import HERE

PUBLIC = ("nar", "paths", "drv", "policy", "live", "tables", "store", "report", "wire", "tool")
FUNCTION = re.compile(r"( *)pub (?:const )?fn (\w+)")
ENSURES = re.compile(r" *ensures(?: (\w+))? \{")
METHODS = re.compile(r"impl(?:<[^{]*?>)? (\w+)(?:<[^{]*>)? \{")
# Crates that are a part of a public one, whose page has the methods of their types.
PARTS = {"tables_writes": "tables"}
DASH = "–"


@functools.cache
def source(path):
    return Path(HERE, path).read_text("utf-8")


def exists(path):
    return Path(HERE, path).exists()


def fields(record: str) -> list[str]:
    """The fields of a record of the definitions, those of the record that its field `frame` is among them."""
    for file in sorted(Path(HERE, "crates").glob("*/specs/*.antt")):
        whole = rf"^( *)(?:pub )?record {record}\b.*?\bwhere\n(.*?)(?=^\1\S|^(?!\1)\S|\Z)"
        match = re.search(whole, file.read_text("utf-8"), re.M | re.S)
        if match:
            names = re.findall(rf"^{match[1]}  (?:pub )?(\w+) :(.*)$", match[2], re.M)
            below = [field for name, of in names if name == "frame" for field in fields(of.split()[0])]
            return [*below, *(name for name, _ in names if name != "frame")]
    return []


def functions_in(path: str) -> Iterator[tuple[str | None, str, list[str]]]:
    """The public functions of a file: the type of each method or None, the name, and the clauses."""
    lines, owner = source(path).split("\n"), None
    for at, line in enumerate(lines):
        if line.startswith("impl"):
            owner = (METHODS.match(line) or [None, None])[1]
        if match := FUNCTION.match(line):
            if match[1] and owner is None:
                continue
            yield owner if match[1] else None, match[2], contract(lines, at)


def contract(lines, at):
    """The clauses of the function that begins in a line."""
    clauses, indent = [], len(lines[at]) - len(lines[at].lstrip())
    for number in range(at + 1, len(lines)):
        line = lines[number]
        if line.strip() and len(line) - len(line.lstrip()) == indent and not line.lstrip().startswith((")", ">")):
            break
        if match := ENSURES.match(line):
            clauses.append(match[1] or DASH)
    return clauses


def declared(crate, module, name, shown):
    """The calls that a crate exports by a name, which one of its modules declares, or exports in turn."""
    path = f"crates/{crate}/src/{module.replace('::', '/')}.rt"
    if not exists(path):
        return
    for owner, function, clauses in functions_in(path):
        if owner is None and function == name:
            yield f"{shown}::{name}", clauses
    if re.search(rf"^pub (?:struct|enum) {name}\b", source(path), re.M):
        for file in sorted(Path(HERE, "crates", crate, "src").rglob("*.rt")):
            for owner, function, clauses in functions_in(file.relative_to(HERE).as_posix()):
                if owner == name:
                    yield f"{shown}::{name}::{function}", clauses


def functions_of(crate, module, name, shown):
    """The functions alone among the calls of a name."""
    yield from (entry for entry in declared(crate, module, name, shown) if entry[0] == f"{shown}::{name}")


def exports(crate):
    """What the root file of a crate exports: pairs of a module or crate and a name, and the public modules."""
    root = source(f"crates/{crate}/src/lib.rt")
    for match in re.finditer(r"^pub use ([\w:]+)::(?:\{([^}]*)\}|(\w+));", root, re.M):
        for name in re.split(r",\s*", (match[2] or match[3]).strip().rstrip(",")):
            yield match[1], name.strip()
    for module in re.findall(r"^pub mod (\w+);", root, re.M):
        yield module, None


def calls_of(crate: str) -> dict[str, list]:
    """The calls of a crate by name, each with its clauses, in the order of its root file."""
    calls = {}
    for module, name in exports(crate):
        first = module.split("::")[0]
        if name is None:
            path = f"crates/{crate}/src/{module}.rt"
            calls |= {f"{crate}::{module}::{function}": clauses
                      for owner, function, clauses in functions_in(path) if not owner}
        elif exists(f"crates/{crate}/src/{first}.rt"):
            calls |= dict(declared(crate, module, name, crate))
        elif first not in PUBLIC and exists(f"crates/{first}/src/lib.rt"):
            calls |= dict(passed_on(first, module.partition("::")[2], name, crate))
    return {call: clauses for call, clauses in calls.items() if clauses}


def passed_on(crate, module, name, shown):
    """The calls of a name that a public crate exports from another one."""
    if module:
        yield from functions_of(crate, module, name, shown)
        return
    for where, exported in exports(crate):
        first = where.split("::")[0]
        if exported == name and exists(f"crates/{crate}/src/{first}.rt"):
            calls = declared if PARTS.get(crate) == shown else functions_of
            yield from calls(crate, where, name, shown)
        elif exported == name and first not in PUBLIC and exists(f"crates/{first}/src/lib.rt"):
            yield from passed_on(first, where.partition("::")[2], name, shown)


def laws():
    """The laws of the definitions, each with its clauses."""
    return calls_of("laws")
