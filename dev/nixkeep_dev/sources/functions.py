"""The functions of a crate's sources: their paths, as a check names them, and copies in which some are only stated.

A function that is only stated has an empty loop as its body, and a proof with a hole. A check that allows holes takes
it by its contract, as it takes a function that it has proved. So a check of a function that calls it reads neither its
body nor its proof, nor what these need.

The sources are cut by regular expressions, in the layout that `rt fmt` gives them, since no command of the toolchain
says where a function begins and ends, or by which path a check names it. `rt expand` prints the files in which macros
write impls, with these, as text. `rt names` writes the names that proofs cite, for a move to another toolchain. A
function that is cut wrongly is noticed: the check of a copy without its edits has to pass.
"""
import re
import shutil
from collections.abc import Iterable, Iterator
from pathlib import Path

FUNCTION = re.compile(r"( *)(?:pub(?:\([a-z ]+\))? )?(const )?(?:unsafe )?fn (\w+)")
HEAD = re.compile(r"^impl(<[^{]*?>)? ")
OF_TYPE = re.compile(r"impl(<[^{]*?>)? (\w+)(<(?:(?! for )[^{])*>)? \{")
CYCLE = re.compile(r" *#\[cycle\((\w+)\)\]$")
PROOF = """use Rattle.{module}.Statement.{{statement}}

pub {name}_spec : {{M : Type 1}} → statement M
{name}_spec = ?
"""


def function_at(file: str, texts: dict[str, str], old: str) -> str | None:
    """The path of the function in whose body a text is, as a check names it."""
    text = texts.get(file, "")
    if not file.startswith("src/") or text.count(old) != 1:
        return None
    lines, at = text.split("\n"), text[: text.index(old)].count("\n")
    return function_above(file, texts, lines, at) if lines[at].lstrip() != lines[at] else None


def function_above(file, texts, lines, at):
    """The path of the function that begins last in these lines of a file, at or above the line of this number."""
    module, name, owner, indent = module_of(file), None, None, None
    for line in reversed(lines[: at + 1]):
        if name is None:
            match = FUNCTION.match(line)
            if match:
                name, indent = match[3], len(match[1])
            elif line and not line[0].isspace() and line[0] not in "{})":
                return None
        elif indent and line.startswith("impl"):
            of_its_own = OF_TYPE.match(line)
            module, owner = owner_of_type(of_its_own, module, texts) if of_its_own else (module, owner_in(line, texts))
            break
    return name and "::".join(part for part in (module, owner, name) if part)


def module_of(file):
    module = file.removeprefix("src/").removesuffix(".rt").replace("/", "::")
    return "" if module == "lib" else module


def owner_of_type(match, module, texts):
    """Where a check has the methods of a type: in the module that declares it, or, of a type at some arguments, where
    the impl is."""
    parameters, name, arguments = match[1] or "", match[2], re.findall(r"[\w']+", match[3] or "")
    given = [argument for argument in arguments if not re.search(rf"[<, ]{argument}\b", parameters)]
    if given:
        return module, "+".join([name, *given])
    declared = [file for file, text in texts.items()
                if re.search(rf"^(?:pub(?:\([a-z ]+\))? )?(?:struct|enum|union) {name}\b", text, re.M)]
    return module_of(declared[0]) if len(declared) == 1 else module, name


def owner_in(line, texts):
    """What a check calls an impl of a trait: its type, with its trait, and with what the trait is of where the type
    has several of them in the crate, or where that has arguments or a parameter of the impl in it."""
    of_trait, _, of_type = HEAD.sub("", line).rpartition(" for ")
    trait, _, argument = of_trait.partition("<")
    words, parameters = re.findall(r"\w+", argument), re.findall(r"\w+", HEAD.match(line)[1] or "")
    others = [other for text in texts.values() for other in text.split("\n")
              if HEAD.sub("", other).startswith(trait + "<") and other.rpartition(" for ")[2] == of_type]
    is_alone = len(others) < 2 and not {*parameters} & {*words} and "<" not in argument
    plain = lambda text: re.match(r"\w*", text.rpartition("::")[2])[0]
    # (io::Error is IoError there)
    joined = "".join(word[:1].upper() + word[1:] for word in words if word not in parameters)
    return plain(of_type) + plain(trait) + ("" if is_alone else joined)


def is_in_type(lines, at):
    """Whether the function that begins in a line is a method of a type's own, or is in no impl or trait."""
    if not lines[at].startswith(" "):
        return True
    around = next((line for line in reversed(lines[:at]) if re.match(r"[a-z#]", line)), "")
    return OF_TYPE.match(around) is not None


def body_of(lines: list[str], at: int) -> tuple[int, int] | None:
    """The numbers of the lines with the brackets of the body of the function that begins in a line, as rt fmt lays
    them out; None where the body is on one line."""
    indent = FUNCTION.match(lines[at])[1]
    for number in range(at, len(lines)):
        line = lines[number]
        if line == f"{indent}{{" or line.endswith(" {") and line.startswith(indent) and line[len(indent)] != " ":
            end = next((below for below in range(number + 1, len(lines)) if lines[below] == f"{indent}}}"), None)
            return (number, end) if end and end > number + 1 else None
        if line.endswith((";", "}")) and line.startswith(indent) and line[len(indent)] != " ":
            return None
    return None


def cycle_of(lines, at):
    """The number of the line that says in which cycle of calls a function is, where it is in one."""
    while at and re.match(r" *(#|//)", lines[at - 1]):
        at -= 1
        if CYCLE.match(lines[at]):
            return at
    return None


def stated(texts: dict[str, str], kept: Iterable[str]) -> tuple[dict, list]:
    """The texts of a crate in which all functions but those of these paths, and those in cycles of calls with them,
    have an empty loop as their body; and the paths of the functions that were changed so, and of their cycles."""
    cycles = {lines[at].strip() for _, lines, begin, path in functions(texts) if path in kept
              for at in [cycle_of(lines, begin)] if at is not None}
    made, changed = {file: text.split("\n") for file, text in texts.items()}, []
    for file, lines, begin, path in functions(texts):
        body, cycle = body_of(lines, begin), cycle_of(lines, begin)
        if path in kept or body is None or cycle is not None and lines[cycle].strip() in cycles:
            continue
        if cycle is not None:
            made[file][cycle] = None
            changed.append("::".join(part for part in (module_of(file), f"+{CYCLE.match(lines[cycle])[1]}") if part))
        first, last = body
        made[file][first + 1 : last] = [f"{FUNCTION.match(lines[begin])[1]}    loop {{}}", *[None] * (last - first - 2)]
        changed.append(path)
    return {file: "\n".join(line for line in lines if line is not None) for file, lines in made.items()}, changed


def functions(texts: dict[str, str]) -> Iterator[tuple[str, list[str], int, str]]:
    """The functions that can be only stated: the file, its lines, the number of the first one, and the path."""
    for file, text in texts.items():
        lines = text.split("\n") if file.startswith("src/") else []
        for at, line in enumerate(lines):
            match = FUNCTION.match(line)
            if match and not match[2] and is_in_type(lines, at):
                yield file, lines, at, function_above(file, texts, lines, at)


def leave_proofs_open(room: str, crate: str, paths: Iterable[str]) -> None:
    """Gives functions of a copy of a crate a proof with a hole, and takes away those of their cycles and closures."""
    for path in paths:
        *above, name = path.split("::")
        folder = Path(room, "proofs", *above)
        for place in (folder / name, folder / f"+{name}"):
            shutil.rmtree(place, ignore_errors=True)
        if not name.startswith("+"):
            (folder / name).mkdir(parents=True)
            text = PROOF.format(module=".".join([crate, "proofs", *above, name]), name=name)
            (folder / name / "Proof.antt").write_text(text, encoding="utf-8")
