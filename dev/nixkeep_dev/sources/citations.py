"""Which functions of a crate cite a definition or a constant that an edit changes.

They are found by their words alone, so some are found that cite another thing of that name, and some are missed. It
says where a check may begin, and nothing of what it has to refuse.
"""
import re
from collections.abc import Iterable

from nixkeep_dev.sources import functions

# The name of the definition that a line begins: no line of comments, imports or closing brackets does.
NAMED = re.compile(r"(?!--|//|#|(?:pub )?use |module |impl\b)"
                   r"(?:(?:pub(?:\([a-z ]+\))?|abbrev|record|data|const|static|fn|struct|enum|instance) +)*(\w+)")
WORD = re.compile(r"\w+")


def name_at(text, old):
    """The name of the definition in which a text is, which is there once; None where it is in none."""
    end = text.find("\n", text.index(old) + len(old) - len(old.lstrip()))
    for line in reversed(text[:end].split("\n")):
        if line and not line[0].isspace() and line[0] not in "{})-/":
            match = NAMED.match(line)
            return match and match[1]
    return None


def definitions(texts):
    """The definitions of a crate's specs: a name, and the words of one of the lines that say what it is."""
    for file, text in texts.items():
        name = None
        for line in text.split("\n") if file.startswith("specs/") else ():
            if line and not line[0].isspace():
                match = NAMED.match(line)
                name = match and match[1]
            if name:
                yield name, {*WORD.findall(line)}


def texts_of(texts):
    """The functions that can be checked over the others: a path, and its words."""
    for _, lines, at, path in functions.functions(texts):
        body = functions.body_of(lines, at)
        yield path, {*WORD.findall("\n".join(lines[at : body[1] if body else at + 1]))}


def citing(pairs: Iterable[tuple], texts: dict[str, str]) -> list[str]:
    """The functions that cite what these changes change or, where none does, what cites it in turn."""
    names = {name_at(texts[file], old) for file, old, _ in pairs if texts.get(file, "").count(old) == 1} - {None}
    seen, every = set(), [*definitions(texts)]
    while names - seen:
        if citing := [path for path, words in texts_of(texts) if words & names]:
            return citing
        seen, names = seen | names, names | {name for name, words in every if words & names}
    return []
