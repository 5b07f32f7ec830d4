"""The prose of pages, cases and scripts: its sentences, and the words that CONTRIBUTING.md replaces by others."""
import ast
import re
from collections.abc import Iterable

from nixkeep_dev.testing.tracked import text_of

WORDS_OF = "CONTRIBUTING.md"
# The left cells of the table that aren't words to look for as they are, each with what is looked for in its place.
PATTERNS = {
    "front (of bytes)": r"fronts?", "front (for the server)": r"fronts?",
    "is told, tells": r"(?:is|are|was|were|be|been|being) told|tells?(?! apart)",
    "stands on; stands in; stands": r"st(?:ands?|ood|anding)(?! (?:for|out|still)\b|-in\b)",
    "is taken up, taking up": r"(?:take|takes|taken|taking|took) up",
    "handed in, handed on, handed back": r"hand(?:s|ed|ing)? (?:in|on|back)",
    "somebody else's, another's": r"somebody else's|another's",
    "goes, went (an object)": r"(?:goes|went)(?! (?:to|through|into|on|down|back|over|via|with|by|wrong|up|in|next)\b)",
    "behind (a message)": r"behind(?! (?:an?|the|one|your|its|another) (?:[\w-]+ )?(?:prox(?:y|ies)|firewall|nginx)\b)",
    "that lacks (without an object)": r"(?:that|what|which|who) lacks?(?= ?[.,;:)])",
    "so many, of so many bytes": r"so many",
    "is the bar, meets the bar": r"(?:is|are|meets?|within|above|below|the) (?:the )?bars?",
    "he, his (a caller)": r"he|his|him|himself",
    '"The same, where .." as a whole comment': r"(?-i:(?<=\n\n)The same,? (?:where|with|for|of|as|if|by))",
    "the same by, as (a heading)": r"-{4} the same (?:by|as|of|for|with)\b",
    "ours, our tables": r"ours|our (?:own|tables?|rows?|names?)",
    "holds (a law)": r"(?:law|clause|theorem|contract|invariant|promise|statement|sentence|rule)s? holds?",
    "said once, twice": r"said (?:once|twice)",
    "in any case (of letters)": r"in any case",
    "a client who, a server who": r"(?:clients?|servers?) who",
    "the authority (of certificates)": r"authority of (?:the )?(?:clients|certificates)|clients' authority"
}
PRONOUN = re.compile(r"(?:It|Its|They|Them|Their|This|That|These|Those|He|She|We|Which|Who)\b", re.I)


def line_at(text: str, at: int) -> int:
    return text.count("\n", 0, at) + 1


def blanked(text: str, pattern: str) -> str:
    """The text without what matches, with its line feeds, so that places stay in their lines."""
    return re.sub(pattern, lambda match: "\n" * match[0].count("\n"), text, flags=re.M | re.S)


def without_blocks(text: str) -> str:
    return blanked(text, r"^( *)(```|~~~).*?^ *\2[^\n]*$")


def without_code(text: str) -> str:
    text = without_blocks(text)
    return re.sub(r"(`+)[^`].*?\1", lambda match: "CODE" + "\n" * match[0].count("\n"), text, flags=re.S)


# ---- words


def rows_of_words() -> list[str]:
    """The left cells of CONTRIBUTING.md's table; none without a table."""
    match = re.search(r"^\| Instead of [^\n]*\n\|[-| :]+\n((?:\|[^\n]*\n?)+)", text_of(WORDS_OF), re.M)
    return [row.split("|")[1].strip() for row in match[1].splitlines()] if match else []


def words_pattern(cells: Iterable[str]) -> re.Pattern:
    """One pattern for some cells: those that need care as above, any other as the words that it lists."""
    parts = []
    for cell in cells:
        listed = re.split(r"[,;] *", re.sub(r" *\([^)]*\)", "", cell).replace("`", ""))
        parts.append(PATTERNS.get(cell) or "|".join(re.escape(phrase) for phrase in listed if phrase))
    one = r"(?:[ \t]+|[ \t]*\n[ \t]*)"
    if not parts:
        return re.compile(r"(?!)")
    return re.compile(r"\b(?:" + "|".join(parts).replace(r"\ ", " ").replace(" ", one) + r")\b(?!')", re.I)


def words_in(name: str, text: str, pattern: re.Pattern) -> list[str]:
    """The places of such words in a text of a file, code and what is quoted left out."""
    text = re.sub(r'"[^"\n]*"', lambda match: "QUOTED", without_code(text))
    if name == WORDS_OF:
        text = re.sub(r"^\|.*$", "", text, flags=re.M)
    return [f"{name}:{line_at(text, match.start())}: {' '.join(match[0].split())!r}"
            for match in pattern.finditer(text)]


def prose_of_case(text: str) -> str:
    """The prose of a case, at its lines."""
    return re.sub(r"^  .*$", "", text, flags=re.M)


def prose_of_script(text: str) -> str:
    """The docstrings and the comments of a script in Python, at their lines."""
    lines, kept = text.split("\n"), set()
    for node in ast.walk(ast.parse(text)):
        if isinstance(node, (ast.Module, ast.ClassDef, ast.FunctionDef)) and ast.get_docstring(node):
            kept |= {*range(node.body[0].lineno, node.body[0].end_lineno + 1)}
    prose = (line if at in kept or re.match(r" *# ", line) else "" for at, line in enumerate(lines, 1))
    return "\n".join(prose).replace('"""', "")


def comments_of(name: str, starts: str) -> str:
    """What follows such a start of a line of comments, each line at its place."""
    lines = [re.match(rf"\s*{starts}(.*)", line) for line in text_of(name).split("\n")]
    return "\n".join(line[1] if line else "" for line in lines)


def begun_by_pronoun(name: str, starts: str) -> list[str]:
    """The comments that begin with a pronoun."""
    lines = [re.match(rf"\s*{starts}(.*)", line) for line in text_of(name).split("\n")]
    first = [at for at, line in enumerate(lines) if line and (at == 0 or not lines[at - 1])]
    return [f"{name}:{at + 1}: begins with {match[0]!r}" for at in first if (match := PRONOUN.match(lines[at][1]))]


# ---- sentences


def sentences(text: str) -> list[list[str]]:
    """The sentences of the paragraphs and items of a page."""
    text = blanked(text, r"<!--.*?-->")
    text = re.sub(r"\[([^\]\n]*)\]\([^)]*\)", r"\1", without_code(text))
    text = re.sub(r"^ *(?:\||#).*$", "", text, flags=re.M)
    text = re.sub(r"^ *(?:[-*+]|\d+\.) ", "\n\n", text, flags=re.M).replace("**", "")
    split = []
    for part in re.split(r"\n\s*\n", text):
        ended = re.split(r"(?<=[.!?])[\"')]*\s+(?=[\"'(]?[A-Z`0-9])", " ".join(part.split()))
        split += [sentence.split() for sentence in ended]
    return [words for words in split if len(words) > 1]


def average(text: str) -> float:
    """How many words a sentence has on average."""
    counts = [len(words) for words in sentences(text)]
    return sum(counts) / max(len(counts), 1)
