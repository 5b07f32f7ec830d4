"""How long and how often repeated clauses of crates/ are, and what they accept: numbers that may only be lowered."""
import collections
import re
from collections.abc import Iterator

from nixkeep_dev.sources import bodies, contracts, plants, recorded
from nixkeep_dev.testing.tracked import git, text_of

COLUMNS = 120
# The crates that aren't in the product.
NO_PRODUCT = ("bench", "examples", "examples_tool", "tests")
# A line that imports names into a file of specs/.
IMPORT = re.compile(r"(?:pub )?use ")


def clauses_in(text: str) -> Iterator[list[str]]:
    """Each clause of a source, as its lines: those from `ensures` or `requires` to the brace that closes it."""
    lines, depth = [], 0
    for line in text.splitlines():
        if depth or re.match(r" *(?:ensures|requires)\b", line):
            lines.append(line)
            depth += line.count("{") - line.count("}")
            if depth <= 0:
                yield lines
                lines, depth = [], 0


def without_clauses() -> int:
    """How many public functions of the product have no `ensures`."""
    files = [file for file in git("ls-files", "crates/*/src/*.rt") if file.split("/")[1] not in NO_PRODUCT]
    return sum(not clauses for file in files for _, _, clauses in contracts.functions_in(file))


def counted() -> dict[str, float]:
    """How many lines of clauses are long, what part of all clauses has the text of another, in percent, how many wrong
    bodies survive them, for how many crates no list says which bodies by `rt plant` do, and how many have no sum at
    which all wrong bodies were refused."""
    clauses = [lines for path in git("ls-files", "crates/*/src/*.rt") for lines in clauses_in(text_of(path))]
    counts = collections.Counter(" ".join(line.strip() for line in lines) for lines in clauses)
    repeated = sum(count for count in counts.values() if count > 1)
    defined = [line for path in git("ls-files", "crates/*/specs/*.antt") for line in text_of(path).splitlines()]
    return {"clause lines above 120 characters": sum(len(line) > COLUMNS for lines in clauses for line in lines),
            "lines of definitions above 120 characters": sum(len(line) > COLUMNS and not IMPORT.match(line)
                                                             for line in defined),
            "percent of clauses that are repeated": round(100 * repeated / len(clauses), 1),
            "public functions without clauses": without_clauses(),
            "wrong bodies that they accept": len(bodies.excused(bodies.SURVIVORS)),
            "crates whose bodies by rt plant are not recorded": list(plants.listed().values()).count(None),
            "crates whose wrong bodies are not recorded": list(recorded.listed().values()).count(recorded.NOT_RECORDED)}
