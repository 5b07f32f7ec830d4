"""What the tests may skip where a skip is a failure: a file of tests/gate/ names each, with the reason."""
import fnmatch
import re
from collections.abc import Iterable
from pathlib import Path
from typing import Any

from nixkeep_dev.build import program

NAME = "tests/gate/skips.txt"


def allowed(text: str | None = None) -> list[tuple]:
    """The skips that are allowed, as pairs of a part and a pattern. Each has a reason: the indented lines after it."""
    rows, is_explained = [], True
    for line in (Path(f"{program.HERE}/{NAME}").read_text() if text is None else text).splitlines():
        if line.startswith("  "):
            is_explained = True
        elif line and not line.startswith("#"):
            if not is_explained:
                raise ValueError(f"{NAME}: {': '.join(rows[-1])}: no reason")
            part, _, what = line.partition(": ")
            rows, is_explained = [*rows, (part, what)], False
    if not is_explained:
        raise ValueError(f"{NAME}: {': '.join(rows[-1])}: no reason")
    return rows


def is_like(pattern, text):
    """Whether a text is a pattern, in which `*` is any text."""
    return re.fullmatch(".*".join(map(re.escape, pattern.split("*"))), text, re.S) is not None


def faults(ran: Any, named: Iterable[tuple]) -> list[str]:
    """What a run skipped that isn't among these, a line each, and what it didn't do although nothing is said of it."""
    said = ran.skips()
    wrong = [f"{ran.name}: skipped: {reason}" for reason in said
             if not any(fnmatch.fnmatchcase(ran.name, part) and is_like(what, reason) for part, what in named)]
    if ran.skipped and not said:
        wrong.append(f"{ran.name}: {ran.skipped} skipped, and no line says what")
    if not (ran.passed or ran.failed or ran.skipped):
        wrong.append(f"{ran.name}: it ended well and tried nothing")
    return wrong
