"""What tests compare and count, and how a script is called and how it reports.

Each check that passes is counted: of a test of pytest these are its examples. The first that fails ends the test, or
the script, unless `failure` reports it. What a machine doesn't have is skipped: a line says so, and is counted. The
last line of a script is `N passed, M failed`, and where something was skipped `N passed, M failed, K skipped`."""
import argparse
import functools
import os
import random
import shutil
import sys
import tempfile
import time
from collections.abc import Callable, Iterable
from pathlib import Path
from typing import Any, NoReturn

from nixkeep_dev.build import release
from nixkeep_dev.testing import packages

passed = 0
skipped = 0
# How many places were tried where something can go wrong, how many there are, and the seed that has chosen them.
tried = 0
places = 0
chosen_by = None
wrong = []
# What the last lines of pytest say besides.
endings = []


class Failed(Exception):
    """A check that failed, with what to print of it."""


def fail(what: str, kept: bytes | str | None = None) -> NoReturn:
    """Ends the test. The bytes, or a copy of the file, that show the fault stay in the system's folder for temporary
    files."""
    __tracebackhide__ = True
    if kept is not None:
        place = Path(tempfile.gettempdir(), "nixkeep-kept")
        if isinstance(kept, bytes):
            place.write_bytes(kept)
        elif Path(kept).is_file():
            shutil.copy(kept, place)
        what = f"{what}\nsee {place}"
    raise Failed(what)


def failure(text: str) -> None:
    """Prints a check that failed, after which the script goes on, and its first line again at the end."""
    wrong.append(text.partition("\n")[0])
    tell(text)


def passes(count: int = 1) -> None:
    global passed
    passed += count


def right(what: str, why: str | bool | None = None, kept: bytes | str | None = None) -> None:
    """Nothing is wrong with this; else why."""
    __tracebackhide__ = True
    if why:
        fail(f"{what}: {why}", kept)
    passes()


def short(value, most=2000):
    return repr(value[:most] if isinstance(value, (bytes, str, list)) else value)


def same(what: str, came: Any, wanted: Any, kept: bytes | str | None = None) -> None:
    """What came is what is wanted."""
    __tracebackhide__ = True
    if came != wanted:
        fail(f"{what} differs:\n  came   {short(came)}\n  wanted {short(wanted)}", kept)
    passes()


def finds_nothing(check: Callable[..., Iterable[str]]) -> Callable[..., None]:
    """The test that a check finds nothing: it gives a line for each thing that is wrong."""
    import pytest

    @functools.wraps(check)
    def test(*given: Any, **named: Any) -> None:
        if lines := [*check(*given, **named)]:
            pytest.fail("\n".join(lines), pytrace=False)

    return test


def tell(text: object) -> None:
    print(text, flush=True)


def ends_with(line: str) -> None:
    """Has the last lines of pytest say this."""
    endings.append(line)


def missing(needed: Iterable[str]) -> str | None:
    """What to print of the tools that aren't installed; None where all are."""
    lacking = [name for name in needed if not packages.place_of(name)]
    return (f"needs {', '.join(f'{name} (Debian: {packages.package_of(name)})' for name in lacking)}"
            if lacking else None)


def needs(*needed: str) -> None:
    """Fails where a tool isn't installed: what it would test isn't tested."""
    if why := missing(needed):
        fail(why)


def skip_without(*needed: str) -> None:
    """Skips a test of pytest, or all that a fixture is for, where a tool isn't installed."""
    import pytest

    if why := missing(needed):
        pytest.skip(why)


def skip(what: str, count: int = 1) -> None:
    """Prints that something is skipped, and why, and counts it."""
    global skipped
    skipped += count
    tell(f"skipped: {what}")


def skips(*needed: str, what: str | None = None) -> bool:
    """Whether a tool isn't installed, and then it prints that this is skipped."""
    if why := missing(needed):
        skip(f"{what}: {why}" if what else why)
    return why is not None


def ending(passed: int, failed: int, skipped: int) -> str:
    """The last line of a script."""
    return f"{passed} passed, {failed} failed{f', {skipped} skipped' if skipped else ''}"


def today() -> int:
    """The seed of a day."""
    return int(time.time()) // 86_400


def parser(doc: str) -> argparse.ArgumentParser:
    """What reads the words of a command line, and whose help is this text."""
    return argparse.ArgumentParser(description=doc, formatter_class=argparse.RawDescriptionHelpFormatter)


def options(doc: str, more: Callable = lambda arguments: None, parts: Iterable[Callable] = ()) -> argparse.Namespace:
    """The words of the command line: which program is tried, more, and the parts to run, or all: functions."""
    arguments, named = parser(doc), {part.__name__.removeprefix("try_"): part for part in parts}
    arguments.add_argument("--program", metavar="FILE", help="the program; else the one that bin/nixkeep runs")
    more(arguments)
    if parts:
        arguments.add_argument("parts", nargs="*", metavar="PART", help=f"{', '.join(named)}; else all")
    words = arguments.parse_args()
    if parts:
        if not named.keys() >= {*words.parts}:
            arguments.error(f"the parts are {', '.join(named)}")
        words.parts = [named[name] for name in words.parts or named]
    return words


def program_file(words: argparse.Namespace) -> str:
    """The file of the program: the one that is named, or that of bin/nixkeep."""
    file = str(Path(words.program or release.ready()).absolute())
    if not os.access(file, os.X_OK):
        fail(f"there is no program {file}")
    return file


def some(seed: int, most: int | None, total: int, *of_what: object) -> list:
    """The numbers from 1 to the total: all of them or, where there is a most, that many, by the seed and what they are
    of. Where there is none this fails: nothing tried shows nothing."""
    if not total:
        fail(f"{', '.join(map(str, of_what))}: nothing is counted that could go wrong")
    count = count_places(most, total, seed)
    return sorted(random.Random(f"{seed} {of_what}").sample(range(1, total + 1), count))


def count_places(most: int | None, total: int, seed: int) -> int:
    """How many of all are tried, where there may be a most. What is tried and what there is are counted, and the seed
    is kept where it chooses."""
    global tried, places, chosen_by
    count = total if most is None else min(most, total)
    tried, places, chosen_by = tried + count, places + total, seed if count < total else chosen_by
    return count


def main(run):
    """Runs a script and ends it, with 1 where a check failed: one that ended it, or as many as it returns."""
    try:
        failed = run() or 0
    except Failed as why:
        tell(why)
        failed = 1
    for line in wrong:
        tell(f"failed: {line.strip().rstrip(':')}")
    tell(ending(passed, failed, skipped))
    sys.exit(1 if failed else 0)


def script(doc: str, run: Callable, more: Callable = lambda arguments: None, need: Iterable[str] = ()) -> None:
    """Runs a script with its words, and among these a folder of its own. It fails where a tool that it needs isn't
    installed."""

    def also(arguments):
        number = {"metavar": "N", "type": int, "default": today()}
        arguments.add_argument("--seed", help="what chance begins with; else the day", **number)
        more(arguments)

    def with_words():
        words = options(doc, also)
        needs(*need)
        with tempfile.TemporaryDirectory() as words.folder:
            return run(words)

    main(with_words)
