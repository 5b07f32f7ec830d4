"""Planted faults: the table of tests/sabotage/, and putting one into a copy of the repository or around the program."""
import contextlib
import os
import queue
import shlex
import shutil
import subprocess
import tempfile
from collections.abc import Iterator
from pathlib import Path

from nixkeep_dev.build import program
from nixkeep_dev.testing import days, report
from nixkeep_dev.testing.tracked import copy_to

FOLDER = f"{program.HERE}/tests/sabotage"
TABLE, COSTS = f"{FOLDER}/faults.txt", f"{FOLDER}/costs.txt"
# The processor seconds of a part that has no line in the file of these.
UNKNOWN = 20
KEYS = ("file", "old", "new", "gone", "mode", "first", "bytes", "become", "ahead", "part", "excused")
# What a change is, by the key with which it begins: all of its keys, in their order.
WHOLE = {"file": ["file", "old", "new"], "bytes": ["bytes", "become"],
         **{key: [key] for key in ("gone", "mode", "first", "ahead")}}
STRICT = ["-O1", "-Wall", "-Wextra", "-Werror"]


class Fault:
    """A planted fault: its name, what is changed, as pairs of a key and a text, and the part that has to notice it."""

    def __init__(self, name: str, lines: list[tuple[str, str]]):
        self.name, self.changes = name, [line for line in lines if line[0] not in ("part", "excused")]
        named = dict(lines)
        self.part, self.excused = shlex.split(named.get("part", "")), named.get("excused")
        if not self.part or not self.is_whole():
            report.fail(f"{TABLE}: {name}: a fault has a whole change and a part")

    def is_whole(self) -> bool:
        """Whether there is a change, and each has all of its keys: else nothing would be planted."""
        left = [key for key, _ in self.changes]
        while left and left[: len(whole := WHOLE.get(left[0], [None]))] == whole:
            left = left[len(whole):]
        return bool(self.changes) and not left

    def is_of_program(self) -> bool:
        return self.changes[0][0] in ("bytes", "ahead")


def table() -> list[Fault]:
    """The faults of the table, in its order."""
    rows, name = {}, None
    for line in Path(TABLE).read_text().splitlines():
        if line.startswith("  "):
            key, colon, text = line[2:].partition(":")
            if not colon or key not in KEYS or name is None:
                report.fail(f"{TABLE}: {line!r} is none of {', '.join(KEYS)}")
            rows[name].append((key, text[1:]))
        elif line and not line.startswith("#"):
            name = line
            if name in rows:
                report.fail(f"{TABLE}: {name}: two faults of one name")
            rows[name] = []
    return [Fault(*item) for item in rows.items()]


def parts_of_table() -> set[tuple]:
    """The parts that notice the faults of the table."""
    return {tuple(fault.part) for fault in table()}


# ---- days


def costs() -> dict[tuple, float]:
    """The processor seconds of each part, as the file has them."""
    lines = [line for line in Path(COSTS).read_text().splitlines() if not line.startswith("#")]
    return {tuple(shlex.split(part)): float(seconds) for seconds, _, part in (line.partition(": ") for line in lines)}


def write_costs(measured: dict[tuple, float]) -> None:
    """Writes the processor seconds of each part that the table has: those of these parts anew."""
    kept, parts = [line for line in Path(COSTS).read_text().splitlines() if line.startswith("#")], parts_of_table()
    rows = sorted(((part, seconds) for part, seconds in {**costs(), **measured}.items() if part in parts),
                  key=lambda row: -row[1])
    Path(COSTS).write_text("\n".join([*kept, *(f"{seconds:.1f}: {shlex.join(part)}" for part, seconds in rows), ""]))


def by_days():
    """The faults of each of the days, in the order of the table. A day runs each of its parts without a fault too, so
    faults of one part come together as long as no day takes longer than others; those that take most are placed
    first."""
    known, every = costs(), table()
    cost = lambda fault: known.get(tuple(fault.part), UNKNOWN)
    taken, shares = [0] * days.DAYS, [[] for _ in range(days.DAYS)]
    for fault in sorted(every, key=lambda fault: (-cost(fault), fault.part)):
        more = [cost(fault) * (1 if any(other.part == fault.part for other in on) else 2) for on in shares]
        at = min(range(days.DAYS), key=lambda day: taken[day] + more[day])
        taken[at] += more[at]
        shares[at].append(fault)
    return [[fault for fault in every if fault in on] for on in shares]


def of_day(day: int) -> list[Fault]:
    return by_days()[day % days.DAYS]


# ---- a copy of the repository


def git(top, *words):
    # (a file that gets one more link is as it was)
    settings = [word for value in ("user.name=nixkeep", "user.email=nixkeep@invalid", "core.trustctime=false")
                for word in ("-c", value)]
    subprocess.run(["git", "-C", top, *settings, *words], check=True)


def base(folder: str) -> str:
    """A copy of the repository that git tracks, from which each fault gets one."""
    copy_to(folder)
    for words in (["init", "-q"], ["add", "-A"], ["commit", "-q", "-m", "Copy the repository"]):
        git(folder, *words)
    return folder


class Copies:
    """Copies of the repository. Each is used again, since a fresh one has thousands of files: git takes back what was
    changed in it, and removes what was made."""

    def __init__(self, folder: str):
        self.folder, self.base, self.free = folder, base(f"{folder}/base"), queue.SimpleQueue()

    @contextlib.contextmanager
    def one(self) -> Iterator[str]:
        """A copy that nothing else uses meanwhile."""
        top = self.fresh() if self.free.empty() else self.free.get()
        try:
            yield top
        finally:
            git(top, "reset", "-q", "--hard")
            git(top, "clean", "-ffdxq")
            self.free.put(top)

    def fresh(self) -> str:
        # (no part writes the sources in crates/, so they are linked)
        copy = lambda file, to: os.link(file, to) if f"{self.base}/crates/" in file else shutil.copy2(file, to)
        room = tempfile.mkdtemp(prefix="copy-", dir=self.folder)
        shutil.copytree(self.base, f"{room}/nixkeep", symlinks=True, copy_function=copy)
        return f"{room}/nixkeep"


def replaced(path, old, new, count=None):
    """Puts other bytes into a file; fails where the old ones aren't there, or aren't there that often."""
    data, seen = Path(path).read_bytes(), Path(path).read_bytes().count(old)
    if not seen or count not in (None, seen):
        report.fail(f"{path} has {old.decode(errors='replace')!r} {seen} times")
    # (a new file, since this one may be linked elsewhere)
    Path(f"{path}.new").write_bytes(data.replace(old, new))
    shutil.copymode(path, f"{path}.new")
    os.replace(f"{path}.new", path)


def change_files(fault: Fault, top: str) -> None:
    """Puts a fault into a copy of the repository."""
    file = old = None
    for key, text in fault.changes:
        if key == "file":
            file = f"{top}/{text}"
        elif key == "old":
            old = text
        elif key == "new":
            # (a text without a new one goes with its line)
            replaced(file, *[(old + "\n").encode(), b""] if not text else [old.encode(), text.encode()], 1)
        elif key == "gone":
            os.remove(f"{top}/{text}")
        elif key == "mode":
            mode, path = text.split()
            os.chmod(f"{top}/{path}", int(mode, 8))
        elif key == "first":
            keep_first(*text.split(), top)
    git(top, "add", "-A")


def gone_of(fault: Fault, top: str) -> list[str]:
    """What a fault changes and isn't in the repository: a file, or a text that isn't there once; or what gets no other
    text."""
    gone, file = [], None
    for (key, text), (after, _) in zip(fault.changes, [*fault.changes[1:], (None, None)]):
        path = text.split()[-1] if key in ("gone", "mode", "first") else text
        if key in ("file", "gone", "mode", "first") and not Path(f"{top}/{path}").exists():
            gone.append(f"there is no {path}")
        file = text if key == "file" else file
        if key == "old" and Path(top, file).exists():
            seen = Path(top, file).read_bytes().count(text.encode())
            gone += [f"{file} has {text!r} {seen} times"] if seen != 1 else []
            gone += [f"{text!r} has no `new:` after it, which may be empty"] if after != "new" else []
    return gone


def keep_first(count, path, top):
    """Leaves the comments of a file and the first of its other lines."""
    lines = Path(f"{top}/{path}").read_text().splitlines(keepends=True)
    entries = [line for line in lines if not line.startswith("#")]
    Path(f"{top}/{path}").write_text("".join([line for line in lines if line.startswith("#")] + entries[: int(count)]))


# ---- the program


def changed_program(fault: Fault, file: str, room: str) -> str:
    """A program that has a fault: other bytes, or a library ahead of C's."""
    made, old = f"{room}/program/nixkeep", None
    Path(made).parent.mkdir(parents=True)
    for key, text in fault.changes:
        if key == "bytes":
            old = text
        elif key == "become":
            if not Path(made).exists():
                shutil.copy2(file, made)
            was, now = (part.encode().decode("unicode_escape").encode("latin-1") for part in (old, text))
            if len(was) != len(now):
                report.fail(f"{fault.name}: {len(was)} bytes can't become {len(now)}")
            replaced(made, was, now)
        elif key == "ahead":
            library, defined = f"{room}/ahead.so", text if "=" in text else f"FAULT_{text}"
            words = ["-shared", "-fPIC", *STRICT, f"-D{defined}", "-o", library, f"{FOLDER}/ahead.c", "-ldl"]
            subprocess.run(["cc", *words], check=True)
            places = [f'-DLIBRARY="{library}"', f'-DPROGRAM="{file}"']
            subprocess.run(["cc", "-static", *STRICT, *places, "-o", made, f"{FOLDER}/ahead_of.c"], check=True)
    return made
