"""Copies of crates in which edits are, and checks of them over the libraries that lie in the folders out/."""
import os
import shutil
import subprocess
import tempfile
from collections.abc import Iterable
from pathlib import Path

from nixkeep_dev.build import program
from nixkeep_dev.sources import bodies, functions

HERE = program.HERE
# The memory that a check takes, in bytes, above what was seen.
MEMORY = 3_200_000_000


def lanes() -> int:
    """How many checks may run side by side."""
    return max(1, min(len(os.sched_getaffinity(0)), int(program.free() / MEMORY)))


def copied(crate, folder):
    for part in ("src", "specs", "proofs"):
        if Path(f"{HERE}/crates/{crate}/{part}").is_dir():
            shutil.copytree(f"{HERE}/crates/{crate}/{part}", f"{folder}/{part}")


def put(crate: str, changed: Iterable[tuple], room: str) -> bool:
    """Makes a copy of a crate with these changes; returns whether each old text is there once."""
    copied(crate, f"{room}/{crate}")
    texts = {file: Path(f"{room}/{crate}/{file}").read_text(encoding="utf-8") for file, _, _ in changed}
    made = bodies.laid(changed, texts)
    for file, text in (made or {}).items():
        Path(f"{room}/{crate}/{file}").write_text(text, encoding="utf-8")
    return made is not None


def rattle(words, room):
    how = {"cwd": room, "stdin": subprocess.DEVNULL, "stdout": subprocess.PIPE, "stderr": subprocess.STDOUT}
    words = [f"{program.toolchain()}/bin/rattle", "check", *words, "--allow-holes"]
    return subprocess.run(words, text=True, errors="replace", **how)


def check_stated(crate: str, named: dict[str, list], texts: dict[str, str], edited: Iterable[str],
                 kept: str) -> bodies.Check:
    """A check of these functions over these texts of a crate, in which all others are only stated."""
    texts, stated = functions.stated(texts, edited)
    with tempfile.TemporaryDirectory(prefix="rt-edit-") as room:
        copied(crate, room)
        for path, text in texts.items():
            Path(f"{room}/{path}").write_text(text, encoding="utf-8")
        functions.leave_proofs_open(room, crate, stated)
        only = [word for function in sorted(edited) for word in ("--only", function)]
        words = program.words_of(crate, named, lambda library: f"{HERE}/crates/{library}/out/rlib", 1)
        ran = rattle([*words, "--incremental", kept, *only], room)
    return bodies.Check(crate, ran.stdout, edited)


def check_sources(among: list[str], named: dict[str, list], room: str, only: Iterable[str],
                  kept: str) -> tuple[int, str]:
    """A check of the last of these crates of a copy, or of these functions of it, over the sources of the others, which
    are lowered and checked with it: its status and what it said."""
    crate, kit, folder = among[-1], program.toolchain(), lambda name: f"{HERE}/crates/{name}/out/rlib"
    words = ["--crate-name", crate, "src/lib.rt", "--jobs", "1"]
    for library in dict.fromkeys(["std", *(other for one in among for other in named[one])]):
        if library not in among:
            of = folder(library) if library in named else f"{kit}/rlibs"
            words += ["--extern", f"{library}={of}/{library}.rlib"]
    for library in among[:-1]:
        words += ["--lib", f"{library}=../{library}/src/lib.rt"]
    below = dict.fromkeys(other for one in among for other in program.with_below(one, named) if other not in among)
    for at in [f"{kit}/rlibs", *map(folder, below)]:
        words += ["-L", f"dependency={at}"]
    words += ["--antt-project", f"{kit}/rattle/logic/antt-project.json", "--logic-built", f"{kit}/logic_built"]
    words += [word for function in only for word in ("--only", function)]
    ran = rattle([*words, "--incremental", kept], f"{room}/{crate}")
    return ran.returncode, ran.stdout
