"""The program `nixkeep`: whether it is built for the present sources, and building it.

Crates are proved side by side, each once those below it are (`proving` does it). The library of each proved crate
is kept in the folder out/ of the repository, with what it was made of and by which toolchain, so a run that was
stopped goes on with the crates that it had not ended, and only what has changed is proved again, with what is above
it.
"""
import contextlib
import fcntl
import hashlib
import json
import os
import re
import shutil
import subprocess
import sys
import tarfile
from collections.abc import Callable, Iterable
from pathlib import Path

# The top of the repository: this is dev/nixkeep_dev/build/program.py.
HERE = str(Path(__file__).resolve().parents[3])
NAME = "nixkeep"
# The logic that proves the sources, as `rt version` prints it after the name of the toolchain's release.
LOGIC = "logic dac8208d650f15bf"
# The machine that the program is for, as `uname -m` prints it.
MACHINE = "x86_64"
FILE = f"{HERE}/crates/{NAME}/out/{NAME}"
KEPT = f"{HERE}/out/proved"
TIMES = f"{HERE}/out/times.json"


def say(text: str) -> None:
    """Says something on standard error, as the program itself does."""
    print(f"{NAME}: {text}", file=sys.stderr, flush=True)


def listed() -> dict[str, list]:
    """The crates of crates.txt, each with the libraries that it names."""
    with open(f"{HERE}/crates.txt") as file:
        lines = [line.partition("#")[0].partition(":") for line in file]
    return {name.split()[0]: words.split() for name, colon, words in lines if colon}


def with_below(crate: str, named: dict[str, list]) -> list[str]:
    """The crates of this repository below one, lowest first, and itself."""
    crates = {}

    def visit(below):
        if below in named and below not in crates:
            for library in named[below]:
                visit(library)
            crates[below] = None

    visit(crate)
    return [*crates]


def toolchain() -> str | None:
    """The folder of the toolchain whose command rt is on the path, or None where none is."""
    rt = shutil.which("rt")
    folder = rt and str(Path(rt).resolve().parents[1])
    return folder if folder and Path(f"{folder}/bin/rattle").is_file() else None


def toolchain_version() -> str | None:
    """What `rt version` prints of the toolchain on the path; None where it prints nothing."""
    try:
        ran = subprocess.run(["rt", "version"], stdin=subprocess.DEVNULL, capture_output=True, text=True)
    except OSError:
        return None
    return ran.stdout.strip().split("\n")[0] or None


def proves(version: str | None) -> bool:
    """Whether a toolchain of which `rt version` prints this proves the sources: any release of this logic does."""
    return version is not None and version.partition(" ")[2] == LOGIC


def fault_of_toolchain() -> str | None:
    """Why the sources can't be proved with what is on the path; None where they can."""
    if not shutil.which("rt"):
        return f"the command rt of the Rattle toolchain ({LOGIC}) isn't on the path"
    version = toolchain_version()
    if not toolchain() or not proves(version):
        return f"rt on the path is {version or 'no Rattle toolchain'}, and one of {LOGIC} is needed"
    return None


def toolchain_line():
    """A line that changes with the toolchain; empty where none is on the path."""
    folder = toolchain()
    if not folder:
        return ""
    seen = os.stat(f"{folder}/bin/rattle")
    return f"{folder} {seen.st_size} {int(seen.st_mtime)}"


def words_of(crate: str, named: dict[str, list], folder_of: Callable, jobs: int) -> list[str]:
    """The words by which rattle reads a crate, with the libraries of this repository in their folders."""
    kit = toolchain()
    root = "main" if Path(f"{HERE}/crates/{crate}/src/main.rt").is_file() else "lib"
    words = ["--crate-name", crate, f"src/{root}.rt", "--jobs", str(jobs)]
    for library in dict.fromkeys(["std", *named[crate]]):
        words += ["--extern", f"{library}={folder_of(library) if library in named else f'{kit}/rlibs'}/{library}.rlib"]
    for folder in dict.fromkeys([f"{kit}/rlibs", *map(folder_of, with_below(crate, named)[:-1])]):
        words += ["-L", f"dependency={folder}"]
    return [*words, "--antt-project", f"{kit}/rattle/logic/antt-project.json", "--logic-built", f"{kit}/logic_built"]


def files_of(crate: str) -> list[str]:
    """The paths of the files of a crate that a proof reads, below the top of the repository, in order."""
    paths = []
    for part in ("src", "specs", "proofs"):
        for at, folders, names in os.walk(f"{HERE}/crates/{crate}/{part}"):
            folders.sort()
            place = at.removeprefix(f"{HERE}/")
            paths += [f"{place}/{name}" for name in sorted(names) if name.endswith((".rt", ".antt"))]
    return paths


def sources(named, tops=(NAME,)):
    """A sum for each of these crates and those below them, lowest first, of its sources and of theirs."""
    sums = {}
    handles = Path(f"{HERE}/HANDLES").read_text()
    for crate in dict.fromkeys(below for top in tops for below in with_below(top, named)):
        read = hashlib.sha256(repr((handles, named[crate], [sums.get(library) for library in named[crate]])).encode())
        for path in files_of(crate):
            with open(f"{HERE}/{path}", "rb", buffering=0) as file:
                data = file.read()
            read.update(b"%b %d\n%b" % (path.encode(), len(data), data))
        sums[crate] = read.hexdigest()
    return sums


def source() -> str:
    """The sum of all sources of the program."""
    return sources(listed())[NAME]


def made_by(crate):
    """The file that is made of a crate: the program, or a library's archive."""
    return FILE if crate == NAME else f"{KEPT}/{crate}.tar.gz"


def record_of(crate):
    return f"{HERE}/crates/{NAME}/out/built-for" if crate == NAME else f"{KEPT}/{crate}.made-of"


def mark(file):
    """What distinguishes this file from one that was made anew."""
    seen = os.stat(file)
    return f"{seen.st_size} {seen.st_mtime_ns}"


def is_kept(crate, source, by):
    """Whether what was last made of a crate is there, of these sources, and by this toolchain where it is known."""
    try:
        lines = Path(record_of(crate)).read_text().split("\n")
        return [lines[0], lines[2]] == [source, mark(made_by(crate))] and by in ("", lines[1])
    except (OSError, IndexError):
        return False


def keep(crate: str, source: str, by: str) -> None:
    Path(record_of(crate)).write_text(f"{source}\n{by}\n{mark(made_by(crate))}\n")


def keep_library(crate: str, folder: str, source: str, by: str) -> None:
    """Keeps the library of a crate, as one file: rt ci stops at a .rt or .antt file that no check reads.
    A library has up to some hundred MB, and packed a sixth of that."""
    os.makedirs(KEPT, exist_ok=True)
    fresh = f"{KEPT}/.{crate}-{os.getpid()}"
    with tarfile.open(fresh, "w:gz", compresslevel=1) as file:
        file.add(folder, f"{crate}.rlib")
    os.replace(fresh, made_by(crate))
    keep(crate, source, by)


def take_library(crate: str, room: str) -> None:
    """Puts the kept library of a crate into a folder."""
    with tarfile.open(made_by(crate)) as file:
        file.extractall(room)


def times(path: str = TIMES) -> dict:
    """What earlier runs measured of each crate: seconds, processor seconds (work), and bytes of memory."""
    try:
        return json.loads(Path(path).read_text())
    except (OSError, ValueError):
        return {}


def keep_times(crate: str, seconds: float, work: float, memory: int) -> None:
    kept = {**times(), crate: {"seconds": round(seconds, 1), "work": round(work, 1), "memory": memory}}
    with open(f"{TIMES}-{os.getpid()}", "w") as file:
        json.dump(kept, file, indent=1, sort_keys=True)
    os.replace(file.name, TIMES)


def free() -> int:
    """The free memory in bytes, or what two checks may take where the system doesn't say."""
    try:
        return 1024 * int(re.search(r"MemAvailable:\s+(\d+)", Path("/proc/meminfo").read_text())[1])
    except OSError:
        return 4_000_000_000


@contextlib.contextmanager
def alone():
    """Waits until no other run proves crates of this checkout."""
    os.makedirs(KEPT, exist_ok=True)
    with open(f"{KEPT}/lock", "w") as lock:
        try:
            fcntl.flock(lock, fcntl.LOCK_EX | fcntl.LOCK_NB)
        except BlockingIOError:
            say("another run proves crates here; waiting for it")
            fcntl.flock(lock, fcntl.LOCK_EX)
        yield


def prove(tops: Iterable[str], why: str | None = None) -> bool:
    """Proves these crates and those below them, and builds what they make, where that isn't done for the
    present sources: it prints that it does and, if that is given, why. Returns whether there was anything to do."""
    named, by = listed(), toolchain_line()
    sums = sources(named, tops)
    if all(is_kept(top, sums[top], by) for top in tops):
        return False
    fault = fault_of_toolchain()
    if fault:
        sys.exit(f"{NAME}: {why}, and can't be proved here: {fault}" if why else f"{NAME}: {fault}")
    from nixkeep_dev.build import proving
    with alone():
        left = [crate for crate in sums if not is_kept(crate, sums[crate], by)]
        if left:
            reason = f" ({why})" if why else ""
            say(f"proving {len(left)} of {len(sums)} crates{reason}; CONTRIBUTING.md says how long that takes")
            proving.prove_all(left, sums, named, by)
    return True


def is_built() -> bool:
    """Whether the program that was proved and built here is that of the present sources."""
    return is_kept(NAME, source(), toolchain_line())


def keep_built() -> None:
    """Notes that the program, and the libraries that rt ci left, are made of the present sources."""
    sums, by = sources(listed()), toolchain_line()
    for crate, source in sums.items():
        made = f"{HERE}/crates/{crate}/out/rlib"
        if crate == NAME:
            keep(NAME, source, by)
        elif Path(f"{made}/{crate}.rlib").is_dir() and not Path(f"{made}/stamp").exists():
            # (rt ci puts no stamp next to what it proved from scratch)
            keep_library(crate, f"{made}/{crate}.rlib", source, by)
