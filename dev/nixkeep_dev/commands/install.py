"""Installs the proved program `nixkeep`: that of release/, or, where the sources have changed, a newly proved one.

    bin/install [--prefix PREFIX] [--program FILE]
    bin/install --remove [--prefix PREFIX]

PREFIX is ~/.local if none is given; `bin/install /usr/local` is the same as with --prefix. The program and the
tools next to it come into PREFIX/bin, what the tools share into PREFIX/lib/nixkeep, compiled, and the manual pages and
the completion of shells into PREFIX/share. What is installed runs without the launcher `bin/nixkeep`, which reads all
sources at each start; after a change of the sources, install again. A program that runs goes on as it was.
--program installs another program, such as one that a machine of the same kind has built, and proves nothing.

PREFIX/lib/nixkeep/installed lists what was written. --remove deletes what it lists, what Python has compiled of it, and
the folders that are empty then. Stores, configurations and other files stay. An installation over an earlier one
deletes what only the earlier one had.
"""
import argparse
import contextlib
import functools
import os
import shutil
import subprocess
import sys
import tempfile
from pathlib import Path

from nixkeep_dev.build import layout, program, release

# What an installation wrote, below its prefix.
LIST = "lib/nixkeep/installed"


def put(place, fill):
    """Makes a file or link at its place at once, never a part of it."""
    Path(place).parent.mkdir(parents=True, exist_ok=True)
    with tempfile.TemporaryDirectory(prefix=".nixkeep-", dir=Path(place).parent) as room:
        fill(f"{room}/fresh")
        os.replace(f"{room}/fresh", place)


def copy(path, mode, fresh):
    os.chmod(shutil.copyfile(path, fresh), mode)


def listed(prefix):
    """The places that the last installation wrote, or None where none has a list."""
    try:
        return Path(f"{prefix}/{LIST}").read_text(encoding="utf-8").splitlines()
    except FileNotFoundError:
        return None


def write_list(fresh, places):
    Path(fresh).write_text("".join(f"{place}\n" for place in places), encoding="utf-8")
    os.chmod(fresh, 0o644)


def delete(prefix, places):
    """Deletes files and links, and each folder above them, below the prefix, that is empty then."""
    for place in places:
        Path(f"{prefix}/{place}").unlink(missing_ok=True)
        if place.endswith(".py"):
            shutil.rmtree(f"{Path(prefix, place).parent}/__pycache__", ignore_errors=True)
    for folder in sorted({above for place in places for above in folders_of(place)}, key=len, reverse=True):
        with contextlib.suppress(OSError):
            os.rmdir(f"{prefix}/{folder}")


def folders_of(place):
    """The folders of a place, each below the prefix."""
    return [str(parent) for parent in Path(place).parents[:-1]]


def remove(prefix):
    places = listed(prefix)
    if places is None:
        sys.exit(f"bin/install: nothing that lists what it wrote is installed in {prefix}")
    if wrong := [place for place in places if place.startswith("/") or ".." in place.split("/")]:
        sys.exit(f"bin/install: {prefix}/{LIST}: {wrong[0]} isn't below the prefix")
    delete(prefix, [*places, LIST])


def install(prefix, file):
    """Installs all, and returns the places of what can be run."""
    files, links = layout.parts(file)
    places = [place for place, *_ in [*files, *links]]
    delete(prefix, [place for place in listed(prefix) or [] if place not in places])
    put(f"{prefix}/{LIST}", functools.partial(write_list, places=places))
    for place, path, mode in files:
        put(f"{prefix}/{place}", functools.partial(copy, path, mode))
    for place, target in links:
        put(f"{prefix}/{place}", functools.partial(os.symlink, target))
    compile_modules(f"{prefix}/lib/nixkeep")
    return [f"{prefix}/bin/{program.NAME}", *[f"{prefix}/{place}" for place, _ in links]]


def compile_modules(folder):
    """Compiles the modules of the tools, by the Python that their first lines name, or else by this one. A user who may
    not write there would compile them at each start. (-I: it takes no module from the folder where it is called.)"""
    python = "/usr/bin/python3" if os.access("/usr/bin/python3", os.X_OK) else sys.executable
    subprocess.run([python, "-I", "-m", "compileall", "-q", folder], stdout=subprocess.DEVNULL)


def arguments(words):
    parser = argparse.ArgumentParser(description=__doc__, formatter_class=argparse.RawDescriptionHelpFormatter)
    parser.add_argument("place", nargs="?", help=argparse.SUPPRESS)
    parser.add_argument("--prefix", help="where to install, ~/.local where none is given")
    parser.add_argument("--program", help="a program to install in place of the one that is proved here")
    parser.add_argument("--remove", action="store_true", help="remove what was installed")
    given = parser.parse_args(words)
    if given.place is not None and given.prefix is not None or "" in (given.place, given.prefix):
        parser.error("give one prefix")
    return str(Path(given.place or given.prefix or f"{Path.home()}/.local").absolute()), given


def main(words: list[str]) -> None:
    prefix, given = arguments(words)
    # (the folders are for every user, as the files)
    os.umask(0o022)
    try:
        if given.remove:
            return remove(prefix)
        places = install(prefix, given.program or release.ready())
    except OSError as fault:
        sys.exit(f"bin/install: {fault.strerror}: {fault.filename}")
    print(*places, sep="\n", flush=True)
    if f"{prefix}/bin" not in os.environ.get("PATH", "").split(":"):
        print(f"bin/install: {prefix}/bin isn't on the path of this shell", file=sys.stderr)


if __name__ == "__main__":
    main(sys.argv[1:])
