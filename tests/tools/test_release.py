"""Tries release/ on a small repository: making it, and running, installing and refusing what it has.

bin/release makes it from a program that was proved. A clone without a toolchain runs that program, and never one of
another sum: a release that is damaged, of other sources, of another machine or unreadable is one line with the reason.
Needs nothing but Python, and no toolchain.
"""
import os
import shutil
from pathlib import Path

import pytest

from tests.tools.small_repository import SYSTEM, Repository, put_program, started

ANSWER = "it runs a b c\n"
MADE_OF, PACKED = "release/made-of", "release/nixkeep.xz"


@pytest.fixture(scope="module")
def released(shared_folder):
    """A repository with a release, which bin/release has made."""
    repository = Repository(shared_folder)
    assert started(repository.run("release")[3])[-1] == "right", "bin/release proves what isn't proved"
    return repository


@pytest.fixture
def clone(released, folder):
    """A copy of the repository without what was built there."""
    return shutil.copytree(released.top, f"{folder}/clone", ignore=shutil.ignore_patterns("out", "__pycache__"))


@pytest.fixture
def refused(released, clone):
    """That a command in the clone ends with status 1 and this one line, and runs nothing."""
    def refused(line, *words, path=SYSTEM):
        status, out, said, log = released.run(*words, top=clone, path=path)
        assert (status, out, said.count("\n"), log) == (1, "", 1, [])
        assert line in said

    return refused


def flip(path, at=-1):
    """Changes one byte of a file."""
    data = bytearray(Path(path).read_bytes())
    data[at] ^= 1
    Path(path).write_bytes(data)


def test_a_release_that_is_made_again_is_the_same(released):
    first = [Path(released.top, name).read_bytes() for name in (MADE_OF, PACKED)]
    status, out, said, log = released.run("release")
    assert (status, said, log) == (0, "", [])
    assert [Path(released.top, name).read_bytes() for name in (MADE_OF, PACKED)] == first
    assert out.startswith("release/: nixkeep 1.2.3, sha256 ")
    status, out, _, _ = released.run("release", "--check")
    assert (status, out) == (0, "release/ is that of the present sources\n")


@pytest.mark.parametrize("path", [SYSTEM, None], ids=["without a toolchain", "with one"])
def test_a_clone_proves_nothing(released, clone, path):
    for _ in range(2):
        assert released.run(top=clone, path=path) == (0, ANSWER, "", [])
    assert os.listdir(f"{clone}/out/released") == ["nixkeep"]
    os.makedirs(f"{clone}/man")
    status, out, said, _ = released.run("install", "--prefix", f"{clone}/to", top=clone, path=path)
    assert (status, out.split("\n")[0]) == (0, f"{clone}/to/bin/nixkeep"), said


def test_another_program_in_its_place_is_not_run(released, clone):
    """What is unpacked is compared at each start, and unpacked again where it differs."""
    released.run(top=clone, path=SYSTEM)
    put_program(f"{clone}/out/released/nixkeep", "#!/bin/sh\necho another\n")
    assert released.run(top=clone, path=SYSTEM) == (0, ANSWER, "", [])


def test_no_folder_to_unpack_to(clone, refused):
    Path(f"{clone}/out").write_text("")
    refused("out/released/nixkeep: Not a directory")


# The places of `made-of`, by its keys: the first byte of the line, and the last of the value, with what is said then.
LINES = {"version": "has version", "sources": "aren't those of the released", "toolchain": "has toolchain",
         "machine": "has machine", "program": "is damaged", "packed": "is damaged"}
DAMAGE = [(PACKED, None, at, "release/nixkeep.xz is damaged") for at in (0, 40, -1)]
DAMAGE += [(MADE_OF, key, at, why) for key in LINES for at, why in ((0, "is damaged"), (-2, LINES[key]))]


@pytest.mark.parametrize("has_run", [False, True], ids=["new", "has run"])
@pytest.mark.parametrize("file, key, at, why", DAMAGE)
def test_a_changed_byte(released, clone, refused, has_run, file, key, at, why):
    if has_run:
        released.run(top=clone, path=SYSTEM)
    if key:
        lines = Path(clone, file).read_text().splitlines(True)
        number = [line.partition(":")[0] for line in lines].index(key)
        at += sum(map(len, lines[: number + (at < 0)]))
    flip(f"{clone}/{file}", at)
    refused(why)
    assert released.run("release", "--check", top=clone)[0] == 1


def test_another_machine(clone, refused):
    """Another processor, by a stand-in for `uname`'s answer."""
    with open(f"{clone}/dev/nixkeep_dev/build/release.py", "a") as file:
        file.write('\nplatform.machine = lambda: "aarch64"\n')
    refused("is for Linux on x86_64, and this is Linux on aarch64")


@pytest.mark.parametrize("file, why", [(PACKED, f"{PACKED}: No such file"), (MADE_OF, f"{MADE_OF}: No such file"),
                                       ("release", "there is no released program")])
def test_a_file_that_is_missing(clone, refused, file, why):
    shutil.rmtree(f"{clone}/{file}") if file == "release" else os.remove(f"{clone}/{file}")
    refused(why)
    refused(why, "install", "--prefix", f"{clone}/to")


def test_a_changed_source(released, clone, refused):
    """It is proved, and the first line says why; without a toolchain it is refused."""
    with open(f"{clone}/crates/low/src/lib.rt", "a") as file:
        file.write("// x\n")
    refused("the sources aren't those of the released program")
    status, _, said, _ = released.run("release", "--check", top=clone)
    assert status == 1 and "made-of has sources" in said
    status, out, said, log = released.run(top=clone)
    assert (status, out, len(started(log))) == (0, ANSWER, 5)
    assert said.startswith("nixkeep: proving 5 of 5 crates (the sources aren't those of the released program)")
    assert released.run("release", "--check", top=clone)[0] == 1, "the new program is built here alone"
    Path(f"{clone}/VERSION").write_text("1.2.4\n")
    released.run("release", top=clone)
    assert released.run("release", "--check", top=clone)[0] == 0, "and released by bin/release"


def test_a_toolchain_proves_in_place_of_a_damaged_release(released, clone):
    flip(f"{clone}/{PACKED}")
    status, out, said, log = released.run(top=clone)
    assert (status, out, len(started(log))) == (0, ANSWER, 5)
    assert f"({PACKED} is damaged" in said.split("\n")[0]


FAILING = r'''#!/usr/bin/env python3
import os, sys
made = sys.argv[sys.argv.index("-o") + 1]
open(made, "w").write("#!/bin/sh\necho no library >&2; exit 3\n")
os.chmod(made, 0o755)
'''


def test_a_program_that_does_not_start(folder):
    """It is refused before it is ever used."""
    repository = Repository(folder)
    put_program(f"{repository.kit}/bin/rattle-link", FAILING)
    repository.run("release")
    shutil.rmtree(f"{repository.top}/out")
    shutil.rmtree(f"{repository.top}/crates/nixkeep/out")
    for _ in range(2):
        status, out, said, log = repository.run(path=SYSTEM)
        assert (status, out, said.count("\n"), log) == (1, "", 1, [])
        assert "doesn't run on this machine (status 3: no library)" in said
