"""Tries bin/nixkeep on a small repository, with a toolchain that proves nothing and only waits.

Crates are proved each after those below it, and side by side; what is proved isn't proved again, also after a
failure or a signal; a change of a crate proves it anew, with those above; two runs don't prove the same. And
tests/gate/launched.py notices another byte. Needs git, and no toolchain.
"""
import os
import select
import shutil
import signal
import subprocess
import time
from pathlib import Path

import pytest

from nixkeep_dev.build.program import HERE
from tests.tools.small_repository import CRATES, Repository, put_program, started

ANSWER = "it runs a b c\n"


@pytest.fixture(scope="module")
def first(shared_folder):
    """A repository, and what came of the first run in it."""
    repository = Repository(shared_folder)
    # (so long that a busy machine starts both within that time)
    return repository, repository.run(seconds="left=3 right=3")


@pytest.fixture
def proved(first):
    """The repository, in which all is proved."""
    assert first[0].run()[:2] == (0, ANSWER)
    return first[0]


def test_the_first_run(first):
    repository, (status, out, said, log) = first
    assert (status, out) == (0, ANSWER)
    assert started(log) == sorted(CRATES), "the crates that are proved are those that the program needs"
    at = {(what, crate): float(when) for what, crate, when in log}
    early = [(crate, below) for crate in CRATES for below in CRATES[crate]
             if at["starts", crate] <= at["ends", below]]
    assert not early, "a crate is proved after those below it"
    if len(os.sched_getaffinity(0)) > 1:
        latest = max(at["starts", "left"], at["starts", "right"])
        assert latest < min(at["ends", "left"], at["ends", "right"]), "two crates are proved side by side"
    assert "nixkeep: join proved" in said
    assert "(4 of 5 crates, about 1 minute left)" in said


@pytest.mark.parametrize("crate, words", [("low", "--statements"),
                                          ("nixkeep", "--toolchain {kit}/toolchain --backend llvm")])
def test_how_a_crate_is_made(first, crate, words):
    repository, _ = first
    assert f" {words.format(kit=repository.kit)} -o " in Path(f"{repository.room}/words-{crate}").read_text()


def test_a_second_run_proves_nothing(proved):
    assert proved.run() == (0, ANSWER, "", [])


def test_a_change_proves_what_is_above_it(proved):
    proved.write("crates/right/src/lib.rt", "// other\n")
    assert started(proved.run()[3]) == ["join", "nixkeep", "right"]


def test_a_library_that_is_lost_is_made_again(proved):
    os.remove(f"{proved.top}/out/proved/left.tar.gz")
    proved.write("crates/join/src/lib.rt", "// other\n")
    assert started(proved.run()[3]) == ["join", "left", "nixkeep"]


def test_a_copy_proves_the_program_alone(proved):
    """A copy in another folder takes the libraries that were proved here."""
    other = f"{proved.room}/elsewhere"
    shutil.copytree(proved.top, other)
    shutil.rmtree(f"{other}/crates/nixkeep/out")
    status, out, _, log = proved.run(top=other)
    assert (status, out, started(log)) == (0, ANSWER, ["nixkeep"])


def test_launched(proved):
    """The same bytes as those of the program here pass; others don't, and neither does a library that isn't kept."""
    for name in ("pyproject.toml", "tests/__init__.py", "tests/conftest.py", module := "tests/gate/launched.py"):
        proved.write(name, Path(HERE, name).read_text())
    proved.write(".gitignore", "out/\n")
    subprocess.run(["git", "init", "-q", proved.top], check=True)
    launched = ("run", f"{proved.top}/{module}", "--built")
    status, out, _, log = proved.run(*launched)
    assert (status, out.splitlines()[-1:], started(log)) == (0, ["3 passed, 0 failed"], ["nixkeep"]), out
    other = f"{proved.room}/other"
    shutil.copy2(f"{proved.top}/crates/nixkeep/out/nixkeep", other)
    with open(other, "a") as file:
        file.write("#")
    status, out, _, _ = proved.run(*launched, "--program", other)
    assert status == 1 and "its bytes" in out and "2 passed, 1 failed" in out, "a byte more is noticed"
    os.remove(f"{proved.top}/out/proved/left.tar.gz")
    status, out, _, _ = proved.run(*launched)
    assert status == 1 and "2 crates" in out, "a library that isn't kept is noticed"
    proved.write("crates/low/src/lib.rt", "// another\n")
    status, out, _, log = proved.run(*launched)
    assert (status, log) == (1, []) and "of the present sources" in out, "the program of other sources isn't compared"


def test_a_failure_keeps_what_was_proved(proved):
    proved.write("crates/low/src/lib.rt", "// other\n")
    open(f"{proved.room}/fails-join", "w").close()
    status, out, said, log = proved.run()
    os.remove(f"{proved.room}/fails-join")
    assert (status, out) == (1, "")
    assert "error: join isn't proved" in said
    assert started(proved.run()[3]) == ["join", "nixkeep"]


@pytest.mark.parametrize("number", [signal.SIGINT, signal.SIGTERM])
def test_a_signal(proved, number):
    """It ends a run, which leaves nothing, and the next goes on."""
    proved.write("crates/low/src/lib.rt", f"// before {number}\n")
    # (these are ended long before)
    ran = proved.start(seconds="left=100 right=100")
    # (what is above a crate starts once that is being kept)
    while not {"left", "right"} & {*started(proved.log())}:
        assert ran.poll() is None
        time.sleep(0.05)
    ran.send_signal(number)
    _, said = ran.communicate()
    assert ran.returncode == 128 + number
    assert "the next run goes on" in said
    assert os.listdir(f"{proved.room}/rooms") == []
    assert started(proved.run()[3]) == ["join", "left", "nixkeep", "right"]


def test_two_runs_prove_each_crate_once(proved):
    """The one goes on until the other waits for it."""
    proved.write("crates/low/src/lib.rt", "// for two\n")
    Path(f"{proved.room}/log").unlink(missing_ok=True)
    Path(f"{proved.room}/holds-low").touch()
    two, said = [proved.start(), proved.start()], ""
    while "waiting for it" not in said:
        ready = select.select([process.stderr for process in two], [], [], 300)[0]
        more = os.read(ready[0].fileno(), 10_000).decode() if ready else ""
        assert more, said
        said += more
    os.remove(f"{proved.room}/holds-low")
    assert [process.communicate()[0] for process in two] == [ANSWER] * 2
    assert started(proved.log()) == sorted(CRATES)


@pytest.mark.parametrize("text, line", [("exit 1", "no Rattle toolchain"), ("echo rattle-kit-1", "rattle-kit-1"),
                                        ("echo rattle-kit-1 logic 0", "rattle-kit-1 logic 0")])
def test_another_toolchain(folder, text, line):
    """It is refused by one line, as is something else of its name."""
    repository = Repository(folder)
    put_program(f"{repository.kit}/bin/rt", f"#!/bin/sh\n{text}\n")
    status, out, said, log = repository.run()
    assert (status, out, log, said.count("\n")) == (1, "", [], 1)
    assert f"rt on the path is {line}, and " in said
