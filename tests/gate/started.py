"""Starts each executable of the repository, and each module that is a script or has tests, in a fresh copy in which
nothing was built, with a stand-in for the toolchain on the path.

A script prints its help. One that needs the program, started without a release, begins to prove it, and ends with what
the stand-in says; so nothing that it imports is missing, and each folder is where it looks for it. Each part of
bin/test begins so too. The copy has the files that git has or would add. It needs git and python3.
"""
import os
import re
import subprocess
import tempfile
from pathlib import Path

import pytest

from nixkeep_dev.build import program
from nixkeep_dev.testing.by_pytest import has_tests
from nixkeep_dev.testing.runs import command, compile_modules
from nixkeep_dev.testing.tracked import copy_to, git

FOLDERS = ("bin", "tests", "bench", "tools", "examples")
SECONDS = 300
SAYS = "the stand-in proves nothing"
STAND_IN = {"rt": f"[ $1 != version ] || exec echo 'rattle-kit {program.LOGIC}'; echo {SAYS}; exit 1",
            "rattle": f"echo {SAYS}; exit 1"}
# What has no option --program, and what has it and needs none.
WITHOUT = ("bench/first_run.py", "bench/proofs.py", "bin/release", "bin/run", "tests/stores/make")
OF_TOOLS = ("cache_memory", "completion", "foreign", "formats", "gate", "large_model", "launcher", "measured",
            "release")
NEEDS_NONE = ("bin/test", "bin/bench", "tests/gate/", "tools/", *(f"tests/tools/test_{tool}.py" for tool in OF_TOOLS))
# What begins to prove although it has no such option, or although the others of its folder need none.
BUILDS = ("bin/nixkeep", "bin/release", "tests/cases/who.txt")
# One name of each part of bin/test that needs the program; the others are of checks that need none.
RUNS = ("cases who", "compare curl", "faults cut_heads", "tools remote", "team cache", "package files", "")


def is_script(name):
    """Whether a file can be run, or is a module that bin/run starts. What only a test starts is left out, and the
    launcher: its words are those of the program."""
    file = Path(program.HERE, name)
    if "/cases/steps/" in name or name == "bin/nixkeep" or not file.is_file():
        return False
    is_module = re.fullmatch(r"bench/\w+\.py|tests/\w+/\w+\.py", name)
    return os.access(file, os.X_OK) or bool(is_module) and (
        '__name__ == "__main__"' in file.read_text() or has_tests(str(file)))


SCRIPTS = sorted(filter(is_script, git("ls-files", "-co", "--exclude-standard", "--", *FOLDERS)))
BUILDERS = sorted({*BUILDS, *(script for script in SCRIPTS if not script.startswith((*NEEDS_NONE, *WITHOUT)))})


def put_stand_in(folder):
    os.makedirs(folder)
    for name, text in STAND_IN.items():
        Path(f"{folder}/{name}").write_text(f"#!/bin/sh\n{text}\n")
        os.chmod(f"{folder}/{name}", 0o755)


class Copy:
    """A fresh copy of the repository, and a path with the stand-in for the toolchain before the system's folders."""

    def __init__(self, room):
        self.top, self.path = f"{room}/nixkeep", f"{room}/kit/bin:/usr/bin:/bin"
        copy_to(self.top, ["release/"])
        put_stand_in(f"{room}/kit/bin")
        compile_modules(self.top)

    def run(self, *words):
        """The status of a command and what it printed; None and why where it couldn't be started, or didn't end."""
        how = {"cwd": self.top, "stdin": subprocess.DEVNULL, "stdout": subprocess.PIPE, "stderr": subprocess.STDOUT}
        with tempfile.TemporaryDirectory() as home:
            environment = {"PATH": self.path, "HOME": home, "TMPDIR": home, "LANG": "C.UTF-8"}
            try:
                words = command([f"{self.top}/{words[0]}", *words[1:]])
                ran = subprocess.run(words, env=environment, text=True, errors="replace", timeout=SECONDS, **how)
            except (OSError, subprocess.TimeoutExpired) as error:
                return None, str(error)
        return ran.returncode, ran.stdout


@pytest.fixture(scope="module")
def copy(shared_folder):
    return Copy(shared_folder)


@pytest.fixture(scope="module")
def helps(copy, side_by_side):
    return side_by_side("script", lambda script: copy.run(script, "--help"))


@pytest.fixture(scope="module")
def starts(copy, side_by_side):
    return side_by_side("builder", copy.run)


@pytest.fixture(scope="module")
def parts(copy, side_by_side):
    return side_by_side("part", lambda part: copy.run("bin/test", *part.split()))


def begins_to_prove(status, said):
    return bool(status) and SAYS in said and "Traceback" not in said


@pytest.mark.parametrize("script", SCRIPTS)
def test_helps(helps, script):
    status, said = helps[script].result()
    assert status == 0 and re.search("usage", said, re.I) and "Traceback" not in said, said[-2000:]
    assert script not in WITHOUT or "--program" not in said, "it needs the program"


@pytest.mark.parametrize("builder", BUILDERS)
def test_builds(starts, builder):
    status, said = starts[builder].result()
    assert begins_to_prove(status, said), f"status {status}\n{said[-2000:]}"


@pytest.mark.parametrize("part", RUNS)
def test_runs(parts, part):
    status, said = parts[part].result()
    assert begins_to_prove(status, said), f"bin/test {part}: status {status}\n{said[-2000:]}"
