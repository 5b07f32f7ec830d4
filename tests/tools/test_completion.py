"""Completes lines of each command in bash, where names of files and what a server lists may be hostile."""
import contextlib
import os
import pty
import re
import subprocess
from pathlib import Path

import pytest

from nixkeep_dev.build.program import HERE
from tests.tools.remote import file_of
from tests.tools.servers import ran


def completed(command, *words, **more):
    """The words that bash offers for the last of these."""
    script = 'source "$1"; shift; COMP_WORDS=("$@"); COMP_CWORD=$(($# - 1)); "_${1//-/_}"; '
    script += 'printf "%s\\n" "${COMPREPLY[@]}"'
    _, output, errors = ran(["bash", "-c", script, "bash", f"{HERE}/completion/{command}.bash", command, *words],
                            **more)
    return sorted(output.decode("latin-1").split()) + errors.decode().splitlines()


@pytest.mark.parametrize("words, offered", [
    ("li", "list live"), ("--server http://127.0.0.1:1 --as ann pro", "profile"),
    ("--server http : //h : 80 --as ann : users dea", "dead"), (f"--ca = {HERE}/HANDL", f"{HERE}/HANDLES"),
    ("profile _", "--help --owner delete rollback set switch"), ("gc --", "--help --ignore-liveness --max-freed"),
    ("help wh", "who why"), ("--server h", "http:// https://")])
def test_words_of_completion(words, offered):
    """`_` is an empty word."""
    assert completed("nixkeep-remote", *words.replace("_", "").split(" ")) == offered.split()


def test_words_of_completion_of_closures():
    assert completed("nixkeep-closure", "--db", "f", "pu") == ["pull", "push"]
    assert completed("nixkeep-closure", "push", "--p") == ["--permanent", "--profile"]


def test_words_of_a_hostile_server_in_completion(folder):
    """What a server lists is offered if it is a store path. Nothing of it is run, expanded or written to a terminal."""
    path = f"/nix/store/{'0' * 32}-a+b-._?=c"
    hostile = ["$(touch ran)", "`touch ran`", "${x:=$(touch ran)}", "$HOME", "~root", "a{b,c}", ";touch ran",
               "'$(touch ran)'", "$[$(touch ran)]", "\\$(touch ran)", "<(touch ran)", "a b", "\r", "\x9b2J",
               "\x1b]0;title\x07", "\x1b[2J"]
    lines = [path, *hostile, *(f"/nix/store/{name}" for name in hostile),
             *(f"{path}{name}" for name in hostile), "-rf", "a"]
    Path(folder, "lines").write_text("".join(f"{line}\n" for line in lines), encoding="latin-1")
    file_of(folder, "nixkeep-remote", f"#!/bin/sh\ncat '{folder}/lines'\n", 0o755)
    env = {**os.environ, "PATH": f"{folder}:{os.environ['PATH']}"}
    for words in (["info", ""], ["why", "/"], ["root", "name", ""], ["profile", "set", "name", ""], ["delete", ""],
                  ["temp", "add", "7", ""], ["add-text", "name", ""]):
        offered = completed("nixkeep-remote", *words, env=env, cwd=folder)
        assert [word for word in offered if word[:2] != "--"] == [path], words
    assert sorted(os.listdir(folder)) == ["lines", "nixkeep-remote"], "nothing was run"


FILE = "$(touch ran); &.db"


def last_word(command, typed, folder):
    """The last word that a command gets once bash has completed a line, and somebody has confirmed that."""
    ours, theirs = pty.openpty()
    bash = subprocess.Popen(["bash", "--norc", "--noprofile", "-i"], stdin=theirs, stdout=theirs, stderr=theirs,
                            cwd=folder, env={**os.environ, "TERM": "dumb", "PS1": "ready> "}, start_new_session=True)
    os.close(theirs)
    begun = f"source '{HERE}/completion/{command}.bash'; {command}() {{ printf %s \"${{@: -1}}\" >../last; }}\n"
    with contextlib.suppress(OSError):
        for line in (begun, f"{typed}\t\n", "exit\n"):
            shown = b""
            while not shown.endswith(b"ready> "):
                shown += os.read(ours, 4096)
            os.write(ours, line.encode())
        while os.read(ours, 4096):
            pass
    os.close(ours)
    bash.wait()
    return Path(f"{folder}/../last").read_text()


@pytest.mark.parametrize("typed", [
    "nixkeep --db ", "nixkeep-backup copy --db ", "nixkeep-backup restore red \\$", "nixkeep-cache --config ",
    "nixkeep-closure --ca ", "nixkeep-closure push \\$", "nixkeep-closure copy --to \\$", "nixkeep-explain ",
    "nixkeep-overview --db ", "nixkeep-remote --ca "])
def test_names_of_files_in_completion(typed, folder):
    """Nothing of the name of a file is run."""
    os.mkdir(place := f"{folder}/files")
    open(f"{place}/{FILE}", "x").close()
    assert (last_word(typed.split()[0], typed, place), os.listdir(place)) == (FILE, [FILE])


@pytest.mark.parametrize("typed", [
    "nixkeep-backup copy --to ", "nixkeep-cache --blobs ", "nixkeep-remote --store-dir "])
def test_names_of_folders_in_completion(typed, folder):
    os.makedirs(f"{(place := f'{folder}/files')}/{FILE}")
    assert (last_word(typed.split()[0], typed, place), os.listdir(place)) == (f"{FILE}/", [FILE])


def test_places_in_completion(folder):
    """Only names of files are quoted."""
    os.mkdir(place := f"{folder}/files")
    assert last_word("nixkeep-closure", "nixkeep-closure copy --to u", place) == "unix:/"
    open(f"{place}/http:", "x").close()
    assert completed("nixkeep-closure", "copy", "--to", "h", cwd=place) == ["http:", "http://", "https://"]


@pytest.mark.parametrize("name", ["_nixkeep", "nixkeep.fish"])
def test_words_of_other_shells(name):
    """Their completion runs nothing: its words come from itself and from the names of users."""
    text = Path(HERE, "completion", name).read_text()
    assert re.findall(r"nixkeep-\w+|_call_program|(?<!\[)\$\([^(]|`[a-z-]+ ", text) == []
