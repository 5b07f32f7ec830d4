"""Tests what `bin/test` and `bin/test all` run, and when they fail. Nothing is proved or tried: a stand-in notes each
script that would be started, which has passed unless a test says otherwise. A planted fault has to be a whole one."""
import re
import sys
import types
from pathlib import Path

import pytest

from nixkeep_dev.build.program import HERE
from nixkeep_dev.commands import gate, test
from nixkeep_dev.testing import parts, report, runs, sabotage, skips

# What `bin/test all` leaves to be run by hand, and what `bin/test` leaves to `bin/test all` besides.
BY_HAND = {"examples/team/try_large", "tools/try_swift"}
OF_ALL = {"rt ci", "gate/by_rattle", "gate/coverage", "gate/edits", "gate/launched", "gate/plant", "gate/refused",
          "gate/sabotage", "gate/wrong_bodies", "package/clean_machine"}
EACH = {"rt ci", "cases", *(runs.name_of([file]) for files in parts.by_name().values() for file in files.values())}


class Started:
    """The names of the scripts that were started, and what comes of those that don't pass."""

    def __init__(self):
        self.names, self.otherwise = set(), {}

    def run(self, words, *_, **__):
        self.names.add(name := runs.name_of(words))
        status, counts, output = self.otherwise.get(name, (0, (1, 0, 0), ""))
        return runs.Ran(words, status, counts, output, 0, types.SimpleNamespace(ru_utime=0, ru_stime=0))


@pytest.fixture
def started(monkeypatch):
    made = Started()
    monkeypatch.chdir(HERE)
    for module in (test, gate, parts):
        monkeypatch.setattr(module, "run", made.run)
    for place, name in ((test, "say_what_is_missing"), (gate, "clear_libraries"), (gate.program, "keep_built"),
                        (runs, "compile_modules")):
        monkeypatch.setattr(place, name, lambda *_: None)
    monkeypatch.setattr(parts, "options_of", lambda *_: [])
    monkeypatch.setattr(report, "program_file", lambda _: "/program")
    monkeypatch.setattr(gate, "spent", lambda: 0)
    monkeypatch.setattr(gate.release, "compare", lambda _: (True, "the same"))
    return made


@pytest.fixture
def status(started, monkeypatch):
    """The status of bin/test with words."""
    def call(*words):
        monkeypatch.setattr(sys, "argv", ["bin/test", *words])
        return test.main()

    return call


def of_ci():
    """The words with which .ci/run calls bin/test."""
    last = Path(HERE, ".ci/run").read_text().splitlines()[-1]
    assert last.startswith("exec bin/test ")
    return last.split()[2:]


def test_ci_runs_each_script_but_those_by_hand(status, started):
    assert status(*of_ci()) == 0
    assert started.names == EACH - BY_HAND


def test_the_page_names_those_by_hand():
    text = " ".join(Path(HERE, "docs/TESTING.md").read_text().split())
    named = re.search(r"leaves out [^.]*the parts `(\w+)` and `(\w+)` of `bin/test team`", text)
    team = parts.by_name()["team"]
    assert {runs.name_of([team[name]]) for name in named.groups()} == BY_HAND


def test_bin_test_runs_all_others(status, started):
    assert status() == 0
    assert started.names == EACH - BY_HAND - OF_ALL


@pytest.mark.parametrize("name", sorted(EACH - BY_HAND))
def test_one_that_fails_fails_all(name, status, started):
    started.otherwise = {name: (1, (5, 1, 0), "")}
    assert status(*of_ci()) == 1


def test_nothing_is_tried_where_the_proofs_fail(status, started):
    started.otherwise = {"rt ci": (1, (5, 1, 0), "")}
    assert status(*of_ci()) == 1
    assert started.names == {"rt ci", *(f"gate/{name}" for name in parts.CHECKS)}


@pytest.mark.parametrize("name", ["gate/started", "tools/test_remote"])
def test_a_skip(name, status, started):
    """It fails, unless the list of skips names it, or skips are allowed."""
    started.otherwise = {name: (0, (5, 0, 1), "skipped: what nobody has named\n")}
    assert (status(*of_ci()), status("all")) == (1, 0)


def test_skips_that_are_named(status, started):
    assert skips.allowed()
    for name, what in skips.allowed():
        started.otherwise = {name: (0, (5, 0, 1), f"skipped: {what.replace('*', 'something')}\n")}
        assert status(*of_ci()) == 0, what


def test_a_part_that_tries_nothing_fails(status, started):
    started.otherwise = {"cases": (0, (0, 0, 0), "")}
    assert status(*of_ci()) == 1


def test_another_program_than_the_released_one_fails(status, monkeypatch):
    monkeypatch.setattr(gate.release, "compare", lambda _: (False, "another"))
    assert status(*of_ci()) == 1


def test_more_minutes_than_there_may_be_fail(status, monkeypatch):
    monkeypatch.setattr(gate, "spent", lambda: 60 * (test.BUDGET + 1))
    assert status(*of_ci()) == 1


@pytest.mark.parametrize("keys, is_whole", [
    ("file old new part", True), ("file old new gone part", True), ("file old part", False), ("file part", False),
    ("old new part", False), ("bytes become part", True), ("bytes become bytes part", False), ("ahead part", True),
    ("part", False), ("ahead", False)])
def test_a_fault_that_plants_nothing_is_refused(keys, is_whole):
    lines = [(key, "text") for key in keys.split()]
    if is_whole:
        assert sabotage.Fault("whole", lines).part == ["text"]
    else:
        with pytest.raises(report.Failed):
            sabotage.Fault("not whole", lines)
