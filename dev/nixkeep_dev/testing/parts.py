"""The parts of the tests: the scripts of each, and how much of each is tried where all run together."""
import os
from collections.abc import Callable, Iterable, Sequence
from concurrent.futures import ThreadPoolExecutor
from pathlib import Path

from nixkeep_dev.build.program import HERE
from nixkeep_dev.testing import runs
from nixkeep_dev.testing.runs import file_of, options_of, run, scripts

# This one tries some benchmarks without that program.
BENCH = "tools/test_bench"
# How much of each script is tried, where that isn't all: about a minute of one processor for each.
BOUNDED = {
    "compare/memory_and_files": ["--count", "10"],
    "compare/model": ["--count", "1500"],
    "faults/refuse_memory": ["--count", "30"],
    "faults/stop_writes": ["--count", "8"],
    "faults/fail_streams": ["--count", "12"],
    "faults/cut_heads": ["--count", "1500"],
    "faults/hostile_clients": ["--count", "2"],
    BENCH: ["--count", "2"],
}
# The script that tries a team's deployment.
TEAM = "../examples/team/try"
# Those that take longest, the longest first: so at the end, when few are left, none of them goes on alone.
LONGEST = [TEAM, "tools/test_remote", "cases", "tools/test_overview", "faults/refuse_memory",
           "faults/hostile_clients", "tools/test_large", "tools/test_closure", "faults/fail_streams",
           "faults/stop_writes", "compare/nix_store", "compare/sqlite", "tools/test_explain", "tools/test_cache",
           "tools/test_backup"]
# What more is tried in the gate, where the proofs take longer anyway.
MORE = {"compare/model": ["--count", "15000"]}
# What only the gate tries, since it takes minutes, or has itself what `rt ci` has built: whether it is given the
# program, and its words.
OF_GATE = {
    "gate/sabotage": (True, ["--today"]),
    "package/clean_machine": (True, []),
    "gate/launched": (False, ["--built"]),
    "gate/by_rattle": (False, ["--built"]),
    "gate/refused": (False, ["--built"]),
    "gate/plant": (False, ["--today", "--minutes", "6"]),
    "gate/coverage": (True, ["--today", "--jobs", "1", "--minutes", "6"]),
    "faults/refuse_memory": (True, ["-k", "again"]),
}
# What is tried of a script that takes minutes, where five minutes are to be taken for all.
SHORT = {
    "tools/test_remote": ["--count", "20"],
    "compare/nix_store": ["--count", "3"],
    "compare/sqlite": ["--count", "2"],
    "tools/test_units": ["-k", "said"],
    BENCH: ["-k", "commands or warning"],
    "compare/model": ["--count", "400"],
    "faults/refuse_memory": ["--count", "8"],
    "faults/stop_writes": ["--count", "2"],
    "faults/fail_streams": ["--count", "6"],
    "faults/cut_heads": ["--count", "500"],
}
# The checks of the repository, which need no program.
CHECKS = ("checks", "documents", "generated", "started")


def by_name() -> dict[str, dict]:
    """The scripts of each part by name."""
    tools = [script.removeprefix("test_") for script in scripts("tools", "test_")]
    return {
        "compare": {script: file_of(f"compare/{script}") for script in scripts("compare")},
        "faults": {script: file_of(f"faults/{script}") for script in scripts("faults")},
        "tools": {tool: file_of(f"tools/test_{tool}") for tool in tools},
        "team": {"try": file_of(TEAM), "try_large": file_of(f"{TEAM}_large"), "swift": file_of("tools/try_swift"),
                 **{tool: file_of(f"tools/test_{tool}") for tool in tools
                    if tool.startswith(("cache", "hostile", "logins", "overview", "units"))}},
        "package": {"clean_machine": file_of("package/clean_machine"), "files": file_of("tools/test_package"),
                    "scripts": file_of("tools/test_package_scripts")},
        "gate": {script: file_of(f"gate/{script}") for script in scripts("gate")},
    }


def count_of(file: Path) -> int | None:
    """How much is tried of a module where it is one of all and takes minutes; None where it says so itself."""
    words = {**BOUNDED, **SHORT}.get(runs.name_of([str(file)]), [])
    return int(words[1]) if words[:1] == ["--count"] else None


class Part:
    """A script of tests/ by name, what is given to it where it takes such an option, and further words."""

    def __init__(self, name: str, given: dict, more: Iterable[str] = ()):
        self.name, self.file, self.given, self.more = name, file_of(name), given, more

    def run(self) -> runs.Ran | None:
        """Runs it; None where it needs the program of crates/bench, which isn't given: the toolchain has to build
        that."""
        if self.name != BENCH and "libraries" not in self.given and options_of(self.file, {"libraries": ""}):
            return None
        return run([self.file, *options_of(self.file, self.given), *self.more], False)


def of_program(given: dict, is_whole: bool = False) -> list[Part]:
    """The parts that try the program, those that take longest first. Where it isn't whole, less of some is tried, and
    no machine is booted for the units."""
    bounded, more = (BOUNDED, MORE) if is_whole else ({**BOUNDED, **SHORT}, {})
    by_kind = {"faults": "", "compare": "", "tools": "test_"}
    files = [f"{folder}/{script}" for folder, start in by_kind.items() for script in scripts(folder, start)]
    files = [*LONGEST, *[file for file in files if file not in LONGEST]]
    return [Part(file, given, [*bounded.get(file, []), *more.get(file, [])]) for file in files]


def of_gate(given: dict) -> list[Part]:
    """The parts that only the gate runs: those that take longest first."""
    others = {"seed": given["seed"]}
    return [Part(name, given if needs_program else others, more) for name, (needs_program, more) in OF_GATE.items()]


def side_by_side(chosen: list[Part], begun: Sequence[Callable] = ()) -> list:
    """Runs parts side by side, and prints what each printed when it has ended; returns the runs. `begun` are more
    calls, which begin first and are printed last."""
    runs.compile_modules(HERE)
    processors = len(os.sched_getaffinity(0))
    # (most of them wait now and then, but not the edits)
    with ThreadPoolExecutor(len(begun) + processors if begun else 2 * processors) as pool:
        first = [pool.submit(call) for call in begun]
        others = [pool.submit(part.run) for part in chosen]
        for future in [*others, *first]:
            if ran := future.result():
                runs.show(ran)
        return [future.result() for future in [*first, *others]]
