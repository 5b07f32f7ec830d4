"""The one door to the tests of nixkeep. The last line is `N passed, M failed`, and what was skipped is listed above it.

  bin/test                      all that needs no toolchain, on the program that bin/nixkeep runs: the checks of the
                                repository, cases and tests of the tools; of the comparisons, of the faults and of the
                                cases over a server, a part that changes from day to day
  bin/test all                  what .ci/run does: the checks of the repository, the proofs of all crates that the
                                toolchain hasn't kept, their tests and programs, a comparison of the program with the
                                released one, and then all of the above on the program that was built, the wrong bodies
                                and definitions of tests/gate/mistakes.txt, those of `laws` and of crates that differ
                                from tests/gate/tried.txt, and by the day others of these, planted faults, the coverage
                                of some tools, and the wrong bodies that `rt plant` makes of a listed crate
  bin/test cases [CASE..]       the cases: command lines and what they print
  bin/test compare [NAME..]     the program next to Nix, SQLite, curl, itself and a model of it
  bin/test faults [NAME..]      refused memory, failing streams, stops at each write, cut heads, hostile clients, a
                                soak: all
  bin/test tools [NAME..]       the tests of the tools in tools/, the launcher, the release, benchmarks, examples and
                                of the tests
  bin/test team [NAME..]        a team's deployment in examples/team, its cache, logins, its overview in a browser,
                                hostile requests, its units on a machine that is booted, a large closure, and Swift
  bin/test package [NAME..]     the package, and a clean Debian on which it is installed, used and removed
  bin/test bodies [CRATE..]     all wrong bodies of crates
  bin/test plant CRATE..        wrong bodies that `rt plant` makes of crates: which of them the contracts accept
  bin/test gate [NAME..]        the checks of the repository, which prove nothing
  bin/test sabotage [NAME..]    planted faults, each of which a part of the tests has to notice: all, or those of a name

Without a name, each of a part is run, but for `plant`. Part by part, a program that --program names is tried, else that
of bin/nixkeep.
tests/packages.txt lists the Debian packages that the tests use. With --no-skips what is skipped has failed, unless
tests/gate/skips.txt names it; .ci/run sets that. `bin/run tests/compare/sqlite.py --help` prints the options of one
module, and bin/run runs it with them.
"""
import os
import re
import sys
from pathlib import Path

from nixkeep_dev.commands import gate
from nixkeep_dev.sources import bodies, plants
from nixkeep_dev.testing import packages, parts, report, skips
from nixkeep_dev.testing.cases import CASES
from nixkeep_dev.testing.runs import ALONE, TESTS, file_of, not_allowed, options_of, run, together

# The processor minutes that all may take. Another number is a decision, which belongs into docs/DECISIONS.md.
BUDGET = 400
# Parts that are one module, to which names are given.
BY_THEMSELVES = {"bodies": "wrong_bodies", "plant": "plant", "sabotage": "sabotage"}


def say_what_is_missing():
    if names := packages.missing():
        report.tell(f"bin/test: not installed, and what needs it is skipped: {packages.install_line(names)}")


def by_itself(part, known):
    """What of a part runs without a name: of the gate, what proves nothing and needs no program."""
    return [name for name in known if part != "gate" or name in parts.CHECKS]


def named(part, names):
    """The words by which pytest chooses what has these names: crates, or some words of a planted fault's name."""
    of_one = {"bodies": "[{}/", "plant": "[{}]", "sabotage": "({})"}[part]
    # (pytest takes no apostrophe here, and these three words as its own)
    words = [[word for word in re.findall(r"[\w:+./-]+", name) if word not in ("and", "or", "not")] for name in names]
    return ["-k", " or ".join(of_one.format(" and ".join(of_name)) for of_name in words)] if names else []


def page_of(case):
    return f"{CASES}/{case.removesuffix('.txt')}.txt"


def whole_part(words):
    """The file that runs a part, and the names that are given to it; the files of cases."""
    if words.part == "cases":
        return [page_of(name) for name in words.names] or [CASES]
    return [file_of(f"gate/{BY_THEMSELVES[words.part]}"), *named(words.part, words.names)]


def run_part(words, parser):
    of_crates = {"bodies": bodies.having, "plant": plants.listed}
    if unknown := [name for name in words.names if words.part in of_crates and name not in of_crates[words.part]()]:
        parser.error(f"{words.part}: no crate {' '.join(unknown)}")
    if unknown := [name for name in words.names if words.part == "cases" and not Path(page_of(name)).exists()]:
        parser.error(f"no {' '.join(unknown)} in cases")
    if words.part == "plant" and not words.names:
        parser.error("plant: name a crate")
    program = words.program and str(Path(words.program).absolute())
    given = {"program": program, "seed": words.seed, "count": words.count}
    if words.part in ("cases", *BY_THEMSELVES):
        return together([run([*whole_part(words), *options_of(whole_part(words)[0], given)], limit=ALONE)],
                        may_skip=not words.no_skips)
    known = parts.by_name()[words.part]
    if unknown := [name for name in words.names if name not in known]:
        parser.error(f"no {' '.join(unknown)} in {words.part}: {', '.join(known)}")
    runs = []
    for name in words.names or by_itself(words.part, known):
        print(f"\n{words.part} {name}", flush=True)
        runs.append(run([known[name], *options_of(known[name], given)], limit=ALONE))
    return together(runs, may_skip=not words.no_skips)


def run_without_toolchain(words):
    """All that needs no toolchain, side by side."""
    file = report.program_file(words)
    given = {"program": file, "seed": words.seed, "count": words.count}
    tried = [parts.Part(f"gate/{name}", {}) for name in parts.CHECKS] + parts.of_program(given)
    runs = parts.side_by_side(tried)
    names = ", ".join(part.name for part, ran in zip(tried, runs) if not ran)
    left_out = [f"proofs, wrong bodies, {names}: they need the Rattle toolchain, and `bin/test all` runs them",
                "a clean Debian and a booted machine take minutes: `bin/test package` and `bin/test team units`",
                "planted faults and coverage take hours: `bin/test sabotage` and `bin/test gate coverage`",
                "most benchmarks, a closure of over 2 GiB and Swift: `bin/test tools bench`, `bin/test team try_large"
                " swift`"]
    return together([ran for ran in runs if ran], left_out=left_out, may_skip=not words.no_skips)


def run_all(words):
    """The checks of the repository, and then the gate."""
    os.chdir(Path(TESTS).parent)
    for name in parts.CHECKS:
        ran = run([file_of(f"gate/{name}")])
        if not ran.is_good() or words.no_skips and not_allowed([ran]):
            return 1
    return gate.gate(BUDGET, not words.no_skips)


def main() -> int:
    parser = report.parser(__doc__)
    parser.add_argument("part", nargs="?", choices=["all", "cases", *BY_THEMSELVES, *parts.by_name()], metavar="PART")
    parser.add_argument("names", nargs="*", metavar="NAME")
    parser.add_argument("--program", metavar="FILE", help="the program that is tried")
    parser.add_argument("--seed", metavar="N", type=int, help="what chance begins with; else the day")
    parser.add_argument("--count", metavar="N", type=int, help="how much of each is tried; else as each says")
    parser.add_argument("--no-skips", action="store_true", help=f"what is skipped fails, unless {skips.NAME} names it")
    words = parser.parse_args()
    say_what_is_missing()
    if words.part == "all":
        return run_all(words)
    return run_part(words, parser) if words.part else run_without_toolchain(words)


if __name__ == "__main__":
    sys.exit(main())
