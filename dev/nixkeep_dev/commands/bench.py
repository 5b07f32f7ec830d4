"""Runs the benchmarks, all or those of some NAMEs, and prints each figure next to its limit.

`bin/run bench/NAME.py --help` says what a benchmark needs, and what it skips. Those that take a quiet machine for long
(large, first_run, proofs) run only if they are named. The figures of the last two are printed and not stored:
README.md says what a first run took.

With --quick, each has fewer objects. With --table, the figures are stored in bench/figures.json, with the machine, the
date, the commit and the versions of the peers, and docs/PERFORMANCE.md is written of the last figures of each. A
benchmark that doesn't end keeps its last figures. It has 100,000 objects too, where a benchmark can. With --print,
nothing is measured: without a NAME the page and its picture are written of the stored figures, and with NAMEs all
figures of these are printed, each with its limit and the spread over its rounds. In dev/nixkeep_dev/bench, chosen.py
says which figures the page has, and remarks.py why limits are missed.

At the end there is a warning for each figure that is more than 20 % worse than the stored one: as a ratio to that of a
peer, or to the median of all times, so that another machine makes no difference. Figures of fewer objects have none.

Exits with 1 if a figure misses its limit. The programs are timed one after another: nothing else should run meanwhile.
"""
import datetime
import json
import os
import platform
import re
import sqlite3
import subprocess
import sys
import tempfile
from pathlib import Path

from nixkeep_dev.bench import compared, page, picture
from nixkeep_dev.build.program import HERE
from nixkeep_dev.testing import libraries, packages, report
from nixkeep_dev.testing.runs import command, options_of

FIRST = ["commands", "stores", "counts", "growth", "requests", "questions", "over_http", "nix", "libraries",
         "readers", "restarts", "day"]
# These need a quiet machine for long. The first command is measured with all processors and with two.
LONG = {"large": [[]], "first_run": [[], ["--processors", "2"]], "proofs": [[]]}
NAMES, STORED = [*FIRST, *LONG], [*FIRST, "large"]
PEERS = {"Nix": ["nix", "--version"], "nginx": ["nginx", "-v"], "wrk": ["wrk", "-v"],
         "sha256sum": ["sha256sum", "--version"], "curl": ["curl", "--version"], "valgrind": ["valgrind", "--version"]}
PAGE, KEPT = f"{HERE}/docs/PERFORMANCE.md", f"{HERE}/bench/figures.json"
PICTURE = f"{HERE}/docs/performance.svg"


def first_line(words):
    """The first line that a command prints, without the machine and the libraries that curl adds to its version."""
    ran = subprocess.run(words, capture_output=True, text=True)
    return (ran.stdout + ran.stderr).strip().split("\n")[0].partition(" (x86_64-")[0]


def machine():
    """The processors and the memory, as Linux describes them."""
    names = re.findall(r"model name\s*: (.*)", Path("/proc/cpuinfo").read_text()) or [platform.machine()]
    kib = int(re.search(r"MemTotal:\s+(\d+)", Path("/proc/meminfo").read_text())[1])
    return f"{len(os.sched_getaffinity(0))} processors ({names[0].strip()}), {kib / 1_048_576:.0f} GiB of memory"


def facts():
    """What the figures depend on, by a word for each."""
    rows = {"Machine": f"{machine()}, Linux {platform.release()}", "Date": datetime.date.today().isoformat(),
            "Commit": first_line(["git", "-C", HERE, "rev-parse", "--short=12", "HEAD"]),
            "python3": platform.python_version(), "C SQLite": sqlite3.sqlite_version}
    for name, (tool, *words) in PEERS.items():
        file = packages.place_of(tool)
        rows[name] = first_line([file, *words]) if file else "not installed"
    return rows


# ---- running


def figures_of(name, more, given, flags, folder):
    """The figures of one run of a benchmark; None where it didn't end."""
    file, records = f"{HERE}/bench/{name}.py", Path(f"{folder}/{name}.json")
    flags = [flag for flag in flags if options_of(file, {flag[2:]: ""})]
    subprocess.run(command([file, *options_of(file, {**given, "records": records}), *flags, *more]))
    figures = json.loads(records.read_text()) if records.exists() else None
    records.unlink(missing_ok=True)
    return figures


def kept():
    """The last figures of each benchmark that has some, each with what they depend on."""
    return json.loads(Path(KEPT).read_text()) if Path(KEPT).exists() else {}


def pages(measured: dict) -> dict[str, str]:
    """The generated files below docs/, each with its text."""
    return {PAGE: page.page(measured, STORED), PICTURE: picture.svg(measured)}


def write_pages(measured: dict) -> None:
    for file, text in pages(measured).items():
        Path(file).write_text(text)


def keep(measured):
    Path(KEPT).write_text(json.dumps(measured, indent=1) + "\n")
    write_pages(measured)


# ---- all of it


def more(parser):
    libraries.option(parser)
    parser.add_argument("names", nargs="*", metavar="NAME", help=f"{', '.join(NAMES)}; else all")
    parser.add_argument("--quick", action="store_true", help="fewer objects")
    parser.add_argument("--large", action="store_true", help="100,000 objects too, where a benchmark can")
    parser.add_argument("--table", action="store_true", help="store the figures, and write docs/PERFORMANCE.md")
    parser.add_argument("--print", action="store_true", help="print the stored figures of NAMEs; else write the page")


def show_end(made, failed, last):
    """Prints which limits are missed, and what is worse than the last figures; returns whether all is well."""
    judged = [(name, figure) for name, of in made.items() for figure in of["figures"]
              if figure.get("is_met") is not None]
    missed = [(name, figure) for name, figure in judged if not figure["is_met"]]
    print(f"\n{len(judged) - len(missed)} limits met, {len(missed)} missed")
    for name, figure in missed:
        print(f"missed: bench/{name}, {figure['section']}: {figure['what']}, at a limit of {figure['limit']}")
    for name in failed:
        print(f"bench/{name} didn't end")
    for line in compared.warnings(made, last):
        print(f"warning: {line}")
    return not missed and not failed


def main() -> int:
    words, measured, failed, made = report.options(__doc__, more), kept(), [], {}
    if unknown := [name for name in words.names if name not in NAMES]:
        sys.exit(f"no benchmark {' '.join(unknown)}: {', '.join(NAMES)}")
    if words.print:
        for name in words.names:
            print(f"# bench/{name}\n", *page.lines_of(name, measured), sep="\n")
        sys.exit(None if words.names else write_pages(measured))
    if words.quick and words.table:
        sys.exit("a table has the whole number of objects")
    given = {name: value and str(Path(value).absolute()) for name, value in vars(words).items()
             if name in ("program", "libraries")}
    words.large |= words.table
    flags = [f"--{name}" for name in ("quick", "large") if getattr(words, name)]
    with tempfile.TemporaryDirectory() as folder:
        for name in words.names or NAMES:
            print(f"\n==== {name}", flush=True)
            if name in LONG and name not in words.names:
                print(f"takes a quiet machine for long: bin/bench {name}")
                continue
            figures = [figures_of(name, more, given, flags, folder) for more in LONG.get(name, [[]])]
            if None in figures:
                failed.append(name)
            made[name] = {"facts": facts(), "figures": sum(filter(None, figures), [])}
    is_good = show_end(made, failed, {} if words.quick else measured)
    if words.table:
        keep({**measured, **{name: of for name, of in made.items() if name in STORED and name not in failed}})
    return 0 if is_good else 1


if __name__ == "__main__":
    sys.exit(main())
