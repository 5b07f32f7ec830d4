"""docs/PERFORMANCE.md of the stored figures, and the table of all figures of a benchmark."""
import collections
import itertools
import math
import re
from collections.abc import Iterator

from nixkeep_dev.bench import chosen, remarks
from nixkeep_dev.bench.figures import shown

HEADING = "| What | nixkeep | Compared with | Ratio | Limit | Is it met? | Spread |\n|---|---|---|---|---|---|---|"
INTRODUCTION = """# Performance

`bin/bench --table` measures on a quiet machine and writes this page, and `bin/bench --print NAME` prints all figures of
one benchmark.

Each figure is the least of some rounds, since what else the machine does only adds to it; of short commands it is the
median. What it is compared with did the same work in the same run. A limit was set before the figure was measured.
"""
GROWTH = """
## Growth

Each time is from the start of a process to its end. A command tests all of the file first, so it takes as long as
`list`. A server did that when it started; its client is curl, or `nixkeep-remote` in the columns called remote.

![The times of a query and of why over the size of the store](performance.svg)
"""
BOUND = """
The last column has the power by which the time grows with the objects, by a command and by a server: 1 is in
proportion, 2 is quadratic. None may be above 1.2, also over references and roots (`bin/bench --print growth`).
"""
DAY = """## A team's day

`bench/day.py` runs an hour of 12 users over 100,000 objects of 1.4 GiB in minutes, with a collection after each
sixth, a backup and a restart. Each reply is compared with the model's.
"""


def cell(value, unit):
    return "" if value is None else shown(value, unit)


def value_of(figure):
    return shown(figure["value"], figure["unit"])


def peer_of(figure):
    return f"{figure['peer']}: {shown(figure['theirs'], figure['unit'])}" if figure.get("ratio") is not None else ""


VERDICT = {None: "", True: "met", False: "**missed**"}


# ---- all figures of a benchmark


def row(figure):
    """A line of the table for a figure."""
    ratio = figure.get("ratio")
    spread = "" if figure.get("spread") is None else f"{100 * figure['spread']:.0f} %"
    cells = [figure["what"], shown(figure["value"], figure["unit"]), peer_of(figure),
             "" if ratio is None else f"{ratio:.2f}", figure["limit"] or "", VERDICT[figure["is_met"]], spread]
    return f"| {' | '.join(cells)} |"


def heading(text):
    """A line of the table that says what those below it are of."""
    return f"| {text} |{' |' * 6}"


def lines_of(name: str, measured: dict) -> Iterator[str]:
    """The lines of a benchmark: what its figures depend on, and each figure."""
    if name not in measured:
        yield f"bench/{name} isn't measured yet: bin/bench --table {name}"
        return
    yield from (f"- {word}: {text}" for word, text in measured[name]["facts"].items())
    yield f"\n{HEADING}"
    of_section = lambda figure: f"*skipped: {figure['skipped']}*" if "skipped" in figure else f"*{figure['section']}*"
    for section, figures in itertools.groupby(measured[name]["figures"], of_section):
        yield heading(section)
        yield from (row(figure) for figure in figures if "skipped" not in figure)


# ---- the page


def facts(measured):
    """What the figures depend on: the newest run, or of those of one date the one with the most benchmarks, the newest
    version of each peer, and what other runs measured."""
    of_run = lambda facts: (facts["Date"], facts["Commit"])
    counted = collections.Counter(of_run(value["facts"]) for value in measured.values())
    runs = sorted((value["facts"] for value in measured.values()),
                  key=lambda facts: (facts["Date"], counted[of_run(facts)]))
    now = runs[-1] if runs else {}
    versions = {word: text for run in runs for word, text in run.items() if text != "not installed"}
    peers = [word for word in now if word not in ("Machine", "Date", "Commit")]
    versions = ", ".join(version(word, versions.get(word, now[word])) for word in peers)
    yield from (f"- {word}: {now[word]}" for word in ("Machine", "Date", "Commit") if word in now)
    yield f"- Compared with: {versions}"
    earlier = collections.defaultdict(list)
    for name, bench in measured.items():
        if (run := of_run(bench["facts"])) != of_run(now):
            earlier[run].append(name)
    if earlier:
        runs = (f"{commit}: {', '.join(sorted(names))}" for (_, commit), names in sorted(earlier.items()))
        yield f"- Measured earlier, at {'; '.join(runs)}"


def version(word, text):
    """A tool with the number of its version alone."""
    number = next((part for part in text.replace("-", " ").replace("/", " ").split() if part[:1].isdigit()), text)
    return f"{word} {number}"


def figures(measured):
    """The table of the figures that users ask for."""
    yield "| What | nixkeep | Compared with | Limit | Is it met? |\n|---|---|---|---|---|"
    for entry in chosen.FIGURES:
        figure = chosen.figure_in(measured, *entry[1:])
        if figure:
            cells = [entry.label, shown(figure["value"], figure["unit"]), peer_of(figure), figure["limit"] or "",
                     VERDICT[figure["is_met"]]]
            yield f"| {' | '.join(cells)} |"


def power(measured, way, what):
    """The power by which the time grows over the last ten times as many objects."""
    few, many = [chosen.seconds(measured, way, what, size) for size in chosen.SIZES[-2:]]
    return f"{math.log10(many / few):.2f}" if few and many else ""


def growth(measured):
    """The table of growth."""
    columns = [(way, size) for way in ("command", "server", "remote", "Nix") for size in chosen.SIZES[-2:]]
    yield "| Action | " + " | ".join(f"{way}, {size:,}" for way, size in columns) + " | power |"
    yield "|---" * (len(columns) + 2) + "|"
    for what in chosen.ACTIONS:
        times = [cell(chosen.seconds(measured, way, what, size), "s") for way, size in columns]
        powers = ", ".join(filter(None, (power(measured, way, what) for way in ("command", "server"))))
        yield f"| {what} | {' | '.join(times)} | {powers} |"


def day(measured):
    """The table of a team's day, where it was measured."""
    figures = {figure["what"]: figure for figure in measured.get("day", {"figures": []})["figures"]
               if "skipped" not in figure and re.fullmatch(chosen.DAY, figure["section"])}
    if not figures:
        return
    yield DAY
    yield "| What | half within | 99 of 100 within |\n|---|---|---|"
    for what, figure in figures.items():
        kind, colon, _ = what.partition(": half of ")
        if colon and kind in chosen.KINDS:
            yield f"| {chosen.KINDS[kind]} | {value_of(figure)} | {value_of(figures[f'{kind}: 99 of 100 within'])} |"
    yield "\n| What | nixkeep |\n|---|---|"
    yield from (f"| {label} | {value_of(figures[what])} |" for what, label in chosen.OF_DAY.items())
    yield ""


def page(measured: dict, names: list) -> str:
    """The page of the benchmarks of these names."""
    said = "\n".join(remarks.lines({name: measured[name] for name in names if name in measured}))
    counted = collections.Counter(figure["is_met"] for name in names if name in measured
                                  for figure in measured[name]["figures"] if figure.get("is_met") is not None)
    return "\n".join([INTRODUCTION, *facts(measured), "\n## What users ask for\n", *figures(measured), GROWTH,
                      *growth(measured), BOUND, *day(measured), "## Limits that are missed\n",
                      f"Of {sum(counted.values())} limits {counted[False]} are missed, for these reasons:\n",
                      said or "None is missed."]) + "\n"
