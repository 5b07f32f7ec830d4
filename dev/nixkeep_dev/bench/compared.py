"""New figures next to the last ones that are kept: which of them have become worse, whatever the machine."""
import statistics
from collections.abc import Iterator

# How much worse a figure may be, as a multiple, before that is said.
MOST = 1.2
# Of these more is better.
RATES = ("a second", "GB/s")


def by_place(figures):
    """The figures that can be compared, by their section and what they are of."""
    return {(figure["section"], figure["what"], figure["unit"]): figure for figure in figures
            if "value" in figure and figure["unit"] != "power"}


def worse(new, old):
    """How much worse a figure is, as a multiple: its ratio to a peer's where it has one, else its value."""
    key = "ratio" if new.get("ratio") and old.get("ratio") else "value"
    if not new[key] or not old[key]:
        return 1
    times = new[key] / old[key]
    return 1 / times if new["unit"] in RATES or (new["limit"] or "").startswith("at least") else times


def is_of_machine(figure: dict) -> bool:
    """Whether a figure depends on how fast the machine is: a time or a rate without a peer's next to it."""
    return figure["unit"] in ("s", *RATES) and not figure.get("ratio")


def pairs(made, kept):
    """Each new figure with the last one of its place: the benchmark, the new one, and how much worse it is."""
    for name, of in made.items():
        last = by_place(kept.get(name, {}).get("figures", []))
        for place, figure in by_place(of["figures"]).items():
            if place in last:
                yield name, figure, worse(figure, last[place])


def warnings(made: dict, kept: dict) -> Iterator[str]:
    """A line for each figure that is more than 20 % worse than the last one. Times without a peer's are compared with
    the median of all, which says how much faster or slower this machine is."""
    compared = [*pairs(made, kept)]
    pace = statistics.median([times for _, figure, times in compared if is_of_machine(figure)] or [1])
    for name, figure, times in compared:
        times /= pace if is_of_machine(figure) else 1
        if times > MOST:
            date = kept[name]["facts"]["Date"]
            yield f"bench/{name}, {figure['section']}: {figure['what']}: {times:.2f} times worse than on {date}"
