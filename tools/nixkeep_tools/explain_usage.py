"""What each root and each owner keeps, and what the deletion of a generation would free, as tables."""
from collections.abc import Iterator

from . import store_file


def table(heads, rows):
    """Lines of columns: numbers to the right in 16 places, and a text at the end."""
    numbers = len(heads) - 1
    for row in [heads, *rows]:
        yield "  ".join([*(f"{value:>16}" for value in row[:numbers]), str(row[numbers])])


def roots_table(usages):
    rows = [(usage.all, usage.alone, f"{root.label} of {root.owner}" if root.kind == "temporary" else root.label)
            for root, usage in usages]
    return table(("bytes", "alone", "root"), rows)


def owners_table(store, kept):
    rows = [(usage.all, usage.alone, owner) for owner, usage in store_file.usage_of_owners(store, kept)]
    return table(("bytes", "alone", "owner"), rows)


def generations_table(store, usages):
    """The generations of each profile; the current one can't be deleted."""
    rows = []
    for root, usage in sorted(usages, key=lambda pair: (pair[0].owner or "", pair[0].name or "", pair[0].number or 0)):
        if root.kind == "profile":
            is_current = store.current[root.owner, root.name] == root.number
            text = f"{root.owner} {root.name} {root.number}  {root.target}"
            rows.append(("current" if is_current else usage.alone, text))
    return table(("would free", "generation"), rows)


def lines(store: store_file.Store, keep_outputs: bool, keep_derivers: bool) -> Iterator[str]:
    """The lines of the report."""
    kept = store_file.edges(store, keep_outputs, keep_derivers)
    usages = store_file.usage_of_roots(store, kept)
    live, dead, total = store_file.usage_of_all(store, kept)
    yield from table(("bytes", "class"), [(live, "live"), (dead, "dead"), (total, "total")])
    for part in (owners_table(store, kept), roots_table(usages), generations_table(store, usages)):
        heads, *rows = part
        if rows:
            yield from ["", heads, *rows]
