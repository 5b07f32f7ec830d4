"""The refusals, denials and failures that the reference lists, and which of them the cases want."""
import re
from collections.abc import Iterator

from nixkeep_dev.testing.tracked import text_of, tracked

REFERENCE = "docs/REFERENCE.md"
TABLE, TABLE_OF_ROUTES = "tests/cases/refusals.txt", "tests/cases/http-routes.txt"
# The routes of the table of refusals, and the subcommand that makes the same request.
ROUTES = {"GET /info/": "info", "GET /nar/": "cat-nar", "GET /roots-of/": "why", "POST /root/user/": "root",
          "DELETE /root/user/": "unroot", "POST /root/permanent/": "root", "DELETE /root/permanent/": "unroot",
          "POST /profile/": "profile set", "POST /rollback/": "profile rollback", "POST /switch/": "profile switch",
          "DELETE /generation/": "profile delete", "POST /temp/": "temp add", "DELETE /temp/": "temp end",
          "POST /runtime": "runtime", "POST /delete": "delete"}
# Refusals that reach no user, that only a message can get, and that only a file can get as it is opened.
OF_LIBRARIES, OF_MESSAGES, OF_OPENING = {9, 10, 11, 13, 15}, {36, 37, 38, 39, 40}, {19, 20, 21, 22}


def section(page: str, title: str) -> str:
    return page.partition(f"\n## {title}\n")[2].partition("\n## ")[0]


def not_wanted() -> Iterator[str]:
    """The answers of the reference that no step of a case wants."""
    page, pages = text_of(REFERENCE), "\n".join(map(text_of, tracked("tests/cases/*.txt")))
    numbers = {*map(int, re.findall(r"^\| (\d+) \| `[a-z-]+(?: WORD)?` \|", page, re.M))} - OF_LIBRARIES
    for where, start, others in (("on the command line", "2> ", OF_MESSAGES), ("over HTTP", "", OF_OPENING)):
        wanted = {*map(int, re.findall(rf"^  {start}refused: (\d+) ", pages, re.M))}
        yield from [f"no step of a case wants refusal {number} {where}" for number in sorted(numbers - others - wanted)]
    denials, failures = section(page, "Denials"), section(page, "Failures")
    names = [f"denied: {name}" for name in re.findall(r"^\| `([a-z-]+)[` ]", denials, re.M)]
    of_failures = {*re.findall(r"`failed: ([a-z-]+)", failures)} - {"memory", "output", "size"}
    names += [f"failed: {name}" for name in of_failures]
    yield from [f"no step of a case wants {name}" for name in sorted(names) if name not in pages]


def of_subcommands(page: str) -> Iterator[tuple[int, list[str]]]:
    """Each refusal of the subcommands on the page: its number, and those of which one has it."""
    for head, text in re.findall(r"^### (.*)\n((?:(?!### ).*\n)*)", section(page, "Subcommands"), re.M):
        for sentence in re.findall(r"Refusals[^R|]*", text):
            named = re.match(r"Refusals of `([a-z-]+)`", sentence)
            numbers = {int(number) for number in re.findall(r"`(\d+) [a-z-]+`", sentence)}
            numbers.update(*(range(int(one), int(last) + 1) for one, last in re.findall(r"(\d+) to (\d+)", sentence)))
            yield from ((number, [named[1]] if named else re.split(" and |, ", head)) for number in sorted(numbers))
        for name, action, numbers in re.findall(r"^\| `(\w+)(?: \[.*?\])? (\w+) .*\| ([\d, ]+) \|$", text, re.M):
            yield from ((int(number), [f"{name} {action}"]) for number in numbers.split(", "))


def not_in_table() -> Iterator[str]:
    """The refusals of subcommands for which the table of refusals has no row."""
    text = re.sub(r" --owner \S+", "", text_of(TABLE))
    rows = re.findall(r"^  (?:> |.*<<<')(\d+) [a-z-]+: \w+ (.*)$", text, re.M)
    for number, names in of_subcommands(text_of(REFERENCE)):
        if not any(int(row) == number and f"{line} ".startswith(f"{name} ") for row, line in rows for name in names):
            yield f"{TABLE} has no row for refusal {number} of {' or '.join(names)}"


def rows_of_routes(text: str) -> set[tuple[int, str]]:
    """Each row of the table of routes: its number, and the method and the target."""
    looped = re.compile(r"^  \$ for \w+ in ([^;]*); do sed .*<<END\n((?:  > .*\n)*?)  > END\n", re.M)
    for words, rows in looped.findall(text):
        text += "".join(rows.replace("ROUTE", f"/{word.rpartition(':')[2]}/") for word in words.split())
    matches = re.findall(r"^  (?:> |.*<<<['\"])(\d+) [a-z-]+: \S+ (\w+ \S+)", text, re.M)
    return {(int(number), target) for number, target in matches}


def not_in_table_of_routes() -> Iterator[str]:
    """The refusals of routes for which the table of routes has no row."""
    page, rows = text_of(REFERENCE), rows_of_routes(text_of(TABLE_OF_ROUTES))
    for route, name in ROUTES.items():
        numbers = {number for number, names in of_subcommands(page) if name in names}
        if not numbers:
            yield f"the reference has no refusal of {name}"
        # (each may refuse its body, and so for what is no path in it)
        of_body = set() if route.startswith("GET ") else {14}
        for number in sorted(numbers - of_body | {41}):
            if not any(row == number and target.startswith(route) for row, target in rows):
                yield f"{TABLE_OF_ROUTES} has no row for refusal {number} of {route}"
