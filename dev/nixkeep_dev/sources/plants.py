"""The list of the wrong bodies that `rt plant` makes and that contracts accept, and what one run of it says."""
import re
from pathlib import Path

from nixkeep_dev.build import program

NAME = "tests/gate/plants.txt"
# The release of the toolchain whose bodies the list has: another one may make others.
RELEASE = "rattle-kit-13f"
NOT_RECORDED = "not recorded"
ACCEPTED = ("proves", "no-ensures")
# A kind, the file of a function and its line, and the function with the body, which a reason may follow.
ROW = re.compile(r"^([a-z-]+) +(src/\S+?):\d+ (.*)$", re.M)
REASON = re.compile(r"(?<=\})  \(.*\)$")
COUNTS = re.compile(r"^plants crate=.*$", re.M)


def listed() -> dict[str, list | None]:
    """The accepted bodies of each crate that the list has: lines `KIND FILE FUNCTION: BODY`. None where they aren't
    recorded."""
    by_crate, crate = {}, None
    for line in Path(program.HERE, NAME).read_text().splitlines():
        if line.startswith("  "):
            by_crate[crate].append(line.strip())
        elif line and not line.startswith("#"):
            crate, _, more = line.partition(":")
            by_crate[crate] = None if more.strip() == NOT_RECORDED else []
    return by_crate


def write(by_crate: dict[str, list | None]) -> None:
    comments = [line for line in Path(program.HERE, NAME).read_text().splitlines() if line.startswith("#")]
    open_ones = [f"{crate}: {NOT_RECORDED}" for crate, rows in sorted(by_crate.items()) if rows is None]
    crates = [f"\n{crate}:\n" + "".join(f"  {row}\n" for row in sorted(rows))
              for crate, rows in sorted(by_crate.items()) if rows is not None]
    Path(program.HERE, NAME).write_text("\n".join([*comments, "", *open_ones, ""]) + "".join(crates))


def recorded_crates() -> list[str]:
    """The crates whose accepted bodies the list has, in the order of their names."""
    return sorted(crate for crate, rows in listed().items() if rows is not None)


def of_day(day: int) -> list[str]:
    """The crate that the gate tries on a day: as many days as there are crates try each."""
    crates = recorded_crates()
    return crates[day % len(crates) : ][:1] if crates else []


class Said:
    """What a run of `rt plant --all` says of a crate: the kind of each body, and how many there are of each kind."""

    def __init__(self, said: str):
        self.line = COUNTS.search(said)[0]
        self.counts = {name: int(number) for name, number in re.findall(r"([a-z-]+)=(\d+)", self.line)}
        self.kinds = {f"{file} {REASON.sub('', body)}": kind for kind, file, body in ROW.findall(said)}

    def is_cut(self) -> bool:
        """Whether its time has ended before all bodies were tried: then more may be listed as accepted than are."""
        return self.counts["not-run"] > 0

    def accepted(self) -> set[str]:
        """The bodies that the contracts accept, without the lines on which their functions are."""
        return {f"{kind} {body}" for body, kind in self.kinds.items() if kind in ACCEPTED}

    def is_known(self, row: str) -> bool:
        """Whether this run says what becomes of a body that the list has."""
        kind = self.kinds.get(row.partition(" ")[2])
        return kind != "not-judged" and not (self.is_cut() and kind in (None, "not-run"))
