"""The version of the tools, which is that of nixkeep: they are installed with it, next to the file VERSION."""
# (os.path: see `credentials`)
import os

# For a hint alone: nixkeep-remote does without argparse and typing, which take milliseconds to load.
TYPE_CHECKING = False
if TYPE_CHECKING:
    import argparse

HERE = os.path.dirname(os.path.realpath(__file__))
# In an installation, and in a checkout.
PLACES = (f"{HERE}/../VERSION", f"{HERE}/../../VERSION")


def line(tool: str) -> str:
    """What `TOOL --version` prints."""
    for place in PLACES:
        if os.path.isfile(place):
            with open(place, encoding="ascii") as file:
                return f"{tool} {file.read().strip()}"
    return f"{tool}, of an unknown version"


def add_to(parser: "argparse.ArgumentParser") -> None:
    """Adds the option to a command line."""
    parser.add_argument("--version", action="version", version=line(parser.prog), help="print the version, and end")
