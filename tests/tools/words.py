"""The options of the programs in tools/ and of nixkeep, as their help has them."""
import re
import subprocess

from nixkeep_dev.build.program import HERE
from nixkeep_dev.testing import report

OPTION = re.compile(r"(?<![\w-])--[a-z][a-z-]*[a-z]")
SUBCOMMANDS = {"nixkeep-backup": ("check", "copy", "fetch", "restore", "before-migration"),
               "nixkeep-closure": ("push", "pull", "copy"), "nixkeep-cache": ("sweep", "verify")}


def options_in(text: str) -> set[str]:
    return {*OPTION.findall(text)}


def said(*words):
    """The help of a command; None where it needs a module of Python that isn't installed."""
    ran = subprocess.run([*words, "--help"], capture_output=True, text=True)
    if ran.returncode and "python3-" in ran.stdout + ran.stderr:
        return None
    return ran.stdout if ran.returncode == 0 else report.fail(f"{' '.join(words)} --help: {ran.stderr}")


def options_of(tool: str) -> set[str]:
    """The options of a tool and of its subcommands; None where it doesn't run here."""
    helps = [said(f"{HERE}/tools/{tool}", *words) for words in [(), *[(word,) for word in SUBCOMMANDS.get(tool, ())]]]
    return None if None in helps else set().union(*map(options_in, helps))


def options_of_program(file: str) -> set[str]:
    """The options of the subcommands of nixkeep, but for those of a server: nixkeep-remote has them too."""
    names = re.findall(r"^  ([a-z][a-z-]*)  ", said(file).partition("Commands:")[2].partition("Options:")[0], re.M)
    own = options_in(said(file)) - {"--help"}
    return {option for name in names if name not in ("help", "serve") for option in options_in(said(file, name)) - own}
