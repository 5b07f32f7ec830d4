"""Runs commands as a page of the repository shows them: `as-shown PAGE SECTION..`.

Of each section, which is named by its heading, it takes all blocks of commands, and runs them in one shell, one after
another; `bin/nixkeep` is the program of the case. There are two kinds:

  ```    the block begins with a line `$ COMMAND`; further lines of a command follow `> `. What is printed, on either
         output, has to be what follows the command
  ```sh  commands alone. What they print is printed, and each line has to end with 0

Where something else comes, it says so and ends with 1. Else its last line is the number of commands. It waits for what
still writes to the output, so a server that goes on has to write to a file.
"""
import difflib
import re
import subprocess
import sys
import tempfile
from pathlib import Path

from nixkeep_dev.build.program import HERE
from nixkeep_dev.testing.cases import steps_of
from nixkeep_dev.testing.pages import command_blocks

# Before the output of each block comes the number of the block.
MARK = "\1%d\2"
ALONE = "set -e; shopt -s expand_aliases\n%s\nset +e\n"


def blocks(page, section):
    """The blocks of commands of a section, each with its kind."""
    of_section = command_blocks(page).get(section)
    if not of_section:
        sys.exit(f"as-shown: no command is shown under {section!r}")
    return of_section


def of_case(text):
    """Commands with the program of the case."""
    return re.sub(r"(?<![\w/])bin/nixkeep", "nixkeep", text)


def compared(text):
    """A block with what its commands print, as a script that prints the same."""
    for step in steps_of("".join(f"  {line}\n" for line in text.splitlines())):
        shown = re.sub("^> $", ">", "$ " + step.command.replace("\n", "\n> "), flags=re.M)
        yield f"cat <<'SHOWN'\n{shown}\nSHOWN\n{of_case(step.command)}\n"


def output_of(scripts):
    """The output of each script of a list, which one shell runs, and the status of the shell."""
    parts = [f"printf {MARK % at!r}\n{text}" for at, text in enumerate(scripts)]
    with tempfile.NamedTemporaryFile("w", suffix=".sh") as script:
        script.write("".join(parts) + "exit 0\n")
        script.flush()
        how = {"stdin": subprocess.DEVNULL, "stdout": subprocess.PIPE, "stderr": subprocess.STDOUT, "text": True}
        ran = subprocess.run(["bash", script.name], **how)
    came = dict(re.findall("\1(\\d+)\2([^\1]*)", ran.stdout))
    return [came.get(str(at), "") for at in range(len(scripts))], ran.returncode


def main():
    if sys.argv[1:] == ["--help"]:
        sys.exit(print(__doc__))
    name, *sections = sys.argv[1:]
    page = Path(HERE, name).read_text()
    commands = [block for section in sections for block in blocks(page, section)]
    came, status = output_of([ALONE % of_case(text) if kind else "".join(compared(text)) for kind, text in commands])
    shown, seen = [], []
    for (kind, text), output in zip(commands, came):
        if kind:
            print(output, end="")
        else:
            shown += text.splitlines()
            seen += output.splitlines()
    differs = list(difflib.unified_diff(shown, seen, name, "came", lineterm=""))
    differs += [f"as-shown: a command ended with {status}"] * (status != 0)
    count = sum(len(text.splitlines() if kind else list(compared(text))) for kind, text in commands)
    print("\n".join(differs) if differs else f"{count} commands")
    return 1 if differs else 0


if __name__ == "__main__":
    sys.exit(main())
