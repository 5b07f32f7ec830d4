"""Compares the options of each program in tools/, as its help has them, with its manual page and its completion.

Each option of the help, and of the help of its subcommands, has to be in both. Neither may have another one, but for
those of other programs that a manual page mentions. What nixkeep itself has is compared by tests/cases/reference.txt.
"""
import re
import subprocess
from pathlib import Path

import pytest

from nixkeep_dev.build import layout
from tests.tools.words import options_in, options_of, options_of_program

TOOLS = [name for name in layout.names_in("tools") if name.startswith("nixkeep-")]
# Options of other programs that a help or a manual page mentions.
MENTIONED = {"nixkeep-cache": {"--from", "--generate-binary-cache-key", "--no-check-sigs", "--to"},
             "nixkeep-explain": {"--db"}, "nixkeep-closure": {"--blobs", "--serve", "--store", "--write"}}


def text_of(path):
    return Path(layout.HERE, path).read_text()


@pytest.fixture(scope="module", params=TOOLS)
def tool(request):
    return request.param


@pytest.fixture(scope="module")
def options(tool, program):
    """The options of a tool."""
    known = options_of(tool)
    if known is None:
        pytest.skip(f"{tool}: a module of Python that it needs isn't installed")
    return known - MENTIONED.get(tool, set()) | (options_of_program(program) if tool == "nixkeep-remote" else set())


def test_the_manual_page_has_the_options(tool, options):
    page = re.sub(r"\\f[BIRP]", " ", text_of(f"man/{tool}.1").replace("\\-", "-"))
    assert options_in(page) - MENTIONED.get(tool, set()) | {"--help"} == options | {"--help"}


def test_the_completion_has_the_options(tool, options):
    assert options_in(text_of(f"completion/{tool}.bash")) - MENTIONED.get(tool, set()) == options


def test_bash_reads_the_completion(tool):
    assert subprocess.run(["bash", "-n", f"{layout.HERE}/completion/{tool}.bash"]).returncode == 0
