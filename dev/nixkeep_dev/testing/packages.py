"""The Debian packages that tests use: tests/packages.txt lists them, with what each is found by."""
import functools
import shutil
import subprocess
from collections.abc import Iterable
from pathlib import Path

from nixkeep_dev.build.program import HERE

LIST = f"{HERE}/tests/packages.txt"
# Other commands of these packages.
ALSO = {"nix": "nix-bin", "nix-instantiate": "nix-bin", "nix-hash": "nix-bin", "ab": "apache2-utils"}
# Whether Debian's Python has a module. (To load one may take half a second.)
HAS_MODULE = ["/usr/bin/python3", "-c", "import importlib.util as util, sys; sys.exit(not util.find_spec(sys.argv[1]))"]


@functools.cache
def listed() -> dict[str, str]:
    """What each package is found by."""
    with open(LIST) as file:
        pairs = [line.partition("#")[0].partition(":") for line in file]
    return {name.strip(): tool.strip() for name, colon, tool in pairs if colon}


def package_of(tool: str) -> str:
    """The package that has a command, or the name itself where that isn't known."""
    names = {tool: name for name, tool in listed().items()} | ALSO
    return names.get(tool, tool)


@functools.cache
def place_of(tool: str) -> str | bool | None:
    """Where a command is, if it is there; or whether a file, or a module of Debian's Python (`python3-NAME`), is."""
    if tool.startswith("python3-"):
        return subprocess.run([*HAS_MODULE, tool[8:]], capture_output=True).returncode == 0
    if tool.startswith("/"):
        return Path(tool).exists()
    return shutil.which(tool) or shutil.which(tool, path="/usr/sbin:/sbin")


def missing() -> list[str]:
    """The packages of the list that aren't installed, in its order."""
    return [name for name, tool in listed().items() if not place_of(tool)]


def install_line(names: Iterable[str]) -> str:
    return f"apt-get install {' '.join(names)}"
