"""The program of crates/bench, which has work of the libraries for comparisons and benchmarks."""
import argparse
import shutil
import subprocess
from pathlib import Path

from nixkeep_dev.build import program
from nixkeep_dev.testing import report

FOLDER = f"{program.HERE}/crates/bench"
BUILT = f"{FOLDER}/out/bench"


def option(parser: argparse.ArgumentParser) -> None:
    """Adds the option that names another file than the one that is built."""
    parser.add_argument("--libraries", metavar="FILE", help="the program of crates/bench; else it is proved and built")


def build():
    """Proves and builds the program."""
    if not shutil.which("rt"):
        report.fail("the program of crates/bench isn't built: the command rt of the Rattle toolchain isn't on the path")
    how = {"stdin": subprocess.DEVNULL, "stdout": subprocess.PIPE, "stderr": subprocess.STDOUT, "text": True}
    ran = subprocess.run(["rt", "run"], cwd=FOLDER, errors="replace", **how)
    if ran.returncode:
        report.fail(f"the program of crates/bench could not be proved or built:\n{ran.stdout[-2000:]}")


class Libraries:
    """What is named, or built for the present sources, or, if that is enough, what was built before."""

    def __init__(self, file: str | None = None, is_old_enough: bool = False):
        if not file and not (is_old_enough and Path(BUILT).exists()):
            build()
        self.file = str(Path(file or BUILT).absolute())

    def __call__(self, *words, given=b"", path=None):
        """What it prints for this input, or for a file's."""
        if path is None:
            return subprocess.run([self.file, *words], input=given, capture_output=True, check=True).stdout
        with open(path, "rb") as file:
            return subprocess.run([self.file, *words], stdin=file, capture_output=True, check=True).stdout

    def digests(self, path: str, rounds: int) -> list[float]:
        """Seconds of rounds of one SHA-256 of a file's bytes by the crate that the program uses."""
        lines = self("arrivals", "time", "65536", str(rounds), path=path).decode().splitlines()
        return [int(line.split()[0]) / 1e9 for line in lines]
