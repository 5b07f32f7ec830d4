"""The program with a library loaded ahead of C's, which is made of a C program."""
import os
import struct
import subprocess
from collections.abc import Callable
from pathlib import Path
from typing import Any

from nixkeep_dev.build import program
from nixkeep_dev.testing import report

HERE = Path(__file__).resolve().parent


class Loaded:
    """Runs of the program in a folder, with the library of a C program, which counts its calls in a file; and `some`,
    which chooses among these calls. The C program's path is below the top of the repository."""

    def __init__(self, file: str, folder: str, source: str, some: Callable | None = None):
        report.needs("cc")
        self.file, self.folder, self.some = file, folder, some
        self.library, self.counts = self.at("ahead.so"), self.at("counts")
        made = ["cc", "-shared", "-fPIC", "-O1", "-Wall", "-Wextra", "-Werror", "-I", HERE, "-o", self.library]
        subprocess.run([*made, f"{program.HERE}/{source}", "-ldl"], check=True)

    def at(self, name: str) -> str:
        return f"{self.folder}/{name}"

    def put(self, name: str, text: str) -> str:
        Path(self.at(name)).write_text(text)
        return self.at(name)

    def env(self, counts: str | None = None, **settings: Any) -> dict[str, str]:
        """The environment of a run that has these settings."""
        counts = counts or self.counts
        Path(counts).write_bytes(bytes(16))
        return {**os.environ, "LD_PRELOAD": self.library, "COUNTS": counts,
                **{name: str(value) for name, value in settings.items()}}

    def run(self, words: list, given: bytes = b"", **settings: Any) -> tuple:
        """Status, output and errors of a run of the program."""
        ran = subprocess.run([self.file, *words], input=given, capture_output=True, env=self.env(**settings))
        return ran.returncode, ran.stdout, ran.stderr

    def counted(self, counts: str | None = None) -> tuple:
        """How many calls were counted, and how many bytes had been taken when the fault came, one too many so that 0 is
        none. Of allocations, how many blocks were given and not freed."""
        return struct.unpack("<QQ", Path(counts or self.counts).read_bytes())
