"""The files that git tracks here, as texts."""
import re
import shutil
import subprocess
from collections.abc import Iterable, Iterator
from pathlib import Path

from nixkeep_dev.build.program import HERE


def git(*words: str) -> list[str]:
    """The lines that git prints."""
    ran = subprocess.run(["git", "-C", HERE, *words], capture_output=True, text=True, errors="replace")
    return [line for line in ran.stdout.split("\n") if line]


def tracked(*patterns: str) -> list[str]:
    """The paths of tracked files that are there."""
    return [path for path in git("ls-files", "--", *patterns) if Path(f"{HERE}/{path}").exists()]


def text_of(path: str, errors: str = "strict") -> str:
    return Path(f"{HERE}/{path}").read_text("utf-8", errors)


def first_line(path: str) -> str:
    with open(f"{HERE}/{path}", errors="replace") as file:
        return file.readline().rstrip()


def is_script(path: str) -> bool:
    """Whether a file says by what it is run."""
    return first_line(path).startswith("#!")


def of_language(language: str) -> Iterator[str]:
    """The tracked files whose name or first line says that they are in `python` or `shell`."""
    ends, word = {"python": (".py", "python3"), "shell": (".sh", "sh")}[language]
    for path in tracked():
        is_program = "." not in Path(path).name and re.match(rf"#!.*\b(ba)?{word}( -\w+)?$", first_line(path))
        if path.endswith(ends) or is_program:
            yield path


def copy_to(folder: str, but: Iterable[str] = ()) -> None:
    """Copies each file that git tracks, or would, as it is in the checkout; those below some folders are left out."""
    for name in git("ls-files", "-co", "--exclude-standard"):
        if Path(f"{HERE}/{name}").is_file() and not name.startswith(tuple(but)):
            Path(f"{folder}/{name}").parent.mkdir(parents=True, exist_ok=True)
            shutil.copy2(f"{HERE}/{name}", f"{folder}/{name}")
