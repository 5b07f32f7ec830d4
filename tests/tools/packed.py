"""What the tests of the package share: making one, and what it says that it depends on."""
import ast
import re
import subprocess
import sys
from pathlib import Path

from nixkeep_dev.build import program
from nixkeep_dev.build.program import HERE
from nixkeep_dev.testing.tracked import tracked


def ran(words: list[str], text: str = "", cwd: str | None = None) -> tuple[int, str]:
    """The status of a command, run in a folder, and what it printed."""
    how = {"stdout": subprocess.PIPE, "stderr": subprocess.STDOUT, "text": True, "errors": "replace"}
    done = subprocess.run(words, input=text, cwd=cwd, **how)
    return done.returncode, done.stdout


def output_of(*words):
    return subprocess.run(words, stdout=subprocess.PIPE, check=True, text=True).stdout


def pack(to: str, words: list[str]) -> list[str]:
    """The files that bin/package makes in a folder: the package, and the archive."""
    status, said = ran([f"{HERE}/bin/package", "--to", to, *words])
    assert status == 0, f"bin/package failed:\n{said}"
    return said.split()


# ---- what it depends on


def depends(deb: str) -> list[str]:
    return [package.strip() for package in output_of("dpkg-deb", "-f", deb, "Depends").split(",")]


def libc_of(file: str) -> str:
    """The latest version of the C library of which a program names a function."""
    versions = re.findall(r"Name: GLIBC_([0-9.]+)", output_of("readelf", "--version-info", "--wide", file))
    return max(versions, key=lambda version: [int(part) for part in version.split(".")])


def python_packages(deb: str) -> set[str]:
    """The modules of Python whose packages a package names, but for `python3-` before each."""
    fields = [output_of("dpkg-deb", "-f", deb, field) for field in ("Depends", "Recommends", "Suggests")]
    return {*re.findall(r"python3-([\w-]+)", " ".join(fields))}


def imported() -> set[str]:
    """The modules, as packages name them, that are neither the tools' nor Python's and that a tool imports."""
    modules = set()
    for path in tracked("tools/*"):
        text = Path(HERE, path).read_text()
        for node in ast.walk(ast.parse(text)) if "python3" in text.partition("\n")[0] or path.endswith(".py") else []:
            names = [alias.name for alias in node.names] if isinstance(node, ast.Import) else []
            names += [node.module or ""] if isinstance(node, ast.ImportFrom) and not node.level else []
            modules |= {each.partition(".")[0] for each in names}
    # (jinja2 has markupsafe with it, and boto3 botocore)
    modules -= {*sys.stdlib_module_names, "nixkeep_tools", "markupsafe", "botocore", ""}
    return {module.replace("_", "-") for module in modules}


def sums(deb: str, room: str) -> tuple[str, list[str], list[str]]:
    """What `sha256sum` finds wrong with the sums of a package, the files that they are of, and those that a proof
    reads, as git has them."""
    subprocess.run(["dpkg-deb", "-x", deb, f"{room}/proved-files"], check=True)
    file = f"{room}/proved-files/usr/share/doc/nixkeep/sources.sha256"
    wrong = subprocess.run(["sha256sum", "--check", "--quiet", file], cwd=HERE, stdout=subprocess.PIPE, text=True)
    crates = program.with_below(program.NAME, program.listed())
    read = rf"crates/({'|'.join(crates)})/(src|specs|proofs)/.*\.(rt|antt)"
    wanted = ["HANDLES", "crates.txt", *[path for path in tracked("crates") if re.fullmatch(read, path)]]
    return wrong.stdout, [line.split("  ", 1)[1] for line in Path(file).read_text().splitlines()], wanted
