"""What an installation of nixkeep has, and where: bin/install puts it below a prefix, bin/package below usr and etc."""
import gzip
import hashlib
import os
import re
from pathlib import Path

from nixkeep_dev.build import program

HERE = program.HERE

# Where shells look for completion, below a prefix, by how the file's name begins and ends.
COMPLETION = {
    ("", ".bash"): "share/bash-completion/completions",
    ("_", ""): "share/zsh/vendor-completions",
    ("", ".fish"): "share/fish/vendor_completions.d",
}


def version() -> str:
    return Path(f"{HERE}/VERSION").read_text().strip()


def names_in(folder: str) -> list[str]:
    """The names of the plain files in a folder of the repository, in order; none where the folder isn't there."""
    at = f"{HERE}/{folder}"
    return sorted(name for name in os.listdir(at) if Path(f"{at}/{name}").is_file()) if Path(at).is_dir() else []


def content(path: str) -> bytes:
    return Path(path).read_bytes()


def sum_of(path: str, kind: str = "sha256") -> str:
    return hashlib.new(kind, content(path)).hexdigest()


def tools():
    """The places below a prefix of the programs next to nixkeep and of the Python package that they share, as files and
    links. They lie in one folder, where each finds the package, and bin has a link to each."""
    programs = [name for name in names_in("tools") if name.startswith("nixkeep-")]
    modules = [f"nixkeep_tools/{name}" for name in names_in("tools/nixkeep_tools") if name.endswith(".py")]
    files = [(f"lib/nixkeep/{name}", f"{HERE}/tools/{name}", 0o755) for name in programs]
    files += [(f"lib/nixkeep/{module}", f"{HERE}/tools/{module}", 0o644) for module in modules]
    files += [("lib/nixkeep/VERSION", f"{HERE}/VERSION", 0o644)]
    return files, [(f"bin/{name}", f"../lib/nixkeep/{name}") for name in programs]


def completion_of(name):
    """The place of a file of completion below a prefix, or None where it is of no shell that is known."""
    for (start, end), folder in COMPLETION.items():
        if name.startswith(start) and name.endswith(end) and (start or end):
            return f"{folder}/{name.removesuffix('.bash')}"
    return None


def parts(file: str) -> tuple[list, list]:
    """What lies below a prefix: files as triples of place, path and mode, and links as pairs of place and target."""
    files, links = tools()
    files = [(f"bin/{program.NAME}", file, 0o755), *files]
    pages = [name for name in names_in("man") if re.search(r"\.[1-8]$", name)]
    files += [(f"share/man/man{page[-1]}/{page}", f"{HERE}/man/{page}", 0o644) for page in pages]
    shells = [(completion_of(name), f"{HERE}/completion/{name}", 0o644) for name in names_in("completion")]
    return files + [entry for entry in shells if entry[0]], links


def documents() -> list[tuple]:
    """The documents of a package, below its folder of documents."""
    pages = ["README.md", "CHANGELOG.md", "SECURITY.md"]
    names = [*pages, *[f"docs/{name}" for name in names_in("docs")], *examples("examples")]
    return [(name, f"{HERE}/{name}") for name in names if Path(f"{HERE}/{name}").is_file()]


def examples(folder):
    """The files below a folder that git doesn't leave out."""
    paths = []
    for at, folders, names in os.walk(f"{HERE}/{folder}"):
        folders[:] = sorted(name for name in folders if name not in ("out", "__pycache__"))
        paths += [str(Path(f"{at}/{name}").relative_to(HERE)) for name in sorted(names)]
    return paths


def sources() -> str:
    """The sums of all files that the proof of the program has read, as sha256sum writes and checks them."""
    crates = program.with_below(program.NAME, program.listed())
    paths = ["HANDLES", "crates.txt", *[path for crate in crates for path in program.files_of(crate)]]
    return "".join(f"{sum_of(f'{HERE}/{path}')}  {path}\n" for path in paths)


def packed(data: bytes) -> bytes:
    """The bytes that gzip makes of these, the same each time."""
    return gzip.compress(data, mtime=0)
