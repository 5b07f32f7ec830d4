"""Random files and folders, and what the JSON of Nix says of one."""
import os
import random
from collections.abc import Callable
from pathlib import Path


def grow(rng: random.Random, path: str, depth: int, name: Callable, target: Callable, contents: Callable,
         counts: tuple = (0, 6), kind: str | None = None) -> None:
    """Makes a random file, link or folder, or one of this kind, with random names, targets and contents."""
    kind = kind or rng.choice(["file", "file", "link", "folder", "folder"][: None if depth else 3])
    if kind == "folder":
        os.makedirs(path)
        for entry in [f"{path}/{name(at)}" for at in range(rng.randrange(*counts))]:
            # (lexists: a link that leads nowhere is there, too, and Path.exists follows it)
            if not os.path.lexists(entry):
                grow(rng, entry, depth - 1, name, target, contents, counts)
    elif kind == "link":
        os.symlink(target(), path)
    else:
        Path(path).write_bytes(contents())
        os.chmod(path, rng.choice([0o644, 0o755, 0o600, 0o711]))


def tree(path: str) -> dict:
    """A file or a folder on the disk as the JSON of Nix has it."""
    if Path(path).is_symlink():
        return {"type": "symlink", "target": os.readlink(path)}
    if Path(path).is_dir():
        return {"type": "directory", "entries": {name: tree(f"{path}/{name}") for name in os.listdir(path)}}
    seen = os.stat(path)
    return {"type": "regular", "size": seen.st_size, "executable": bool(seen.st_mode & 0o100)}
