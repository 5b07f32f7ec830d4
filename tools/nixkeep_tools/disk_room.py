"""Room on a disk, which is looked for before bytes are written whose number is known."""
import os
from pathlib import Path

from .failures import Stop

# The bytes that are left of a disk, which may be that of a store: docs/OPERATING.md, A full disk.
LEFT = 64 << 20


def demand(size: int, path: str, left: int = LEFT) -> None:
    """Raises Stop where the disk of a path has no room for `size` bytes and `left` more, which a store needs to go on.
    """
    folder = str(Path(path).absolute().parent)
    seen = os.statvfs(folder)
    # (some file systems don't say how large they are)
    if seen.f_blocks and (free := seen.f_bavail * seen.f_frsize) < size + left:
        raise Stop(f"failed: room: {folder} has {free} bytes left, too few: {size + left} are needed")
