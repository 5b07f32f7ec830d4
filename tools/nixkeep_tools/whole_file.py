"""Files that are written whole or not at all, also where the disk fills."""
import contextlib
import os
import shutil


def write(path: str, text: str, mode: int) -> None:
    """Puts a text in the place of a file, whose mode stays. `mode` is that of a new one. Raises OSError."""
    fresh = f"{path}.new"
    with contextlib.suppress(FileNotFoundError):
        os.unlink(fresh)
    try:
        with open(fresh, "x", encoding="utf-8", opener=lambda name, flags: os.open(name, flags, mode)) as out:
            out.write(text)
        with contextlib.suppress(FileNotFoundError):
            shutil.copymode(path, fresh)
        os.rename(fresh, path)
    except OSError:
        with contextlib.suppress(OSError):
            os.unlink(fresh)
        raise
