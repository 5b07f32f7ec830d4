"""A store put back from a copy: its units are stopped, the timer of copies first, and started again at the end."""
import argparse
import contextlib
import fcntl
# (os.path: of what the caller may not look at, or a link that leads nowhere or to itself, Path says something else)
import os
import re
import stat
import time
from collections.abc import Callable, Iterator
from typing import BinaryIO

from . import backup_file, backup_units, disk_room, explain_file, stopping, store_file
from .count_of import count_of
from .failures import Stop, reason

# What the names of folders begin with that have the files of before. While one is there, nixkeep-cache sweeps nothing.
ASIDE = "aside-"
# A store's own file, and a copy that doesn't have that name yet.
STORE, FRESH = "store.db", "store.new"
# What a server opens and locks. There may be any number of others whose names begin like that.
LOCKED = STORE, f"{STORE}-wal"
# The names that a store may have. systemctl takes others, such as `*`, for many units.
NAME = re.compile(r"[A-Za-z0-9_:.\\-]+")
# The folder in which each store has a folder of its copies, and the bytes that are copied at once.
COPIES, PIECE = "nixkeep-backup", 1 << 20
# How often a name for a folder is tried, which has the second in it.
TRIES = 20


@contextlib.contextmanager
def alone(folder: str) -> Iterator[None]:
    """One restore of a folder by root at a time, from before its units are stopped: of two, the one that ends first
    would start the server below the other. The account of the store can't open what is locked, and so stop no restore.
    """
    if os.geteuid():
        yield
        return
    seen = os.stat(folder)
    lock = f"/run/nixkeep-restore-{seen.st_dev}-{seen.st_ino}.lock"
    number = os.open(lock, os.O_RDWR | os.O_CREAT, 0o600)
    try:
        fcntl.flock(number, fcntl.LOCK_EX | fcntl.LOCK_NB)
        yield
    except BlockingIOError:
        raise another(folder) from None
    finally:
        os.close(number)


def another(folder):
    return Stop(f"failed: restore: {folder}: another restore is running")


@contextlib.contextmanager
def opened(folder: str, within: int | None = None) -> Iterator[int]:
    """The number of an open folder: whatever gets its name meanwhile, what is done by the number is done there."""
    number = os.open(folder, os.O_RDONLY | os.O_DIRECTORY | os.O_NOFOLLOW, dir_fd=within)
    try:
        yield number
    finally:
        os.close(number)


def fill(folder: int, source: BinaryIO, owner: os.stat_result) -> None:
    """Makes the file FRESH of what `source` has, in an open folder, for this account."""
    left = os.fstat(source.fileno()).st_size
    with open(FRESH, "xb", opener=lambda name, flags: backup_file.fresh(name, flags, folder)) as target:
        # (whoever may write the copy could have it grow without an end)
        while left and (piece := source.read(min(left, PIECE))):
            target.write(piece)
            left -= len(piece)
        target.flush()
        os.fchown(target.fileno(), owner.st_uid, owner.st_gid)
        os.fsync(target.fileno())


def files_of(folder):
    return sorted(name for name in os.listdir(folder) if name == STORE or name.startswith(f"{STORE}-"))


def is_folder(name, folder):
    return stat.S_ISDIR(os.lstat(name, dir_fd=folder).st_mode)


@contextlib.contextmanager
def held(names, folder):
    """Keeps every process from opening the store among these files in an open folder, as a server does. Raises Stop if
    one has it open: a server that is none of the units', or what reads the store."""
    with contextlib.ExitStack() as all_open:
        for name in names:
            if name not in LOCKED or (number := for_locking(name, folder)) is None:
                continue
            all_open.callback(os.close, number)
            if not store_file.lock(number):
                path = f"{os.readlink(f'/proc/self/fd/{folder}')}/{name}"
                why = explain_file.of_locks(f"/proc/self/fd/{number}", path)
                raise Stop(f"failed: restore: {why[0].text if why else f'{path} was locked'}")
        yield


def for_locking(name: str, folder: int) -> int | None:
    """The number of an open file that a server may have locked, or None for what is no file. In a folder of another
    account root follows no link, and opens no device."""
    is_foreign = not os.geteuid() and os.fstat(folder).st_uid
    try:
        seen = os.open(name, os.O_PATH | (os.O_NOFOLLOW if is_foreign else 0), dir_fd=folder)
    except OSError:
        return None
    try:
        return os.open(f"/proc/self/fd/{seen}", os.O_RDWR) if stat.S_ISREG(os.fstat(seen).st_mode) else None
    finally:
        os.close(seen)


def link(names, folder, aside):
    """Gives files of a store further names in another folder; both are open. If that fails they have none: nixkeep
    refuses a file with two."""
    try:
        for name in names:
            if not is_folder(name, folder):
                os.link(name, name, src_dir_fd=folder, dst_dir_fd=aside, follow_symlinks=False)
        os.fsync(aside)
        os.fsync(folder)
    except OSError:
        for name in os.listdir(aside):
            os.unlink(name, dir_fd=aside)
        raise


def move_aside(names: list[str], folder: int, aside: int) -> None:
    """Moves files of a store into another folder, but for the name of `store.db`, which the copy takes over: if the
    machine stops before that, no server begins a new store there, and none opens the file, which has two names."""
    link(names, folder, aside)
    for name in names:
        if is_folder(name, folder):
            os.rename(name, name, src_dir_fd=folder, dst_dir_fd=aside)
        elif name != STORE:
            os.unlink(name, dir_fd=folder)


@contextlib.contextmanager
def made_aside(folder):
    """The name and the number of a new folder in an open one. It is gone if putting the copy there fails before files
    of the store are in it."""
    for _ in range(TRIES):
        name = f"{ASIDE}{time.strftime('%Y-%m-%dT%H-%M-%SZ', time.gmtime())}"
        if not os.path.lexists(f"/proc/self/fd/{folder}/{name}"):
            break
        time.sleep(0.1)
    os.mkdir(name, 0o700, dir_fd=folder)
    try:
        with opened(name, folder) as number:
            try:
                yield name, number
            except (OSError, MemoryError, Stop, KeyboardInterrupt):
                with contextlib.suppress(OSError):
                    os.unlink(FRESH, dir_fd=number)
                raise
    except (OSError, MemoryError, Stop, KeyboardInterrupt):
        with contextlib.suppress(OSError):
            os.rmdir(name, dir_fd=folder)
        raise


def open_copy(copy):
    """A copy that is open, and that no server has open. Whatever gets its name meanwhile, this file is read."""
    try:
        source = store_file.opened(copy)
    except OSError as error:
        raise Stop(f"failed: copy: {copy}: {reason(error)}") from None
    if (pid := store_file.locker(source)) is None:
        return source
    source.close()
    raise Stop(f"failed: copy: {store_file.Locked(copy, pid)}")


def put(copy: str, folder: str, test: Callable[[str], object] = lambda _: None,
        stopped: Callable = contextlib.nullcontext) -> str:
    """Puts a copy in the place of a store, whose files are moved into a new folder. Returns that folder's name.

    The copy is first copied into that folder, which nobody else may write, and `test(path)` tests that file. So what is
    put in place is what was tested, even if others may write the copy. The store's units are stopped by `stopped()`
    only while the files are exchanged.
    """
    try:
        with open_copy(copy) as source, opened(folder) as here, made_aside(here) as (name, aside):
            disk_room.demand(os.fstat(source.fileno()).st_size, f"{folder}/{FRESH}")
            fill(aside, source, os.fstat(here))
            test(f"{folder}/{name}/{FRESH}")
            with stopped():
                fcntl.flock(here, fcntl.LOCK_EX | fcntl.LOCK_NB)
                with held(names := files_of(here), here):
                    swap(names, here, aside)
            return f"{folder}/{name}"
    except BlockingIOError:
        raise another(folder) from None
    except OSError as error:
        what = error.filename if isinstance(error.filename, str) else ""
        raise Stop(f"failed: restore: {os.path.join(folder, what)}: {reason(error)}") from None


def swap(names, folder, aside):
    """Puts FRESH, which is in the folder of what was there, into the open folder of a store, which has files of these
    names. Where a step of that fails, they are back."""
    replaced = STORE in names and not is_folder(STORE, folder)
    # (where there was no store, it replaces none: a server may have begun one meanwhile)
    give = os.rename if replaced else os.link
    with stopping.whole():
        try:
            move_aside(names, folder, aside)
            give(FRESH, STORE, src_dir_fd=aside, dst_dir_fd=folder)
        except OSError:
            if replaced:
                put_back(folder, aside)
            raise
        if not replaced:
            os.unlink(FRESH, dir_fd=aside)
        os.fsync(folder)


def put_back(folder, aside):
    """Undoes what `move_aside` has done. What can't be put back stays in the other folder."""
    for name in [entry for entry in os.listdir(aside) if entry != FRESH]:
        with contextlib.suppress(OSError):
            if is_folder(name, aside):
                os.rename(name, name, src_dir_fd=aside, dst_dir_fd=folder)
                continue
            with contextlib.suppress(FileExistsError):
                os.link(name, name, src_dir_fd=aside, dst_dir_fd=folder, follow_symlinks=False)
            os.unlink(name, dir_fd=aside)


# ---- the command


def test(path: str, copy: str, config: str) -> tuple[int, int]:
    """Tests what is put in the place of a store. Returns its number of objects and their bytes. A failure names the
    copy that it is from."""
    try:
        counted = backup_file.rows(path)
        backup_file.explain(path, config)
        return counted
    except Stop as stop:
        raise Stop(stop.line.replace(path, copy), stop.status) from None


def refuse_other(copy, name):
    """Raises Stop for a copy in the folder of another store's copies: whoever may read this store could read it."""
    above, store = os.path.split(os.path.dirname(os.path.realpath(copy)))
    if os.path.basename(above) == COPIES and store != name:
        raise Stop(f"failed: copy: {copy}: it is one of the store {store}: if {name} has to be that one, copy the file "
                   "to another folder first")


def refuse_words(words, folder):
    """Raises Stop for words from which nothing can be put back."""
    if not NAME.fullmatch(words.name):
        raise Stop(f"failed: name: {words.name!r} is no name of a store")
    if not os.path.isdir(folder):
        raise Stop(f"failed: folder: {folder}: there is none; start nixkeep@{words.name} once, which makes it")
    if os.path.exists(words.copy) and not os.path.isfile(words.copy):
        raise Stop(f"failed: copy: {words.copy}: it is no file")
    if os.path.exists(f"{words.copy}-wal"):
        raise Stop(f"failed: copy: {words.copy}-wal: a copy is one file, without a log")
    refuse_other(words.copy, words.name)


def restore(words: argparse.Namespace) -> str:
    """Puts a store back from a copy, which is tested before anything is stopped. Returns the line that is printed."""
    folder = os.path.realpath(words.folder or f"/var/lib/nixkeep/{words.name}")
    config = words.config or f"/etc/nixkeep/{words.name}.toml"
    refuse_words(words, folder)
    counted = []
    stopping.by_signals("restore")
    with alone(folder):
        aside = put(words.copy, folder, lambda path: counted.extend(test(path, words.copy, config)),
                    lambda: backup_units.stopped(words.name))
    count, size = counted
    line = f"restored {count_of(count, 'object')}, {size} bytes from {words.copy}; the files before are in {aside}"
    # (a restore that was killed has left the timer stopped, and without it there would be no copies any more)
    units = [unit.format(words.name) for unit in (backup_units.SERVER, backup_units.TIMER)]
    left = [unit for unit in units if backup_units.state_of(unit) not in backup_units.RUNS]
    return "; ".join([line, *(f"{unit} didn't run, and isn't started" for unit in left)])
