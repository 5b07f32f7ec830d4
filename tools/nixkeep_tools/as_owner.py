"""What root reads in a folder of another account, which may put anything into it at any time: a pipe, a link to a
device, a file that never ends. So a child process reads there, as that account, and sees this folder alone."""
import contextlib
import hashlib
import json
import os
import resource
import select
import signal
from collections.abc import Callable

# The seconds and the bytes of memory that the child may take, and the bytes of its answer.
SECONDS, MEMORY, ANSWER = 300, 3 << 30, 4_096


def looked(path: str, look: Callable[[str], dict]) -> dict | None:
    """What `look(path)` returns, of which JSON has at most ANSWER bytes. As root, in a folder of another account, it is
    called by a child, with the path as the child sees it; None if the child didn't answer in time.

    Raises OSError where there is no such folder.
    """
    # (abspath: Path.absolute leaves `..` in a path, and Path.resolve takes links out of it)
    folder, name = os.path.split(os.path.abspath(path))
    opened = os.open(folder, os.O_RDONLY | os.O_DIRECTORY)
    try:
        seen = os.fstat(opened)
        if os.geteuid() or not seen.st_uid:
            return look(path)
        return by_child(lambda: confine(opened, seen), lambda: look(f"/{name}"))
    finally:
        os.close(opened)


def confine(opened, seen):
    """Makes this process one of the folder's owner, whose root is the folder."""
    resource.setrlimit(resource.RLIMIT_AS, (MEMORY, MEMORY))
    os.fchdir(opened)
    os.chroot(".")
    os.setgroups([])
    os.setgid(seen.st_gid)
    os.setuid(seen.st_uid)


def by_child(confine: Callable[[], None], look: Callable[[], dict]) -> dict | None:
    """What a child answers, or None."""
    # (OpenSSL reads its configuration at its first use, which shouldn't be in that folder)
    hashlib.sha256()
    answers, answered = os.pipe()
    if not (child := os.fork()):
        status = 1
        try:
            confine()
            os.write(answered, json.dumps(look()).encode()[:ANSWER])
            status = 0
        finally:
            os._exit(status)
    os.close(answered)
    try:
        is_ready = select.select([answers], [], [], SECONDS)[0]
        text = os.read(answers, ANSWER) if is_ready else b""
    finally:
        os.close(answers)
        os.kill(child, signal.SIGKILL)
        os.waitpid(child, 0)
    with contextlib.suppress(ValueError):
        value = json.loads(text)
        return value if isinstance(value, dict) else None
    return None
