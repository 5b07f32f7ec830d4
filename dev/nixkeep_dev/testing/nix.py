"""Nix over a throw-away store in a folder, with the usual directory in its paths."""
import functools
import hashlib
import json
import os
import subprocess
from collections.abc import Iterable
from pathlib import Path
from typing import Any

from nixkeep_dev.testing import report

TOOLS = "nix", "nix-store", "nix-instantiate", "nix-hash"
# Characters of names of store paths, any of which may be the first.
NAME = "abcxyzABC019_+?="


def literal(text: str) -> str:
    """A string of the language of Nix."""
    escapes = {'"': '\\"', "\\": "\\\\", "\n": "\\n", "\t": "\\t", "\r": "\\r", "$": "\\$"}
    return '"' + "".join(escapes.get(char, char) for char in text) + '"'


# Where Nix looks for roots it reads the memory map and the environment of each process: here it sees no others.
APART = ["unshare", "--map-root-user", "--pid", "--fork", "--mount-proc"]


@functools.cache
def apart() -> list[str]:
    """What runs a command without the other processes of the machine, where it allows namespaces."""
    try:
        is_allowed = subprocess.run([*APART, "true"], capture_output=True).returncode == 0
    except OSError:
        is_allowed = False
    return APART if is_allowed else []


class Nix:
    def __init__(self, folder: str, features: str = "nix-command"):
        self.root, self.state, self.folder = f"{folder}/root", f"{folder}/root/nix/var/nix", folder
        os.makedirs(f"{folder}/conf", exist_ok=True)
        Path(f"{folder}/conf/nix.conf").write_text(f"build-users-group =\nexperimental-features = {features}\n")
        places = {"NIX_LOG_DIR": "log", "NIX_CONF_DIR": "conf", "XDG_CACHE_HOME": "cache"}
        self.env = {**os.environ, **{name: f"{folder}/{part}" for name, part in places.items()}}
        self.env["NIX_REMOTE"] = f"local?root={self.root}"

    def ran(self, *words: str, given: bytes = b"") -> subprocess.CompletedProcess:
        return subprocess.run(words, env=self.env, input=given, capture_output=True)

    def __call__(self, *words, given=b""):
        """What a command prints; it has to end with 0."""
        ran = self.ran(*words, given=given)
        if ran.returncode:
            report.fail(f"{' '.join(map(str, words))[:200]}: {ran.stderr.decode(errors='replace')[:600]}")
        return ran.stdout

    def lines(self, *words: str) -> list[str]:
        return self(*words).decode().splitlines()

    def value(self, *words: str) -> Any:
        """That of an expression."""
        return json.loads(self("nix-instantiate", "--eval", "--strict", "--json", *words))

    def register(self, objects: Iterable[tuple]) -> None:
        """Makes these valid: paths with their archives, derivers and references."""
        lines = []
        for path, nar, deriver, refs in objects:
            lines += [path, hashlib.sha256(nar).hexdigest(), str(len(nar)), deriver, str(len(refs)), *refs]
        self("nix-store", "--load-db", given="".join(f"{line}\n" for line in lines).encode())

    def place(self, path: str) -> str:
        """Where the file or folder of a path is."""
        return self.root + path

    def objects(self) -> dict[str, tuple]:
        """Each valid path with its archive's hash in hexadecimal, its size, deriver and references."""
        left, objects = iter(self.lines("nix-store", "--dump-db")), {}
        for path in left:
            digest, size, deriver, count = (next(left) for _ in range(4))
            objects[path] = digest, int(size), deriver, [next(left) for _ in range(int(count))]
        return objects

    @functools.cache
    def archive(self, path: str) -> bytes:
        """That of a path, which doesn't change any more."""
        return self("nix-store", "--dump", self.place(path))

    def contents(self, path: str) -> bytes:
        return Path(self.place(path)).read_bytes()

    def clear(self) -> None:
        """Makes what is in the store removable, if there is one yet."""
        if Path(self.root).exists():
            subprocess.run(["chmod", "-R", "u+w", self.root], check=True)
