"""The parts of a team's deployment on this machine's loopback: the server, nixkeep-cache, and Nix over a store
of its own. Also how a script here reports: a line for each check, and `N passed, M failed` at the end, with
`, K skipped` where something was."""
import argparse
import contextlib
import hashlib
import json
import os
import random
import re
import select
import shutil
import signal
import socket
import sqlite3
import string
import subprocess
import sys
import tempfile
import time
from collections.abc import Callable, Iterable
from pathlib import Path
from typing import Any, NoReturn, Self

HERE = str(Path(__file__).resolve().parent)
ROOT = str(Path(HERE).parents[1])
# The programs of this checkout; or, if this folder is the package's among its documents, the installed ones.
IS_CHECKOUT = Path(f"{ROOT}/tools").is_dir()
TOOLS = f"{ROOT}/tools" if IS_CHECKOUT else "/usr/lib/nixkeep"
PROGRAM = f"{ROOT}/bin/nixkeep" if IS_CHECKOUT else "/usr/bin/nixkeep"
sys.path.insert(0, TOOLS)
sys.dont_write_bytecode = True
from nixkeep_tools import store_file

# The Debian package of a tool that has another name.
PACKAGES = {"nginx": "nginx-light", "nix": "nix-bin", "nix-store": "nix-bin", "htpasswd": "apache2-utils",
            "ab": "apache2-utils", "dot": "graphviz", "nft": "nftables", "fail2ban-server": "fail2ban",
            "fail2ban-regex": "fail2ban"}
counts = {"passed": 0, "failed": 0, "skipped": 0}


def check(what: str, is_so: Any, seen: str = "") -> Any:
    """Counts a check, and prints it with what was seen where it failed."""
    counts["passed" if is_so else "failed"] += 1
    print(f"{'ok' if is_so else 'FAILED'}: {what}{'' if is_so else f': {str(seen)[:2000]}'}", flush=True)
    return is_so


def same(what: str, came: Any, wanted: Any) -> bool:
    return check(what, came == wanted, f"{came!r:.900} where {wanted!r:.900} is meant")


def end() -> NoReturn:
    """Ends a script."""
    skips = f", {counts['skipped']} skipped" if counts["skipped"] else ""
    print(f"{counts['passed']} passed, {counts['failed']} failed{skips}")
    sys.exit(1 if counts["failed"] else 0)


def script(doc: str, what: str, run: Callable[[argparse.Namespace], object], *needed: str,
           more: Callable[[argparse.ArgumentParser], object] = lambda parser: None) -> None:
    """Runs a script with its words, and a folder among them, and ends it; all of it is skipped without these tools."""
    parser = argparse.ArgumentParser(description=doc, formatter_class=argparse.RawDescriptionHelpFormatter)
    parser.add_argument("--program", default=PROGRAM, metavar="FILE")
    more(parser)
    words = parser.parse_args()
    words.program = str(Path(words.program).absolute())
    # (a script that is ended ends its parts, too)
    signal.signal(signal.SIGTERM, lambda *_: sys.exit(1))
    if subprocess.run([words.program, "--help"], stdout=subprocess.DEVNULL).returncode:
        sys.exit(f"{words.program} can't be run")
    with tempfile.TemporaryDirectory() as words.folder:
        if not skipped(what, *needed):
            run(words)
    end()


def skip(why: str) -> None:
    """Counts what is skipped, and says why."""
    counts["skipped"] += 1
    print(f"skipped: {why}", flush=True)


def skipped(what: str, *needed: str) -> bool:
    """Whether some of these aren't installed: then this is skipped. A module of Debian's Python is `python3-NAME`."""
    lacking = [tool for tool in needed if not place_of(tool)]
    if lacking:
        skip(f"{what}: install the Debian packages: "
             f"{' '.join(dict.fromkeys(PACKAGES.get(tool, tool) for tool in lacking))}")
    return bool(lacking)


def place_of(tool: str) -> str | bool | None:
    if tool.startswith("python3-"):
        # (to load one may take half a second)
        source = "import importlib.util, sys; sys.exit(not importlib.util.find_spec(sys.argv[1]))"
        return subprocess.run(["/usr/bin/python3", "-c", source, tool[8:]], capture_output=True).returncode == 0
    return shutil.which(tool) or shutil.which(tool, path="/usr/sbin")


# Sockets that have a port and don't listen: nobody else gets it, and the program that it is for may listen there.
RESERVED = []


def free_port() -> int:
    """A port that is nobody else's until this process ends."""
    RESERVED.append(socket.socket())
    RESERVED[-1].setsockopt(socket.SOL_SOCKET, socket.SO_REUSEADDR, 1)
    RESERVED[-1].bind(("127.0.0.1", 0))
    return RESERVED[-1].getsockname()[1]


def until(what: str, is_so: Callable, seconds: float = 300) -> None:
    """Waits until something is so."""
    ends = time.monotonic() + seconds
    while not is_so():
        if time.monotonic() > ends:
            sys.exit(f"waited in vain for {seconds} seconds: {what}")
        time.sleep(0.05)


def is_open(place: int | str) -> bool:
    """Whether somebody listens on a port or a Unix socket."""
    kind, address = (socket.AF_UNIX, place) if isinstance(place, str) else (socket.AF_INET, ("127.0.0.1", place))
    with socket.socket(kind) as connected:
        return connected.connect_ex(address) == 0


class Part:
    """A program that runs until the `with` statement ends; it is ready once somebody listens at its place."""

    def __init__(self, name: str, words: list, place: int | str, log: str):
        self.name, self.words, self.place, self.log, self.running = (
            name, [str(word) for word in words], place, log, None)

    def start(self) -> Self:
        with open(self.log, "ab") as log:
            self.running = subprocess.Popen(self.words, stdin=subprocess.DEVNULL, stdout=log, stderr=log)
        until(f"{self.name} listens", lambda: is_open(self.place) or self.running.poll() is not None)
        if self.running.poll() is not None:
            sys.exit(f"{self.name} ended with {self.running.returncode}: {Path(self.log).read_text()[-2000:]}")
        return self

    def end(self, by: int = signal.SIGTERM) -> None:
        if self.running:
            with contextlib.suppress(ProcessLookupError):
                self.running.send_signal(by)
            self.running.wait()
            self.running = None

    def logged(self) -> list[str]:
        """The lines of its log. (One of which a part is written so far isn't there yet.)"""
        return [line for line in Path(self.log).read_text().splitlines(True) if line.endswith("\n")]

    def lines(self) -> list[str]:
        """The lines of its log, without the records of who changed what."""
        return [line.rstrip("\n") for line in self.logged() if not line.startswith("{")]

    def records(self) -> list[dict]:
        """The records of who changed what in its log."""
        return [json.loads(line) for line in self.logged() if line.startswith("{")]

    __enter__ = start

    def __exit__(self, *_):
        self.end()


def server(program: str, folder: str, config: str, database: str, port: int | None = None) -> Part:
    """The store's server, on a port of its own."""
    port = port or free_port()
    words = [program, "--config", config, "--db", database, "serve", "--port", port, "--connections", "1000000"]
    return Part("nixkeep serve", words, port, f"{folder}/server.log")


def cache(folder: str, port: int, place: int | str | None = None, *more: str) -> Part:
    """nixkeep-cache before the server on that port; a proxy says who asks where nothing else is said."""
    place = place or free_port()
    listen = place if isinstance(place, str) else f"127.0.0.1:{place}"
    words = [f"{TOOLS}/nixkeep-cache", "--store", f"127.0.0.1:{port}", "--listen", listen]
    words += ["--waiting", f"{folder}/waiting", "--patience", "300"]
    return Part("nixkeep-cache", [*words, *(more or ["--proxied"])], place, f"{folder}/cache.log")


def nginx_conf(folder: str, name: str, places: dict[str, str], port: int, how: str = "events {}",
               change: Callable[[str], str] = lambda text: text) -> str:
    """Makes a configuration of nginx in a folder: a file of this folder with its snippets, but for places and the port,
    with `how` for all of nginx. `change` changes the text of each. Returns the file."""
    def placed(name):
        text = Path(f"{HERE}/{name}").read_text()
        for here, there in places.items():
            text = text.replace(here, there)
        return change(re.sub(r"\blisten( +)443", rf"listen\g<1>127.0.0.1:{port}", text))

    for entry in ("nginx", "snippets", "log"):
        os.makedirs(f"{folder}/{entry}", exist_ok=True)
    for entry in ("nixkeep-http.conf", "nixkeep-server.conf"):
        Path(f"{folder}/snippets/{entry}").write_text(placed(entry))
    kinds = "client_body", "proxy", "fastcgi", "uwsgi", "scgi"
    temporary = "".join(f"    {kind}_temp_path {folder}/{kind};\n" for kind in kinds)
    Path(file := f"{folder}/nginx.conf").write_text(
        f"daemon off;\npid nginx.pid;\n{'user root;' if os.geteuid() == 0 else ''}\n{how}\n"
        # (a log for all servers, as Debian's own file has it)
        f"http {{\n    access_log {folder}/log/access.log;\n{temporary}{placed(name)}\n}}\n")
    return file


# Passes an open socket to a program as systemd does: as number 3, with its own process number.
ACTIVATE = """import os, sys
os.dup2(int(sys.argv[1]), 3)
os.execve(sys.argv[2], sys.argv[2:], {**os.environ, "LISTEN_FDS": "1", "LISTEN_PID": str(os.getpid())})"""


class Unit(Part):
    """A store as the package's units run it: nixkeep-cache at a socket that outlives it, with the server as its child.
    It is ready once it says so."""

    def __init__(self, program: str, folder: str, config: str, database: str, place: int | str, *more: str):
        words = [f"{TOOLS}/nixkeep-cache", "--nixkeep", program, "--config", config, "--db", database]
        words += ["--waiting", f"{folder}/waiting", "--patience", "300", *(more or ["--proxied"])]
        super().__init__("nixkeep-cache", words, place, f"{folder}/cache.log")
        self.listener, self.ready, self.children = socket.socket(socket.AF_UNIX), f"{folder}/ready", []
        self.listener.bind(place)
        self.listener.listen(4096)

    def start(self) -> Self:
        with contextlib.suppress(FileNotFoundError):
            os.unlink(self.ready)
        number = self.listener.fileno()
        with socket.socket(socket.AF_UNIX, socket.SOCK_DGRAM) as manager, open(self.log, "ab") as log:
            manager.bind(self.ready)
            manager.settimeout(300)
            words, env = [sys.executable, "-c", ACTIVATE, str(number), *self.words], {"NOTIFY_SOCKET": self.ready}
            self.running = subprocess.Popen(words, pass_fds=[number], stdin=subprocess.DEVNULL, stdout=log, stderr=log,
                                            env={**os.environ, **env})
            said = manager.recv(100)
        if said != b"READY=1":
            sys.exit(f"{self.name} said {said}")
        self.watch()
        return self

    __enter__ = start

    def watch(self):
        with contextlib.suppress(OSError, TypeError):
            self.children.append(os.pidfd_open(self.server()))

    def end(self, by: int = signal.SIGTERM) -> None:
        """Waits for the end of the server, too, which systemd kills: until then another one can't open the file."""
        if self.running:
            self.watch()
        super().end(by)
        while self.children:
            select.select([child := self.children.pop()], [], [], 60)
            os.close(child)

    def server(self) -> int:
        """The process number of the server, which is the only child, or None while it starts."""
        with open(f"/proc/{self.running.pid}/task/{self.running.pid}/children") as file:
            return next((int(word) for word in file.read().split()), None)

    def kill_server(self) -> None:
        """Kills the server as a machine does that is out of memory."""
        until("a server runs", self.is_killed)

    def is_killed(self) -> bool:
        """Kills the server, and returns whether one ran: it may have ended, or not have begun."""
        with contextlib.suppress(ProcessLookupError, FileNotFoundError):
            if (number := self.server()) and "(zombie)" not in Path(f"/proc/{number}/status").read_text():
                os.kill(number, signal.SIGKILL)
                return True
        return False


def some_path(rng: random.Random, name: str) -> str:
    return f"/nix/store/{''.join(rng.choices(string.digits, k=32))}-{name}"


def put_tables(conn: sqlite3.Connection, schema: int) -> None:
    """The tables of a schema, without any object."""
    for table in [name for name in store_file.FORMS if name not in store_file.LACKS[schema]]:
        columns, key = store_file.FORMS[table]
        written = [column[:-2] if column.endswith(" ?") else f"{column} NOT NULL" for column in columns]
        keys = ", ".join(column.split()[0] for column in columns[:key])
        conn.execute(f"CREATE TABLE {table} ({', '.join(written)}, PRIMARY KEY ({keys})) STRICT")
    conn.executemany("INSERT INTO meta VALUES (?, ?)", [("schema", str(schema)), ("store-dir", "/nix/store")])


class Nix:
    """Nix over a store of its own in a folder, with the usual directory in its paths."""

    def __init__(self, folder: str, settings: str = ""):
        self.root = f"{folder}/root"
        os.makedirs(f"{folder}/conf")
        Path(f"{folder}/conf/nix.conf").write_text("build-users-group =\nsubstituters =\nrequire-sigs = false\n"
                                                   f"experimental-features = nix-command\n{settings}")
        places = {"NIX_LOG_DIR": "log", "NIX_CONF_DIR": "conf", "XDG_CACHE_HOME": "cache", "HOME": "home"}
        # (on a machine with loopback alone Nix would wait one second, and try once)
        more = {"NIX_REMOTE": f"local?root={self.root}", "NIX_CONFIG": "connect-timeout = 60\ndownload-attempts = 5\n"}
        self.env = {**os.environ, **{name: f"{folder}/{part}" for name, part in places.items()}, **more}

    def run(self, *words: str, given: bytes = b"") -> subprocess.CompletedProcess:
        return subprocess.run(words, env=self.env, input=given, capture_output=True)

    def __call__(self, *words, given=b""):
        ran = self.run(*words, given=given)
        return ran.stdout.decode() if ran.returncode == 0 else sys.exit(f"{' '.join(words)}: {ran.stderr.decode()}")

    def archive(self, path: str) -> bytes:
        return self.run("nix-store", "--dump", self.root + path).stdout

    def references(self, path: str) -> list[str]:
        return sorted(self("nix-store", "--query", "--references", path).split())

    def texts(self, count: int, word: str = "text") -> list[str]:
        """Texts, each of which refers to the one before; each has a content address."""
        chain = "".join(f'; t{at} = builtins.toFile "{word}{at}" "{at} ${{t{at - 1}}}\\n"' for at in range(1, count))
        names = " ".join(f"t{at}" for at in range(count))
        given = f'let t0 = builtins.toFile "{word}0" "first\\n"{chain}; in [ {names} ]'
        return json.loads(self(*"nix-instantiate --eval --strict --json --read-write-mode -E".split(), given))

    def outputs(self, references: list[str], sizes: Iterable[int], rng: random.Random) -> list[str]:
        """Objects without content addresses, as builds make them: each refers to itself, to the one before and to the
        given paths."""
        made, lines = [], []
        for at, size in enumerate(sizes):
            path = some_path(rng, f"output{at}")
            Path(self.root + path).write_bytes(rng.randbytes(size))
            os.chmod(self.root + path, 0o444)
            archive = self.archive(path)
            refs = sorted({path, *made[-1:], *references})
            lines += [path, hashlib.sha256(archive).hexdigest(), str(len(archive)), "", str(len(refs)), *refs]
            made.append(path)
        self("nix-store", "--load-db", given="".join(f"{line}\n" for line in lines).encode())
        return made

    def closure(self, count: int, seed: int = 1, word: str = "text") -> list[str]:
        """Paths, half of them texts and half of them outputs; the last refers to all others by and by."""
        rng, texts = random.Random(f"closure {seed}"), self.texts(count // 2, word)
        sizes = [rng.choice([0, 1, 100, 70_000]) for _ in range(count - len(texts))]
        return texts + self.outputs(texts[-1:], sizes, rng)


def curl(*words: str, given: bytes | None = None) -> tuple[int, bytes]:
    """The status and the text of a reply; the status is 0 where none came."""
    options = ["-s", "--max-time", "330", "-w", "\n%{http_code}", "-H", "expect:"]
    ran = subprocess.run(["curl", *options, *words], input=given, capture_output=True)
    text, _, status = ran.stdout.rpartition(b"\n")
    return int(status or 0), text


def body(*lines: tuple[str, str], payload: bytes = b"") -> bytes:
    """A body of the store's requests: lines, an empty one, and what follows."""
    return "".join(f"{key}: {value}\n" for key, value in lines).encode() + b"\n" + payload
