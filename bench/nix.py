"""Times everyday actions of nixkeep next to those of Nix on the same objects, in one run.

  actions   add a file, add a text, query, list, roots, why, live, dead, delete, gc, and open after a crash: with 100,
            1,000 and 10,000 objects of 1 KiB with up to 3 references, half of them dead. By a command, and by
            nixkeep-remote and by curl over a server that runs; such a server is open, so no client waits for that.
            Then the exponent by which the time of each grows from one number of objects to the last: 1 is in
            proportion, 2 is quadratic
  tls       a query by nixkeep-remote through nginx that terminates TLS, next to curl with the same certificate
  archives  an archive of 16 MiB out, next to `cat`, sha256sum and `nix-store --dump`

Each is timed from the start of the process to its end. nixkeep-remote is the one that bin/install installs: it runs by
Debian's python3, and its modules are compiled. Nix deletes and reads files where nixkeep has rows. What isn't
installed (Debian: nix-bin, curl, nginx-light, openssl) is skipped, which is printed. With --large, 100,000 objects too,
in three rounds, and with --quick 100 and 1,000 alone. Needs SQLite 3.37 or later.
"""
import collections
import contextlib
import os
import shutil
import sqlite3
import statistics
import subprocess
from pathlib import Path

from nixkeep_dev.bench.figures import MIB, ROUNDS, command, commands, exponent, limit, main, program, skipped
from nixkeep_dev.bench.figures import title, versus
from nixkeep_dev.bench.load import SERVER
from nixkeep_dev.bench.nginx import nginx
from nixkeep_dev.bench.serving import served
from nixkeep_dev.bench.sqlite import base, filled
from nixkeep_dev.build.program import HERE
from nixkeep_dev.testing import report
from nixkeep_dev.testing.http_messages import free_port, lines
from nixkeep_dev.testing.nar import STORE, archive
from nixkeep_dev.testing.nix import Nix
from nixkeep_dev.testing.requests import text
from tests.tools.remote import certificate

# Up to this number of objects a command has to be faster than Nix's; over a server each number of them.
BY_COMMAND = 10_000
# The most seconds of a subcommand by nixkeep-remote over http, and how many times as long as curl one takes over https.
REMOTE, OVER_TLS = 0.022, 1.3
EVAL = "nix-instantiate", "--eval", "--read-write-mode", "-E"


def seconds(words, env=None):
    """Those of rounds of a command."""
    return [command(words, None, env)[0] for _ in range(ROUNDS)]


def rounds_of(objects):
    return ROUNDS if objects <= BY_COMMAND else 3


# ---- actions, in the round `at`, by files of the same contents for nixkeep, for curl and for Nix

# The words of nixkeep and the file that they read, the request with the file of its body, and the words of Nix.
Action = collections.namedtuple("Action", "ours given method target body theirs")


def each_action(objects, at):
    """Each action by its name."""
    path, live = f"{STORE}/{base(at)}", f"{STORE}/{base(objects - 1)}"
    written = f'builtins.toFile "text{at}" "{"x" * 1024}{at}"'
    rows = {
        "add a file": (("add-source", f"new{at}"), "nar", "POST", "/source", "source", ("nix-store", "--add", "new")),
        "add a text": (("add-text", f"text{at}"), "text", "POST", "/text", "named", (*EVAL, written)),
        "query": (("info", live), None, "GET", f"/info/{live.rpartition('/')[2]}", None,
                  ("nix-store", "--query", "--references", live)),
        "list": (("list",), None, "GET", "/paths", None, ("nix", "path-info", "--all")),
        "roots": (("roots",), None, "GET", "/roots", None, ("nix-store", "--gc", "--print-roots")),
        "why": (("why", live), None, "GET", f"/roots-of/{live.rpartition('/')[2]}", None,
                ("nix-store", "--query", "--roots", live)),
        "live": (("live",), None, "GET", "/live", None, ("nix-store", "--gc", "--print-live")),
        "dead": (("dead",), None, "GET", "/dead", None, ("nix-store", "--gc", "--print-dead")),
        "delete": (("delete", path), None, "POST", "/delete", "path", ("nix-store", "--delete", path)),
        "gc": (("gc",), None, "POST", "/collect", "nothing", ("nix-store", "--gc")),
    }
    return {name: Action(*row) for name, row in rows.items()}


def put_files(folder):
    """New files of 1 KiB for each round, as they are, as archives and as bodies of requests: returns what names one of
    a kind."""
    for at in range(ROUNDS):
        data, written = b"%1024d" % at, b"x" * 1024 + b"%d" % at
        kinds = {"new": data, "nar": archive(data), "text": written, "source": text(f"new{at}", archive(data)),
                 "named": text(f"text{at}", written), "path": lines(("path", base(at))), "nothing": lines()}
        for name, content in kinds.items():
            Path(f"{folder}/{name}{at}").write_bytes(content)
    return lambda kind, at: kind and f"{folder}/{kind}{at}"


def by(objects, words_of, env=None):
    """The seconds of each action, by its words and their input."""
    times = collections.defaultdict(list)
    for name in each_action(objects, 0):
        # (a collection leaves nothing for another one)
        for at in range(1 if name == "gc" else rounds_of(objects)):
            words, source = words_of(each_action(objects, at)[name], at)
            times[name].append(command(words, source, env)[0])
    return times


def by_command(run, files, path, objects):
    return by(objects, lambda action, at: (run.words(path, *action.ours), files(action.given, at)))


def by_remote(run, files, path, objects):
    with served(run, path, SERVER) as server:
        client = [run.remote, "--server", f"http://127.0.0.1:{server.port}", "--as", "root"]
        return by(objects, lambda action, at: ([*client, *action.ours], files(action.given, at)))


def by_curl(run, files, path, objects):
    client = ["curl", "--silent", "--fail", "--header", "store-user: root"]
    body = lambda action, at: ["--data-binary", f"@{files(action.body, at)}"] if action.body else []
    with served(run, path, SERVER) as server:
        place = f"http://127.0.0.1:{server.port}"
        return by(objects, lambda action, at: ([*client, *body(action, at), f"{place}{action.target}"], None))


def by_nix(nix, files, objects):
    named = lambda words, at: [files(word, at) if word == "new" else word for word in words]
    times = by(objects, lambda action, at: (named(action.theirs, at), None), nix.env)
    left = sum(name != ".links" for name in os.listdir(nix.place(STORE)))
    report.same("what is left of a collection by Nix", left, objects - objects // 2)
    return times


def nix_filled(folder, objects, roots):
    """A store of Nix with the same objects as `filled` makes."""
    nix, made = Nix(folder), []
    nix("nix-store", "--init")
    os.makedirs(nix.place(STORE), exist_ok=True)
    os.makedirs(f"{nix.state}/gcroots", exist_ok=True)
    for at in range(objects):
        data, path = at.to_bytes(8, "little") * 128, f"{STORE}/{base(at)}"
        Path(nix.place(path)).write_bytes(data)
        refs = [f"{STORE}/{base(number)}" for number in range(at + 1, min(at + 4, objects))]
        made.append((path, archive(data), "", refs))
    nix.register(made)
    for at in roots:
        os.symlink(f"{STORE}/{base(at)}", f"{nix.state}/gcroots/root{at}")
    return nix


# ---- open after a crash


def crashed(run, path):
    """A file whose server was killed after some adds: all of them are in its log."""
    with served(run, path) as server:
        for at in range(20):
            server.client.ask("POST", "/text", text(f"crash{at}", b"%1024d" % at))
        server.started.kill()
    return path


def nix_crashed(nix, files):
    """The same for Nix: somebody reads its database meanwhile, so its log stays."""
    path = f"{nix.state}/db/db.sqlite"
    with contextlib.closing(sqlite3.connect(path)) as reader:
        reader.execute("SELECT count(*) FROM ValidPaths").fetchall()
        nix("nix-store", "--add", files("new", 0))
        kept = [shutil.copy(path + end, f"{path}{end}-crashed") for end in ("", "-wal")]
    return [(copy, copy.removesuffix("-crashed")) for copy in kept]


def opened_again(pairs, words, env=None):
    """The time of a command over files that are laid down as they were left, each time."""
    times = []
    for _ in range(ROUNDS):
        for kept, path in pairs:
            shutil.copy(kept, path)
        times.append(command(words, None, env)[0])
    return times


def after_crash(run, files, path, nix, objects):
    """The times of nixkeep and of Nix, by a command that asks for one object."""
    left, again, query = crashed(run, path), f"{path}-again", each_action(objects, 0)["query"]
    ours = opened_again([(left + end, again + end) for end in ("", "-wal")], run.words(again, *query.ours))
    return ours, nix and opened_again(nix_crashed(nix, files), query.theirs, nix.env)


# ---- all of them


def measured(run, folder, objects, words):
    """Seconds of each action, by each way, and by Nix."""
    room, roots = f"{folder}/{objects}", range(objects // 2, objects, 50)
    os.mkdir(room)
    files, path = put_files(room), filled(run, f"{room}/store.db", objects, 1024, 3, roots, is_ring=False)
    nix = nix_filled(f"{room}/nix", objects, roots) if words.is_there else None
    ours, theirs = after_crash(run, files, shutil.copy(path, f"{room}/crash.db"), nix, objects)
    times = {name: way(run, files, shutil.copy(path, f"{room}/{name}.db"), objects)
             for name, (way, _) in WAYS.items() if name != "curl" or words.has_curl}
    times["command"]["open after a crash"] = ours
    if nix:
        times["nix"] = {**by_nix(nix, files, objects), "open after a crash": theirs}
        nix.clear()
    shutil.rmtree(room)
    return times


def show(times, objects, way, what):
    title(f"{objects:,} objects, {what}")
    most = 1 if way != "command" or objects <= BY_COMMAND else None
    for name, ours in times[way].items():
        if "nix" in times:
            versus(name, times["nix"][name], ours, most, "Nix", statistics.median)
        else:
            limit(name, ours, None, of=statistics.median)


def exponents(times, way, what, is_limited=True):
    """Over the last two numbers of objects."""
    few, many = sorted(times)[-2:]
    title(f"the exponent of the growth from {few:,} to {many:,} objects, {what}")
    for name in times[few].get(way, ()):
        exponent(name, times[few][way][name], times[many][way][name], many / few, is_limited)


WAYS = {"command": (by_command, "by a command"), "remote": (by_remote, "by nixkeep-remote over a server"),
        "curl": (by_curl, "by curl over a server")}


def actions(run, words, folder):
    sizes = [100, 1000, *[10_000] * (not words.quick), *[100_000] * words.large]
    words.has_curl, times = not skipped("curl"), {}
    for objects in sizes:
        times[objects] = measured(run, folder, objects, words)
        for way in [name for name in WAYS if name in times[objects]]:
            show(times[objects], objects, way, WAYS[way][1])
    for way, (_, what) in WAYS.items():
        exponents(times, way, what)
    exponents(times, "nix", "by Nix", False)
    title(f"{sizes[0]} objects, the subcommands by nixkeep-remote")
    limit("the slowest of them", max(map(statistics.median, times[sizes[0]]["remote"].values())), REMOTE)
    title("what clients take that ask for nothing")
    python = Path(run.remote).read_text().partition("\n")[0].removeprefix("#!").split()
    limit("python3", seconds([*python, "-c", "pass"]), None, of=statistics.median)
    limit("nixkeep-remote", seconds([run.remote, "--help"]), None, of=statistics.median)
    if words.has_curl:
        limit("curl", seconds(["curl", "--version"]), None, of=statistics.median)


# ---- TLS


def tls(run, words, folder):
    if skipped("nginx", "openssl", "curl"):
        return
    (cert, key), port = certificate(folder), free_port()
    path = filled(run, f"{folder}/tls.db", 100, 1024, 3)
    with served(run, path, SERVER) as store:
        secure = f"server {{ listen 127.0.0.1:{port} ssl; ssl_certificate {cert}; ssl_certificate_key {key}; "
        secure += f"location / {{ proxy_pass http://127.0.0.1:{store.port}; }} }}"
        with nginx(folder, "return 204;", secure):
            at, named = f"https://127.0.0.1:{port}", ["--cacert", cert, "--header", "store-user: root"]
            each = {"remote": [run.remote, "--server", at, "--ca", cert, "--as", "root", "info", base(7)],
                    "curl": ["curl", "--silent", "--fail", *named, f"{at}/info/{base(7)}"]}
            by_tool = {name: times for name, (times, _) in commands(each, 3 * ROUNDS).items()}
    title("a query by nixkeep-remote over https")
    what, of = "next to curl with the same certificate", statistics.median
    versus(what, by_tool["curl"], by_tool["remote"], OVER_TLS, "curl", of)


# ---- archives


def archives(run, words, folder):
    path, large, nar = f"{folder}/large.db", f"{folder}/large", archive(os.urandom(16 * MIB - 112))
    for name, data in ((f"{large}.nar", nar), (large, nar[96:-16])):
        Path(name).write_bytes(data)
    name = run(path, "add-source", "large", given=nar)[1].decode().strip()
    ours = seconds(run.words(path, "cat-nar", name))
    title("`cat-nar` of 16 MiB")
    for tool, most in (("cat", 3), ("sha256sum", None)):
        versus("time", seconds([tool, f"{large}.nar"]), ours, most, tool)
    if words.is_there:
        nix = Nix(f"{folder}/nix")
        place = nix.place(nix.lines("nix-store", "--add", large)[0])
        theirs = seconds(["nix-store", "--dump", place], nix.env)
        versus("next to an archive of the same file", theirs, ours, None, "nix-store --dump")
        nix.clear()


def begin(words):
    words.is_there = not skipped("nix-store")
    run, prefix = program(words), f"{words.folder}/installed"
    subprocess.run([f"{HERE}/bin/install", "--prefix", prefix, "--program", run.file], stdout=subprocess.DEVNULL,
                   stderr=subprocess.DEVNULL, check=True)
    run.remote = f"{prefix}/bin/nixkeep-remote"
    return run


def more(parser):
    parser.add_argument("--large", action="store_true", help="100,000 objects too")


if __name__ == "__main__":
    main(__doc__, [actions, tls, archives], begin, more)
