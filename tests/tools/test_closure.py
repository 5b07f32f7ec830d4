"""Tests nixkeep-closure with a closure of 31 paths of Nix: pushed, pulled and copied, with breaks in the middle.

Needs nix-store (Debian: the package nix-bin), but no daemon and no network.
"""
import base64
import itertools
import json
import os
import re
import signal
import subprocess
import tempfile
import time
import types
from pathlib import Path

import pytest

from nixkeep_dev.build.program import HERE
from nixkeep_dev.testing import nar
from nixkeep_dev.testing import nix as real
from nixkeep_dev.testing.store import Store
from nixkeep_tools import closure_command, objects
from tests.tools import servers, shim
from tests.tools.servers import ran

pytestmark = pytest.mark.needs(*real.TOOLS)
CLOSURE = f"{HERE}/tools/nixkeep-closure"
COUNT = 31
LARGE = 16_777_216


# ---- Nix


class Nix(real.Nix):
    """Nix with a store of its own in a folder."""

    @property
    def store(self):
        return self.env["NIX_REMOTE"]

    def infos(self):
        """What Nix says of each valid path."""
        return {entry["path"]: entry for entry in json.loads(self("nix", "path-info", "--all", "--json"))}

    def add(self, path, contents, deriver, refs):
        """Registers an output, which nobody builds here."""
        place = Path(self.place(path))
        place.parent.mkdir(parents=True, exist_ok=True)
        place.write_bytes(contents)
        self.register([(path, self.archive(path), deriver, refs)])


def expression(folder):
    """10 folders, 10 texts, each with one of the folders and the text before it, and 5 derivations over texts."""
    lines = ["let"]
    for at in range(10):
        Path(folder, f"f{at}").mkdir()
        Path(folder, f"f{at}/file").write_bytes(os.urandom(1000 * at * at))
        before = f"${{t{at - 1}}}" if at else ""
        lines.append(f's{at} = "${{builtins.path {{ path = {folder}/f{at}; name = "source{at}"; }}}}";')
        lines.append(f't{at} = builtins.toFile "text{at}" "see ${{s{at}}} {before}";')
    lines += [f'd{at} = derivation {{ name = "made{at}"; system = "none"; builder = "/none"; input = t{2 * at}; }};'
              for at in range(5)]
    names = " ".join(f"{kind}{at}" for kind in "st" for at in range(10))
    pairs = " ".join(f"[ d{at}.drvPath d{at}.outPath ]" for at in range(5))
    return "\n".join([*lines, f"in [ [ {names} ] [ {pairs} ] ]"])


# ---- nixkeep, and what is run


class Kept(Store):
    """nixkeep on a file, and nixkeep-closure between it and stores of Nix."""

    def options(self, nix, user="root"):
        own = ["--db", self.path, "--program", self.file, "--as", user]
        return [*own, "--nix-store", nix.store] if nix else own


def closure(nix, *words):
    """The status of nixkeep-closure, and what it wrote."""
    env = nix.env if nix else os.environ
    kept = {key: value for key, value in env.items() if key != "NIX_REMOTE" and not key.startswith("NIXKEEP_")}
    status, output, errors = ran([CLOSURE, *words], env=kept)
    return status, output.decode(), errors.decode()


def line_of(what, sent, size, there):
    """The line about what was sent."""
    ending, were = "" if sent == 1 else "s", "was" if there == 1 else "were"
    return f"{what} {sent} object{ending}, {size} bytes; {there} {were} there\n"


def is_the_object(nix, kept, path, info):
    """A store has the object with all that Nix says of it."""
    record, base_of = objects.read_record(kept("info", path).decode()), lambda text: Path(text).name
    digest = nar.base32(base64.b64decode(info["narHash"].removeprefix("sha256-")))
    assert (nar.base32(record.nar_hash), record.nar_size, record.ca) == (digest, info["narSize"], info.get("ca"))
    assert record.refs == sorted(map(base_of, info["references"]))
    assert record.deriver == (base_of(info["deriver"]) if "deriver" in info else None)
    assert kept("cat-nar", base_of(path)) == nix.archive(path)


class Made:
    """What every test begins with: a store of Nix, and the one path whose closure is all of it, of 31 paths."""

    def __init__(self, program, folder):
        self.program, self.folder, self.nix, self.count = program, folder, Nix(f"{folder}/nix"), 0
        os.mkdir(f"{folder}/input")
        given, pairs = self.nix.value("--read-write-mode", "-E", expression(f"{folder}/input"))
        for at, (drv, out) in enumerate(pairs):
            self.nix.add(out, f"made {at}\n".encode(), drv, sorted([given[10 + at], out]))
        self.top = f"/nix/store/{'1' * 32}-top"
        self.nix.add(self.top, b"top", "", sorted([*given, *itertools.chain(*pairs)]))
        self.infos = self.nix.infos()
        self.bytes = sum(value["narSize"] for value in self.infos.values())

    def fresh(self):
        """A new file, and a new store of Nix."""
        self.count += 1
        return Kept(self.program, f"{self.folder}/store{self.count}.db"), Nix(f"{self.folder}/nix{self.count}")

    def is_in(self, nix):
        """A store of Nix has it all."""
        infos, keys = nix.infos(), ("narHash", "narSize", "references", "deriver", "ca")
        some = lambda of: {path: [info.get(key) for key in keys] for path, info in of.items()}
        assert some(infos) == some(self.infos)
        assert nix("nix-store", "--verify", "--check-contents") == b""


@pytest.fixture(scope="module")
def made(program):
    with tempfile.TemporaryDirectory() as folder:
        yield Made(program, folder)


@pytest.fixture(scope="module")
def kept(made):
    """A file with the closure."""
    file, _ = made.fresh()
    assert closure(made.nix, *file.options(made.nix), "push", "--root", "top", made.top) == (
        0, "done\n" + line_of("pushed", COUNT, made.bytes, 0), "")
    return file


# ---- whole closures


def test_a_push(made):
    file, _ = made.fresh()
    own = file.options(made.nix)
    assert len(made.infos) == COUNT
    assert closure(made.nix, *own, "--dry-run", "push", made.top)[1].count("\n") == COUNT, "what is to be pushed"
    assert file.lines("list") == [], "nothing is there"
    assert closure(made.nix, *own, "push", made.top) == (0, line_of("pushed", COUNT, made.bytes, 0), "")
    assert file.lines("list") == sorted(made.infos)
    for path, info in made.infos.items():
        is_the_object(made.nix, file, path, info)


def test_a_push_of_what_is_there(made, kept):
    push = lambda *words: closure(made.nix, *kept.options(made.nix), "push", *words)
    assert kept.lines("roots") == [f"gcroots/per-user/root/top {made.top}"]
    line = line_of("pushed", 0, 0, COUNT)
    assert push("--profile", "tops", made.top) == (0, f"generation 1\n{line}", "")
    assert push("--permanent", "ours", made.top)[0] == 0
    os.symlink(made.top, f"{made.folder}/result")
    assert push(f"{made.folder}/result") == (0, line, ""), "a path by a link"
    assert push(Path(made.top).name) == (0, line, ""), "a path by its base name"
    labels = "gcroots/ours", "gcroots/per-user/root/top", "profiles/per-user/root/tops-1-link"
    assert kept.lines("roots") == [f"{label} {made.top}" for label in labels]


def test_a_push_of_texts_and_folders_by_an_allowed_user(made):
    text = next(path for path in made.infos if path.endswith("-text3"))
    reach = made.nix.lines("nix-store", "--query", "--requisites", text)
    file, _ = made.fresh()
    size = sum(made.infos[path]["narSize"] for path in reach)
    assert closure(made.nix, *file.options(made.nix, "ann"), "push", text) == (
        0, line_of("pushed", len(reach), size, 0), "")
    assert file.lines("list", user="ann") == sorted(reach)
    # (a store into which objects came by --import has no content address of them)
    other = Nix(f"{made.folder}/imported")
    other("nix-store", "--import", given=made.nix("nix-store", "--export", *reach))
    file, _ = made.fresh()
    assert closure(other, *file.options(other, "ann"), "push", text)[0] == 0, "where Nix has no content addresses"
    addresses = [line for path in reach for line in file.lines("info", path) if line.startswith("CA: ")]
    assert addresses == [f"CA: {made.infos[path]['ca']}" for path in reach], "which nixkeep has"


def test_a_pull(made, kept):
    _, nix = made.fresh()
    own, link = kept.options(nix, "ann"), f"{made.folder}/pulled"
    assert closure(nix, *own, "pull", "--root", link, made.top) == (
        0, f"{link}\n{line_of('pulled', COUNT, made.bytes, 0)}", "")
    assert os.readlink(link) == made.top
    made.is_in(nix)
    nix("nix-store", "--gc")
    assert len(nix.infos()) == COUNT, "what Nix keeps by the link"
    assert closure(nix, *own, "pull", made.top) == (0, line_of("pulled", 0, 0, COUNT), "")
    assert closure(nix, *own, "pull", "--profile", f"{made.folder}/profile", made.top)[0] == 0
    assert os.readlink(f"{made.folder}/profile-1-link") == made.top
    assert [line for line in kept.lines("roots") if "temp" in line] == [], "no session is left"


def test_a_copy(made, kept):
    file, _ = made.fresh()
    own = kept.options(None)
    assert closure(None, *own, "copy", "--to", file.path, "--root", "mine", made.top) == (
        0, "done\n" + line_of("copied", COUNT, made.bytes, 0), "")
    for path, info in made.infos.items():
        is_the_object(made.nix, file, path, info)
    assert file.lines("roots") == [f"gcroots/per-user/root/mine {made.top}"]
    assert [line for line in kept.lines("roots") if "temp" in line] == []
    file, _ = made.fresh()
    with servers.server(made.program, "--db", file.path) as port:
        came = closure(None, *own, "copy", "--to", f"http://127.0.0.1:{port}", made.top)
    assert came == (0, line_of("copied", COUNT, made.bytes, 0), ""), "a copy to a server"
    assert file.lines("list") == sorted(made.infos)


def test_credentials_are_for_one_server(folder, monkeypatch):
    """Of two servers of a copy, the second one doesn't get the password for the first one, but its own."""
    Path(netrc := f"{folder}/.netrc").write_text("machine blue.example login bob password b\n")
    os.chmod(netrc, 0o600)
    monkeypatch.setenv("HOME", folder)
    monkeypatch.setenv("NIXKEEP_CREDENTIALS", "ann:secret")
    monkeypatch.delenv("NIXKEEP_CREDENTIALS_FILE", raising=False)

    def users(to, *more):
        words = closure_command.parser().parse_args([*more, "copy", "--to", to, "0" * 32 + "-x"])
        stores, names = closure_command.Stores(words, "/nix/store", 1), []
        for store in ([] if words.db else [stores.first()]) + [stores.second()]:
            names.append(store.server.credentials and store.server.credentials.user)
        return names

    red = "--server", "https://red.example"
    assert users("https://blue.example", *red) == ["ann", "bob"]
    assert users("https://green.example", *red) == ["ann", None]
    assert users("https://red.example:444", *red) == ["ann", None]
    assert users("https://red.example:443/x", *red) == ["ann", "ann"], "the same one"
    assert users("https://blue.example", "--db", "store.db") == ["ann"], "the only one"


# ---- what is refused


def test_what_only_a_trusted_user_may_import(made):
    file, _ = made.fresh()
    status, output, errors = closure(made.nix, *file.options(made.nix, "ann"), "push", made.top)
    denied = sorted(path for path, info in made.infos.items() if "ca" not in info)
    assert (status, output, sorted(errors.splitlines())) == (
        4, "", [f"denied: trusted-import {path}" for path in denied])
    assert file.lines("list") == [], "nothing was sent"


def test_archives_above_16_mib(made):
    file, nix = made.fresh()
    fits, large, larger, top = (f"/nix/store/{digit * 32}-{name}" for digit, name in
                                (("2", "fits"), ("2", "large"), ("4", "larger"), ("3", "both")))
    sizes = {fits: LARGE, large: LARGE + 8, larger: 20_000_112}
    for path, size in sizes.items():
        nix.add(path, bytes(size - 112), "", [])
    nix.add(top, b"x", "", [*sizes])
    status, output, errors = closure(nix, *file.options(nix), "push", top)
    wanted = [f"refused: 8 too-large {path} {sizes[path]} bytes" for path in (large, larger)]
    assert (status, output, sorted(errors.splitlines())) == (3, "", wanted)
    assert file.lines("list") == [], "nothing was sent of them"
    assert closure(nix, *file.options(nix), "push", fits) == (0, line_of("pushed", 1, LARGE, 0), "")


def test_a_file_without_room(made, kept, monkeypatch, capfd):
    """What has no room on its disk isn't begun, once what is unused inside the file is taken."""
    file, _ = made.fresh()
    free, real, place = [made.bytes - 1], os.statvfs, str(Path(file.path).parent)
    seen = lambda path: types.SimpleNamespace(f_blocks=1, f_frsize=1, f_bavail=free[0]) if path == place else real(path)
    monkeypatch.setattr(os, "statvfs", seen)
    words = [CLOSURE, *kept.options(None), "copy", "--to", file.path, made.top]

    def copied(*came):
        assert (closure_command.main(words), *capfd.readouterr()) == came

    line = f"failed: room: {place} has {free[0]} bytes left, too few: {made.bytes} are needed\n"
    copied(1, "", line)
    assert file("list") == file("roots") == b""
    free[0] += 1
    copied(0, line_of("copied", COUNT, made.bytes, 0), "")
    free[0] = 0
    copied(0, line_of("copied", 0, 0, COUNT), "")
    file("gc")
    copied(0, line_of("copied", COUNT, made.bytes, 0), "")


@pytest.mark.parametrize("most", [0, 700])
def test_a_disk_that_fills_meanwhile(most, made, kept):
    """It is a line of why, and one of what was done. With room the same command goes on."""
    file, _ = made.fresh()
    words = [*kept.options(None), "--program", servers.unstopped(made.program, made.folder), "copy", "--to", file.path]
    status, output, errors = ran(servers.limited([CLOSURE, *words, made.top], most))
    first, *more = errors.decode().splitlines()
    assert (status, output, len(more)) == (1, b"", int(most > 0))
    sent = int(re.match(r"nixkeep-closure: (\d+) of 31 objects were sent", more[0])[1]) if more else 0
    assert re.match("failed: disk" if more else "failed: program: .*No usable temporary directory", first)
    status, output, errors = closure(None, *words, made.top)
    # (of an object on its way it isn't known whether it came)
    there = int(re.search(r"(\d+) w(?:as|ere) there$", output)[1])
    assert (status, errors) == (0, "") and re.match(f"copied {COUNT - there} objects", output)
    assert there - sent in (0, 1)


def test_stores_that_are_not_those_that_are_meant(made):
    file, nix = made.fresh()
    none = f"/nix/store/{'9' * 32}-none"
    assert closure(nix, *file.options(nix), "push", none) == (
        1, "", f"failed: nix: {none} isn't valid in Nix {nix.store}\n")
    assert file.lines("list") == []
    assert closure(nix, *file.options(nix), "pull", none) == (3, "", f"refused: 23 not-valid {none}\n")
    Path(config := f"{made.folder}/other.toml").write_text('store-dir = "/a/store"\n')
    other, _ = made.fresh()
    assert closure(made.nix, *other.options(made.nix), "--config", config, "push", made.top) == (
        1, "", f"failed: store-dir: {other.path}: it isn't a store of /nix/store\n")
    Path(other.path).write_text("no database\n")
    assert closure(made.nix, *other.options(made.nix), "push", made.top) == (3, "", "refused: 21 bad-schema\n")
    server = f"http://127.0.0.1:{shim.free_port()}"
    status, output, errors = closure(made.nix, "--server", server, "--nix-store", made.nix.store, "push", made.top)
    assert status == 1 and not output and re.fullmatch(rf"failed: unreachable: {server}: .*\n", errors)
    assert closure(made.nix, *file.options(made.nix, "a b"), "push", made.top) == (3, "", "refused: 20 bad-caller\n")


# ---- breaks


class Breaks:
    """A hook that counts the objects at a proxy, and breaks a transfer at one of them, once or until it is mended."""

    def __init__(self, at, target, stays, break_off):
        self.left, self.target, self.stays, self.break_off, self.is_over = at, target, stays, break_off, False

    def __call__(self, method, target):
        if self.is_over:
            return self.stays
        self.left -= target.startswith(self.target)
        self.is_over = self.left == 0
        return self.is_over and self.break_off()

    def mend(self):
        self.is_over, self.stays = True, False


class Remote:
    """nixkeep-remote, as root."""

    def __init__(self, port):
        self.words = [f"{HERE}/tools/nixkeep-remote", "--server", f"http://127.0.0.1:{port}", "--as", "root"]

    def __call__(self, *words):
        return ran([*self.words, *words])

    def lines(self, *words):
        return self(*words)[1].decode().splitlines()


def is_broken(how, running, errors, remote):
    """How a broken transfer ended; a connection that was cut once is made anew."""
    if how == "cut":
        assert (running.returncode, errors) == (0, "")
        return
    if how == "killed":
        assert running.returncode == -signal.SIGKILL
    else:
        lines = r"failed: unreachable: .*\nnixkeep-closure: [0-9]+ of 31 objects were sent, "
        lines += r".*; session [0-9]+ of root at http.* keeps what is there\n"
        assert running.returncode == 1 and re.fullmatch(lines, errors), errors
    assert remote("gc") == (0, b"freed 0 paths 0 bytes\n", b""), "a collection takes nothing"


def broken(made, nix, what, at, how, file):
    """Breaks a push or a pull at an object, collects, and gives the command again."""
    target, running = {"push": "/import", "pull": "/nar/"}[what], []
    kill = lambda: running[0].send_signal(signal.SIGKILL) or True
    hook = Breaks(at, target, how == "gone", kill if how == "killed" else lambda: True)
    with servers.server(made.program, "--db", file.path) as port, \
            servers.proxy(port, hook=hook, everybody="root") as proxied:
        own = ["--server", servers.url(proxied), "--me", "root", "--nix-store", nix.store, what, made.top]
        remote = Remote(port)
        running.append(subprocess.Popen([CLOSURE, *own], env=nix.env, stdout=subprocess.PIPE, stderr=subprocess.PIPE))
        errors = running[0].communicate(timeout=600)[1].decode()
        is_broken(how, running[0], errors, remote)
        hook.mend()
        if how != "cut":
            there = len(remote.lines("list"))
            status, output, errors = closure(nix, *own)
            ends = rf"; {there} (was|were) there\n" if what == "push" else "\n"
            assert status == 0 and output.startswith(what) and re.search(ends, output), (output, errors)
        assert [line for line in remote.lines("roots") if "temp" in line] == [], "no session is left"
        assert remote.lines("list") == sorted(made.infos), "all is there"


@pytest.mark.parametrize("at, how", [(1, "killed"), (2, "gone"), (17, "killed"), (18, "cut"), (19, "gone"),
                                     (COUNT, "killed")])
def test_a_push_that_breaks(at, how, made):
    broken(made, made.nix, "push", at, how, made.fresh()[0])


@pytest.mark.parametrize("at, how", [(1, "killed"), (16, "gone"), (17, "cut"), (COUNT, "killed")])
def test_a_pull_that_breaks(at, how, made, kept):
    _, nix = made.fresh()
    broken(made, nix, "pull", at, how, kept)
    made.is_in(nix)


def test_a_push_while_somebody_collects(made):
    """Before every third of its requests."""
    file, freed, count = made.fresh()[0], [], itertools.count()
    with servers.server(made.program, "--db", file.path) as port:
        remote = Remote(port)

        def collect(*_):
            if next(count) % 3 == 0:
                freed.append(remote("gc")[1].count(b"/nix/store/"))

        with servers.proxy(port, hook=collect, everybody="root") as proxied:
            own = ["--server", servers.url(proxied), "--me", "root", "--nix-store", made.nix.store]
            status, output, errors = closure(made.nix, *own, "push", "--root", "top", made.top)
    assert status == 0 and output.startswith(f"done\npushed {COUNT} objects"), errors
    assert sum(freed) > 0, "which took something"
    assert file.lines("list") == sorted(made.infos), "all is there in the end"


# ---- words


@pytest.mark.parametrize("words", [
    "", "push", "push --root r", "push --root r a b", "push --root r --profile p a", "nope a", "copy a",
    "--server http://a push a", "--session 0 push a", "--session 4194305 push a", "pull --permanent x a",
    "--serv x push a",
])
def test_usage_errors(words, program, folder):
    status, output, errors = closure(None, "--db", f"{folder}/store.db", "--program", program, *words.split())
    assert status == 2 and not output and errors.startswith("usage: ")


def test_words_that_are_refused(made, kept):
    own = ["--db", kept.path, "--program", made.program]
    assert closure(None, *own, "pull", "no-path") == (3, "", "refused: 14 bad-store-path no-path\n")
    status, output, errors = closure(None, *own, "pull", *(f"{top}/store/{'0' * 32}-a" for top in ("/nix", "/a")))
    assert (status, output) == (3, "") and errors.startswith("refused: 14 ")
    assert closure(None, "push", "a")[0] == 3, "no store"
    for kind in ("root", "permanent", "profile"):
        refused = closure(None, *own, "push", f"--{kind}", "a/b", made.top)
        assert refused == (3, "", "refused: 34 bad-root-name\n"), f"a bad name of a {kind}"
    assert closure(None, "push", made.top)[2].startswith("failed: server: none is named")
    status, _, errors = closure(None, "--help")
    assert (status, errors) == (0, "")


def test_progress_on_a_terminal(made):
    """Of a push through a proxy that takes its time."""
    file, _ = made.fresh()
    with servers.server(made.program, "--db", file.path) as port, \
            servers.proxy(port, hook=lambda *_: time.sleep(0.1), everybody="root") as proxied:
        words = ["--server", servers.url(proxied), "--me", "root", "--nix-store", made.nix.store, "push", made.top]
        status, _, shown = servers.on_terminal([CLOSURE, *words], env=made.nix.env)
    assert status == 0
    assert re.search(rb"push [0-9]+ of 31 objects, [0-9.]+ \w+ of [0-9.]+ KiB [0-9]+:[0-9]+ left", shown), shown
    assert shown.endswith(b"\r\x1b[K"), "it is removed"
