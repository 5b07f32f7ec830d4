"""Tests what nixkeep-explain rescues of a damaged file, and what it says of the use of a sound one and of archives.

Of 50 objects one is damaged, and a rescue has the others and their roots; damaged pages lose no sound object. What
roots, owners and generations keep is compared with a model, and with `nixkeep report`; each fault of an archive is
compared with `nixkeep ls`. `--count` is how many random files are tried (40).
"""
import contextlib
import os
import random
import shutil
import sqlite3
import subprocess
import types
from pathlib import Path

import pytest

from nixkeep_dev.model import archives
from nixkeep_dev.model.policy import config_of
from nixkeep_dev.model.texts import Refused
from nixkeep_dev.model.worlds import Profile
from nixkeep_dev.testing import report
from nixkeep_dev.testing.nar import STORE, archive, derivation, hidden, sha256
from nixkeep_dev.testing.tables import ALL, Built, put
from nixkeep_tools import store_file
from tests.tools.explained import EXPLAIN, change_bytes, explained, some_store
from tests.tools import servers
from tests.tools.servers import ran

# ---- rescue


def fifty(rng):
    """A store of 50 objects, and the path of one that others refer to in no way."""
    built, paths = Built(), []
    for at in range(50):
        refs = rng.sample([path for path in paths if not path.endswith("-object20")], min(at, 2) if at != 20 else 0)
        contents = rng.randbytes(rng.choice([20, 300, 70_000]))
        if at % 3:
            paths.append(built.put_source(f"object{at}", archive(contents), refs))
        else:
            paths.append(built.put(hidden(f"object{at}"), archive(contents), [*refs, hidden(f"object{at}")]))
    kept = [path for path in paths if not path.endswith("-object20")]
    world = built.world
    world.permanent["base"], world.user["ann", "mine"], world.user["bob", "lost"] = kept[0], kept[1], paths[20]
    world.profiles["ann", "tools"] = Profile({1: kept[2], 2: kept[3], 4: paths[20], 7: kept[4], 8: kept[4]}, 2)
    world.runtime |= {("/proc/1/exe", kept[5]), ("it's", kept[6])}
    world.temporary |= {("ann", 3, kept[7]), ("bob", 9, kept[8])}
    return built, paths[20]


def damage(path, contents):
    """Changes a byte of these contents where they are in the file, as with a hex editor."""
    with open(path, "rb") as file:
        data = bytearray(file.read())
    data[data.index(contents) + len(contents) // 2] ^= 1
    with open(path, "wb") as file:
        file.write(data)


class Rescue:
    """A store of which one object is damaged, what was rescued of it, and a new store of that."""

    def __init__(self, nixkeep, folder, rng):
        built, self.lost = fifty(rng)
        self.world, self.path, self.out = built.world, f"{folder}/fifty.db", f"{folder}/rescued"
        put(self.path, built.rows(), ALL)
        damage(self.path, self.world.objects[self.lost].archive[100:116])
        self.said = nixkeep.agrees(self.path, "a damaged object")
        self.status, self.new = explained("--rescue", self.out, self.path)[1], f"{folder}/new.db"
        ran = subprocess.run(["sh", f"{self.out}/restore", self.new], env={**os.environ, "NIXKEEP": nixkeep.file},
                             capture_output=True, text=True)
        assert ran.returncode == 0, f"restore: {ran.stdout} {ran.stderr}"
        with store_file.open_store(self.new) as conn:
            self.store = store_file.read(conn)


@pytest.fixture
def rescue(nixkeep, folder, rng):
    return Rescue(nixkeep, folder, rng)


def test_a_rescue_of_the_others(nixkeep, rescue):
    assert f"object ({rescue.lost}): hash isn't the SHA-256" in rescue.said
    assert rescue.status == 3
    wanted = "".join(f"{STORE}/{base}\n" for base in sorted(rescue.world.objects) if base != rescue.lost)
    assert nixkeep(rescue.new, "list")[0] == wanted
    assert explained(rescue.new)[1] == 0, "the new store is sound"
    modes = [os.stat(path).st_mode & 0o777 for path in (rescue.out, f"{rescue.out}/restore", rescue.new)]
    assert modes == [0o700, 0o700, 0o600], "who may read what was rescued"
    for base, item in rescue.store.objects.items():
        was = rescue.world.objects[base]
        assert (item.size, item.digest) == (len(was.archive), sha256(was.archive)), base
        assert (set(item.references), item.deriver, item.address) == (was.references, was.deriver, was.address), base


def test_a_rescue_of_the_roots(rescue):
    # (generations are numbered anew, and neighbours of one path become one)
    number = {1: 1, 2: 2, 7: 3}
    labels = {(target, label) for kind, target, label in rescue.world.roots() if kind != 2 and target != rescue.lost}
    generations = rescue.world.profiles["ann", "tools"].generations
    labels |= {(generations[was], f"profiles/per-user/ann/tools-{now}-link") for was, now in number.items()}
    assert {(root.target, root.label) for root in rescue.store.roots} == labels
    assert rescue.store.current == {("ann", "tools"): 2}


@pytest.mark.parametrize("name", ["full", "empty", "link"])
def test_a_rescue_into_a_folder_that_is_there(folder, path, name):
    place = Path(folder, name)
    if name == "link":
        place.symlink_to(f"{folder}/elsewhere")
    else:
        place.mkdir()
    if name == "full":
        Path(place, "restore").touch()
    _, status, errors = explained("--rescue", str(place), path)
    assert (status, errors) == (1, f"failed: File exists: {place}\n")
    assert not Path(folder, "elsewhere").exists(), "nothing is made through a link"


@pytest.mark.parametrize("most", [1, 8, 80])
def test_a_rescue_on_a_full_disk(most, folder):
    """It is a line with the folder, of which nothing is left: half of a script would set some roots alone."""
    built, path, out = Built(), f"{folder}/many.db", f"{folder}/out"
    base = built.put_source("object", archive(bytes(3000)), [])
    built.world.permanent.update({f"root-number-{at}": base for at in range(300)})
    put(path, built.rows(), ALL)
    status, _, errors = ran(servers.limited([EXPLAIN, "--rescue", out, path], most))
    if most == 80:
        assert (status, errors) == (0, b"") and Path(out, "restore").read_text().count("root-number-") == 300
    else:
        assert (status, errors.decode(), Path(out).exists()) == (1, f"failed: File too large: {out}\n", False)


def test_a_rescue_leaves_room(folder, path, monkeypatch):
    """Objects that have no room aren't begun: 64 MB are left, as of a copy."""
    with store_file.open_store(path) as conn:
        total = sum(item.size for item in store_file.read_objects(conn).values())
    free, real, out = [0], os.statvfs, f"{folder}/out"
    seen = lambda at: types.SimpleNamespace(f_blocks=1, f_frsize=1, f_bavail=free[0]) if at == folder else real(at)
    monkeypatch.setattr(os, "statvfs", seen)
    least = total + (64 << 20)
    for free[0], wanted in ((least - 1, 1), (least, 0)):
        _, status, errors = explained("--rescue", out, path)
        line = f"failed: room: {folder} has {free[0]} bytes left, too few: {least} are needed\n" if wanted else ""
        assert (status, errors, Path(out).exists()) == (wanted, line, not wanted)


def test_what_a_terminal_obeys(folder):
    """Names in a file of other programs are printed without it."""
    path = f"{folder}/foreign.db"
    with contextlib.closing(sqlite3.connect(path)) as conn:
        for at, name in enumerate(("\x1b]0;title\x07", "\x1b[2J", "two\nlines", "\u202eright", "plain", "\x9b2J")):
            conn.execute(f'CREATE TABLE "{name}" (a)')
            conn.execute(f'CREATE INDEX "index{at}{name}" ON "{name}" (a)')
    output, _, errors = explained(path)
    with contextlib.closing(sqlite3.connect(path)) as conn:
        conn.execute('CREATE TABLE object ("\x1b[31m" TEXT)')
    output = "".join([output, errors, *explained(path, "--usage")[::2]])
    assert [char for char in output if not char.isprintable() and char != "\n"] == []
    assert all(text in output for text in ("are \\x1b", "two\\nlines")), "it is printed as an escape"


# What a file may have in the place of a name, a path or a label, for whoever runs what was rescued of it.
HOSTILE = ["'$(touch${IFS}ran)`touch${IFS}ran`", "'; touch ran; '", "x\nEND\ntouch ran\n", "../../ran", "-e",
           "\x1b[2J\\", "a\"\ntouch ran #"]
TEXTS = [(table, column.split()[0]) for table, (columns, _) in store_file.FORMS.items()
         for column in columns if "TEXT" in column]
# It answers as a server does, or says nothing.
STAND_IN = """#!/bin/sh
for last; do :; done
[ "$last" != serve ] || grep -a -o 'POST /import HTTP' | sed 's#.*#HTTP/1.1 200 OK#'
"""


@pytest.mark.parametrize("at", range(len(HOSTILE)))
def test_what_a_shell_obeys(at, folder, rng):
    """Nothing that a file has is run by the script that was rescued of it, or is a path outside of the folder."""
    sound, text, stand_in, came = f"{folder}/sound.db", HOSTILE[at], Path(folder, "nixkeep"), set()
    put(sound, fifty(rng)[0].rows(), ALL)
    stand_in.write_text(STAND_IN)
    stand_in.chmod(0o755)
    for table, column in TEXTS:
        path, out = shutil.copy(sound, f"{folder}/hostile.db"), f"{folder}/rescued"
        with contextlib.closing(sqlite3.connect(path)) as conn, conn:
            conn.execute(f"UPDATE {table} SET {column} = ? WHERE rowid = (SELECT max(rowid) FROM {table})", (text,))
        _, status, errors = explained("--rescue", out, path)
        assert (status, errors) in ((0, ""), (3, "")), (table, column)
        # (what isn't in the script isn't run by it)
        if any(word in Path(out, "restore").read_text() for word in ("touch", "../")):
            came.add(table)
            ran = subprocess.run(["sh", f"{out}/restore", f"{folder}/new.db"], cwd=folder, capture_output=True,
                                 env={**os.environ, "NIXKEEP": str(stand_in)})
            assert (ran.returncode, ran.stderr) == (0, b""), (table, column)
        names = {file.name for at in (folder, f"{folder}/..", out, f"{out}/objects") for file in Path(at).iterdir()}
        assert "ran" not in names and sorted(os.listdir(out)) == ["objects", "restore", "store.toml"]
        shutil.rmtree(out)
    # (the label of a runtime root may be any word)
    assert came == ({"runtime"} if "IFS" in text or "/" in text else set())


def restored(folder, program):
    """The status of a script that was rescued, what it says of a failure, and whether it ran what it was to run."""
    stand_in = Path(folder, "nixkeep")
    stand_in.write_text(program)
    stand_in.chmod(0o755)
    done = subprocess.run(["sh", f"{folder}/out/restore", f"{folder}/new.db"], cwd=folder, capture_output=True,
                          text=True, env={**os.environ, "NIXKEEP": str(stand_in)})
    return done.returncode, done.stderr, Path(folder, "ran").exists()


def test_the_name_of_a_file_and_a_program_that_fails(folder, path):
    """The name is in a comment, and ends none. A script that doesn't import all sets no roots, and says so."""
    name = f"{folder}/\ntouch ran\n$(touch ran)`touch ran`'.db"
    os.rename(path, name)
    with store_file.open_store(name) as conn:
        count = len(store_file.read_objects(conn))
    assert explained("--rescue", f"{folder}/out", name)[1:] == (0, "")
    line = f"restore: 0 of {count} objects imported\n"
    assert restored(folder, "#!/bin/sh\ncat >/dev/null\n") == (1, line, False)


def test_a_rescue_of_no_object(folder):
    """The script imports none."""
    built, path = Built(), f"{folder}/one.db"
    built.put_source("object", archive(b"contents of the one"), [])
    put(path, built.rows(), ALL)
    damage(path, b"contents of the one")
    assert explained("--rescue", f"{folder}/out", path)[1:] == (3, "")
    assert restored(folder, STAND_IN) == (0, "", False)


def test_rescues_by_chance(rng, folder, many):
    """Whatever is damaged, what is written for an import is an object of the store as it was. Some damage is found, and
    some objects are written: else nothing was tried."""
    written, statuses = 0, set()
    for at in range(many):
        path, out = f"{folder}/pages{at}.db", f"{folder}/pages{at}"
        world = some_store(rng, path, 3)
        change_bytes(rng, path)
        output, status, errors = explained("--rescue", out, path)
        is_told = status in (0, 3) or status == 1 and "failed: " in errors and errors.count("\n") == 1
        if not is_told:
            report.fail(f"a rescue: status {status}, {errors!r}", path)
        statuses.add(status)
        if status == 3 and Path(out, "objects").is_dir():
            for name in os.listdir(f"{out}/objects"):
                with open(f"{out}/objects/{name}", "rb") as file:
                    head, _, body = file.read().partition(b"\n\n")
                was = world.objects[name.split("-", 1)[1]]
                lines = head.decode().split("\n")
                refs = {line.split("/")[-1] for line in lines if line.startswith("reference: ")}
                report.same(name, (body, refs), (was.archive, was.references), path)
                written += 1
        os.remove(path)
        shutil.rmtree(out, ignore_errors=True)
    assert written and 3 in statuses, "some objects are written, and some damage is found"


# ---- usage


def sizes(world, roots, everything):
    """The bytes that these roots reach, and those that no other root reaches, by the model alone."""
    config = config_of(b"")
    reach = lambda some: {base for root in some for base in world.reached(root[1], config)}
    mine, rest = reach(roots), reach([root for root in everything if root not in roots])
    return world.size(mine), world.size(mine - rest)


@pytest.mark.parametrize("at", range(3))
def test_usage(nixkeep, folder, seed, at):
    rng, path = random.Random(f"{seed} {at}"), f"{folder}/usage.db"
    world = some_store(rng, path, 3)
    output, status, _ = explained("--usage", path)
    assert status == 0
    lines = [line.split() for line in output.split("\n")]
    reported = {words[0]: words[2] for words in (line.split() for line in nixkeep(path, "report")[0].split("\n")[1:4])}
    assert {line[1]: line[0] for line in lines if line[1:] in (["live"], ["dead"], ["total"])} == reported
    with store_file.open_store(path) as conn:
        store = store_file.read(conn)
    roots = [(root.kind, root.target, root.label, root.owner) for root in store.roots]
    for root, used in store_file.usage_of_roots(store, store_file.edges(store)):
        mine = [(root.kind, root.target, root.label, root.owner)]
        assert tuple(used) == sizes(world, mine, roots), root.label
    for owner, used in store_file.usage_of_owners(store, store_file.edges(store)):
        mine = [root for root in roots if (root[3] or f"({root[0]})") == owner]
        assert tuple(used) == sizes(world, mine, roots), owner
    for (owner, name), profile in world.profiles.items():
        row = [line for line in lines if line[1:4] == [owner, name, str(profile.current)]]
        assert [line[0] for line in row] == ["current"]


# ---- archives


def some_input(rng, data):
    """An archive with a byte changed, cut off, or more."""
    data = bytearray(data)
    for _ in range(rng.choice([1, 2])):
        data[rng.randrange(len(data))] = rng.choice([0, 1, 40, 41, 255])
    return bytes(data[:rng.randrange(len(data))] if rng.random() < 0.3 else data + bytes(rng.choice([0, 0, 8])))


def test_archives(nixkeep, rng, many):
    whole = [archive(b"mycontent\n"), archive(b"x", True), archive(derivation({"out": hidden("out")}))]
    for data in [*whole, *(some_input(rng, rng.choice(whole)) for _ in range(many))]:
        try:
            wanted = archives.listing(archives.read(data)), ""
        except Refused as refused:
            wanted = "", refused.line()
        assert nixkeep("none.db", "ls", given=data)[:2] == wanted, data.hex()
