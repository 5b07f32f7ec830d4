"""Counts what doesn't depend on how fast the machine is.

  memory        what a server holds for each object and each reference once it has opened a file, and for each text
                that is added after, apart from pages
  copies        the bytes that are copied for each byte of an archive of 16 MiB: in, out and by an opening, next to a
                program that uses C SQLite for the same, and by a server; and how many of them `sqlite` copies
  digests       the bytes that are hashed for each byte of archives, and the instructions of SHA-256: by `list`,
                `add-source`, `text-path`, `source-path`, and by the crate itself
  openings      the instructions of `list` for each object, how many of a hundred the opening by `sqlite` alone and
                SHA-256 take, and which functions take most

A library that is loaded ahead of C's counts memory and copies (bench/counts.c); copies of a few bytes, which the
compiler makes itself, aren't counted. valgrind counts instructions. Needs cc, and SQLite 3.37 or later; what isn't
installed (Debian: valgrind) is skipped, which is printed. With --quick, the stores whose instructions are counted have
a tenth of the objects.
"""
import collections
import contextlib
import json
import os
import re
import struct
import subprocess
import sys
import tempfile
from pathlib import Path
from unittest import mock

from nixkeep_dev.bench.figures import MIB, limit, main, note, program, skipped, title, versus
from nixkeep_dev.bench.serving import served
from nixkeep_dev.bench.sqlite import base, filled, foreign, opened
from nixkeep_dev.testing import libraries, report
from nixkeep_dev.testing.nar import archive
from nixkeep_dev.testing.preload import Loaded
from nixkeep_dev.testing.requests import imported, text

COPIES, MEMORY = 1, 2
BLOCK = 64
# The function that takes a block into a digest.
COMPRESS = r"block256.*compress|compress.*block256|sha2.*compress"
# What is read or written by C SQLite in another process, as nixkeep does.
PUT = """import sqlite3, sys
nar = sys.stdin.buffer.read()
conn = sqlite3.connect(sys.argv[1], isolation_level=None)
conn.execute("PRAGMA journal_mode = WAL")
conn.execute("BEGIN")
for at in range(0, len(nar), 65536):
    conn.execute("INSERT INTO piece VALUES ('base', ?1, ?2)", (at // 65536, memoryview(nar)[at:at + 65536]))
conn.execute("COMMIT")
conn.close()"""
TAKE = """import sqlite3, sys
for piece, in sqlite3.connect(sys.argv[1]).execute("SELECT bytes FROM piece ORDER BY num"):
    sys.stdout.buffer.write(piece)"""


# ---- memory


@contextlib.contextmanager
def holding(run, ahead, path):
    """A server, and a function that says how many bytes of pages it holds, and how many of all else."""
    counts = ahead.at("held")
    with mock.patch.dict(os.environ, ahead.env(counts, COUNT=MEMORY)), served(run, path) as server:
        yield server, lambda: struct.unpack("<qq", Path(counts).read_bytes())


def held(run, ahead, path):
    """The bytes of pages that a server holds once it listens, and all else."""
    with holding(run, ahead, path) as (_, now):
        return now()


def taken_by_adds(run, ahead, path, references, count=4000):
    """The bytes, pages left out, that a server takes for each text that is added, with references to objects of its
    file. The first adds, which fill what a server keeps once, aren't counted."""
    with holding(run, ahead, path) as (server, now):
        ends = []
        for number in range(count + count // 4):
            targets = [base(number + near) for near in range(references)]
            server.client.ask("POST", "/text", text(f"text{number}", b"%d" % number, *targets))
            if number + 1 in (count // 4, count + count // 4):
                ends.append(now()[1])
        return (ends[1] - ends[0]) / count


def derived(path):
    """The same file, once each object has another one for its deriver."""
    with opened(path) as conn:
        names = [name for name, in conn.execute("SELECT base FROM object ORDER BY base")]
        conn.execute("BEGIN")
        conn.executemany("UPDATE object SET deriver = ?1 WHERE base = ?2", zip(names, names[1:] + names[:1]))
        conn.execute("COMMIT")
        conn.execute("PRAGMA wal_checkpoint(TRUNCATE)")
    return path


def memory(run, words, folder):
    """An object of 200 bytes has its archive in its row, so that is in pages. The rest is mostly the rows that `sqlite`
    keeps for each statement. It is a bounded number of rows, which 10,000 objects reach."""
    few, many, ends = 10_000, 20_000, {}
    for what in (0, 3, 30, "deriver"):
        paths = [filled(run, f"{folder}/held-{count}-{what}.db", count, 200, 3 if what == "deriver" else what)
                 for count in (few, many)]
        ends[what] = [held(run, words.ahead, derived(path) if what == "deriver" else path) for path in paths]
    pages, each = ({name: (more[at] - less[at]) / (many - few) for name, (less, more) in ends.items()} for at in (0, 1))
    title(f"memory of the index from {few:,} to {many:,} objects that are open, apart from pages")
    limit("for each object without a reference", each[0], 400, "bytes")
    limit("for each object with 3 references", each[3], 400, "bytes")
    limit("for each object with 3 references and a deriver that is an object", each["deriver"], 400, "bytes")
    limit("for each reference, from 3 to 30 of an object", (each[30] - each[3]) / 27, None, "bytes")
    limit(f"the rest, with {few:,} objects without a reference", (ends[0][0][1] - few * each[0]) / MIB, None, "MiB")
    limit("pages, for each object with 3 references", pages[3], None, "bytes")
    title(f"memory of a server over {few:,} objects for texts that are added, apart from pages")
    for references in (0, 3):
        added = taken_by_adds(run, words.ahead, f"{folder}/held-{few}-{references}.db", references)
        limit(f"for each text with {references} references", added, 400, "bytes")


# ---- copies


def copied(words, ahead, given=None):
    """The bytes that a command copies."""
    with open(given or os.devnull, "rb") as source:
        subprocess.run(words, env=ahead.env(COUNT=COPIES), stdin=source, stdout=subprocess.DEVNULL, check=True)
    return ahead.counted()[1]


def shares(words, folder, given=None):
    """The bytes that a command copies, as valgrind counts them: those of `sqlite` and those of all else."""
    file = f"{tempfile.mkdtemp(dir=folder)}/dhat"
    with open(given or os.devnull, "rb") as source:
        subprocess.run(["valgrind", "--quiet", "--tool=dhat", "--mode=copy", f"--dhat-out-file={file}", *words],
                       stdin=source, stdout=subprocess.DEVNULL, stderr=subprocess.DEVNULL, check=True)
    profile, made = json.loads(Path(file).read_text()), collections.Counter()
    for place in profile["pps"]:
        # (the first frame is the copy itself, the second what asks for it)
        by = profile["ftbl"][place["fs"][min(1, len(place["fs"]) - 1)]].partition(": ")[2]
        made["sqlite" if by.startswith("sqlite") else "else"] += place["tb"]
    return made


def show_shares(run, path, name, nar, folder):
    """Who copies: `sqlite`, on the way into a file and out of it, and what nixkeep copies itself."""
    size, fresh = Path(nar).stat().st_size, f"{folder}/shares.db"
    none, opening = shares(run.words(fresh, "list"), folder), shares(run.words(path, "list"), folder)
    into = shares(run.words(fresh, "add-source", "large"), folder, nar)
    out = shares(run.words(path, "cat-nar", name), folder)
    for what, whole, without in (("in, by `add-source`", into, none), ("out, without the opening", out, opening)):
        for who, name in (("sqlite", "`sqlite`"), ("else", "nixkeep and std")):
            limit(f"{what}: by {name}", (whole[who] - without[who]) / size, None, "bytes")


def copied_by_a_server(run, ahead, path, name, nar):
    """The bytes that a server copies of an archive that it sends, and of one that is imported, by what it does."""
    counts = ahead.at("copied")
    with mock.patch.dict(os.environ, ahead.env(counts, COUNT=COPIES)), served(run, path) as server:
        made = {}
        for what, words in [("out, by a server", ("GET", f"/nar/{name}")),
                            ("in, by `POST /import` to a server", ("POST", "/import", imported(base(1), nar)[3]))]:
            server.client.get("/paths")
            before = struct.unpack("<qq", Path(counts).read_bytes())[1]
            server.client.ask(*words)
            made[what] = struct.unpack("<qq", Path(counts).read_bytes())[1] - before
        return made


def copies(run, words, folder):
    path, other, nar = f"{folder}/copies.db", f"{folder}/by-sqlite.db", f"{folder}/copies.nar"
    Path(nar).write_bytes(archive(os.urandom(16 * MIB - 112)))
    size = Path(nar).stat().st_size
    for file in (path, other):
        run(file, "list")
    none = copied(run.words(path, "list"), words.ahead)
    ours = {"in, by `add-source` into a file": copied(run.words(path, "add-source", "large"), words.ahead, nar)}
    name = run(path, "list")[1].decode().strip()
    ours["of an opening, by `list`"] = copied(run.words(path, "list"), words.ahead)
    ours["out, by `cat-nar`, and of its opening"] = copied(run.words(path, "cat-nar", name), words.ahead)
    python = [sys.executable, "-c"]
    nothing = copied([*python, "import sqlite3, sys"], words.ahead)
    theirs = {"in, by `add-source` into a file": copied([*python, PUT, other], words.ahead, nar),
              "out, by `cat-nar`, and of its opening": copied([*python, TAKE, other], words.ahead)}
    title(f"bytes copied for each byte of an archive of {size:,} bytes")
    served_bytes = copied_by_a_server(run, words.ahead, path, name.rpartition("/")[2], Path(nar).read_bytes())
    for what, count in served_bytes.items():
        limit(what, count / size, None, "bytes")
    for what, count in ours.items():
        each = (count - none) / size
        if what in theirs:
            versus(what, (theirs[what] - nothing) / size, each, None, "python3 and C SQLite", unit="bytes")
        else:
            limit(what, each, None, "bytes")
    if not skipped("valgrind"):
        show_shares(run, path, name, nar, folder)


# ---- instructions


def instructions(words, folder, given=None):
    """Those of a command, by function: of each by itself, and how often it was called."""
    file = f"{tempfile.mkdtemp(dir=folder)}/callgrind"
    tool = ["valgrind", "--quiet", "--tool=callgrind", "--compress-strings=no", "--compress-pos=no"]
    with open(given or os.devnull, "rb") as source:
        subprocess.run([*tool, f"--callgrind-out-file={file}", *words], stdin=source, stdout=subprocess.DEVNULL,
                       check=True)
    own, calls, function, called = collections.Counter(), collections.Counter(), None, None
    for line in Path(file).read_text(errors="replace").splitlines():
        word, _, rest = line.partition("=")
        if word in ("fn", "cfn"):
            function, called = (rest, None) if word == "fn" else (function, rest)
        elif word == "calls":
            calls[called] += int(rest.split()[0])
        elif re.match(r"\d+ \d+$", line):
            # (the first line after a call is of what was called)
            own[function] += 0 if called else int(line.split()[1])
            called = None
    return own, calls


def hashed(counts):
    """The instructions of SHA-256, and its blocks."""
    own, calls = counts
    named = [name for name in own if re.search(COMPRESS, name)]
    return sum(own[name] for name in named), sum(calls[name] for name in named)


def stored(run, folder, subcommand, given, count=16):
    """A file with `count` objects that this subcommand adds, each with an address."""
    path = f"{folder}/{subcommand}.db"
    for at in range(count):
        run(path, subcommand, f"n{at}", given=given)
    return path


def digests(run, words, folder):
    """Of an archive without an address, or with that of a source, the archive alone is hashed; that of a text is over
    its contents too."""
    if skipped("valgrind"):
        return
    plain = os.urandom(MIB - 112)
    files = {"plain": plain, "nar": archive(plain)}
    for name, data in files.items():
        Path(f"{folder}/{name}").write_bytes(data)
    listed = {"objects without an address": filled(run, f"{folder}/plain.db", 16, MIB, 0),
              "sources": stored(run, folder, "add-source", files["nar"]),
              "texts": stored(run, folder, "add-text", plain)}
    crate = libraries.Libraries(words.libraries, True).file
    title("SHA-256, for each byte of the archives of 1 MiB that are read")
    show("an archive that comes in pieces, by the crate", [crate, "arrivals", "hold", "65536"], 1, folder, "nar")
    show("`text-path`", [run.file, "text-path", "n"], 1, folder, "plain")
    show("`source-path`", [run.file, "source-path", "n"], 1, folder, "nar")
    show("`add-source` into a new file", run.words(f"{folder}/new.db", "add-source", "n"), 1, folder, "nar")
    for what, path in listed.items():
        show(f"`list` of 16 {what}", run.words(path, "list"), 16, folder, most=2.01 if what == "texts" else 1.01)


def show(what, command, count, folder, given=None, most=1.01):
    """Prints what share SHA-256 has of a command that reads `count` archives."""
    own, blocks = hashed(instructions(command, folder, given and f"{folder}/{given}"))
    if not blocks:
        note(f"{what}: no function of the program is named as one that takes a block")
        return
    limit(f"{what}: bytes that are hashed", blocks * BLOCK / (count * MIB), most, "bytes")
    limit(f"{what}: instructions of SHA-256", own / (count * MIB), None, "instructions")


def openings(run, words, folder):
    if skipped("valgrind"):
        return
    few, many = (100, 200) if words.quick else (1000, 2000)
    paths = {count: filled(run, f"{folder}/opened-{count}.db", count, 1024, 3) for count in (few, many)}
    counted = {count: instructions(run.words(path, "list"), folder) for count, path in paths.items()}
    whole = [sum(counted[count][0].values()) for count in (few, many)]
    title(f"instructions of `list` from {few:,} to {many:,} objects of 1 KiB with 3 references")
    limit("for each object", (whole[1] - whole[0]) / (many - few), None, "instructions")
    alone = sum(instructions(run.words(foreign(run, paths[many]), "list"), folder)[0].values())
    limit("of a hundred, the opening by `sqlite` alone", 100 * alone / whole[1], None, "instructions")
    limit("of a hundred, SHA-256", 100 * hashed(counted[many])[0] / whole[1], None, "instructions")
    for name, count in counted[many][0].most_common(8):
        note(f"of a hundred: {100 * count / whole[1]:.1f} {name[:90]}")


def begin(words):
    words.ahead = Loaded(report.program_file(words), words.folder, "bench/counts.c")
    return program(words)


if __name__ == "__main__":
    main(__doc__, [memory, copies, digests, openings], begin, libraries.option)
