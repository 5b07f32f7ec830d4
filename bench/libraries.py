"""Times libraries over large inputs, next to a plain copy of the same bytes, one digest, cat and Nix, in one run.

  archives     `nar` over archives of 16 MiB, many files and great depth, and the memory of a tree and of a checker
  derivations  `drv::outputs` over large derivation texts, and hostile ones
  arrivals     `intake` of archives of 16 MiB in pieces
  liveness     `live` over 100,000 paths with 1,000,000 entries and 1,000 roots

The work is done by the program of crates/bench. What isn't installed (nix) is skipped, which is printed. Exits with 1
where a figure misses its limit.
"""
import collections
import os
import re
import statistics
from pathlib import Path

from nixkeep_dev.bench.figures import MIB, command, limit, main, median, note, skipped, title, versus
from nixkeep_dev.testing import libraries, nar, report

LIMIT = 16_777_216
SMALL_FILES = 40_000
ROUNDS = 15
PATHS, EACH, ROOTS = 100_000, 10, 1_000


def put(folder, name, data):
    """A file of a folder, whose name is like this one."""
    Path(path := f"{folder}/{re.sub(r'[^a-z0-9]', '-', name)}").write_bytes(data)
    return path


def command_seconds(words, path):
    """The seconds of whole commands over a file."""
    return [command(words, path)[0] for _ in range(5)]


# ---- archives


def small_files(count):
    return "directory", [(b"%06d" % at, ("regular", False, b"%06d" % at)) for at in range(count)]


def nested(node, depth=254):
    for _ in range(depth):
        node = "directory", [(b"d", node)]
    return node


def archive_seconds(ours, path, work):
    """The median seconds of a kind of work over an archive, within the program."""
    lines = ours("archives", "time", work, str(ROUNDS), path=path).split()
    return statistics.median(int(line) for line in lines) / 1e9


def peak(ours, *words, path):
    """The most KiB that the program has held."""
    return int(ours("archives", *words, path=path).partition(b"VmHWM:")[2].split()[0])


def rates(ours, name, path, works):
    """Prints the time of each kind of work next to a plain copy, and returns the GB a second of each."""
    size, plain, speeds = Path(path).stat().st_size, archive_seconds(ours, path, "copy"), {}
    title(f"{name}: {size:,} bytes, of which a plain copy takes {plain * 1000:.2f} ms")
    for work in works:
        took = archive_seconds(ours, path, work)
        speeds[work] = size / took / 1e9
        versus(f"pieces of {int(work):,}" if work.isdigit() else work, plain, took, None, "a copy")
    return speeds


def archives(ours, words, folder):
    nodes = {"one file": ("regular", False, os.urandom(LIMIT - 112)),
             "16 MiB of small files": small_files((LIMIT - 96) // 192),
             "40,000 small files": small_files(SMALL_FILES), "2,500 small files": small_files(SMALL_FILES // 16),
             "256 deep": nested(small_files(1)), "40,000 small files 256 deep": nested(small_files(SMALL_FILES))}
    paths = {name: put(folder, name, nar.of_node(node)) for name, node in nodes.items()}
    large(ours, paths)
    many_files(ours, paths)
    depth(ours, paths)
    memory(ours, paths)


def large(ours, paths):
    speeds = rates(ours, "one file", paths["one file"], ["read", "write", "list", "65536", "100"])
    limit("read", Path(paths["one file"]).stat().st_size / speeds["read"] / 1e9, 0.001)
    # A file's contents are counted and not looked at, so here the pieces alone take time.
    for what, work in (("write", "write"), ("checker, pieces of 65,536", "65536"), ("checker, pieces of 100", "100")):
        limit(what, speeds[work], 0.5, "GB/s", True)
    speeds = rates(ours, "16 MiB of small files", paths["16 MiB of small files"], ["read", "65536", "100"])
    limit("checker, pieces of 65,536", speeds["65536"], 0.5, "GB/s", True)
    limit("checker, time of pieces of 100 next to 65,536", speeds["65536"] / speeds["100"], 3, "times")


def many_files(ours, paths):
    path, works = paths["40,000 small files"], ["read", "write", "list", "65536"]
    speeds = rates(ours, "40,000 small files", path, [*works, "100"])
    limit("read", speeds["read"], 1, "GB/s", True)
    limit("write", speeds["write"], 0.5, "GB/s", True)
    # Where the time of 16 times the files were quadratic, a file would take 16 times as long.
    few = rates(ours, "2,500 small files", paths["2,500 small files"], works)
    for work in few:
        limit(f"{work}: time of one of 40,000 next to one of 2,500", few[work] / speeds[work], 6, "times")
    if skipped("nix"):
        return
    listing = ["nix", "--extra-experimental-features", "nix-command", "nar", "ls", "-R", path, "/"]
    theirs = command_seconds(listing, path)
    versus("the whole command that lists", theirs, command_seconds([ours.file, "archives", "list"], path), None,
           "nix nar ls -R")
    versus("read", theirs, Path(path).stat().st_size / speeds["read"] / 1e9, 0.1, "nix nar ls -R")


def depth(ours, paths):
    works = ["read", "write", "65536", "100"]
    flat = rates(ours, "40,000 small files", paths["40,000 small files"], works)
    # A listing names each file by its whole path, of 516 bytes where it is 256 deep, so it has no limit.
    for name in ("256 deep", "40,000 small files 256 deep"):
        deep = rates(ours, name, paths[name], [*works, "list"])
        for work in works:
            limit(f"{work}: time of a byte next to the flat archive", flat[work] / deep[work], 5, "times")


def memory(ours, paths):
    title("memory of a tree and of a checker")
    path = paths["40,000 small files"]
    held = peak(ours, "hold", path=path) - peak(ours, "load", path=path)
    limit("a tree", held * 1024 / (SMALL_FILES + 1), 100, "bytes a node")
    none = peak(ours, "check", "65536", path=os.devnull)
    for name in ("one file", "16 MiB of small files"):
        limit(f"a checker of {name}", (peak(ours, "check", "65536", path=paths[name]) - none) / 1024, 1, "MiB")


# ---- derivations


def derivation_texts():
    """Each text by its name, and the word of its fault, if it has one."""
    one, size, fault = [("out", f"{0:032}-o")], 16 * MIB, "bad-derivation"
    path = lambda at, name: f"{at:032}-{name}"
    many = [(f"o{at:05}", path(at, f"d-o{at:05}")) for at in range(14_000)]
    escaped = '\\"\\\\\\n\\t' * 16
    inputs = [f"{nar.STORE}/{path(at, 'input.drv')}" for at in range(14_400)]
    return {
        "1 MiB of inputs": (nar.derivation(one, inputs), ""),
        "1 MiB of escapes": (nar.derivation(one, [], [escaped] * 7_200), ""),
        "14,000 outputs": (nar.derivation(many), ""),
        "14,000 outputs, the last one twice": (nar.derivation([*many[:-1], (many[-2][0], many[-1][1])]),
                                               "double-output"),
        "16 MiB of [": (b"[" * size, fault),
        "16 MiB of \\": (b"\\" * size, fault),
        '16 MiB of "': (b'"' * size, fault),
        "a list of inputs that begins with 16 MiB of [": (b"Derive([]," + b"[" * size, fault),
        "16 MiB of escaped \\ in an environment": (nar.derivation(one, [], ["\\\\" * (size // 2)]), ""),
        "16 MiB of \\ in the name of an output": (b'Derive([("' + b"\\" * size, fault),
        '16 MiB of " from the name of an output on': (b"Derive([(" + b'"' * size, fault),
        "16 MiB of [ in the path of an output": (b'Derive([("out","' + b"[" * size + b'","","")', fault),
    }


def derivations(ours, words, folder):
    for name, (text, fault) in derivation_texts().items():
        path = put(folder, "text", text)
        lines = [line.split() for line in ours("derivations", "time", str(ROUNDS), path=path).decode().splitlines()]
        if " ".join(lines[0][1:]) != fault:
            report.fail(f"{name}: another fault than {fault or 'none'}: {lines[0]}")
        title(f"{name}: {len(text):,} bytes{', ' + fault if fault else ''}")
        # A text of 1 MiB has 20 ms; a longer one as much for each MiB.
        median("the call", [int(line[0]) / 1e9 for line in lines], 0.02 * max(1, len(text) / MIB))
        whole = command_seconds([ours.file, "derivations", "outputs"], path)
        versus("the whole program", command_seconds(["cat"], path), whole, None, "cat", statistics.median)


# ---- arrivals


def arrivals(ours, words, folder):
    # The contents of a file are hashed too, as the address of a text asks.
    for name, is_executable, most in (("a file", False, 2.3), ("an executable file", True, 1.2)):
        size = LIMIT - len(nar.archive(b"", is_executable))
        path = put(folder, name, nar.archive(os.urandom(size), is_executable))
        for piece in (100, 4_096, 65_536):
            title(f"an archive of {name}, {Path(path).stat().st_size:,} bytes, in pieces of {piece:,}")
            arrival(ours, path, str(piece), most)


def arrival(ours, path, piece, most):
    lines = ours("arrivals", "time", piece, str(ROUNDS), path=path).decode().splitlines()
    digest, came, answered = zip(*([int(word) / 1e9 for word in line.split()] for line in lines))
    versus("what comes", digest, came, 1.2, "one digest")
    versus("all that is asked of it", digest, answered, most, "one digest")
    kind, held = ours("arrivals", "hold", piece, path=path).decode().splitlines()
    report.same("what is held", kind, "an archive")
    limit("memory", int(held.split()[1]) / 1024, 20, "MiB")


# ---- liveness


def liveness(ours, words, folder):
    took, counted = collections.defaultdict(list), set()
    for line in ours("liveness", "time", str(PATHS), str(ROOTS), str(ROUNDS)).decode().splitlines():
        word, *numbers = line.split()
        if len(numbers) == 1:
            took[word].append(int(numbers[0]) / 1e9)
        else:
            counted.add(line)
    title(f"{PATHS:,} paths, {PATHS * EACH:,} entries, {ROOTS:,} roots")
    note(", ".join(sorted(counted)))
    limit("making the graph", took["graph"], 0.25)
    versus("the walk", took["pass"], took["mark"], 5, "one pass over the entries")
    limit("the roots of a path", took["roots_of"], 0.1)
    limit("the referrers of a path", took["referrers"], 0.1)


if __name__ == "__main__":
    parts = [archives, derivations, arrivals, liveness]
    main(__doc__, parts, lambda words: libraries.Libraries(words.libraries), libraries.option)
