"""Times whole commands of nixkeep that open no store, next to other programs, in one run: medians and the most memory.

PART is one of who, small, configuration, contents, archive, references. What isn't installed (nix-store, sha256sum) is
skipped, which is printed. Exits with 1 where a figure misses its limit.
"""
import statistics
import subprocess
from pathlib import Path

from nixkeep_dev.bench.figures import commands, limit, main, median, skipped, title, versus
from nixkeep_dev.testing import nar

MIB16 = 16_777_216


def who(run, words, folder):
    title("who, from the start of the process")
    each = {"true": ["true"], "who": [run.file, "--user", "root", "who"]}
    if not skipped("nix-store"):
        each["nix-store --version"] = ["nix-store", "--version"]
    runs = commands(each, 101)
    median("time", runs["who"][0], 0.003)
    limit("memory", runs["who"][1], None, "MiB")
    versus("next to a process that does nothing", runs["true"][0], runs["who"][0], None, "true", statistics.median)
    if theirs := runs.get("nix-store --version"):
        versus("next to its version", theirs[0], runs["who"][0], 0.25, "nix-store --version", statistics.median)


def small(run, words, folder):
    """Each subcommand that opens no store, and the help, over an input of some hundred bytes."""
    title("each subcommand without a store, over a small input")
    Path(f"{folder}/small").write_bytes(nar.archive(b"x" * 300))
    each = {"who": ["--user", "root", "who"], "text-path": ["text-path", "n"], "source-path": ["source-path", "n"],
            "ls": ["ls"], "--help": ["--help"], "help gc": ["help", "gc"]}
    runs = commands({name: [run.file, *more] for name, more in each.items()}, 51, f"{folder}/small")
    for name, (seconds, _) in runs.items():
        median(name, seconds, 0.005)


def configuration(run, words, folder):
    with open(path := f"{folder}/large.toml", "w") as out:
        out.write('trusted-users = ["@group9999"]\n[groups]\n')
        for group in range(10_000):
            members = ", ".join(f'"user{group}-{at}"' for at in range(6))
            out.write(f"group{group} = [{members}]\n")
    title(f"who, over a configuration of {Path(path).stat().st_size:,} bytes with 10,000 groups")
    seconds, mib = commands({"who": [run.file, "--config", path, "--user", "user9999-5", "who"]}, 5)["who"]
    median("time", seconds, 1)
    limit("memory", mib, 64, "MiB")


def put_random(out, count):
    """Writes random bytes by another process: what this one holds counts in what is measured of its children."""
    subprocess.run(["head", "-c", str(count), "/dev/urandom"], stdout=out, check=True)


def hashed(each, path):
    """Runs commands over a file, and sha256sum with them where it is installed."""
    if not skipped("sha256sum"):
        each = {**each, "sha256sum": ["sha256sum"]}
    return commands(each, 11, path)


def contents(run, words, folder):
    with open(path := f"{folder}/contents", "wb") as out:
        put_random(out, MIB16 - 112)
    title("text-path, over 16 MiB of contents")
    runs = hashed({"text-path": [run.file, "text-path", "n"]}, path)
    limit("memory", runs["text-path"][1], 40, "MiB")
    if "sha256sum" in runs:
        versus("time", runs["sha256sum"][0], runs["text-path"][0], 1.5, "sha256sum", statistics.median)


def archive(run, words, folder):
    start = nar.strings(b"nix-archive-1", b"(", b"type", b"regular", b"contents")
    with open(path := f"{folder}/archive", "wb", buffering=0) as out:
        out.write(start + (MIB16 - 112).to_bytes(8, "little"))
        put_random(out, MIB16 - 112)
        out.write(nar.strings(b")"))
    title("source-path and ls, over an archive of 16 MiB")
    runs = hashed({"source-path": [run.file, "source-path", "n"], "ls": [run.file, "ls"]}, path)
    limit("memory", runs["source-path"][1], 64, "MiB")
    median("ls", runs["ls"][0], None)
    if "sha256sum" in runs:
        theirs = 1.5 * statistics.median(runs["sha256sum"][0]) + statistics.median(runs["ls"][0])
        versus("time", theirs, runs["source-path"][0], 1, "1.5 times sha256sum, and ls", statistics.median)


def references(run, words, folder):
    bases = []
    for at in range(4_096):
        digits = "".join(nar.DIGITS[(at * 2_654_435_761 >> (3 * place)) & 31] for place in range(32))
        bases.append(f"{digits}-reference{at}")
    title("text-path, with 4,096 references")
    median("time", commands({"text-path": [run.file, "text-path", "n", *bases]}, 21)["text-path"][0], 0.02)


if __name__ == "__main__":
    main(__doc__, [who, small, configuration, contents, archive, references])
