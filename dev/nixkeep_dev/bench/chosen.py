"""Which figures docs/PERFORMANCE.md shows: those that users ask for. `bin/bench --print NAME` prints all of one."""
import collections
import re

# What a figure is called there, and how it is found: the benchmark, a pattern of the section, what it is of, its peer.
Chosen = collections.namedtuple("Chosen", "label bench section what peer", defaults=[None])
KIB = "`list` on {} objects of 1,024 bytes with 3 references each"
HUNDRED = "`list` on 100 objects of 1,048,576 bytes.*"
FOLDER = ".* nixkeep-cache, in a folder"
ALONE, BEHIND = "64 clients of nixkeep-cache alone .*", "64 clients through nginx over 1 copy .*"
REFERRED = "a path with ten referrers, of 100,000 objects"
FIGURES = [
    Chosen("`list` of 10,000 objects of 1 KiB: reading and testing the file", "stores", KIB.format("10,000"), "time"),
    Chosen("`list` of 100 objects of 1 MiB", "stores", HUNDRED, "time"),
    Chosen("its memory", "stores", HUNDRED, "memory"),
    Chosen("memory of an open store, for each object with 3 references", "counts", "memory of the index.*",
           "for each object with 3 references"),
    Chosen("1,000 small adds to a server, each with its sync", "requests", "1,000 adds of .*", "time"),
    Chosen("`why` of a path with ten referrers, of 100,000 objects", "questions", REFERRED, "GET /roots-of/{path}"),
    Chosen("`delete` of such a path and of these", "questions", REFERRED, "POST /delete, of it and of these"),
    Chosen("an add of 16 MiB to a server", "requests", ".*archive of a file, to a store in a file", "time"),
    Chosen("100 archives of 1 MiB from a server", "requests", "100 archives of 1 MiB.*", "time"),
    Chosen("an archive of 16 MiB from a server", "over_http", "GET /nar/.*", "next to a file of those bytes", "nginx"),
    Chosen("`POST /import` of 16 MiB, next to one SHA-256 of it", "over_http", "POST /import .* in a file",
           "next to one SHA-256 of it by the same crate"),
    Chosen("narinfos to 64 clients by `nixkeep-cache` alone", "readers", ALONE, "records: requests"),
    Chosen("narinfos to 64 clients by nginx and `nixkeep-cache`", "readers", BEHIND, "records, no cache: requests"),
    Chosen("one in a hundred, next to half of these", "readers", BEHIND, "records, no cache: 99th percentile",
           "the 50th"),
    Chosen("narinfos from nginx's cache", "readers", BEHIND, "records, all in nginx's cache: requests",
           "nginx, files"),
    Chosen("time without answers at a restart with 10,000 objects", "restarts", "a server of .*",
           "time without answers, with RestartSec=1s"),
    Chosen("a closure of over 2 GiB to `nixkeep-cache --blobs FOLDER`", "large", FOLDER,
           "`nix copy` up, uncompressed"),
]
# The rows and the columns of the table of growth: actions of bench/nix.py, and who does them over how many objects.
ACTIONS = ["add a text", "query", "list", "why", "live", "delete", "gc"]
SIZES = [100, 1_000, 10_000, 100_000]
# The rows of the table of a team's day: which requests, whose half and 99 of 100 are shown, and then other figures.
DAY = "a day of 12 users over 100,000 objects.*"
KINDS = {"record": "a record", "archive": "an archive", "import": "an import", "add": "a text that is added",
         "root": "a root or a profile", "question": "`why`"}
OF_DAY = {"requests of users": "requests of users", "collection: slowest": "the slowest collection",
          "a backup through the server, with four users who read": "a backup through the server",
          "longest pause of users who read meanwhile": "the longest wait of users at the restart",
          "memory of the server and the cache": "memory of the server and `nixkeep-cache`"}
WAYS = {"command": "by a command", "server": "by curl over a server",
        "remote": "by nixkeep-remote over a server"}


def figure_in(measured: dict, bench: str, section: str, what: str, peer: str | None = None) -> dict | None:
    """The figure of a benchmark, or None."""
    for figure in measured.get(bench, {"figures": []})["figures"]:
        if "skipped" not in figure and figure["what"] == what and re.fullmatch(section, figure["section"]) \
                and (peer is None or figure.get("peer") == peer):
            return figure
    return None


def action(measured, way, what, size):
    """The figure of an action of bench/nix.py; for the way `Nix`, that of Nix, which is kept with that of a command."""
    return figure_in(measured, "nix", rf"{size:,} objects, {WAYS.get(way, WAYS['command'])}", what)


def seconds(measured: dict, way: str, what: str, size: int) -> float | None:
    """The seconds of an action, or None."""
    figure = action(measured, way, what, size)
    return figure and (figure["theirs"] if way == "Nix" else figure["value"])
