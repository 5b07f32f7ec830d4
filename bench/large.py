"""Measures a closure of over 2 GiB through nginx and nixkeep-cache, next to what Nix and nginx do without it.

examples/team/try_large makes the closure, uploads it by `nix copy`, with and without compression by Nix, and fetches it
by a substituter. The peers are `nix copy` to a folder (file://), nginx that serves that folder, and nginx that takes
files by PUT and looks at nothing. Then the same with the archives in a bucket of OpenStack Swift, which is started
here. With --quick, the closure has a fiftieth of the size. Needs what that trial and tests/tools/try_swift.py need;
what isn't installed is skipped.
"""
import json
import subprocess
from pathlib import Path

from nixkeep_dev.bench.figures import MIB, limit, main, put, skipped, title
from nixkeep_dev.build import program
from nixkeep_dev.testing import report

TRIAL = f"{program.HERE}/examples/team/try_large"
# A figure of the trial, what it is, its peer, and the least ratio to that. The bucket has no limits: Swift is slower.
RATES = [("up none", "`nix copy` up, uncompressed", "nix copy to file://", 0.7),
         ("up zstd", "`nix copy` up, by zstd", "nix copy to file://", 0.7),
         ("down", "a substituter", "nginx, a folder", 0.9), ("records", "records", "nginx, a folder", None)]
MEMORY = [("memory none", "memory of nixkeep-cache for the uncompressed upload"),
          ("memory zstd", "memory of nixkeep-cache for the upload by zstd"),
          ("memory down", "memory of nixkeep-cache for the download")]


def measured(words, folder, where, *more, is_limited=True):
    """Runs the trial, and reports its figures."""
    file = f"{folder}/figures.json"
    given = ["--program", words.file, "--figures", file, *(["--part", "50"] if words.quick else []), *more]
    if subprocess.run([TRIAL, *given], stdin=subprocess.DEVNULL).returncode and not Path(file).exists():
        raise report.Failed(f"{TRIAL} didn't end well")
    figures = json.loads(Path(file).read_text())
    title(f"a closure of {figures['size'] / MIB:,.0f} MiB through nginx and nixkeep-cache, {where}")
    for key, what, peer, least in RATES:
        ours, theirs = figures["found"][key], figures["usual"][key]
        put(what, ours, "a second" if key == "records" else "MiB/s", least if is_limited else None,
            {"peer": peer, "theirs": theirs, "ratio": ours / theirs, "spread": None}, is_least=True)
    limit("`nix copy` up, uncompressed, to nginx that looks at nothing", figures["usual"]["put"], None, "MiB/s")
    for key, what in MEMORY:
        limit(what, figures["found"][key], 64, "MiB")


def folder_of_blobs(_, words, folder):
    measured(words, folder, "in a folder")


def bucket(_, words, folder):
    if skipped("swift-proxy-server", "swift-account-server", "swift-container-server", "swift-object-server",
               "python3-boto3"):
        return
    from tests.tools import swift

    service = swift.Swift(f"{folder}/swift")
    with service.started():
        measured(words, folder, "in a bucket of Swift", "--blobs", f"s3://{swift.BUCKET}/large", "--blobs-endpoint",
                 service.url, is_limited=False)


def begin(words):
    words.file = report.program_file(words)
    if skipped("nix", "nginx", "curl", "ab", "python3-aiohttp", "python3-nacl", "python3-zstandard"):
        words.parts = []


if __name__ == "__main__":
    main(__doc__, [folder_of_blobs, bucket], begin)
