"""The options of nixkeep-cache."""
import argparse

from . import cache_limit, cache_listening, cache_records, cache_signing, nar, paths, version


def name(text):
    if not paths.is_plain_name(text):
        raise argparse.ArgumentTypeError(f"{text}: no user's or group's name")
    return text


def size(text):
    """A number of bytes that the store itself keeps as an archive."""
    if not (text.isdigit() and int(text) <= nar.LIMIT):
        raise argparse.ArgumentTypeError(f"{text}: a number of at most {nar.LIMIT} is meant")
    return int(text)


def parser():
    top = argparse.ArgumentParser(
        prog="nixkeep-cache",
        description="A binary cache of Nix over `nixkeep serve`: Nix fetches "
        "from it and uploads to it, and the store's own requests pass through.",
    )
    version.add_to(top)
    add, place = top.add_argument, cache_listening.place
    who = top.add_mutually_exclusive_group(required=True)
    who.add_argument("--user", type=name, help="the caller that all clients are")
    who.add_argument("--proxied", action="store_true",
                     help="a proxy says who each client is, by the fields store-user and store-group")
    add("--group", type=name, help="the primary group of --user")
    add("--db", metavar="FILE", help="the file of the store, for which a server is started that listens nowhere")
    add("--nixkeep", metavar="PROGRAM", help="the program of that server [nixkeep next to this tool, or on the path]")
    add("--store", type=place, metavar="HOST:PORT", help="where a server listens, in place of --db [127.0.0.1:8080]")
    add("--listen", type=cache_listening.listening, metavar="HOST:PORT|/SOCKET",
        help="where clients are accepted, a port or a Unix socket [the sockets that systemd passes, or 127.0.0.1:8081]")
    add("--config", metavar="FILE", help="the configuration of the store: with --db that of the server, too")
    add("--most-bytes", type=int, metavar="N",
        help="how large the file of --db may become [0.6 of what the memory of the service opens]")
    add("--most-bytes-each", type=int, metavar="N",
        help="how many bytes of the objects that are there one user may have added [no limit]")
    add("--sign-with", metavar="FILE",
        help="the secret key by which records are signed [the credential sign-with of systemd, if there is one]")
    add("--trusted-public-keys", metavar="KEYS",
        help="whose signatures are kept that come with uploads [the credential of this name, or none]")
    add("--monitor", type=name, metavar="USER", help="a user who may read /metrics, and need not be one of the store's")
    add("--backup-state", metavar="FILE",
        help="the state that nixkeep-backup writes, for /metrics [backup.json next to the file of --db]")
    add("--waiting", default="/var/cache/nixkeep-cache", metavar="FOLDER",
        help="where archives wait for their records [/var/cache/nixkeep-cache]")
    add("--waiting-count", type=int, default=1000, metavar="N", help="how many may wait [1000]")
    add("--waiting-bytes", type=int, default=1 << 30, metavar="N", help="how many bytes they may have [1073741824]")
    add("--waiting-seconds", type=float, default=3600, metavar="N", help="how long one may wait [3600]")
    add("--session-seconds", type=float, default=3600, metavar="N",
        help="how long uploads of a user are kept after the last one [3600]")
    add("--blobs", metavar="FOLDER|s3://BUCKET[/PREFIX]",
        help="where large archives are kept, each of them a file [none: the store keeps archives of 16 MiB at most]")
    add("--large-from", type=size, default=nar.LIMIT, metavar="BYTES",
        help="the largest archive that the store itself keeps; larger ones are in --blobs [16777216, the most]")
    add("--blobs-level", type=int, default=1, choices=range(1, 20), metavar="N",
        help="how well large archives are compressed by zstd, 1 to 19 [1]")
    add("--blobs-endpoint", metavar="URL", help="the server of s3:// [that of AWS]")
    add("--grace", type=float, default=86_400, metavar="SECONDS",
        help="the age from which on a sweep deletes a blob that no object names [86400]")
    add("--idle", type=float, default=60, metavar="SECONDS", help="how long a client may be silent [60]")
    add("--patience", type=float, default=30, metavar="SECONDS",
        help="how long a server that can't be reached is waited for, as while it starts again [30]")
    add("--list-every", type=float, default=30, metavar="SECONDS",
        help="how often, at most, a path that isn't known is looked for in a new listing [30]")
    return top


def read(words: list[str]) -> argparse.Namespace:
    """The words of the command line, with what follows from them."""
    top = parser()
    said = top.parse_args(words)
    if said.group and not said.user:
        top.error("--group needs --user")
    if said.db and said.store:
        top.error("--db starts a server, and --store names one")
    if said.blobs and not cache_records.zstandard:
        top.error("--blobs needs the Debian package python3-zstandard")
    if said.most_bytes is not None and not said.db:
        top.error("--most-bytes needs --db")
    if said.db and said.most_bytes is None:
        said.most_bytes = cache_limit.usual()
    said.sign_with = said.sign_with or cache_signing.credential("sign-with")
    return said
