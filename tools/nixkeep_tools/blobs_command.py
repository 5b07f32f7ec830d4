"""The command lines `nixkeep-cache sweep` and `nixkeep-cache verify`."""
import argparse
import sys
from typing import NoReturn

from . import backup_file, blob_reading, blobs, paths, pointers, streams
from .count_of import count_of
from .failures import DONE, FAILED, Stop
from .http_client import Place, Server
from .progress import Progress


def parser():
    top = argparse.ArgumentParser(prog="nixkeep-cache", allow_abbrev=False)
    actions = top.add_subparsers(dest="action", metavar="ACTION", required=True)
    sweep = actions.add_parser("sweep", help="delete blobs that no object names",
                               description="Asks a running nixkeep-cache to delete the blobs that no object names.")
    sweep.add_argument("--grace", type=int, metavar="SECONDS",
                       help="the age from which on a blob is deleted [that of nixkeep-cache, which is the least]")
    sweep.add_argument("--dry-run", action="store_true", help="say what would be deleted, and delete nothing")
    verify = actions.add_parser("verify", help="read all blobs", description="Reads all blobs, and says which are "
                                "missing or damaged. The last line is a summary.")
    verify.add_argument("--blobs", required=True, metavar="FOLDER|s3://BUCKET[/PREFIX]", help="where the blobs are")
    verify.add_argument("--blobs-endpoint", metavar="URL", help="the server of s3:// [that of AWS]")
    for command in (sweep, verify):
        command.add_argument("--server", required=True, metavar="URL",
                             help="nixkeep-cache: http://HOST:PORT or unix:/PATH")
        who = command.add_mutually_exclusive_group(required=True)
        who.add_argument("--user", metavar="USER[:GROUP]", help="the caller")
        who.add_argument("--config", metavar="FILE", help="the store's configuration, whose first user is the caller")
    return top


def server_of(said):
    user, _, group = (said.user or "").partition(":")
    if said.config:
        user, group = backup_file.caller(backup_file.settings(said.config))
    return Server(Place(said.server), {"store-user": user, **({"store-group": group} if group else {})})


def answer_of(server, *request):
    reply = server.ask(*request)
    if reply.status != DONE:
        raise Stop(reply.text().rstrip("\n"), reply.status)
    return reply


def sweep(said):
    """Asks for a sweep. It fails if a blob couldn't be deleted."""
    lines = [f"grace: {said.grace}"] * (said.grace is not None) + ["dry-run: true"] * said.dry_run
    text = answer_of(server_of(said), "POST", "/sweep", "".join(f"{line}\n" for line in [*lines, ""]).encode()).text()
    streams.write(streams.shown([text.encode()]))
    return FAILED if any(line.startswith("failed ") for line in text.splitlines()) else DONE


def listed(server):
    """The full paths and the Packed of all pointers."""
    for line in answer_of(server, "GET", "/pointers").text().splitlines():
        path, *figures = pointers.read_line(line)
        yield path, tuple(figures)


def fault(place, name, wanted):
    """What is wrong with a blob, or None. `wanted` are the figures of its pointers, each with its path."""
    try:
        if place.size(name) is None:
            return "missing" if wanted else None
        figures = blob_reading.measured(place, name)
    except FileNotFoundError:
        return "missing" if wanted else None
    except blob_reading.Damaged as damaged:
        return str(damaged).replace("blob-damaged", "damaged", 1)
    except OSError as error:
        return f"damaged {name} in the blobs: {error.strerror or error}:"
    return ("damaged: its file isn't the one that was put there"
            if any(known != figures for _, known in wanted) else None)


def verify(said):
    """Reads all blobs. What is wrong is asked for once more, since a sweep may have deleted it meanwhile."""
    server, place = server_of(said), blobs.place_of(said.blobs, "", said.blobs_endpoint)
    by_name, faults = names_of(server), {}
    there = {blob.name: blob.size for blob in place.list()}
    everything = sorted({*there, *by_name})
    progress = Progress("verified", sum(there.values()), len(everything))
    for name in everything:
        if wrong := fault(place, name, by_name.get(name, [])):
            faults[name] = wrong
        progress.add(there.get(name, 0), 1)
    progress.end()
    again = names_of(server) if faults else {}
    lines = [f"{why} {name} {' '.join(path for path, _ in again.get(name, []))}".rstrip()
             for name, why in faults.items() if name in again or name in there]
    missing = sum(line.startswith("missing") for line in lines)
    total = f"verified {count_of(len(everything), 'blob')} {count_of(sum(there.values()), 'byte')}: {missing} missing, "
    total += f"{len(lines) - missing} damaged, {len({*there} - {*by_name})} that no object names"
    streams.write(streams.shown([f"{line}\n".encode() for line in [*lines, total]]))
    return FAILED if lines else DONE


def names_of(server):
    """The paths and figures of pointers by the names of their blobs."""
    by_name = {}
    for path, figures in listed(server):
        by_name.setdefault(paths.base32(figures[0]), []).append((path, figures))
    return by_name


def main(words: list[str]) -> NoReturn:
    said = parser().parse_args(words)
    try:
        status = sweep(said) if said.action == "sweep" else verify(said)
    except Stop as stop:
        streams.say(stop.line)
        status = stop.status
    except (OSError, ValueError, blobs.Failed) as error:
        # (a bucket may have written it, for a terminal)
        streams.say(f"nixkeep-cache: {error}")
        status = FAILED
    sys.exit(status)
