"""The command nixkeep-overview."""
import argparse
import asyncio
import os
import sqlite3
import sys

from . import (cache_listening, cache_server, overview_page, overview_source, paths, store_file, streams, version,
               whole_file)
from .failures import FAILED
from .overview import Overview


def parser():
    top = argparse.ArgumentParser(prog="nixkeep-overview",
                                  description="Writes a page of who keeps how much of a store: HTML, by itself.")
    version.add_to(top)
    where = top.add_mutually_exclusive_group(required=True)
    where.add_argument("--db", metavar="FILE", help="the file of a store that no server has open")
    where.add_argument("--store", type=cache_listening.place, metavar="HOST:PORT", help="the server of a store")
    top.add_argument("--user", help="the caller, for --store")
    top.add_argument("--group", help="the primary group of the caller")
    top.add_argument("--config", metavar="FILE",
                     help="the configuration of the store, for keep-outputs and keep-derivations")
    top.add_argument("--name",
                     help="what the page calls the store [that of the configuration or of the file's folder]")
    top.add_argument("--why", metavar="PATH", help="write why this path is kept in place of the figures")
    top.add_argument("--output", metavar="FILE", help="the page [standard output]")
    return top


async def of_server(where, caller, keeps):
    server = cache_server.Server(cache_server.Port(*where), patience=10)
    try:
        store, live = await overview_source.Records(server, keeps[0]).store(caller)
    finally:
        await server.end()
    return Overview(store, *keeps, live)


def made(said):
    _, *keeps = overview_source.settings(said.config)
    if said.db:
        return Overview(overview_source.of_file(said.db), *keeps)
    return asyncio.run(of_server(said.store, cache_server.Caller(said.user, said.group), keeps))


def put(output, text):
    """Writes the page to a file, whole or not at all, or to what is there and is none, such as a pipe."""
    # (os.path: of what the caller may not look at, or a link that leads to itself, Path raises errors of its own)
    if os.path.exists(output) and not os.path.isfile(output):
        with open(output, "w", encoding="utf-8") as out:
            out.write(text)
    else:
        # (so a link to a page stays)
        whole_file.write(os.path.realpath(output), text, 0o666)


def main(words: list[str] | None = None) -> None:
    top = parser()
    said = top.parse_args(words)
    if said.store and not said.user:
        top.error("--store needs --user")
    try:
        overview = made(said)
        name = said.name or overview_source.name_of(said.config, said.db)
        text = overview_page.page(overview, name, why=said.why and paths.base_name(said.why, overview.store.store_dir))
        if said.output:
            put(said.output, text)
        else:
            print(text)
    except (OSError, sqlite3.Error, ValueError, KeyError, overview_source.Denied, overview_source.Unreachable,
            paths.Malformed, store_file.Locked) as error:
        # (a server may have written it, for a terminal)
        streams.say(f"nixkeep-overview: {error}")
        sys.exit(FAILED)
