"""Measures by which power the times of nixkeep grow with what a store has: 1 is in proportion, 2 is quadratic.

  objects     10,000 and 100,000 objects of 200 bytes, with 3 references each
  references  30,000 and 300,000 references of 10,000 objects
  roots       1,000 and 10,000 permanent roots of 10,000 objects

Each action is a command on a file, which opens and tests all of it, and a request to a server that has opened it. Of
five rounds the least counts. In each round an action is measured over the small store and right afterwards over the
large one, and the rounds of an action are far apart: a machine that is slower for some seconds slows no action alone.
What stays the same has an exponent near 0. Needs SQLite 3.37 or later. With --quick, each store has a tenth of that.
"""
import contextlib
import functools
import tempfile
from pathlib import Path

from nixkeep_dev.bench.figures import exponent, main, program, timed, title
from nixkeep_dev.bench.serving import served
from nixkeep_dev.bench.sqlite import base, filled
from nixkeep_dev.testing.http_messages import lines
from nixkeep_dev.testing.requests import text

ROUNDS = 5
TIMES = 10
# How many roots a store has where they don't grow. All lead to the second half of the objects, which refer to those
# after them alone, so the first half is dead.
ROOTS = 500


def commands(live, at):
    """The words of each command, by name, in a round."""
    return {
        "list": ["list"],
        "info": ["info", live],
        "add-text": ["add-text", f"text{at}", live],
        "roots": ["roots"],
        "why": ["why", live],
        "live": ["live"],
        "dead": ["dead"],
        "root": ["root", "--permanent", f"new{at}", live],
        # (of the dead, a deletion and a collection take one after another)
        "delete": ["delete", base(2 * at)],
        "gc": ["gc", "--max-freed", "1"],
    }


def requests(live, at):
    """The method, the target and the body of each request, by name, in a round."""
    return {
        "GET /paths": ["GET", "/paths"],
        "GET /info/{path}": ["GET", f"/info/{live}"],
        "POST /text": ["POST", "/text", text(f"more{at}", b"%1024d" % at, live)],
        "GET /roots": ["GET", "/roots"],
        "GET /roots-of/{path}": ["GET", f"/roots-of/{live}"],
        "GET /live": ["GET", "/live"],
        "GET /dead": ["GET", "/dead"],
        # (those before are gone by the commands)
        "POST /delete": ["POST", "/delete", lines(("path", base(2 * (ROUNDS + at))))],
        "POST /collect": ["POST", "/collect", lines(("max-freed", 1))],
    }


def store(run, folder, objects, references, roots):
    """Such a store, and a live path of it."""
    path = f"{tempfile.mkdtemp(dir=folder)}/store.db"
    targets = [objects // 2 + at * (objects // 2) // roots for at in range(roots)]
    filled(run, path, objects, 200, references, targets, False)
    return path, base(objects - 1)


def in_turn(actions, calls):
    """The seconds of each action by each of the calls, by name: in each round, one call right after the other."""
    took = {name: [[] for _ in calls] for name in actions(calls[0][1], 0)}
    for at in range(ROUNDS):
        for name, all_times in took.items():
            for (call, live), times in zip(calls, all_times, strict=True):
                times.append(call(*actions(live, at)[name]))
    return took


def grown(run, folder, what, few, many):
    """Prints the exponents between two stores."""
    title(what)
    stores = [store(run, folder, *counts) for counts in (few, many)]
    took = in_turn(commands, [(lambda *words, path=path: run(path, *words)[0], live) for path, live in stores])
    with contextlib.ExitStack() as servers:
        clients = [servers.enter_context(served(run, path)).client for path, _ in stores]
        calls = [(functools.partial(timed, client.ask), live)
                 for client, (_, live) in zip(clients, stores, strict=True)]
        took |= in_turn(requests, calls)
    for path, _ in stores:
        Path(path).unlink()
    for name, (few, many) in took.items():
        exponent(name, few, many, TIMES)


def objects(run, words, folder):
    least = words.least
    grown(run, folder, f"from {least:,} to {TIMES * least:,} objects", (least, 3, ROOTS), (TIMES * least, 3, ROOTS))


def references(run, words, folder):
    least = words.least
    what = f"from {3 * least:,} to {3 * TIMES * least:,} references of {least:,} objects"
    grown(run, folder, what, (least, 3, ROOTS), (least, 3 * TIMES, ROOTS))


def roots(run, words, folder):
    least = words.least
    what = f"from {least // 10:,} to {TIMES * least // 10:,} permanent roots of {least:,} objects"
    grown(run, folder, what, (least, 3, least // 10), (least, 3, TIMES * least // 10))


def begin(words):
    words.least = 1000 if words.quick else 10_000
    return program(words)


if __name__ == "__main__":
    main(__doc__, [objects, references, roots], begin)
