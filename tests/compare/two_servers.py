"""Asks two servers at once, each by several clients, and compares every reply with the model.

The servers have different stores with one store directory, so a path may be valid in one of them alone, or have other
contents there. The clients of both begin together. Each makes connection after connection, and asks one request after
another on each, of every kind, by trusted and allowed callers and strangers, as `nixkeep_dev.model` makes them. A
server takes one connection at a time, so its connections have an order. The model answers them in this order, for
each store alone, and each reply has to be the model's, byte for byte. In the end each file has to have the rows of its
own model.
`--count` pairs of servers are tried (20), and each server has to have done each kind of request.
"""
import contextlib
import os
import random
import socket
import threading
from concurrent.futures import ThreadPoolExecutor
from pathlib import Path

from nixkeep_dev.model import policy, runs, server, tables
from nixkeep_dev.model.forms import TARGET
from nixkeep_dev.model.scenarios import Scenarios
from nixkeep_dev.model.store import Store
from nixkeep_dev.model.worlds import World
from nixkeep_dev.testing import report
from nixkeep_dev.testing.http_messages import STATE, message, replies
from nixkeep_dev.testing.requests import kept, requests
from nixkeep_dev.testing.store import Server

COUNT, CLIENTS, CONNECTIONS, MESSAGES = 20, 4, 8, 6
SIDES = "the first server", "the second server"


class Side:
    """One of the two stores: its configuration, and for each client what it asks on each of its connections."""

    def __init__(self, name, seed):
        self.name, rng, scenarios = name, random.Random(f"{seed} {name}"), Scenarios()
        self.config = scenarios.server_config(rng)
        # (a list of each kind comes on one connection, so nothing that others ask comes between)
        self.clients = [[[message(*request) for request in [*requests(), *kept()]]], *[[] for _ in range(1, CLIENTS)]]
        for connections in [client for _ in range(CONNECTIONS) for client in self.clients]:
            connections.append(self.connection(scenarios, rng))
        # The connections in the order in which they were served: a client, which of its own it was, and its replies.
        self.served = []

    def connection(self, scenarios, rng):
        """What is asked on a connection, most of which fits what is there by then. The first closes no connection: the
        order is written down when its reply has come."""
        messages = [message(*rng.choice(STATE))]
        for _ in range(rng.randint(1, MESSAGES)):
            messages.append(scenarios.message(*scenarios.by_chance(rng)))
            if server.serve(scenarios.store, messages[-1])[1]:
                break
        return messages

    def wanted(self):
        """The replies of the model, connection by connection as they were served, and the rows that it has then."""
        store, replies = Store(policy.config_of(self.config), World()), []
        for client, number, _ in self.served:
            replies.append([b"".join(server.serve(store, data)[0]) for data in self.clients[client][number]])
        return replies, tables.rows_of(store.world, store.dir)


def reply(connection):
    """The next reply, or what came of it before the end."""
    came = b""
    while not replies(came)[0]:
        try:
            more = connection.recv(1_048_576)
        except ConnectionResetError:
            more = b""
        if not more:
            break
        came += more
    return came


def ask(running, side, client, both, start):
    """Makes the connections of a client one after another, and writes down each in the order of those of its server,
    and its server in the order of both."""
    start.wait()
    for number, messages in enumerate(side.clients[client]):
        with running.connect() as connection:
            came = []
            for data in messages:
                with contextlib.suppress(OSError):
                    connection.sendall(data)
                    if len(came) == len(messages) - 1:
                        # (so what is no whole head is answered, and not waited for)
                        connection.shutdown(socket.SHUT_WR)
                came.append(reply(connection))
                if len(came) == 1:
                    # (until this client ends the connection, the server takes no other)
                    side.served.append((client, number, came))
                    both.append(side.name)


def try_both(file, folder, sides):
    """Has the clients of both ask, and returns how often the one server was served after the other."""
    running, both, start = [], [], threading.Barrier(2 * CLIENTS)
    with contextlib.ExitStack() as stack, ThreadPoolExecutor(2 * CLIENTS) as pool:
        for at, side in enumerate(sides):
            Path(f"{folder}/{at}.toml").write_bytes(side.config)
            words = [file, "--config", f"{folder}/{at}.toml", "--db", f"{folder}/{at}.db"]
            running.append(stack.enter_context(Server(*words)))
        pairs = [(one, side, client) for one, side in zip(running, sides) for client in range(CLIENTS)]
        for future in [pool.submit(ask, *pair, both, start) for pair in pairs]:
            future.result()
    return sum(one != other for one, other in zip(both, both[1:]))


def compare(what, side, path):
    """Compares each reply with the model's, and the rows; returns the kinds of requests that were done."""
    done, (wanted, rows) = set(), side.wanted()
    report.same(f"{what}: the connections", len(side.served), sum(map(len, side.clients)))
    for at, ((client, number, came), meant) in enumerate(zip(side.served, wanted)):
        for request, one, other in zip(side.clients[client][number], came, meant):
            report.same(f"{what}, connection {at}, of client {client}: the reply to {request[:300]!r}", one, other)
            if b" 200 " in one.partition(b"\r\n")[0]:
                done.add(kind_of(request))
    report.same(f"{what}: the rows in the end", runs.rows_in(path), rows)
    return done


def kind_of(request):
    """The kind of a request; None where it has none."""
    with contextlib.suppress(ValueError, server.Refused):
        method, target, *_ = server.head_of(request)
        return server.route_of(target)[0].get(method)
    return None


def test_pairs(program, folder, seed, count):
    done, turns = [set(), set()], 0
    for at in range(count or COUNT):
        sides = [Side(name, f"{seed} {at}") for name in SIDES]
        os.mkdir(room := f"{folder}/{at}")
        turns += try_both(program, room, sides)
        for number, side in enumerate(sides):
            done[number] |= compare(f"pair {at}, {side.name}", side, f"{room}/{number}.db")
    for name, kinds in zip(SIDES, done):
        report.same(f"the kinds that {name} has never done", sorted({*TARGET} - kinds), [])
    report.right("the servers", not turns and "they were served one after the other, never at once")
