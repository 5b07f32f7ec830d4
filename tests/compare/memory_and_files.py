"""Compares stores in memory, in files that stay open, and in files that are opened anew for each request.

A random list of requests is answered three times: by one server over memory; by one over a file, of which a copy is
opened anew after each request; and over another file by a server for each request, so that it is closed and opened
again between any two. After each request all paths, all roots, what is live and the report are asked for, of the
copies too, and each reply has to be the same, byte for byte. So what a call has left in memory is what its rows say.
The requests are of every kind, by trusted and allowed callers and strangers, as `nixkeep_dev.model` makes them, and
many are refused or denied. `--count` lists are tried (20), of 20 requests.
"""
import random
import subprocess
from pathlib import Path

from nixkeep_dev.model import server
from nixkeep_dev.model.scenarios import Scenarios
from nixkeep_dev.testing import report
from nixkeep_dev.testing.http_messages import STATE, all_replies, message, messages, next_replies
from nixkeep_dev.testing.store import copy

COUNT, LENGTH = 20, 20


def drawn(seed):
    """A configuration, and requests that meet one another, as the scenarios of the model have them, most of which fit
    what is there by then."""
    rng, scenarios = random.Random(seed), Scenarios()
    config, requests = scenarios.server_config(rng), []
    while len(requests) < LENGTH:
        meant = scenarios.request(*scenarios.by_chance(rng))
        request = (meant.user, *scenarios.target(meant), scenarios.body(meant))
        # (the model does it too; of a head that it doesn't read it has no reply to go on after)
        if not server.serve(scenarios.store, message(*request))[1]:
            requests.append(request)
    return config, requests


def served(file, options, requests):
    ran = subprocess.run([file, *options, "serve"], input=messages(requests), capture_output=True)
    if ran.returncode or ran.stderr:
        report.fail(f"{' '.join(options)}: status {ran.returncode}, {ran.stderr!r}")
    return all_replies(ran.stdout, len(requests))


class Open:
    """A server over a file that stays open."""

    def __init__(self, file, options):
        self.ran = subprocess.Popen([file, *options, "serve"], stdin=subprocess.PIPE, stdout=subprocess.PIPE)

    def ask(self, requests):
        self.ran.stdin.write(messages(requests))
        self.ran.stdin.flush()
        return next_replies(self.ran.stdout, len(requests))

    def end(self):
        self.ran.stdin.close()
        if self.ran.wait():
            report.fail(f"the server of an open file: status {self.ran.returncode}")


def try_list(file, folder, name, requests, config):
    """Compares the replies to each request of a list, and to what is asked after it."""
    at = lambda end: f"{folder}/{name}{end}.db"
    options, anew = ["--config", config], ["--config", config, "--db", at("")]
    in_memory = served(file, options, [sent for request in requests for sent in (request, *STATE)])
    is_open = Open(file, [*options, "--db", at("-open")])
    for number, request in enumerate(requests):
        wanted = in_memory[number * (1 + len(STATE)) :][: 1 + len(STATE)]
        # (what follows a request is asked of a server of its own, which opens the file anew)
        came = {"a file that is opened anew": [*served(file, anew, [request]), *served(file, anew, STATE)],
                "a file that stays open": is_open.ask([request, *STATE]),
                "a copy of that": [wanted[0], *served(file, [*options, "--db", copy(at("-open"), at("-copy"))], STATE)]}
        for where, replies in came.items():
            for question, one, other in zip((request, *STATE), wanted, replies):
                what = f"list {name}, request {number}, {request[:3]!r}: {question[:3]!r} in {where}"
                report.same(what, other, one)
    is_open.end()


def test_lists(program, folder, seed, count):
    for at in range(count or COUNT):
        config, requests = drawn(seed * 1000 + at)
        Path(path := f"{folder}/{at}.toml").write_bytes(config)
        try_list(program, folder, str(at), requests, path)
