"""Tests of what is watched of a store: /metrics, /health, the record of changes, and the page of the last day."""
import json
import os
import re
import signal
import time
from pathlib import Path

import pytest

import parts
from nixkeep_dev.testing import nar
from parts import body, curl
from tests.tools.cached import ask, figures, file_name, record, text

pytestmark = pytest.mark.needs("curl", "python3-aiohttp")


@pytest.mark.needs("python3-prometheus_client")
def test_metrics(unit, folder):
    """Counts by route and status, bytes, hits, the file and its limit, and the age of the last copy."""
    with unit("--monitor", "prometheus", "--most-bytes", "100000000") as store:
        path = ask(store.place, "ann", "POST", "/text", text("one", bytes(10_000)))[1].decode().strip()
        for digits in (path[11:43], "1" * 32, "2" * 32):
            ask(store.place, "ann", "GET", f"/{digits}.narinfo")
        for target in ("/x/y", "/../etc", "/paths?a"):
            ask(store.place, "ann", "GET", target, None, "--path-as-is")
        ask(store.place, "eve", "GET", "/paths")
        values = figures(store)
        counts = [values.get(("nixkeep_requests_total", *labels.split())) for labels in
                  ("POST text 200", "GET record 200", "GET record 404")]
        assert counts == [1, 1, 2], "an add, a hit and two misses"
        assert [values.get(("nixkeep_lookups_total", label)) for label in ("yes", "no")] == [1, 2], "the same as hits"
        assert values.get(("nixkeep_requests_total", "GET", "other", "404")) == 2, "targets of no route have one word"
        assert values.get(("nixkeep_requests_total", "GET", "paths", "403")) == 1, "a stranger's request is counted"
        assert values["nixkeep_received_bytes_total", "POST", "text"] == len(text("one", bytes(10_000))), "bytes come"
        assert values["nixkeep_request_seconds_count", "POST", "text"] == 1, ("and time is counted", values)
        used = Path(folder, "store.db-wal").stat().st_size
        assert 0 < values["nixkeep_store_bytes",] <= used, "the size of the file"
        assert values["nixkeep_store_bytes_limit",] == 100_000_000, "and its limit"
        assert 1 << 20 < values["nixkeep_start_memory_bytes",] < 1 << 30, "the memory of the server's next start"
        assert [values[name,] for name in ("nixkeep_up", "nixkeep_queue")] == [1, 0], "it is there, and nothing waits"
        assert ("nixkeep_backup_age_seconds",) not in values, "no copy has been made"
        Path(f"{folder}/backup.json").write_text(json.dumps({"succeeded": int(time.time()) - 1000}))
        age = figures(store)["nixkeep_backup_age_seconds",]
        assert 1000 <= age < 10_000, ("the age of the last copy", age)
        Path(f"{folder}/backup.json").write_text('{"succeeded": "x", "failed": [1]}')
        assert ("nixkeep_backup_age_seconds",) not in figures(store, "ann"), "a state that is none is no figure"
        allowed(store)


def allowed(store):
    """Who may read the figures, and what the monitor may besides: nothing."""
    status = lambda user, *words: ask(store.place, user, *words)[0]
    assert status("eve", "GET", "/metrics") == 403, "a stranger may not"
    assert curl("--unix-socket", store.place, "http://red/metrics")[0] == 400, "nor who says nobody"
    for line in ("GET /paths", "GET /metrics/x", "GET /metrics?x", "POST /metrics", "POST /collect",
                 "GET /overview/day"):
        assert status("prometheus", *line.split()) == 403, "the monitor may read nothing else, nor change anything"


def test_health(unit):
    """Without a login one learns whether the store answers, and nothing else."""
    with unit() as store:
        get = lambda *more: curl("--unix-socket", store.place, *more, "http://red/health")
        assert get() == (200, b'{"store": "answers"}\n'), "it is well"
        assert ask(store.place, "eve", "GET", "/health")[0] == 200, "also for a stranger"
        assert get("-X", "POST")[0] == 400, "but nothing is sent there"
        time.sleep(2.1)
        os.kill(pid := store.server(), signal.SIGSTOP)
        began = time.monotonic()
        assert get() == (503, b'{"store": "doesn\'t answer"}\n'), "a server that hangs isn't"
        assert time.monotonic() - began < 200, "which is said in time"
        os.kill(pid, signal.SIGCONT)
        parts.until("it is well again", lambda: get()[0] == 200, 60)


def test_the_record_of_changes(unit):
    """Each request that may change something is one line: who, when, what it names, and what came of it."""
    with unit() as store:
        sent = lambda user, *words: ask(store.place, user, *words)
        path = sent("ann", "POST", "/text", text("one"))[1].decode().strip()
        base = path[11:]
        assert sent("ann", "GET", "/paths")[0] == 200, "a read"
        assert len(store.records()) == 1, "has no line"
        sent("ann", "POST", "/root/user/ann/mine", body(("path", path)))
        sent("bob", "DELETE", "/root/user/ann/mine")
        sent("eve", "POST", "/collect")
        sent("bob", "POST", "/delete", body(("path", path)))
        sent("build", "POST", "/runtime", body(("root", f"/proc/1/exe {path}")))
        sent("bob", "POST", '/x","user":"root')
        archive = nar.archive(b"uploaded")
        name, made = file_name(archive), f"/nix/store/{'3' * 32}-uploaded"
        sent("build", "PUT", f"/nar/{name}", archive)
        for user in ("ann", "build"):
            sent(user, "PUT", f"/{made[11:43]}.narinfo", record(made, archive, name))
        keys, records = ("user", "method", "route", "status", "paths"), store.records()
        assert [tuple(map(entry.get, keys)) for entry in records] == [
            ("ann", "POST", "text", 200, [base]), ("ann", "POST", "root", 200, [base]),
            ("bob", "DELETE", "root", 403, []), ("eve", "POST", "collect", 403, []),
            ("bob", "POST", "delete", 403, [base]), ("build", "POST", "runtime", 200, [base]),
            ("bob", "POST", "other", 404, []), ("build", "PUT", "nar", 201, []),
            ("ann", "PUT", "record", 403, [made[11:]]), ("build", "PUT", "record", 200, [made[11:]])]
        assert [records[at]["target"] for at in (2, 6)] == ["/root/user/ann/mine", '/x","user":"root'], "as they came"
        assert records[0]["bytes"] == len(text("one")), "bytes are those of the body"
        assert all(re.fullmatch(r"\d{4}-\d\d-\d\dT\d\d:\d\d:\d\d\.\d{3}\+00:00", entry["time"]) for entry in records)


def test_the_record_of_requests_that_do_nothing(unit):
    """They don't make the journal forget others: those that name no user have a line each second, and a line of what
    wasn't done has a short target."""
    with unit() as store:
        began = time.monotonic()
        for _ in range(40):
            answer = ask(store.place, "ann", "POST", "/" + "x" * 3000, b"", "-H", "origin: https://evil.example")
            assert answer == (403, b"denied: other-site\n")
        spent, records = time.monotonic() - began, store.records()
        assert 1 <= len(records) <= 1 + spent < 40
        assert {(entry["user"], entry["status"], len(entry["target"])) for entry in records} == {(None, 403, 300)}
        before = len(records)
        assert ask(store.place, "ann", "POST", "/" + "x" * 3000, b"")[0] == 404
        parts.until("its line", lambda: len(store.records()) > before)
        assert [(entry["user"], len(entry["target"]))
                for entry in store.records()[before:]] == [("ann", 300)], "at once"


def test_the_record_of_a_collection_of_many_paths(unit):
    """A line has the first 100, and how many more there are."""
    with unit() as store:
        for at in range(120):
            ask(store.place, "ann", "POST", "/text", text(f"many{at}"))
        ask(store.place, "build", "DELETE", "/temp/build/4194304")
        freed = ask(store.place, "bob", "POST", "/collect")[1].decode().splitlines()[:-1]
        last = store.records()[-1]
    assert (last["user"], last["paths"], last["more"]) == ("bob", [path[11:] for path in freed[:100]], len(freed) - 100)
    assert len(freed) > 100


@pytest.mark.needs("python3-jinja2")
def test_the_page_of_the_last_day(unit, folder):
    """The page of the last day has the figures of what was asked, also after a restart."""
    with unit() as store:
        page = lambda user="ann": ask(store.place, user, "GET", "/overview/day")
        assert page("eve")[0] == 403, "a stranger is denied"
        for at in range(3):
            ask(store.place, "bob", "POST", "/text", text(f"t{at}"))
        cells = lambda of: re.search(rf'>{of}</th><td class="n">(\d+)</td>\s*<td class="n">(\d+)<', page()[1].decode())
        assert cells("bob").groups() == ("3", "3"), "three adds of bob are three requests and three changes"
        assert cells("text").groups() == ("3", "3"), "so are those of the route"
        assert b"There is no copy of the last two days" in page()[1], "there is no copy, and it says so"
        store.end()
        store.start()
        assert cells("bob").groups() == ("3", "3"), "a restart forgets none"
        store.end()
        file = Path(f"{folder}/waiting/day.json")
        kept = json.loads(file.read_text())
        of_words = json.dumps([{**kept[0], "sums": dict.fromkeys(kept[0]["sums"], "x")}])
        kept[0]["since"] -= 2 * 86_400
        for what, given in [("one that was cut off", file.read_text()[:50]), ("one that is no list", "7"),
                            ("one of other figures", '[{"since": 1, "sums": {}, "routes": {}, "users": {}}]'),
                            ("one of words", of_words), ("one of two days ago", json.dumps(kept))]:
            file.write_text(given)
            store.start()
            assert (page()[0], cells("bob")) == (200, None), f"a file of figures, {what}: it is left out"
            store.end()
        store.start()
