"""Requests by wrk on processors of its own, so that the client isn't what is measured."""
import os
import re
import subprocess
import sys

# A server, its proxy and wrk each have a processor where there are three.
PROCESSORS = sorted(os.sched_getaffinity(0))
SERVER, PROXY, CLIENT = (PROCESSORS[-at % len(PROCESSORS)] for at in (3, 2, 1))
# wrk by a script has a half of them, and what it asks the other.
HALF = len(PROCESSORS) // 2
SERVERS, CLIENTS = PROCESSORS[:HALF] or PROCESSORS, PROCESSORS[HALF:]
SECONDS = {"us": 1e-6, "ms": 1e-3, "s": 1, "m": 60, "h": 3600}


def on(processor: int | list[int], *words: str) -> list[str]:
    """A command that runs on one processor, or on some."""
    some = processor if isinstance(processor, list) else [processor]
    return ["taskset", "-c", ",".join(map(str, some)), *words]


class Load:
    """A run of wrk: requests a second, percentiles of the time of a reply in seconds, and replies that weren't 200
    or didn't come. A script says itself what it asks, in two threads."""

    def __init__(self, port: int, target: str = "", clients: int = 1, seconds: float = 3, script: str | None = None):
        words = on(CLIENTS, "wrk", "-t2", "--timeout", "30s", "-s", script) if script else on(CLIENT, "wrk", "-t1")
        words += [f"-c{clients}", f"-d{seconds}s", "--latency"]
        words += [] if script else ["--timeout", "10s", "-H", "store-user: root"]
        ran = subprocess.run([*words, f"http://127.0.0.1:{port}{target}"], capture_output=True, text=True)
        if ran.returncode:
            sys.exit(f"wrk: {ran.stdout}{ran.stderr}")
        self.rate = float(re.search(r"Requests/sec: +([\d.]+)", ran.stdout)[1])
        matches = re.findall(r"^ +(50|99)% +([\d.]+)(us|ms|s|m|h) *$", ran.stdout, re.M)
        self.percentiles = {int(part): float(number) * SECONDS[unit] for part, number, unit in matches}
        wrong = re.findall(r"Non-2xx or 3xx responses: (\d+)|(?:connect|read|write|timeout) (\d+)", ran.stdout)
        self.wrong = sum(int(one or other) for one, other in wrong)
        self.each = 1 / self.rate if self.rate else float("inf")
