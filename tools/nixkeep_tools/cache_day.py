"""The figures of the last day, by half hours."""
import collections
import contextlib
import json
import time

from . import whole_file
from .cache_http import READ
from .cache_watching import Seen

# The seconds of a part of the day, the parts of a day, and the users of a part that are counted by name.
SPAN, PARTS, USERS = 1800, 48, 200
# What is summed: of a part, of a route, of a user.
SUMS = ("requests", "changes", "failures", "received", "sent", "seconds", "found", "missing")
OTHERS = "(others)"
# What watches a store is no use of it.
UNCOUNTED = ("health", "metrics")


def empty(since):
    return {"since": since, "sums": dict.fromkeys(SUMS, 0), "slowest": 0, "routes": {}, "users": {}}


def sums_of(by_name, name):
    """The sums of a route or of a user, which begin with the first request."""
    if name not in by_name:
        by_name[name] = dict.fromkeys(SUMS, 0)
    return by_name[name]


def is_part(part):
    """Whether a part that was read is one: this file is no store, and may have been cut off."""
    sums = [part.get("sums"), *part.get("routes", {}).values(), *part.get("users", {}).values()]
    is_number = lambda value: isinstance(value, (int, float))
    is_all = all(set(each) == set(SUMS) and all(map(is_number, each.values())) for each in sums)
    return isinstance(part.get("since"), int) and is_number(part.get("slowest")) and is_all


class Day:
    """The parts of the last day, the oldest first. They are in a file, so that a restart loses a minute of them."""

    def __init__(self, file: str):
        self.file, self.parts = file, []
        with contextlib.suppress(OSError, ValueError, AttributeError, TypeError):
            with open(file, encoding="ascii") as text:
                self.parts = [part for part in json.load(text) if is_part(part)]

    def now(self) -> dict:
        """The part of now. Those that are older than a day are dropped."""
        since = int(time.time()) // SPAN * SPAN
        if not self.parts or self.parts[-1]["since"] < since:
            self.parts.append(empty(since))
        while self.parts[0]["since"] <= since - SPAN * PARTS:
            del self.parts[0]
        return self.parts[-1]

    def observe(self, seen: Seen) -> None:
        if seen.route in UNCOUNTED:
            return
        part, caller, is_read = self.now(), seen.request.get("caller"), seen.request.method in READ
        is_lookup = seen.route == "record" and is_read
        values = (1, int(not is_read), int(seen.status >= 500), seen.received, seen.sent, seen.seconds,
                  int(is_lookup and seen.status == 200), int(is_lookup and seen.status == 404))
        added = [(key, value) for key, value in zip(SUMS, values) if value]
        user = caller.user if caller else "-"
        user = user if user in part["users"] or len(part["users"]) < USERS else OTHERS
        for sums in (part["sums"], sums_of(part["routes"], seen.route), sums_of(part["users"], user)):
            for key, value in added:
                sums[key] += value
        part["slowest"] = max(part["slowest"], seen.seconds)

    def save(self) -> None:
        """Writes the file, whole or not at all. What can't be written is lost at a restart."""
        with contextlib.suppress(OSError):
            whole_file.write(self.file, json.dumps(self.parts), 0o600)

    def spans(self) -> list[dict]:
        """The parts of the whole day, also those without a request, the oldest first."""
        last = self.now()["since"]
        by_start = {part["since"]: part for part in self.parts}
        times = [last - SPAN * at for at in reversed(range(PARTS))]
        return [by_start.get(since) or empty(since) for since in times]

    def together(self, key: str) -> list[tuple[str, dict]]:
        """The sums of the day by route or by user, those with most requests first."""
        by_name = collections.defaultdict(lambda: dict.fromkeys(SUMS, 0))
        for part in self.parts:
            for name, sums in part[key].items():
                for word in SUMS:
                    by_name[name][word] += sums[word]
        return sorted(by_name.items(), key=lambda pair: (-pair[1]["requests"], pair[0]))

    def sums(self) -> dict:
        parts = self.spans()
        total = {word: sum(part["sums"][word] for part in parts) for word in SUMS}
        return total | {"slowest": max(part["slowest"] for part in parts)}
