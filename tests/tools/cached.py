"""A store as its units run it, with nixkeep-cache before it, and requests to that."""
from typing import Any

from nixkeep_dev.testing import nar
from parts import body, curl

CONFIG = 'allowed-users = ["ann", "bob"]\ntrusted-users = ["build"]\n'


def ask(place: str, user: str, method: str, target: str, given: bytes | None = None, *more: str) -> tuple[int, bytes]:
    sent = ["--data-binary", "@-"] if given is not None else []
    return curl("--unix-socket", place, "-H", f"store-user: {user}", *sent, *more, "-X", method, f"http://red{target}",
                given=given)


def text(name: str, contents: bytes = b"x") -> bytes:
    return body(("name", name), payload=contents)


def file_name(data: bytes, suffix: str = "") -> str:
    """The name by which a client uploads a file."""
    return f"{nar.digest(data)}.nar{suffix}"


def record(path: str, archive: bytes, name: str, *more: tuple[str, str], compression: str = "none") -> bytes:
    """A record as a client uploads it."""
    lines = [("StorePath", path), ("URL", f"nar/{name}"), ("Compression", compression),
             ("NarHash", nar.nar_hash(archive)), ("NarSize", len(archive)), *more]
    return "".join(f"{key}: {value}\n" for key, value in lines).encode()


def figures(store: Any, user: str = "prometheus") -> dict:
    """The figures of /metrics, by Prometheus's own parser: values by name and labels."""
    from prometheus_client.parser import text_string_to_metric_families

    status, page = ask(store.place, user, "GET", "/metrics")
    assert status == 200
    values = {}
    for family in text_string_to_metric_families(page.decode()):
        for sample in family.samples:
            labels = [sample.labels[key] for key in ("method", "route", "status", "found", "le")
                      if key in sample.labels]
            values[sample.name, *labels] = sample.value
    return values
