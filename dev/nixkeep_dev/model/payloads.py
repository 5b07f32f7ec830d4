"""Bodies of requests: lines `KEY: VALUE`, an empty line, and a payload."""
import re
from types import SimpleNamespace
from typing import Any

from .store import request_of
from .texts import Refused, address_of, base_of, digest_of, is_store_name, refuse

LIMIT = 2**64 - 1
ONE, OPTIONAL, MANY = "one", "optional", "many"


def name(_, text):
    refuse(41, not is_store_name(text))
    return text


def path(store_dir, text):
    return base_of(store_dir, text)


def digest(_, text):
    decoded = digest_of(text, "sha256:")
    refuse(41, decoded is None)
    return decoded


def address(_, text):
    address_of(text)
    return text


def root(store_dir, text):
    label, space, target = text.partition(" ")
    refuse(41, not space)
    return label, base_of(store_dir, target)


def truth(_, text):
    refuse(41, text not in ("true", "false"))
    return text == "true"


def limit_of(text: str) -> int | None:
    """The number of bytes that a text gives, or None where it is no such text."""
    is_right = re.fullmatch("0|[1-9][0-9]{0,19}", text) and int(text) <= LIMIT
    return int(text) if is_right else None


def limit(_, text):
    count = limit_of(text)
    refuse(41, count is None)
    return count


ADD = {"name": (ONE, "name", name), "reference": (MANY, "references", path)}
IMPORT = {
    "path": (ONE, "path", path),
    "nar-hash": (ONE, "digest", digest),
    "reference": (MANY, "references", path),
    "deriver": (OPTIONAL, "deriver", path),
    "ca": (OPTIONAL, "address", address),
}
PATH = {"path": (ONE, "path", path)}
IGNORE = {"ignore-liveness": (OPTIONAL, "ignore_liveness", truth)}
# For each kind of request with a body: its keys, and the field that holds the payload.
FORMS = {
    "add-text": (ADD, "contents"),
    "add-source": (ADD, "archive"),
    "import": (IMPORT, "archive"),
    **dict.fromkeys(["set-permanent", "set-user-root", "set-profile", "add-temporary"], (PATH, None)),
    "replace-runtime": ({"root": (MANY, "pairs", root)}, None),
    "collect": ({**IGNORE, "max-freed": (OPTIONAL, "limit", limit)}, None),
    "delete": ({"path": (MANY, "paths", path), **IGNORE}, None),
}


def lines_of(body):
    """Key and value of each line, and the payload."""
    pairs, rest = [], body or b"\n"
    while True:
        line, end, rest = rest.partition(b"\n")
        refuse(41, not end)
        if not line:
            return pairs, rest
        try:
            key, colon, value = line.decode().partition(": ")
        except UnicodeDecodeError as error:
            raise Refused(41) from error
        refuse(41, not colon)
        pairs.append((key, value))


def values_of(store_dir, count, values, read):
    """The value of a field of a request, from all values of its key."""
    refuse(41, count == ONE and len(values) != 1 or count == OPTIONAL and len(values) > 1)
    payloads = [read(store_dir, value) for value in values]
    return payloads if count == MANY else payloads[0] if payloads else None


def request(store_dir: str, kind: str, body: bytes, **fields: Any) -> SimpleNamespace:
    """The request of this kind with this body; the fields given here come from the target."""
    keys, payload = FORMS.get(kind, ({}, None))
    lines, rest = lines_of(body)
    refuse(41, not {key for key, _ in lines} <= keys.keys() or rest and not payload)
    try:
        for key, (count, field, read) in keys.items():
            fields[field] = values_of(store_dir, count, [value for other, value in lines if other == key], read)
    except Refused as refused:
        raise Refused(41) from refused
    return request_of(kind, **fields, **({payload: rest} if payload else {}))
