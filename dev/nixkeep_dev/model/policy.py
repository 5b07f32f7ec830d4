"""Configurations, callers, and which rule a request breaks first."""
import tomllib
from collections import namedtuple
from types import SimpleNamespace

from .texts import Refused, is_plain_name, is_store_dir, refuse

LIMIT = 1_048_576
Caller = namedtuple("Caller", "name group")


def is_entry(value):
    return type(value) is str and (value == "*" or is_plain_name(value.removeprefix("@")))


def is_user(value):
    return type(value) is str and is_plain_name(value)


def is_list_of(is_item):
    return lambda value: type(value) is list and all(map(is_item, value))


def are_groups(value):
    is_members = is_list_of(is_user)
    return type(value) is dict and all(is_plain_name(name) and is_members(users) for name, users in value.items())


# Each key in the order of the tests: its default, and whether a value is right.
KEYS = {
    "store-dir": ("/nix/store", lambda value: type(value) is str and is_store_dir(value)),
    "allowed-users": (["*"], is_list_of(is_entry)),
    "trusted-users": (["root"], is_list_of(is_entry)),
    "keep-outputs": (False, lambda value: type(value) is bool),
    "keep-derivations": (True, lambda value: type(value) is bool),
    "groups": ({}, are_groups),
}


def config_of(data: bytes) -> dict | None:
    """The value of each key, from the text of a configuration."""
    refuse(19, len(data) > LIMIT, "syntax")
    try:
        tree = tomllib.loads(data.decode())
    except ValueError as error:
        raise Refused(19, "syntax") from error
    refuse(19, not tree.keys() <= KEYS.keys(), "unknown-key")
    for key, (_, is_right) in KEYS.items():
        refuse(19, key in tree and not is_right(tree[key]), key)
    return {key: tree.get(key, default) for key, (default, _) in KEYS.items()}


def caller_of(name: str | None, group: str | None) -> Caller:
    """A caller; name and group are texts or None."""
    refuse(20, name is None or not is_plain_name(name) or group is not None and not is_plain_name(group))
    return Caller(name, group)


def matches(entries, groups, caller):
    mine = {name for name, users in groups.items() if caller.name in users} | {caller.group} - {None}
    return "*" in entries or caller.name in entries or any("@" + group in entries for group in mine)


def class_of(config: dict, caller: Caller) -> str:
    for word, key in ("trusted", "trusted-users"), ("allowed", "allowed-users"):
        if matches(config[key], config["groups"], caller):
            return word
    return "stranger"


def broken_rule(config: dict, caller: Caller, request: SimpleNamespace) -> str | None:
    """The word of the first rule that a request breaks, or None; the rule on live paths isn't among them."""
    word = class_of(config, caller)
    is_trusted = word == "trusted"
    may_name_others = is_trusted and request.kind in ("drop-user-root", "delete-generation", "end-session")
    broken = {
        "connect": word == "stranger",
        "trusted-import": request.kind == "import" and request.address is None and not is_trusted,
        "trusted-permanent-root": request.kind in ("set-permanent", "drop-permanent") and not is_trusted,
        "trusted-runtime-roots": request.kind == "replace-runtime" and not is_trusted,
        "own-root": getattr(request, "owner", caller.name) != caller.name and not may_name_others,
        "no-ignore-liveness": getattr(request, "ignore_liveness", False),
    }
    return next((rule for rule, is_broken in broken.items() if is_broken), None)
