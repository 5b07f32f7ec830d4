"""What the program prints for a command line, and the status that it exits with."""
from types import SimpleNamespace

from . import archives, payloads, policy, server, texts
from .store import Store, checked_text, few_references, request_of
from .tables import Database
from .texts import Refused, base_of, is_store_name, refuse
from .worlds import World

# For each subcommand: its flags, its options with a value, and the least and the greatest number of further words.
MANY = 100_000
FORMS = {
    **dict.fromkeys("who ls import runtime list roots live dead report".split(), ((), (), 0, 0)),
    **dict.fromkeys(["text-path", "source-path", "add-text", "add-source"], ((), (), 1, MANY)),
    **dict.fromkeys(["info", "cat-nar", "why"], ((), (), 1, 1)),
    **dict.fromkeys(["profile", "temp"], ((), ("owner",), 2, 3)),
    "root": (("permanent",), (), 2, 2),
    "unroot": (("permanent",), ("owner",), 1, 1),
    "gc": (("ignore-liveness",), ("max-freed",), 0, 0),
    "delete": (("ignore-liveness",), (), 1, MANY),
    "serve": ((), ("port", "connections"), 0, 0),
}
COMMON = ("db", "config", "user", "group")
STATUS = {"done": 0, "refused": 3, "denied": 4}


class Usage(Exception):
    """The words are no command line."""


class Failed(Exception):
    """A file can't be read."""


def divided(words, flags, options, most, has_values=True):
    """The flags and options among words, and the other words, up to a number of these; and what is left.

    After `--` only values come; where the other word is a subcommand, there are none."""
    given, others, words, is_over = {}, [], [*words], False
    while words and len(others) < most:
        word = words.pop(0)
        name, equals, value = word[2:].partition("=")
        if is_over or word == "-" or not word.startswith("-"):
            others.append(word)
        elif word == "--" and has_values:
            is_over = True
        elif word[:2] != "--" or name not in (*flags, *options) or name in given or name in flags and equals:
            raise Usage
        else:
            given[name] = True if name in flags else value if equals else value_of(words)
    return given, others, words


def value_of(words):
    """The value of an option, which is the next word."""
    if not words or words[0].startswith("-") and words[0] != "-":
        raise Usage
    return words.pop(0)


def require(fact):
    if not fact:
        raise Usage


def command_of(words):
    """The command that the words name: its common options, its subcommand, its own flags and options, its values."""
    common, positional, words = divided(words, (), COMMON, 1, has_values=False)
    require(positional and positional[0] in FORMS)
    flags, options, least, most = FORMS[positional[0]]
    given, values, rest = divided(words, flags, options, most + 1)
    require(least <= len(values) <= most and not rest)
    check_own(positional[0], given, values)
    return SimpleNamespace(common=common, word=positional[0], given=given, values=values)


def check_own(word, given, values):
    """Raises a usage error for what the number of words alone doesn't decide."""
    if word == "profile":
        require(values[0] in ("set", "rollback", "switch", "delete"))
        require(len(values) == (2 if values[0] == "rollback" else 3))
    if word == "temp":
        require(values[0] in ("add", "end") and len(values) == (3 if values[0] == "add" else 2))
    require(word != "unroot" or not {"permanent", "owner"} <= given.keys())
    require(word != "gc" or payloads.limit_of(given.get("max-freed", "0")) is not None)
    require(word != "serve" or "connections" not in given or "port" in given)


def owner_of(command, caller):
    return command.given.get("owner", caller.name)


def root_request(command, caller, store_dir):
    path = base_of(store_dir, command.values[1])
    if "permanent" in command.given:
        return request_of("set-permanent", name=command.values[0], path=path)
    return request_of("set-user-root", owner=caller.name, name=command.values[0], path=path)


def unroot_request(command, caller):
    if "permanent" in command.given:
        return request_of("drop-permanent", name=command.values[0])
    return request_of("drop-user-root", owner=owner_of(command, caller), name=command.values[0])


def profile_request(command, caller, store_dir):
    action, name, *value = command.values
    fields = {"owner": owner_of(command, caller), "name": name}
    if action == "set":
        return request_of("set-profile", **fields, path=base_of(store_dir, value[0]))
    if action == "rollback":
        return request_of("rollback", **fields)
    number = server.number_of(value[0], 9999)
    return request_of("switch" if action == "switch" else "delete-generation", **fields, number=number)


def temp_request(command, caller, store_dir):
    action, session, *path = command.values
    fields = {"owner": owner_of(command, caller), "session": server.number_of(session, 4_194_304)}
    if action == "add":
        return request_of("add-temporary", **fields, path=base_of(store_dir, path[0]))
    return request_of("end-session", **fields)


def name_and_references(command, store_dir):
    name, *references = command.values
    refuse(12, not is_store_name(name))
    return name, [base_of(store_dir, reference) for reference in references]


def add_request(command, store_dir, given):
    name, references = name_and_references(command, store_dir)
    field = "contents" if command.word == "add-text" else "archive"
    return request_of(command.word, name=name, references=references, **{field: given})


def removal_request(command, store_dir):
    ignores = "ignore-liveness" in command.given
    if command.word == "gc":
        limit = command.given.get("max-freed")
        return request_of("collect", ignore_liveness=ignores, limit=None if limit is None else payloads.limit_of(limit))
    return request_of("delete", ignore_liveness=ignores, paths=[base_of(store_dir, value) for value in command.values])


NAMED = {"info": "info", "cat-nar": "archive", "why": "roots-of"}


def request(command, caller, store_dir, given):
    """The request of a command with this standard input."""
    word = command.word
    if word in ("add-text", "add-source"):
        return add_request(command, store_dir, given)
    if word in ("import", "runtime"):
        return payloads.request(store_dir, "import" if word == "import" else "replace-runtime", given)
    if word in NAMED:
        return request_of(NAMED[word], path=base_of(store_dir, command.values[0]))
    if word in ("gc", "delete"):
        return removal_request(command, store_dir)
    if word == "unroot":
        return unroot_request(command, caller)
    if word in ("root", "profile", "temp"):
        make = {"root": root_request, "profile": profile_request, "temp": temp_request}[word]
        return make(command, caller, store_dir)
    return request_of(word)


def who(config, caller):
    word = policy.class_of(config, caller)
    says = "denied: connect" if word == "stranger" else "connect: yes"
    return f"class: {word}\n{says}\n".encode(), b"", 4 if word == "stranger" else 0


def path_text(command, store_dir, given):
    name, references = name_and_references(command, store_dir)
    few_references(references)
    if command.word == "text-path":
        checked_text(given)
        base = texts.text_path(store_dir, name, references, given)
    else:
        archives.read(given)
        base = texts.source_path(store_dir, name, references, given)
    return f"{store_dir}/{base}\n".encode()


class Machine:
    """The files that the program sees: configurations as bytes, and databases."""

    def __init__(self, configs: dict[str, bytes], databases: dict):
        self.configs, self.databases = configs, databases

    def config(self, command: SimpleNamespace) -> dict | None:
        name = command.common.get("config")
        if name is not None and name not in self.configs:
            raise Failed
        return policy.config_of(self.configs[name] if name is not None else b"")

    def store(self, command: SimpleNamespace, config: dict) -> Store:
        name = command.common.get("db")
        if name is None:
            return Store(config, World())
        return Store(config, self.databases.setdefault(name, Database({})).open(config["store-dir"]))

    def run(self, words: list[str], given: bytes) -> tuple[bytes, bytes, int]:
        """Standard output, standard error and status; None is a text that the model doesn't know."""
        try:
            command = command_of(words)
        except Usage:
            return b"", None, 2
        try:
            return self.run_command(command, given)
        except Failed:
            line, status = b"failed: file\n", 1
        except Refused as refused:
            line, status = refused.line().encode(), 3
        return (line, b"", status) if command.word == "who" else (b"", line, status)

    def run_command(self, command: SimpleNamespace, given: bytes) -> tuple[bytes, bytes, int] | None:
        config = self.config(command)
        if command.word in ("text-path", "source-path"):
            return path_text(command, config["store-dir"], given), b"", 0
        if command.word == "ls":
            return archives.listing(archives.read(given)).encode(), b"", 0
        if command.word == "serve":
            replies, _ = server.serve(self.store(command, config), given)
            return b"".join(replies), b"", 0
        caller = policy.caller_of(command.common.get("user"), command.common.get("group"))
        if command.word == "who":
            return who(config, caller)
        store = self.store(command, config)
        reply = store.call(caller, request(command, caller, store.dir, given))
        outputs = (reply.text, b"") if reply.outcome == "done" else (b"", reply.text)
        return *outputs, STATUS[reply.outcome]
