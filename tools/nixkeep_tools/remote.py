"""The subcommands of `nixkeep` over HTTP: the request of each, and what is printed of the reply.

The words are tested in the order of `nixkeep`. What only the server can test, it tests, and its reply is printed, with
an escape for each byte that no store's text has. No route of a server returns the class of a caller, or whether a full
path is in the store directory. Where nixkeep-cache doesn't answer that, both are found out by requests that are always
denied or refused, so they change nothing.
"""
from __future__ import annotations

# (os.path: see `credentials`)
import os

from . import credentials, nar, paths, streams, subcommands
from .command_line import Line, Printed
from .failures import DENIED, DONE, FAILED, REFUSED, Stop, refused
from .http_client import MOST_OF_BODY, Foreign, Place, Server
from .progress import Progress

# (for hints alone: see `http_connection`)
TYPE_CHECKING = False
if TYPE_CHECKING:
    from collections.abc import Mapping

# The bytes of an archive that decide what it is, the most bytes of a text, and those that decide whether it is one.
MOST_OF_ARCHIVE = nar.LIMIT + 8
MOST_OF_TEXT = nar.LIMIT - 112
DECIDING_OF_TEXT = MOST_OF_TEXT + 1
MOST_REFERENCES = 4_096
# A name that isn't plain may not fit into a target. This one isn't plain either, and does.
NOT_PLAIN = "-"
CONNECTS = "connect: yes\n"
OUTPUT = "failed: output"
# What the reply to a bad name of a permanent root says of the caller.
CLASSES = {
    "denied: connect\n": "stranger",
    "denied: trusted-permanent-root\n": "allowed",
    "refused: 34 bad-root-name\n": "trusted",
}
# What nixkeep-cache answers to those who may connect.
ANSWERS = [f"class: {kind}\n{CONNECTS}" for kind in ("allowed", "trusted")]


class Request:
    """A request: its method, its target, and its body, which is bytes and then an input if there is one."""

    def __init__(self, method: str, target: str, head: bytes = b"", given: streams.Input | None = None):
        self.method, self.target, self.head, self.given = method, target, head, given


# ---- values


def _plain(text):
    return text if paths.is_plain_name(text) else NOT_PLAIN


def _number(text, most):
    """The text if it is a number of 1 to `most`, else `0`, which is no generation and no session."""
    return text if text != "0" and subcommands.is_decimal(text, most) else "0"


def _base(text):
    """The base name at the end of a path text."""
    folder, slash, base = text.rpartition("/")
    if not paths.is_base_name(base) or (slash and not paths.is_store_dir(folder)):
        raise refused(14, "bad-store-path")
    return base


def _lines(*pairs):
    return "".join(f"{key}: {value}\n" for key, value in pairs).encode() + b"\n"


class Call:
    """A command line, with the server and the caller that it names."""

    def __init__(self, line: Line, environ: Mapping[str, str]):
        self.line, self.values = line, line.values
        self.option = lambda name, variable: line.options.get(name, environ.get(variable))
        self.store_dir = self.option("store-dir", "NIXKEEP_STORE_DIR")
        if self.store_dir is not None and not paths.is_store_dir(self.store_dir):
            raise Stop(f"failed: store-dir: {self.store_dir!r} is no store directory")
        self.user, colon, self.group = line.options.get("as", "").partition(":")
        self.is_named, self.has_group = "as" in line.options, bool(colon)
        self._server, self.environ = None, environ

    # ---- the server

    def fields(self) -> dict[str, str]:
        """The header fields that name the caller."""
        if not self.is_named:
            return {}
        if not paths.is_plain_name(self.user) or self.has_group and not paths.is_plain_name(self.group):
            raise refused(20, "bad-caller")
        return {"store-user": self.user, **({"store-group": self.group} if self.has_group else {})}

    def server(self) -> Server:
        if not self._server:
            fields, url = self.fields(), self.option("server", "NIXKEEP_SERVER")
            if not url:
                raise Stop("failed: server: none is named; --server URL or NIXKEEP_SERVER says which")
            place = Place(url)
            login = credentials.of_place(place, self.option("credentials", "NIXKEEP_CREDENTIALS_FILE"))
            self._server = Server(place, fields, login, self.option("ca", "NIXKEEP_CA"))
        return self._server

    def me(self) -> str:
        """The name by which the server knows the caller."""
        own = self.user if self.is_named else self.option("me", "NIXKEEP_USER")
        return _plain(own or credentials.user_of(self._server.credentials))

    # ---- what is asked

    def owner(self) -> str:
        owner = self.values.get("owner")
        return self.me() if owner is None else _plain(owner)

    def base(self) -> str:
        """The base name of the path, which is tested to be one of the server's."""
        text = self.values["path"]
        base = _base(text)
        if text != base and not self.is_ours(text):
            raise refused(14, "bad-store-path")
        return base

    def is_ours(self, text):
        """Whether a full path is in the store directory. The server is asked by a deletion that nobody may do."""
        if self.store_dir is not None:
            return text.rpartition("/")[0] == self.store_dir
        head = _lines(("path", text), ("ignore-liveness", "true"))
        try:
            return self.server().ask("POST", "/delete", head).refusal() != 41
        except Foreign:
            # A proxy may pass on nothing but reading.
            return True

    def request(self) -> Request:
        """The Request of the subcommand."""
        name = self.line.name
        if name in ("list", "live", "dead", "roots", "report"):
            return Request("GET", {"list": "/paths"}.get(name, f"/{name}"))
        return getattr(self, "ask_" + name.replace("-", "_"))()

    def path(self, name: str = "path") -> bytes:
        """The head of a body that names a path."""
        _base(self.values[name])
        return _lines(("path", self.values[name]))

    def ask_info(self):
        return Request("GET", f"/info/{self.base()}")

    def ask_cat_nar(self):
        return Request("GET", f"/nar/{self.base()}")

    def ask_why(self):
        return Request("GET", f"/roots-of/{self.base()}")

    def added(self, target: str, most: int) -> Request:
        name, refs = self.values["name"], self.values["reference"]
        if not paths.is_store_name(name):
            raise refused(12, "bad-store-name")
        for ref in refs:
            _base(ref)
        given = streams.Input(most)
        head = _lines(("name", name), *(("reference", ref) for ref in refs))
        # With too many references the server doesn't look at the archive, and the body might be too long.
        return Request("POST", target, head, given if len(refs) <= MOST_REFERENCES else None)

    def ask_add_text(self):
        return self.added("/text", DECIDING_OF_TEXT)

    def ask_add_source(self):
        return self.added("/source", MOST_OF_ARCHIVE)

    def ask_import(self):
        # The archive of a longer body is above the limit of a store, but not of a nixkeep-cache with blobs.
        given = streams.Input(MOST_OF_BODY)
        if given.length == MOST_OF_BODY and self.server().takes_large():
            given.extend()
        return Request("POST", "/import", b"", given)

    def ask_runtime(self):
        return Request("POST", "/runtime", b"", streams.Input(MOST_OF_BODY + 1))

    def root(self) -> str:
        name = _plain(self.values["name"])
        return f"/root/permanent/{name}" if "permanent" in self.values else f"/root/user/{self.owner()}/{name}"

    def ask_root(self):
        head = self.path()
        return Request("POST", self.root(), head)

    def ask_unroot(self):
        return Request("DELETE", self.root())

    def ask_profile(self):
        action, of = self.values["action"], f"{self.owner()}/{_plain(self.values['name'])}"
        if action == "set":
            return Request("POST", f"/profile/{of}", self.path("value"))
        if action == "rollback":
            return Request("POST", f"/rollback/{of}")
        number = _number(self.values["value"], 9_999)
        if action == "switch":
            return Request("POST", f"/switch/{of}/{number}")
        return Request("DELETE", f"/generation/{of}/{number}")

    def ask_temp(self):
        target = f"/temp/{self.owner()}/{_number(self.values['session'], 4_194_304)}"
        return Request("POST", target, self.path()) if self.values["action"] == "add" else Request("DELETE", target)

    def ask_gc(self):
        pairs = [("ignore-liveness", "true")] * ("ignore-liveness" in self.values)
        pairs += [("max-freed", self.values["max-freed"])] if "max-freed" in self.values else []
        return Request("POST", "/collect", _lines(*pairs))

    def ask_delete(self):
        for path in self.values["path"]:
            _base(path)
        pairs = [("ignore-liveness", "true")] * ("ignore-liveness" in self.values)
        return Request("POST", "/delete", _lines(*(("path", path) for path in self.values["path"]), *pairs))


# ---- answers


def _sent(call, request):
    """The reply to a request. Its input is sent as it is read."""
    given = request.given
    if not given:
        return call.server().ask(request.method, request.target, request.head)
    progress = Progress("sent", given.length)

    def body():
        yield request.head
        yield from progress.over(given.parts())

    return call.server().ask(request.method, request.target, body(), len(request.head) + given.length)


def _print(reply, is_text):
    """Prints a reply, and returns the exit status. Raises Stop if the request wasn't done."""
    if reply.status != DONE:
        raise Stop(reply.text().rstrip("\n"), reply.status)
    parts = Progress("received", reply.length or 0).over(reply.parts())
    streams.write(streams.shown(parts) if is_text else parts)
    return DONE


def store_command(call):
    """Asks the server for the subcommand, and prints its reply."""
    call.server()
    request = call.request()
    reply = _sent(call, request)
    if reply.refusal() == 41 and call.line.name not in ("import", "runtime"):
        # Everything else in the body is tested before it is sent.
        raise refused(14, "bad-store-path")
    return _print(reply, call.line.name != "cat-nar")


def who(call):
    """Prints the class of the caller, which nixkeep-cache answers. A server alone has no route for it; there the reply
    to a bad name of a permanent root shows it."""
    reply = call.server().ask("GET", "/who")
    text = reply.text()
    if reply.status == DONE and text in ANSWERS:
        streams.write([text.encode()])
        return DONE
    if reply.refusal() == 39:
        reply = call.server().ask("DELETE", f"/root/permanent/{NOT_PLAIN}")
        text = reply.text()
    if text not in CLASSES:
        raise Stop(text.rstrip("\n"), reply.status)
    is_stranger = CLASSES[text] == "stranger"
    streams.write([f"class: {CLASSES[text]}\n{text if is_stranger else CONNECTS}".encode()])
    return DENIED if is_stranger else DONE


def ls(_):
    """Prints the listing of the archive on standard input."""
    try:
        lines = [*nar.listing(streams.received(MOST_OF_ARCHIVE))]
    except nar.Fault as fault:
        raise refused(fault.number, fault.name) from None
    streams.write(["".join(f"{line}\n" for line in lines).encode()])
    return DONE


def object_path(call):
    """Prints the path of the text or the source on standard input."""
    import hashlib

    values, folder = call.values, call.store_dir or paths.STORE
    try:
        name = paths.store_name(values["name"])
        refs = [paths.base_name(reference, folder) for reference in values["reference"]]
    except paths.Malformed as fault:
        raise refused(fault.number, fault.name) from None
    if len(refs) > MOST_REFERENCES:
        raise refused(33, "too-many-references")
    digest, is_text = hashlib.sha256(), call.line.name == "text-path"

    def parts():
        for part in streams.received(DECIDING_OF_TEXT if is_text else MOST_OF_ARCHIVE):
            digest.update(part)
            yield part

    if is_text:
        kind = "text"
        if sum(map(len, parts())) > MOST_OF_TEXT:
            raise refused(8, "too-large")
    else:
        kind, fault = "source", nar.check(parts())
        if fault:
            raise refused(fault.number, fault.name)
    streams.write([f"{folder}/{paths.path_of(kind, digest.digest(), name, refs, folder)}\n".encode()])
    return DONE


# The subcommands that don't print the reply to one request.
OWN = {"ls": ls, "text-path": object_path, "source-path": object_path, "who": who}


def say(line, status, is_who):
    """Prints the line of a failure, which `who` prints as its answer, and returns the exit status."""
    if not is_who:
        return status if streams.say(line) else FAILED
    try:
        streams.write([f"{line}\n".encode()])
        return status
    except Stop:
        return FAILED


def run(words, title):
    """Runs a command line, and returns the exit status."""
    is_who = False
    try:
        line = subcommands.read(words, title)
        is_who = line.name == "who"
        return OWN.get(line.name, store_command)(Call(line, os.environ))
    except Printed as printed:
        text = printed.text.encode("utf-8", "backslashreplace")
        streams.write([text], 1 if printed.status == DONE else 2)
        return printed.status
    except Stop as stop:
        # The failures of the client itself are on standard error always.
        return say(stop.line, stop.status, is_who and (stop.status == REFUSED or stop.line == OUTPUT))
    except MemoryError:
        return say("failed: memory", FAILED, is_who)


def main(words: list[str]) -> int:
    """The program: `words` are its name and the words of its command line."""
    streams.keep_closed()
    try:
        return run(words[1:], os.path.basename(words[0]))
    except Stop as stop:
        # A text of usage or of help couldn't be written.
        streams.say(stop.line)
        return stop.status
    except KeyboardInterrupt:
        return 130
