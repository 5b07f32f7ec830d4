"""Requests written as HTTP messages and as command lines, with faults of form."""
import itertools
from types import SimpleNamespace

from . import server
from .requests import ADDS, Drawn, Requests
from .values import ODD_STORE_NAMES, STORE_NAMES, USERS, Choices

METHODS = ["HEAD", "get", "PUT", "DELETE", "GET", "POST", "!#$%&'*+-.^_`|~9"]
TARGETS = """/ /nothing /paths/ /paths?x=1 //paths /PATHS * /root/user/ann /info/ /a\u00e9 http://localhost/paths
/root/permanent/ /profile/ann/ /text/x /switch/ann/work /%70aths""".split()
# Ways to write a line of a head: the case of its name, and the white space before and after its value.
FIELD_FORMS = [*itertools.product([str, str.title, str.upper], [" ", "", "\t ", "  "], ["", " ", " \t"])]
FIELDS = ["host: localhost", "host: other", "accept: */*", "x: ", "x:", "x-y: \u00fc\t1", "content-type: text/html"]
CONNECTIONS = ["close", "CLOSE", "close, te", "keep-alive", "", "upgrade"]
# Lines of a body that most often don't belong there.
LINES = ["x: 1", "name", "name:a", "path: ", ": ", "ignore-liveness: true", "max-freed: 1", "reference: x"]
LINES += ["root: a", ""]
# Lines of a head that make the server close the connection.
LENGTHS = [
    "content-length: 0\r\ncontent-length: 0",
    "content-length: +1",
    "content-length:",
    "content-length: -1",
    "content-length: 1,1",
    "content-length: 0x1",
    "content-length: 1 1",
    "content-length: 20971521",
    "content-length: 18446744073709551615",
    "content-length: " + "9" * 30,
    "transfer-encoding: chunked",
    "transfer-encoding: identity\r\ncontent-length: 20971521",
]
# Beginnings of streams that are no heads.
HEADS = [
    "GET /paths\r\n\r\n",
    "GET  /paths HTTP/1.1\r\n\r\n",
    "GET /paths HTTP/1.2\r\n\r\n",
    "GET /paths HTTP/1.1\r\nx : 1\r\n\r\n",
    "GET /a b HTTP/1.1\r\n\r\n",
    "GET /paths HTTP/1.1\r\nx: 1\r\n y\r\n\r\n",
    "GET /paths http/1.1\r\n\r\n",
    "G@T / HTTP/1.1\r\n\r\n",
    " GET /paths HTTP/1.1\r\n\r\n",
    "GET /paths HTTP/1.1\rx: 1\r\n\r\n",
    "GET /paths HTTP/1.1\r\n: 1\r\n\r\n",
    "GET /paths HTTP/1.1\r\nx: \x01\r\n\r\n",
    "GET /paths HTTP/1.1 \r\n\r\n",
    "GET /\x7f HTTP/1.1\r\n\r\n",
    "GET /\xff HTTP/1.1\r\nstore-user: ann\r\n\r\n",
    "GET /paths HTTP/1.1\nstore-user: ann\n\r\r\n",
    "\x16\x03\x01",
]
# What is put among the words of a command line.
ODD_WORDS = ["--flag", "-x", "--owner", "", "x", "--permanent", "--", "-"]
# What may be wrong with a command that opens no database.
FAULTS_OF_STATELESS = [None] * 11 + ["archive", "derivation", "store name", "path", "many references"]


def targets():
    """Method and pattern of the target of each kind of request."""
    return {kind: (method, route) for route, methods in server.ROUTES.items() for method, kind in methods.items()}


TARGET = targets()


def lines_of(request: SimpleNamespace) -> list[str]:
    """The lines of the body of a request."""
    if request.kind in ("add-text", "add-source"):
        return [f"name: {request.name}", *(f"reference: {path}" for path in request.references)]
    if request.kind == "import":
        lines = [f"path: {request.path}", f"nar-hash: {request.digest}",
                 *(f"reference: {path}" for path in request.references)]
        lines += [f"deriver: {request.deriver}"] * (request.deriver is not None)
        return lines + [f"ca: {request.address}"] * (request.address is not None)
    if request.kind == "replace-runtime":
        return [f"root: {label} {path}" for label, path in request.pairs]
    if request.kind in ("collect", "delete"):
        lines = [f"ignore-liveness: {request.ignore}"] * (request.ignore is not None)
        if request.kind == "delete":
            return lines + [f"path: {path}" for path in request.paths]
        return lines + [f"max-freed: {request.limit}"] * (request.limit is not None)
    has_path = request.kind in ("set-permanent", "set-user-root", "set-profile", "add-temporary")
    return [f"path: {request.path}"] * has_path


class Messages(Requests):
    """Makes HTTP messages."""

    def body(self, request: SimpleNamespace) -> bytes:
        lines, payload = [line.encode() for line in lines_of(request)], getattr(request, "payload", b"")
        if "spoiled line" in self.faults:
            self.spoil(lines)
        if not lines and not payload and not self.form.chance(0.3):
            return b""
        lines = self.form.turned(lines) if self.form.chance(0.5) else lines
        body = b"".join(line + b"\n" for line in lines) + b"\n" * ("no empty line" not in self.faults) + payload
        return body + b"x" * ("more bytes" in self.faults)

    def spoil(self, lines):
        """Changes, adds or removes one line of a body."""
        at, change = self.form.number(len(lines) or 1), self.form.number(5)
        if change < 2:
            lines.insert(at, self.form.pick(LINES).encode() if change else self.form.pick([b"x: \xff", b"name: a\r"]))
        elif lines and change == 2:
            lines.insert(at, lines[at])
        elif lines and change == 3:
            del lines[at]
        elif lines:
            line = lines[at]
            lines[at] = self.form.pick([line.upper(), line.replace(b": ", b":"), line + b"\r", b" " + line])

    def target(self, request: SimpleNamespace) -> tuple[str, str]:
        method, route = TARGET[request.kind]
        fields = {name: getattr(request, name, None) or "" for name in ("owner", "name", "number", "session")}
        path = getattr(request, "path", "")
        fields["path"] = path if "store directory" in self.faults else path.removeprefix(self.dir + "/")
        return method, route.format(**fields).replace(" ", "%20").replace("\t", "%09")

    def fields(self, request: SimpleNamespace, body: bytes) -> list[str]:
        """The lines of a head, each in some form."""
        zeros = self.form.pick(["", "", "", "", "0", "000000000000"])
        pairs = [("store-user", request.user)] * ("no user" not in self.faults)
        pairs += [("store-group", request.group)] * (request.group is not None)
        pairs += [("content-length", zeros + str(len(body)))] * (body != b"" or self.form.chance(0.1))
        if "connection" in self.faults:
            pairs += [("connection", value) for value in self.form.some(CONNECTIONS, 2)]
        case, before, after = self.form.pick(FIELD_FORMS) if self.form.chance(0.7) else FIELD_FORMS[0]
        lines = [f"{case(name)}:{before}{value}{after}" for name, value in pairs]
        lines += self.form.some(FIELDS, 3) if self.form.chance(0.3) else []
        if "double field" in self.faults:
            lines += self.form.pick([["store-user: ann"], ["store-group: users", "store-group: users"]])
        return self.form.turned(lines)

    def head(self, request: SimpleNamespace, body: bytes) -> str:
        method, target = self.target(request)
        if "method" in self.faults:
            method = self.form.pick(METHODS)
        if "target" in self.faults:
            target = self.form.pick(TARGETS)
        blank = self.form.pick(["\r\n", "\n", "\r\n\r\n"]) if "blank lines" in self.faults else ""
        lines = self.fields(request, body)
        if "many fields" in self.faults:
            lines += ["x: y"] * self.form.pick([64 - len(lines), 65 - len(lines)])
        version = "HTTP/1.0" if "version" in self.faults else "HTTP/1.1"
        line_end = "\n" if self.form.chance(0.1) else "\r\n"
        return blank + line_end.join([f"{method} {target} {version}", *lines, "", ""])

    def long_head(self, request):
        """A head of the greatest length, or of one byte more."""
        head = f"GET /paths HTTP/1.1\r\nstore-user: {request.user}\r\nx: "
        return head + "y" * (server.HEAD + self.form.number(2) - len(head) - 4) + "\r\n\r\n"

    def message(self, drawn: Drawn, kind: str | None = None) -> bytes:
        """The bytes of a message, which most often carries a request of this kind, or else of one by choice."""
        request = self.request(drawn, kind)
        if "no head" in self.faults:
            return self.form.pick(HEADS).encode("latin-1")
        if "long head" in self.faults:
            return self.long_head(request).encode()
        body = self.body(request)
        head = self.head(request, body)
        if "length" in self.faults:
            head = head.replace("\r\n", f"\r\n{self.form.pick(LENGTHS)}\r\n", 1)
        return head.encode() + body


class Commands(Messages):
    """Makes command lines: the words after the common options, and standard input."""

    def words(self, request: SimpleNamespace) -> list[str]:
        """The words of a request."""
        named, is_joined = getattr(request, "owner", None), self.form.chance(0.5)
        is_named = named is not None and (named != request.user or self.form.chance(0.2))
        owner = ([f"--owner={named}"] if is_joined else ["--owner", named]) * is_named
        made = {
            "add-text": lambda: ["add-text", request.name, *request.references],
            "add-source": lambda: ["add-source", request.name, *request.references],
            "import": lambda: ["import"],
            "replace-runtime": lambda: ["runtime"],
            "info": lambda: ["info", request.path],
            "archive": lambda: ["cat-nar", request.path],
            "listing": lambda: ["info", request.path],
            "roots-of": lambda: ["why", request.path],
            "set-permanent": lambda: ["root", "--permanent", request.name, request.path],
            "drop-permanent": lambda: ["unroot", "--permanent", request.name],
            "set-user-root": lambda: ["root", request.name, request.path],
            "drop-user-root": lambda: ["unroot", *owner, request.name],
            "set-profile": lambda: ["profile", *owner, "set", request.name, request.path],
            "rollback": lambda: ["profile", *owner, "rollback", request.name],
            "switch": lambda: ["profile", *owner, "switch", request.name, request.number],
            "delete-generation": lambda: ["profile", *owner, "delete", request.name, request.number],
            "add-temporary": lambda: ["temp", *owner, "add", request.session, request.path],
            "end-session": lambda: ["temp", *owner, "end", request.session],
            "collect": lambda: ["gc", *(["--max-freed", request.limit] if request.limit is not None else [])],
            "delete": lambda: ["delete", *request.paths],
        }
        words = made.get(request.kind, lambda: [request.kind])()
        if request.kind in ("collect", "delete") and request.ignore == "true":
            words.insert(1, "--ignore-liveness")
        return self.moved(words)

    def moved(self, words: list[str]) -> list[str]:
        """The words, now and then with the flags last, or with `--` before the last word."""
        if self.form.chance(0.1):
            flags = [word for word in words if word in ("--permanent", "--ignore-liveness")]
            return [word for word in words if word not in flags] + flags
        return [*words[:-1], "--", words[-1]] if self.form.chance(0.02) else words

    def input(self, request: SimpleNamespace) -> bytes:
        """The standard input of a command."""
        return self.body(request) if request.kind in ("import", "replace-runtime") else getattr(request, "payload", b"")

    def odd_words(self, words: list[str], by: Choices) -> list[str]:
        """The words with one change that most often makes them no command line."""
        at, change = by.number(len(words) + 1), by.number(3)
        if change == 0:
            return [*words[:at], by.pick(ODD_WORDS), *words[at:]]
        if change == 1 and len(words) > 1:
            return words[:-1]
        return by.pick(["profile keep work", "temp stop 1", "serve --connections 2", "lists", ""]).split()

    def stateless(self, drawn: Drawn) -> tuple[list[str], bytes]:
        """The words and the standard input of a command that opens no database."""
        word, self.form = drawn.aim.pick(["who", "text-path", "source-path", "ls"]), drawn.form
        self.faults = {drawn.form.pick(FAULTS_OF_STATELESS)}
        if word in ("who", "ls"):
            return [word], self.archive(drawn.data) if word == "ls" else b""
        name = self.often("store name", STORE_NAMES, ODD_STORE_NAMES, drawn.aim)
        given = self.contents(drawn.data) if word == "text-path" else self.archive(drawn.data)
        return [word, name, *self.references(drawn.aim)], given

    def common(self, user: str | None, group: str | None, by: Choices) -> list[str]:
        """The common options that say who asks."""
        words = [["--user", user]] * (user is not None and not by.chance(0.01))
        words += [["--group", group]] * (group is not None)
        written = [["=".join(pair)] if by.chance(0.3) else pair for pair in by.turned(words)]
        return [*itertools.chain(*written)]

    def command(self, drawn: Drawn) -> tuple[list[str], bytes]:
        """The words of a command after those of its files, and its standard input."""
        if drawn.aim.chance(0.15):
            words, given = self.stateless(drawn)
            user, group = drawn.aim.pick(USERS), drawn.aim.pick([None, "users"])
        else:
            request = self.request(drawn, self.kind(drawn, ADDS) if drawn.aim.chance(0.3) else None)
            words, given, user, group = self.words(request), self.input(request), request.user, request.group
        if self.form.chance(0.04):
            words = self.odd_words(words, self.form)
        return [*self.common(user, group, self.form), *words], given
