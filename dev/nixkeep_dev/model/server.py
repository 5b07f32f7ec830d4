"""What a server answers to a stream of HTTP messages."""
import re

from . import payloads
from .policy import Caller, caller_of, class_of
from .store import Reply, Store
from .texts import Refused, is_base, refuse

HEAD, FIELDS, BODY = 16_384, 64, 20_971_520
TOKEN = rb"[!#$%&'*+\-.^_`|~0-9A-Za-z]+"
FIELD = re.compile(rb"(" + TOKEN + rb"):([\t\x20-\x7e\x80-\xff]*)\r?\n")
LINE = rb"(" + TOKEN + rb") ([\x21-\x7e\x80-\xff]+) HTTP/1\.([01])\r?\n"
MESSAGE = re.compile(rb"(?:\r?\n)*" + LINE + rb"((?:" + TOKEN + rb":[\t\x20-\x7e\x80-\xff]*\r?\n)*)\r?\n")
PHRASES = {200: "OK", 400: "Bad Request", 403: "Forbidden", 404: "Not Found", 405: "Method Not Allowed"}
MISSING = (23, 27, 28, 29, 39)
# Each route, and the kind of request for each of its methods, in their order.
ROUTES = {
    "/text": {"POST": "add-text"},
    "/source": {"POST": "add-source"},
    "/import": {"POST": "import"},
    "/info/{path}": {"GET": "info"},
    "/nar/{path}": {"GET": "archive"},
    "/ls/{path}": {"GET": "listing"},
    "/roots-of/{path}": {"GET": "roots-of"},
    "/paths": {"GET": "list"},
    "/roots": {"GET": "roots"},
    "/live": {"GET": "live"},
    "/dead": {"GET": "dead"},
    "/report": {"GET": "report"},
    "/root/permanent/{name}": {"POST": "set-permanent", "DELETE": "drop-permanent"},
    "/root/user/{owner}/{name}": {"POST": "set-user-root", "DELETE": "drop-user-root"},
    "/profile/{owner}/{name}": {"POST": "set-profile"},
    "/rollback/{owner}/{name}": {"POST": "rollback"},
    "/switch/{owner}/{name}/{number}": {"POST": "switch"},
    "/generation/{owner}/{name}/{number}": {"DELETE": "delete-generation"},
    "/temp/{owner}/{session}": {"POST": "add-temporary", "DELETE": "end-session"},
    "/runtime": {"POST": "replace-runtime"},
    "/collect": {"POST": "collect"},
    "/delete": {"POST": "delete"},
}
PATTERNS = [
    (re.compile(re.sub(r"\{(\w+)\}", r"(?P<\1>[^/]+)", route), re.S), methods) for route, methods in ROUTES.items()
]


def number_of(text: str, most: int) -> int:
    """The number from 1 to the given one that a text gives without a leading zero; 0 for any other text."""
    match = re.fullmatch("[1-9][0-9]{0,8}", text)
    return int(text) if match and int(text) <= most else 0


def head_of(stream: bytes) -> tuple | None:
    """Method, target, minor version, fields and length of the head at the beginning of a stream."""
    match = MESSAGE.match(stream[:HEAD])
    refuse(36, not match)
    fields = [(name.lower(), value.strip(b" \t")) for name, value in FIELD.findall(match[4])]
    refuse(36, len(fields) > FIELDS)
    try:
        target = match[2].decode()
    except UnicodeDecodeError as error:
        raise Refused(36) from error
    return match[1].decode(), target, match[3], fields, match.end()


def values_of(fields, name):
    return [value for other, value in fields if other == name]


def length_of(fields: list[tuple[bytes, bytes]]) -> int:
    """The length of the body."""
    sizes = values_of(fields, b"content-length")
    refuse(37, values_of(fields, b"transfer-encoding") or len(sizes) > 1)
    refuse(37, sizes and not re.fullmatch(rb"[0-9]+", sizes[0]))
    digits = sizes[0].lstrip(b"0") if sizes else b""
    refuse(38, len(digits) > 8 or int(digits or b"0") > BODY)
    return int(digits or b"0")


def caller_in(fields: list[tuple[bytes, bytes]]) -> Caller:
    users, groups = values_of(fields, b"store-user"), values_of(fields, b"store-group")
    refuse(20, len(users) != 1 or len(groups) > 1)
    text = lambda value: value.decode("latin-1")
    return caller_of(text(users[0]), text(groups[0]) if groups else None)


def route_of(target: str) -> tuple | None:
    """The methods of a target's route, and its parameters."""
    for pattern, methods in PATTERNS:
        match = pattern.fullmatch(target)
        if match:
            return methods, match.groupdict()
    raise Refused(39)


def read_parameters(given):
    refuse(14, "path" in given and not is_base(given["path"]))
    if "number" in given:
        given["number"] = number_of(given["number"], 9999)
    if "session" in given:
        given["session"] = number_of(given["session"], 4_194_304)


def refusal(number):
    return Reply("refused", number, Refused(number).line().encode())


def answer(store: Store, method: str, target: str, fields: list[tuple], body: bytes) -> tuple:
    """The reply to a whole message, the value of the field `allow`, and whether the text is an archive."""
    try:
        caller = caller_in(fields)
        if class_of(store.config, caller) == "stranger":
            return Reply("denied", None, b"denied: connect\n"), None, False
        methods, given = route_of(target)
        if method not in methods:
            return refusal(40), ", ".join(methods), False
        read_parameters(given)
        request = payloads.request(store.dir, methods[method], body, **given)
    except Refused as refused:
        return refusal(refused.number), None, False
    reply = store.call(caller, request)
    return reply, None, request.kind == "archive" and reply.outcome == "done"


def status_of(reply: Reply) -> int:
    if reply.outcome == "done":
        return 200
    if reply.outcome == "denied":
        return 403
    return 404 if reply.number in MISSING else 405 if reply.number == 40 else 400


def reply_bytes(reply, allow, is_archive, closes):
    status = status_of(reply)
    lines = [f"HTTP/1.1 {status} {PHRASES[status]}"]
    lines.append(f"content-type: {'application/octet-stream' if is_archive else 'text/plain'}")
    lines += [f"allow: {allow}"] * (allow is not None) + ["connection: close"] * closes
    lines.append(f"content-length: {len(reply.text)}")
    return "".join(line + "\r\n" for line in [*lines, ""]).encode() + reply.text


def serve(store: Store, stream: bytes) -> tuple[list, bool]:
    """The replies to a stream, and whether the server closed the connection before its end."""
    replies, closes = [], False
    while stream and not closes:
        try:
            method, target, minor, fields, size = head_of(stream)
            end = size + length_of(fields)
            refuse(37, end > len(stream))
        except Refused as refused:
            closes = True
            replies.append(reply_bytes(refusal(refused.number), None, False, True))
            break
        closes = minor == b"0" or b"close" in [value.lower() for value in values_of(fields, b"connection")]
        replies.append(reply_bytes(*answer(store, method, target, fields, stream[size:end]), closes))
        stream = stream[end:]
    return replies, closes
