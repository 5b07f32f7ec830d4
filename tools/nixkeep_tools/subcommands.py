"""The command line of `nixkeep-remote`: the subcommands of `nixkeep`, and the options before them."""
from . import command_line
from .command_line import Argument, Command, Line, flag, option, optional, required

# The name of the value of an ACTION, how each is written that wants one, and how each that doesn't.
ACTIONS = {
    "profile": ("value", {"set": "set NAME PATH", "switch": "switch NAME N", "delete": "delete NAME N"},
                {"rollback": "rollback NAME"}, "set, rollback, switch and delete"),
    "temp": ("path", {"add": "add SESSION PATH"}, {"end": "end SESSION"}, "add and end"),
}


def _object(name, about):
    refs = Argument("reference", "any", "REF", "The store paths, full or base names, that it refers to")
    return Command(name, about, required("name", "The name of the store object"), refs)


def _path(name, about):
    return Command(name, about, required("path", "The store path, full or base name"))


PERMANENT = "A permanent root"
COMMANDS = (
    Command("who", "Print the class of the caller, and whether it may connect"),
    Command("ls", "Print the listing of the archive on standard input"),
    Command("import", "Import the object on standard input, with what is said of it"),
    Command("runtime", "Replace the runtime roots by those on standard input"),
    Command("list", "Print all paths"),
    Command("roots", "Print all roots"),
    Command("live", "Print the live paths"),
    Command("dead", "Print the dead paths"),
    Command("report", "Print how many paths are live and dead, and their bytes"),
    _object("text-path", "Print the store path of the contents on standard input"),
    _object("source-path", "Print the store path of the archive on standard input"),
    _object("add-text", "Add the contents on standard input, and print their store path"),
    _object("add-source", "Add the archive on standard input, and print its store path"),
    _path("info", "Print the record of an object"),
    _path("cat-nar", "Print the archive of an object"),
    _path("why", "Print the roots that keep a path alive"),
    Command(
        "root",
        "Set a root",
        flag("permanent", f"{PERMANENT} [default: one of the caller]"),
        required("name", "The name of the root"),
        required("path", "What it keeps alive"),
    ),
    Command(
        "unroot",
        "Drop a root",
        flag("permanent", PERMANENT),
        option("owner", "USER", "Whose root it is [default: the caller's]"),
        required("name", "The name of the root"),
    ),
    Command(
        "profile",
        "Change a profile: set NAME PATH, rollback NAME, switch NAME N, delete NAME N",
        option("owner", "USER", "Whose profile it is [default: the caller's]"),
        Argument("action", "required", "set|rollback|switch|delete", "What happens to the profile"),
        required("name", "The name of the profile"),
        optional("value", "A path to set, the number of a generation to switch to or to delete"),
    ),
    Command(
        "temp",
        "Change a session's temporary roots: add SESSION PATH, end SESSION",
        option("owner", "USER", "Whose session it is [default: the caller's]"),
        Argument("action", "required", "add|end", "What happens to the session's temporary roots"),
        required("session", "The number of the session, 1 to 4,194,304"),
        optional("path", "A path to add"),
    ),
    Command(
        "gc",
        "Collect the dead objects",
        flag("ignore-liveness", "Denied to everyone: dead objects alone are collected"),
        option("max-freed", "N", "Stop once N bytes are freed [default: free all that is dead]"),
    ),
    Command(
        "delete",
        "Delete objects and all that refer to them",
        flag("ignore-liveness", "Denied to everyone: dead objects alone are deleted"),
        Argument("path", "some", "PATH", "The store paths, full or base names"),
    ),
)
TOP = Command(
    "nixkeep-remote",
    "The subcommands of nixkeep, asked of a server over HTTP",
    option("server", "URL", "http://HOST:PORT, https://HOST or unix:/PATH [default: $NIXKEEP_SERVER]"),
    option("as", "USER[:GROUP]", "The caller, for a server without a proxy before it"),
    option("me", "USER", "The name by which a proxy knows you, for roots, profiles and sessions of yours"),
    option("credentials", "FILE", "A line USER:PASSWORD or Bearer TOKEN, in a file that you alone may read"),
    option("ca", "FILE", "Certificates to trust, in place of the system's [default: $NIXKEEP_CA]"),
    option("store-dir", "DIR", "The store directory of the server [default: $NIXKEEP_STORE_DIR, or /nix/store]"),
    commands=COMMANDS,
    has_version=True,
)


def misuse_of(line):
    """What is wrong with a line whose words don't go together, or None."""
    values = line.values
    if line.name in ACTIONS:
        return misuse_of_action(line.name, values)
    if line.name == "unroot" and "permanent" in values and "owner" in values:
        return "a permanent root has no owner: either --permanent or --owner is given"
    if line.name == "gc" and "max-freed" in values and not is_decimal(values["max-freed"], 2**64 - 1):
        return "--max-freed wants a number of bytes below 2^64, in digits without a leading zero"
    return None


def misuse_of_action(name, values):
    value, wanting, without, all_of_them = ACTIONS[name]
    action, has_value = values["action"], value in values
    if action not in wanting and action not in without:
        return f"{name} has no such action: it has {all_of_them}"
    if has_value and action in without:
        return f"there is a value too many: {', '.join(without.values())}"
    if not has_value and action in wanting:
        return f"a value is missing: {', '.join(wanting.values())}"
    return None


def is_decimal(text: str, most: int) -> bool:
    """Whether the text is a number from 0 to `most`, which has at most 20 digits, without a zero before it."""
    is_number = text.isascii() and text.isdigit() and len(text) <= 20
    return is_number and (text == "0" or text[0] != "0") and int(text) <= most


def read(words: list[str], title: str) -> Line:
    """The Line of the words of a command line. Raises Printed. `title` is the name of the program in its texts."""
    line = command_line.read(TOP, title, words)
    misuse = misuse_of(line)
    if misuse:
        raise command_line.misuse(TOP.commands[line.name], f"{title} {line.name}", misuse)
    return line
