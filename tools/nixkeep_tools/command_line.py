"""Command lines in the grammar of `nixkeep`, with the texts of its usage errors and of its help.

argparse has another grammar: it abbreviates options, lets them be repeated, and drops `--` from the values. Here an
option is given once. Its value is the next word, or follows `=`. Options belong to the command before them. After `--`
every word is a value. One thing of `nixkeep` is missing: no similar words are suggested for a faulty one.
"""
from __future__ import annotations

# (for hints alone: see `http_connection`)
TYPE_CHECKING = False
if TYPE_CHECKING:
    from collections.abc import Iterable

POSITIONAL = ("required", "optional", "any", "some")
HELP = "Print this message or the help of the given subcommand(s)"
MORE = "For more information, try '--help'."
SHORT = {"help": "-h", "version": "-V"}


class Printed(Exception):
    """A usage error or a request for help: the text that is printed, and the exit status."""

    def __init__(self, text: str, status: int = 2):
        super().__init__(text)
        self.text, self.status = text, status


class Argument:
    """An argument of a command.

    `kind` is flag, option, required, optional, any (any number of values) or some (one value at least). `value` is the
    word for the value in a usage line.
    """

    def __init__(self, name: str, kind: str, value: str | None, about: str):
        self.name, self.kind, self.value, self.about = name, kind, value, about


class Line:
    """A command line that was read: the values of the options before the subcommand, the name of that, and the values
    of its arguments by their names."""

    def __init__(self, options: dict[str, str], name: str, values: dict):
        self.options, self.name, self.values = options, name, values


class Command:
    """A command, its arguments, and its subcommands by name. `requests` are its options that ask for a text."""

    def __init__(self, name: str, about: str, *arguments: Argument, commands: Iterable["Command"] = (),
                 has_version: bool = False):
        self.name, self.about, self.arguments = name, about, arguments
        self.requests = ("help", "version") if has_version else ("help",)
        self.commands = {command.name: command for command in commands}
        self.options = {argument.name: argument for argument in arguments if argument.kind not in POSITIONAL}
        self.positional = [argument for argument in arguments if argument.kind in POSITIONAL]


def flag(name: str, text: str) -> Argument:
    return Argument(name, "flag", None, text)


def option(name: str, value: str, text: str) -> Argument:
    return Argument(name, "option", value, text)


def required(name: str, text: str) -> Argument:
    return Argument(name, "required", name.upper(), text)


def optional(name: str, text: str) -> Argument:
    return Argument(name, "optional", name.upper(), text)


# ---- texts


def shown(argument):
    """An argument as it is written in a usage line."""
    if argument.kind == "flag":
        return f"--{argument.name}"
    if argument.kind == "option":
        return f"--{argument.name} <{argument.value}>"
    marks = {"required": "<{}>", "optional": "[{}]", "any": "[{}]...", "some": "<{}>..."}
    return marks[argument.kind].format(argument.value)


def usage(command, title, used=None):
    """The usage line of a command, with the options that are used, or `[OPTIONS]` if `used` is None."""
    if used is None:
        words = ["[OPTIONS]"] * bool(command.options) + ["[COMMAND]"] * bool(command.commands)
    else:
        words = [shown(argument) for argument in command.options.values() if argument.name in used]
        words += [f"--{name}" for name in command.requests if name in used]
    return " ".join(["Usage:", title, *words, *map(shown, command.positional)])


def fault(text, line=None, tip=None):
    return Printed("".join(f"{part}\n\n" for part in (f"error: {text}", tip and f"  tip: {tip}", line) if part)
                   + f"{MORE}\n")


def columns(rows):
    width = max(len(left) for left, _ in rows)
    return "".join(f"  {left:{width}}  {right}\n" for left, right in rows)


def help_text(command, title):
    options = [(f"    {shown(argument)}", argument.about) for argument in command.options.values()]
    parts = [f"{command.about}\n\n{usage(command, title)}\n"]
    if command.commands:
        rows = [(subcommand.name, subcommand.about) for subcommand in command.commands.values()]
        parts.append(f"Commands:\n{columns([*rows, ('help', HELP)])}")
    if command.positional:
        parts.append(f"Arguments:\n{columns([(shown(argument), argument.about) for argument in command.positional])}")
    requests = [(f"{SHORT[name]}, --{name}", f"Print {name}") for name in command.requests]
    parts.append(f"Options:\n{columns([*options, *requests])}")
    return Printed("\n".join(parts), 0)


def answer(command, title, request):
    """What an option that asks for a text prints."""
    if request == "help":
        return help_text(command, title)
    from . import version
    return Printed(f"{version.line(command.name)}\n", 0)


def help_of(top, title, words):
    """The help of the subcommand that the words after `help` name."""
    command = top
    for word in words:
        if word == "help" and command is top:
            arguments = "Arguments:\n  [COMMAND]...  Print help for the subcommand(s)"
            return Printed(f"{HELP}\n\nUsage: {title} help [COMMAND]...\n\n{arguments}\n", 0)
        if word not in command.commands:
            return fault(f"unrecognized subcommand '{word}'", usage(command, title))
        command, title = command.commands[word], f"{title} {word}"
    return help_text(command, title)


# ---- reading


class Reader:
    """A reader of the words of one command, an iterator, up to its subcommand if it has any.

    `values` holds what was read, by names, `given` the values without an option. `waiting` is an option whose value
    comes next.
    """

    def __init__(self, command, title, words):
        self.command, self.title, self.words = command, title, words
        self.values, self.waiting, self.is_escaped, self.given = {}, None, False, []

    def unexpected(self, word, used, tip=None):
        return fault(f"unexpected argument '{word}' found", usage(self.command, self.title, used), tip)

    def lacks(self):
        return fault(f"a value is required for '{shown(self.waiting)}' but none was supplied")

    def used(self) -> set[str] | None:
        """The names of the options so far, or None if there is no word so far."""
        return {*self.values} if self.values or self.given else None

    def put(self, argument: Argument, value: str | bool) -> None:
        if argument.name in self.values:
            line = usage(self.command, self.title)
            raise fault(f"the argument '{shown(argument)}' cannot be used multiple times", line)
        self.values[argument.name] = value

    def unknown(self, word, used):
        tip = f"to pass '{word}' as a value, use '-- {word}'" if self.command.positional else None
        return self.unexpected(word, used, tip)

    def long(self, word: str) -> None:
        """Reads `--NAME`, `--NAME=VALUE`, or the first word of `--NAME VALUE`."""
        name, has_value, value = word[2:].partition("=")
        option, is_request = self.command.options.get(name), name in self.command.requests
        if not option and not is_request:
            raise self.unknown(f"--{name}", self.used())
        if self.waiting:
            raise self.lacks()
        if has_value and (is_request or option.kind == "flag"):
            line = usage(self.command, self.title, {*self.values, name})
            raise fault(f"unexpected value '{value}' for '--{name}' found; no more were expected", line)
        if is_request:
            raise answer(self.command, self.title, name)
        if option.kind == "flag":
            self.put(option, True)
        elif has_value:
            self.put(option, value)
        else:
            self.waiting = option

    def short(self, word):
        requests = [name for name in self.command.requests if word.startswith(SHORT[name])]
        if not requests:
            raise self.unknown(word[:2], None)
        if self.waiting:
            raise self.lacks()
        raise answer(self.command, self.title, requests[0])

    def value(self, word: str) -> bool:
        """Reads a word without a hyphen, and returns whether it is the subcommand."""
        if self.waiting and not self.is_escaped:
            argument, self.waiting = self.waiting, None
            self.put(argument, word)
        elif self.command.commands:
            return self.subcommand(word)
        else:
            self.given.append(word)
            many = self.command.positional and self.command.positional[-1].kind in ("any", "some")
            if len(self.given) > len(self.command.positional) and not many:
                raise self.unexpected(word, None)
        return False

    def subcommand(self, word):
        is_known = word in self.command.commands or word == "help"
        line = usage(self.command, self.title)
        if self.is_escaped:
            tip = f"subcommand '{word}' exists; to use it, remove the '--' before it" if is_known else None
            raise fault(f"unexpected argument '{word}' found", line, tip)
        if word == "help":
            raise help_of(self.command, self.title, self.words)
        if not is_known:
            raise fault(f"unrecognized subcommand '{word}'", line)
        return True

    def read(self) -> str | None:
        """Reads words up to the subcommand, and returns its name; None if there is no subcommand."""
        for word in self.words:
            if self.is_escaped or word == "-" or not word.startswith("-"):
                if self.value(word):
                    return word
            elif word == "--":
                self.is_escaped = True
            elif word.startswith("--"):
                self.long(word)
            else:
                self.short(word)
        if self.waiting:
            raise self.lacks()
        return None

    def place(self) -> None:
        """Gives the values without an option to their arguments."""
        given, missing = [*self.given], []
        for argument in self.command.positional:
            if argument.kind in ("any", "some"):
                self.values[argument.name] = [*given]
                missing += [argument] * (argument.kind == "some" and not given)
            elif given:
                self.values[argument.name] = given.pop(0)
            else:
                missing += [argument] * (argument.kind == "required")
        if missing:
            names = "".join(f"\n  {shown(argument)}" for argument in missing)
            line = usage(self.command, self.title, {*self.values})
            raise fault(f"the following required arguments were not provided:{names}", line)


def read(top: Command, title: str, words: list[str]) -> Line:
    """The Line of the words. Raises Printed. `title` is the name of the program in its texts."""
    try:
        for word in words:
            word.encode()
    except UnicodeEncodeError:
        raise Printed("error: a word of the command line isn't UTF-8\n") from None
    reader = Reader(top, title, iter(words))
    name = reader.read()
    if name is None:
        raise misuse(top, title, "no subcommand is named")
    own = Reader(top.commands[name], f"{title} {name}", reader.words)
    own.read()
    own.place()
    return Line(reader.values, name, own.values)


def misuse(command: Command, title: str, text: str) -> Printed:
    """The usage error of words of a command that don't go together."""
    return fault(text, usage(command, title))
