"""Explains why nixkeep refuses a store file: the table, the row and the rule of each fault."""
import argparse
import collections
# (the caller may not be allowed to look at the file, and then Path raises an error)
import os.path
import sys
import tomllib

from . import explain_file, explain_log, explain_rescue, explain_usage, paths, store_file, version
from .count_of import count_of
from .explain_schema import DAMAGED, shown
from .explain_verdict import BAD_SCHEMA, Examined
from .failures import Stop

BAD_CONFIG = "19 bad-config"
SOUND, FAILED, _, REFUSED = range(4)

HELP = """exit statuses:
  0  nixkeep opens the file: a sound store, or a database to which it adds its tables
  1  failed: there is no such file, or the folder of --rescue can't be written
  2  the command line is wrong
  3  nixkeep refuses the file; the first line has its answer. With --log: commits of the log may be lost
"""

# What a configuration says that decides on a file and on what is live.
Settings = collections.namedtuple("Settings", "store_dir keep_outputs keep_derivers")


class Stopped(Exception):
    """The end of a run: its line on standard error, and its status."""

    def __init__(self, line, status):
        super().__init__(line)
        self.line, self.status = line, status


def settings(path):
    """The Settings of a configuration file, or the defaults without one."""
    table = {}
    if path:
        try:
            with open(path, "rb") as file:
                table = tomllib.load(file)
        except ValueError as error:
            raise Stopped(f"{path}: refused: {BAD_CONFIG} syntax: {error}", REFUSED) from None
    outputs, derivers = table.get("keep-outputs", False), table.get("keep-derivations", True)
    read = Settings(table.get("store-dir", paths.STORE), outputs, derivers)
    if not isinstance(read.store_dir, str) or not paths.is_store_dir(read.store_dir):
        raise Stopped(f"{path}: refused: {BAD_CONFIG} store-dir", REFUSED)
    for key, value in (("keep-outputs", outputs), ("keep-derivations", derivers)):
        if not isinstance(value, bool):
            raise Stopped(f"{path}: refused: {BAD_CONFIG} {key}", REFUSED)
    return read


# ---- what is printed


def printable(text):
    """A text with each character that isn't printable as an escape: names in a file may come from anybody."""
    return "".join(char if char.isprintable() else ascii(char)[1:-1] for char in text)


def say(line, file=None):
    print(printable(line), file=file)


def print_verdict(file, examined, config):
    """Prints what nixkeep answers and each fault; returns the status."""
    refusal = examined.refusal(config.store_dir)
    say(f"{file}: refused: {refusal}" if refusal else f"{file}: {examined.description()}")
    for fault in examined.faults:
        say(f"  {shown(fault.table, fault.row)}: {fault.rule}")
    if examined.names and not examined.are_rows_tested:
        say("  no row is tested, since the tables are not those of one schema")
    if log := explain_log.line(file)[0]:
        say(f"  {log}")
    if not refusal and examined.foreign:
        names = ", ".join(examined.foreign)
        say(f"  of other programs: {names}; nixkeep refuses the file if its own SQLite can't read them")
    return REFUSED if refusal else SOUND


def nothing_to_rescue(file):
    return Stopped(f"{file}: failed: nothing to rescue: no object can be read", FAILED)


def print_rescue(folder, file, examined):
    if not examined.names or not examined.objects.objects:
        raise nothing_to_rescue(file)
    try:
        rescued = explain_rescue.rescue(folder, file, examined)
    except OSError as error:
        raise Stopped(f"failed: {error.strerror}: {error.filename or folder}", FAILED) from None
    except Stop as stop:
        raise Stopped(stop.line, FAILED) from None
    what = f"{count_of(rescued.objects, 'object')}, {count_of(rescued.roots, 'root')}"
    say(f"{folder}: {what}; sh {folder}/restore NEW.db makes a store of them")
    for what, why in rescued.left_out:
        say(f"  left out: {what}: {why}")


def print_usage(file, conn, examined, config):
    if not examined.names or examined.faults:
        say(f"{file}: no usage: not a sound store")
        return
    say("")
    for line in explain_usage.lines(store_file.read(conn), config.keep_outputs, config.keep_derivers):
        say(line)


# ---- the command


def parser() -> argparse.ArgumentParser:
    top = argparse.ArgumentParser(prog="nixkeep-explain", description=__doc__, epilog=HELP, allow_abbrev=False,
                                  formatter_class=argparse.RawDescriptionHelpFormatter)
    version.add_to(top)
    top.add_argument("--config", metavar="FILE", help="the configuration that nixkeep is called with")
    top.add_argument("--log", action="store_true", help="print a line if some of the log doesn't count, and no more")
    top.add_argument("--usage", action="store_true", help="print who keeps how much, and what generations would free")
    top.add_argument("--rescue", metavar="FOLDER", help="write all sound objects and their roots to a new folder")
    top.add_argument("file", metavar="FILE", help="the store: the file that nixkeep --db names")
    return top


def explain_tables(words, config):
    """Prints all that the tables of the file say, and returns the status."""
    with store_file.open_store(words.file, despite_lock=True) as conn:
        examined = Examined(conn, words.file)
        status = print_verdict(words.file, examined, config)
        if words.rescue:
            print_rescue(words.rescue, words.file, examined)
        if words.usage:
            print_usage(words.file, conn, examined, config)
    return status


def explain_the_log(file):
    """Prints a line if a part of the log doesn't count, and returns the status."""
    if not os.path.exists(file):
        raise Stopped(f"{file}: there is no such file; nixkeep would make a store there", FAILED)
    line, is_lost = explain_log.line(file)
    if line:
        say(f"{file}: {line}")
    return REFUSED if is_lost else SOUND


def explain(words):
    """Prints the explanation, and returns the status."""
    if words.log:
        return explain_the_log(words.file)
    config = settings(words.config)
    reasons = explain_file.of_path(words.file)
    for reason in reasons:
        say(f"{words.file}: refused: {BAD_SCHEMA}: {reason.text}")
    if not all(reason.is_readable for reason in reasons):
        return REFUSED
    if not os.path.exists(words.file):
        raise Stopped(f"{words.file}: failed: there is no such file; nixkeep would make a store there", FAILED)
    before = store_file.stamps(words.file)
    try:
        status = explain_tables(words, config)
    except DAMAGED as error:
        say(f"{words.file}: refused: {BAD_SCHEMA}: {explain_file.unreadable(words.file, error)}")
        if words.rescue:
            raise nothing_to_rescue(words.file) from None
        return REFUSED
    if store_file.stamps(words.file) != before:
        say(f"{words.file}: written while it was read, so this may be out of date: run it again")
    return REFUSED if reasons else status


def main(arguments: list[str]) -> int:
    words = parser().parse_args(arguments)
    for stream in (sys.stdout, sys.stderr):
        if hasattr(stream, "reconfigure"):
            # (the terminal's encoding may not have a character)
            stream.reconfigure(errors="backslashreplace")
    try:
        status = explain(words)
        sys.stdout.flush()
        return status
    except Stopped as stopped:
        say(stopped.line, sys.stderr)
        return stopped.status
    except OSError as error:
        if not isinstance(error, BrokenPipeError):
            say(f"failed: {error.strerror}: {error.filename or 'standard output'}", sys.stderr)
        # (what standard output has not taken is not tried again at the end)
        sys.stdout = None
        return FAILED
