"""The command line of `nixkeep-backup`."""
import argparse
import os
import signal
import time

from . import backup_check, backup_fetch, backup_file, backup_folder, backup_restore, credentials, objects, paths
from . import stopping, store_file, streams, version
from .count_of import count_of
from .failures import FAILED, Stop, reason
from .http_client import Place, Server
from .notify import notify

DESCRIPTION = """\
Copies a store into a folder of dated copies, each of which is tested before it has its name. `copy` copies the file
while nothing has it open; `check` says before whether its server may be stopped for that. `fetch` copies through a
running server. `restore` puts a store back from a copy. `before-migration` keeps a file of an earlier schema."""
EPILOG = """exit statuses: 0 done, 1 failed, 2 usage, 3 refused, 4 denied, 130 interrupted"""
SECONDS, MOST_SECONDS = 3_600, 1 << 30


def parser():
    top = argparse.ArgumentParser(prog="nixkeep-backup", description=DESCRIPTION, epilog=EPILOG, allow_abbrev=False,
                                  formatter_class=argparse.RawDescriptionHelpFormatter)
    version.add_to(top)
    actions = top.add_subparsers(dest="action", metavar="ACTION", required=True)
    add_check(actions)
    add_copy(actions)
    add_fetch(actions)
    add_restore(actions)
    about = "copy a file of an earlier schema next to itself, before it is migrated"
    action(actions, "before-migration", about).add_argument("--db", required=True, metavar="FILE",
                                                            help="the file of the store")
    return top


def action(actions, name, about):
    made = actions.add_parser(name, help=about, description=f"{about[0].upper()}{about[1:]}.", allow_abbrev=False)
    made.add_argument("--config", metavar="FILE", help="the configuration of the store")
    made.add_argument("--program", metavar="FILE", help="the program nixkeep")
    return made


def add_check(actions):
    made = action(actions, "check", "test that a server may be stopped, and could start again")
    made.add_argument("--db", required=True, metavar="FILE", help="the file of the store")
    made.add_argument("--server", required=True, metavar="URL", help="the server: http://HOST:PORT or unix:/PATH")
    made.add_argument("--unit", metavar="UNIT", help="the server's unit, whose memory has to be enough")
    made.add_argument("--note", metavar="FILE", help="a file for the server's report, for `copy`")


def seconds(text):
    """A time limit: a number of seconds that a timer can be set to."""
    if not 1 <= (number := int(text)) <= MOST_SECONDS:
        raise ValueError
    return number


def add_to(made):
    made.add_argument("--to", required=True, metavar="FOLDER", help="the folder of the copies")
    made.add_argument("--state", metavar="FILE", help="a file for what this run did, and when")
    made.add_argument("--seconds", type=seconds, default=SECONDS, metavar="N", help=f"a time limit [{SECONDS}]")


def add_copy(actions):
    made = action(actions, "copy", "copy the file of a store, which nothing has open")
    made.add_argument("--db", required=True, metavar="FILE", help="the file of the store")
    made.add_argument("--note", metavar="FILE", help="what `check` has noted: the report that the copy has to have")
    add_to(made)


def add_fetch(actions):
    made = action(actions, "fetch", "copy a store through its running server")
    made.add_argument("--server", metavar="URL", help="the server: http://HOST:PORT, https://HOST or unix:/PATH")
    made.add_argument("--as", dest="caller", metavar="USER[:GROUP]",
                      help="the caller, for a server without a proxy [a trusted one of the configuration]")
    made.add_argument("--credentials", metavar="FILE", help="a line USER:PASSWORD or Bearer TOKEN")
    made.add_argument("--ca", metavar="FILE", help="certificates to trust, in place of the system's")
    add_to(made)


def add_restore(actions):
    made = action(actions, "restore", "put a store back from a copy, with its units stopped")
    made.add_argument("--folder", metavar="FOLDER", help="the folder of the store [/var/lib/nixkeep/NAME]")
    made.add_argument("name", metavar="NAME", help="the name of the store")
    made.add_argument("copy", metavar="COPY", help="a file that `copy` or `fetch` has made")


# ---- copies


def limit(seconds):
    """Stops the run with a line once it takes that long, or a signal ends it: so it leaves no half of a copy."""

    def ring(*_):
        raise Stop(f"failed: time: it took more than {seconds} seconds")

    signal.signal(signal.SIGALRM, ring)
    signal.alarm(seconds)
    stopping.by_signals("copy")


def of_file(words: argparse.Namespace, path: str) -> tuple[int, int]:
    """Copies the file. The server may start again, so systemd is notified, before the copy is tested."""
    wanted = backup_check.wanted(words.note, words.db)
    backup_file.copy(words.db, path)
    of_store = backup_file.rows(words.db)
    notify("READY=1")
    counted = backup_file.test(path, words.config, backup_file.program_of(words), wanted)
    if counted != of_store:
        raise Stop(f"failed: test: {path}: the store has other objects")
    return counted


def source_of(words):
    """The store that is copied, as a trusted caller, where no proxy says who asks."""
    url = words.server or os.environ.get("NIXKEEP_SERVER")
    if not url:
        raise Stop("failed: server: none is named; --server URL or NIXKEEP_SERVER says which")
    place = Place(url)
    login = credentials.of_place(place, words.credentials or os.environ.get("NIXKEEP_CREDENTIALS_FILE"))
    table, fields = backup_file.settings(words.config), {}
    if words.caller or not login:
        user, colon, group = (words.caller or "").partition(":")
        user, group = (user, group if colon else None) if user else backup_file.caller(table)
        if not all(map(paths.is_plain_name, filter(None, (user, group)))):
            raise Stop("refused: 20 bad-caller", 3)
        fields = {"store-user": user, **({"store-group": group} if group else {})}
    server = Server(place, fields, login, words.ca or os.environ.get("NIXKEEP_CA"))
    return objects.Store(server, "root", table.get("store-dir", paths.STORE)), table


def of_server(words, path):
    source, table = source_of(words)
    program = backup_file.program_of(words)
    try:
        done = backup_fetch.fetch(source, program, table, path)
    finally:
        source.close()
    return backup_file.test(path, words.config, program, done.report)


def add_copy_by(words, make):
    """Adds a copy to the folder, writes the state, and returns the line that is printed."""
    began, counted = time.time(), []
    # (Path.is_dir raises an error in a folder that the caller may not look at)
    if words.state and os.path.isdir(words.state):
        raise Stop(f"failed: state: {words.state}: it is a folder")
    limit(words.seconds)
    try:
        name, deleted = backup_folder.add(words.to, lambda path: counted.extend(make(words, path)))
    except (Stop, OSError, MemoryError) as error:
        note_failure(words.state, line_of(error))
        raise
    finally:
        signal.alarm(0)
    count, size = counted
    if words.state:
        backup_folder.write_state(words.state, succeeded=int(time.time()), copy=name, objects=count, bytes=size,
                                  seconds=round(time.time() - began, 1))
    gone = f", {len(deleted)} old ones deleted" if deleted else ""
    return f"{words.to}/{name}: {count_of(count, 'object')}, {size} bytes, in {time.time() - began:.1f} seconds{gone}"


def line_of(error):
    """The line of a failure."""
    if isinstance(error, Stop):
        return error.line
    if isinstance(error, MemoryError):
        return "failed: memory"
    return f"failed: file: {error}" if isinstance(error, store_file.Locked) else (
        f"failed: {error.filename or 'file'}: {reason(error)}")


def note_failure(path, line):
    """A failure is in the state, and the last success stays there. Where that can't be written, a line says so, and
    the failure itself is another line."""
    try:
        if path:
            backup_folder.write_state(path, failed=int(time.time()), reason=line)
    except OSError as error:
        streams.say(f"nixkeep-backup: failed: state: {path}: {reason(error)}")


def run(words):
    """Does what the words say, and returns the line that is printed, if any."""
    if words.action == "check":
        return backup_check.check(words)
    if words.action == "restore":
        return backup_restore.restore(words)
    if words.action == "before-migration":
        return backup_file.before_migration(words)
    return add_copy_by(words, of_file if words.action == "copy" else of_server)


def main(words: list[str]) -> int:
    streams.keep_closed()
    os.umask(0o077)
    try:
        line = run(parser().parse_args(words[1:]))
        # (names of files are in it, which others may have chosen)
        streams.write([streams.printable(line).replace("\n", "\\n").encode() + b"\n"] if line else [])
        return 0
    except Stop as stop:
        streams.say(f"nixkeep-backup: {stop.line}")
        return stop.status
    except (OSError, MemoryError) as error:
        streams.say(f"nixkeep-backup: {line_of(error)}")
    except KeyboardInterrupt:
        return 130
    return FAILED
