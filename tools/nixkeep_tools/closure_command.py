"""The command line of `nixkeep-closure`."""
import argparse
import os
import sys
from pathlib import Path

from . import credentials, objects, paths, streams, version
from .closures import Transfer, session_of, summary
from .failures import FAILED, REFUSED, Stop
from .http_client import Place, Server
from .real_nix import Nix

DESCRIPTION = """\
Brings closures of Nix into a nixkeep store (push), from there to Nix (pull), or to another nixkeep store
(copy). Objects go references first, and those that are there are left out. A session of temporary roots keeps what is
under way, so a collection can't take it. A command that was stopped goes on when it is given again."""
EPILOG = """\
A URL is http://HOST:PORT, https://HOST or unix:/PATH. A PATH is a store path, a base name, or a link to a store path,
such as ./result. Texts and sources go with their content address, so anybody allowed may push them. Only a trusted
user may push anything else. An archive above 16,777,216 bytes needs a nixkeep-cache that keeps large ones, and is
refused elsewhere before anything is sent.

environment: NIXKEEP_SERVER, NIXKEEP_USER, NIXKEEP_CREDENTIALS, NIXKEEP_CREDENTIALS_FILE and NIXKEEP_CA have the same
meaning as for nixkeep-remote(1)

exit statuses: 0 done, 1 failed, 2 usage, 3 refused, 4 denied, 130 interrupted"""


ROOTS = {
    "push": ("root", "permanent", "profile"),
    "pull": ("root", "profile"),
    "copy": ("root", "permanent", "profile"),
}
DONE = {"push": "pushed", "pull": "pulled", "copy": "copied"}
WAYS = {
    "push": "from Nix into the nixkeep store",
    "pull": "from the nixkeep store to Nix",
    "copy": "from the nixkeep store to another one",
}


def parser() -> argparse.ArgumentParser:
    form = argparse.RawDescriptionHelpFormatter
    top = argparse.ArgumentParser(prog="nixkeep-closure", description=DESCRIPTION, epilog=EPILOG, allow_abbrev=False,
                                  formatter_class=form)
    version.add_to(top)
    place, add = top.add_mutually_exclusive_group(), top.add_argument
    place.add_argument("--server", metavar="URL", help="the nixkeep store of this server")
    place.add_argument("--db", metavar="FILE", help="the nixkeep store in this file, which no server has open")
    add("--config", metavar="FILE", help="the configuration of the database file")
    add("--program", metavar="FILE", help="the program nixkeep, which opens the database file")
    add("--as", dest="caller", metavar="USER[:GROUP]", help="the caller, for a file or a server without a proxy")
    add("--me", metavar="USER", help="the name by which a proxy knows you")
    add("--credentials", metavar="FILE", help="a line USER:PASSWORD or Bearer TOKEN, in a file of your own")
    add("--ca", metavar="FILE", help="certificates to trust, in place of the system's")
    add("--nix-store", metavar="URL", help="the store of Nix, as nix-store takes it after --store")
    add("--session", type=int, metavar="N", help="the session, 1 to 4,194,304 [default: by the paths]")
    add("--dry-run", action="store_true", help="print the objects that would be sent, and send none")
    actions = top.add_subparsers(dest="action", metavar="ACTION", required=True)
    for name, way in WAYS.items():
        about = f"Transfers closures {way}."
        add_action(actions.add_parser(name, help=way, description=about, allow_abbrev=False), name)
    return top


def add_action(action, name):
    if name == "copy":
        action.add_argument("--to", required=True, metavar="STORE", help="the URL of a server, or a database file")
        action.add_argument("--to-config", metavar="FILE", help="the configuration of that database file")
    one, of_nix = action.add_mutually_exclusive_group(), name == "pull"
    for kind in ROOTS[name]:
        text = f"set this {kind} of Nix on PATH at the end" if of_nix else f"set this {kind} on PATH at the end"
        one.add_argument(f"--{kind}", metavar="FILE" if of_nix else "NAME",
                         help=text.replace("permanent", "permanent root"))
    action.add_argument("paths", nargs="+", metavar="PATH")


def top_path(text, folder):
    """The store path that a word names, also by a link to it: its directory and its base name."""
    if paths.is_base_name(text):
        return folder, text
    # (Path.resolve raises an error for a link that leads to itself)
    path = text if _is_full(text) else os.path.realpath(text)
    parts = path.split("/")
    for at, part in enumerate(parts):
        if paths.is_base_name(part) and paths.is_store_dir("/".join(parts[:at])):
            return "/".join(parts[:at]), part
    raise Stop(f"refused: 14 bad-store-path {text}", REFUSED)


def _is_full(text):
    folder, _, base = text.rpartition("/")
    return paths.is_base_name(base) and paths.is_store_dir(folder)


def tops_of(words):
    """The store directory and the base names, each once."""
    given = [top_path(word, None) for word in words]
    folders = {folder for folder, _ in given if folder} or {paths.STORE}
    if len(folders) > 1:
        raise Stop(f"refused: 14 bad-store-path: {' and '.join(sorted(folders))} are two store directories", REFUSED)
    return folders.pop(), [*dict.fromkeys(base for _, base in given)]


class Stores:
    """The stores of a command line, which are closed together."""

    def __init__(self, words: argparse.Namespace, folder: str, session: int):
        self.words, self.folder, self.session, self.open = words, folder, session, []
        # The first server. What another one may be is up to others, so it doesn't get the first one's password.
        self.first_place = None
        self.user, colon, self.group = (words.caller or "").partition(":")
        if words.caller and not (paths.is_plain_name(self.user) and (not colon or paths.is_plain_name(self.group))):
            raise Stop("refused: 20 bad-caller", REFUSED)

    def caller(self, default: str | None = None) -> dict[str, str]:
        user = self.user or default
        return {**({"store-user": user} if user else {}), **({"store-group": self.group} if self.group else {})}

    def kept(self, store: objects.Store) -> objects.Store:
        if not paths.is_plain_name(store.me):
            raise Stop("refused: 20 bad-caller", REFUSED)
        store.session = self.session
        self.open.append(store)
        return store

    def of_file(self, file, config):
        me = self.user or self.words.me or credentials.user_of(None)
        near = Path(sys.argv[0]).absolute().parent
        child = objects.Child(self.words.program or objects.program_beside(near), file, config)
        server = child.server(objects.FilePlace(file), self.caller(me))
        return self.kept(objects.Store(server, me, self.folder, child))

    def of_server(self, url):
        place, setting = Place(url), lambda name, variable: getattr(self.words, name) or os.environ.get(variable)
        self.first_place = self.first_place or place
        is_first = place.is_same(self.first_place)
        login = credentials.of_place(place, setting("credentials", "NIXKEEP_CREDENTIALS_FILE"), is_first)
        me = self.user or setting("me", "NIXKEEP_USER") or credentials.user_of(login)
        server = Server(place, self.caller(), login, setting("ca", "NIXKEEP_CA"))
        return self.kept(objects.Store(server, me, self.folder))

    def first(self) -> objects.Store:
        if self.words.db is not None:
            return self.of_file(self.words.db, self.words.config)
        url = self.words.server or os.environ.get("NIXKEEP_SERVER")
        if not url:
            raise Stop("failed: server: none is named; --server URL, --db FILE or NIXKEEP_SERVER says which")
        return self.of_server(url)

    def second(self) -> objects.Store:
        """The other store of a copy."""
        to = self.words.to
        return self.of_server(to) if objects.is_url(to) else self.of_file(to, self.words.to_config)

    def nix(self) -> Nix:
        store = Nix(self.words.nix_store, self.folder)
        self.open.append(store)
        return store

    def close(self) -> None:
        for store in self.open:
            store.close()


def ends(stores, action):
    """The source and the target."""
    if action == "push":
        return stores.nix(), stores.first()
    return stores.first(), stores.nix() if action == "pull" else stores.second()


def root_of(words):
    """The kind and the name of the root that the words ask for, or None."""
    named = [(kind, getattr(words, kind, None)) for kind in ("root", "permanent", "profile")]
    kind, name = next((pair for pair in named if pair[1] is not None), (None, None))
    if kind and words.action != "pull" and not paths.is_plain_name(name):
        raise Stop("refused: 34 bad-root-name", REFUSED)
    return kind and (kind, name)


def transfer(words, transferred):
    """Does what the words ask; `transferred` gets the transfer as soon as there is one."""
    folder, tops = tops_of(words.paths)
    root = root_of(words)
    stores = Stores(words, folder, words.session or session_of(tops))
    try:
        source, target = ends(stores, words.action)
        made = Transfer(source, target, tops, words.action)
        transferred.append(made)
        made.prepare()
        if words.dry_run:
            streams.write([made.plan().encode()])
            made.finish(None)
            return
        done = made.send()
        made.finish(root)
        streams.write([summary(DONE[words.action], done).encode()])
    finally:
        stores.close()


def main(words: list[str]) -> int:
    streams.keep_closed()
    top, transferred = parser(), []
    given = top.parse_args(words[1:])
    if given.session is not None and not 1 <= given.session <= 4_194_304:
        top.error("--session wants a number of 1 to 4,194,304")
    if len(given.paths) > 1 and any(getattr(given, option, None) for option in ("root", "permanent", "profile")):
        top.error("a root or a profile is set on one PATH")
    try:
        transfer(given, transferred)
        return 0
    except Stop as stop:
        streams.say(stop.line)
        status = stop.status
    except KeyboardInterrupt:
        status = 130
    except MemoryError:
        streams.say("failed: memory")
        status = FAILED
    if transferred and transferred[0].is_sending:
        streams.say(f"nixkeep-closure: {transferred[0].stopped()}")
    return status
