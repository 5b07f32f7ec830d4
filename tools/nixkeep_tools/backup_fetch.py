"""A copy of a store through its running server: all objects and roots, by the server's own requests, in a new file.

The objects come first, until a pass finds that nothing has changed meanwhile; then the roots are set. Requests list
neither the owners of sessions nor which generation of a profile is current. So in the copy sessions are root's, and the
highest generation is current.

nixkeep-cache shows a pointer as the large archive that it names, and lists all pointers. The copy has the pointers.
"""
import collections
import json
import os
import re
import tempfile
from collections.abc import Iterable

from . import backup_file, closures, disk_room, nar, objects, paths, pointers
from .failures import DENIED, Stop
from .progress import Progress

PASSES = 10
NOT_VALID = 23
# A root that nobody can have: only a trusted caller is refused for its name, and nothing changes.
NOBODYS = "/root/permanent/-"
PLAIN = r"[A-Za-z0-9_.][A-Za-z0-9_.-]*"
# The kinds of roots in the order of listings, with the labels of each.
LABELS = {
    "permanent": re.compile(rf"gcroots/({PLAIN})"),
    "user": re.compile(rf"gcroots/per-user/({PLAIN})/({PLAIN})"),
    "profile": re.compile(rf"profiles/per-user/({PLAIN})/({PLAIN})-([1-9][0-9]{{0,3}})-link"),
    "runtime": re.compile(r"(.+)"),
    "temporary": re.compile(r"\{temp:([1-9][0-9]{0,6})\}"),
}
KINDS = [*LABELS]
# What a server lists at one time: its roots, its paths, its report and the pointers that it shows as large archives, as
# texts.
Listed = collections.namedtuple("Listed", "roots paths report pointers")
Done = collections.namedtuple("Done", "objects bytes roots passes report")


def listed(store):
    roots, names, report = [store.ask("GET", route)[1].decode() for route in ("/roots", "/paths", "/report")]
    # (a server alone has no large archives)
    number, large = store.ask("GET", "/pointers", allowed=(objects.NO_ROUTE,))
    return Listed(roots, names, report, large.decode() if number is None else "")


def read_roots(text):
    """The roots of a listing: a kind, the parts of the label, and the base name of the target. Kinds come in their
    order, and in each the roots by target and label. That says what a label is that has the form of two, since a
    runtime root's may be any text. (Where both are in order, a store with either has this listing.)"""
    lines = [(target, label) for label, _, target in (row.rpartition(" ") for row in text.splitlines())]
    sessions, kinds = len(lines), []
    is_session = lambda at: LABELS["temporary"].fullmatch(lines[at][1]) and lines[at:at + 2] == sorted(lines[at:at + 2])
    while sessions and is_session(sessions - 1):
        sessions -= 1
    for at, (line, before) in enumerate(zip(lines, [("", ""), *lines])):
        left = KINDS[KINDS.index(kinds[-1]) if kinds else 0:-1] if at < sessions else KINDS[-1:]
        fits = [kind for kind in left if LABELS[kind].fullmatch(line[1]) and (line > before or kinds[-1] != kind)]
        if not fits:
            raise ValueError(f"{line[1]!r} is no root's label")
        kinds.append(fits[0])
    return [(kind, LABELS[kind].fullmatch(label).groups(), target.rpartition("/")[2])
            for kind, (target, label) in zip(kinds, lines)]


class Fetch:
    """A copy from one store, whose caller is trusted, into another one, in which everybody is. `file` is that of the
    other one."""

    def __init__(self, source: objects.Store, target: objects.Store, file: str):
        self.source, self.target, self.file = source, target, file
        # The pointers that the source shows as large archives, by the base names of their paths.
        self.pointers = {}

    def as_user(self, user: str, method: str, target: str, body: bytes = b"") -> str:
        self.target.server.fields = {"store-user": user}
        return self.target.ask(method, target, body)[1].decode()

    def demand_labels(self, text):
        """Raises Stop if labels of this listing of roots are censored, as for a caller who isn't trusted. A trusted
        user may give a root that label, too."""
        if not any(line.startswith("{censored} ") for line in text.splitlines()):
            return
        try:
            self.source.ask("DELETE", NOBODYS, allowed=(objects.BAD_NAME,))
        except Stop as stop:
            if stop.status != DENIED:
                raise
            line = "failed: caller: the labels of some roots are censored: a copy needs a trusted caller"
            raise Stop(line) from None

    # ---- objects

    def texts(self, bases: Iterable[str]) -> dict[str, tuple[bytes, pointers.Pointer | None]]:
        """The texts of the records of these paths in the source and their pointers or None, by path; without those that
        are gone meanwhile."""
        entries = {}
        for base in bases:
            number, text = self.source.ask("GET", f"/info/{base}", allowed=(NOT_VALID,))
            if number is None:
                entries[base] = text, self.pointers.get(base)
        return entries

    def record(self, base: str, text: bytes, pointer: pointers.Pointer | None) -> objects.Record:
        """The Record that an object has in the copy."""
        record = self.source.record_in(text, base)
        if not pointer:
            return record
        return record._replace(nar_hash=paths.sha256([pointers.archive(pointer)]), nar_size=pointers.SIZE)

    def archive(self, record: objects.Record) -> bytes | None:
        """The archive that an object has in the copy, or None if it is gone or has become a large one meanwhile."""
        if record.base in self.pointers:
            return pointers.archive(self.pointers[record.base])
        if record.nar_size > nar.LIMIT:
            return None
        number, archive = self.source.ask("GET", f"/nar/{record.base}", allowed=(NOT_VALID,))
        return archive if number is None else None

    def copy_objects(self, bases, have):
        """Makes the objects of the target those of the source. `have` has what `texts` returned of those of the target,
        and is kept up.

        What was deleted or imported anew in the source meanwhile is found in the next pass.
        """
        texts = self.texts(bases)
        self.delete([base for base, text in have.items() if texts.get(base) != text], have)
        records = {base: self.record(base, *entry) for base, entry in texts.items()}
        missing = [base for base in closures.references_first(records) if base not in have]
        progress = Progress("fetch", sum(records[base].nar_size for base in missing), len(missing))
        try:
            for base in missing:
                if self.copy_object(records[base], have):
                    have[base] = texts[base]
                progress.add(records[base].nar_size, 1)
        finally:
            progress.end()

    def copy_object(self, record, have):
        """Copies an object, and returns whether that was possible: whether the source has it and what it refers to."""
        if any(base not in have and base != record.base for base in record.refs):
            return False
        archive = self.archive(record)
        if archive is None or paths.sha256([archive]) != record.nar_hash:
            return False
        # (each time: others may fill the disk meanwhile, and a server may list less than it has)
        disk_room.demand(record.nar_size, self.file)
        pairs = [("path", record.base), ("nar-hash", paths.nar_hash(record.nar_hash))]
        pairs += [("reference", base) for base in record.refs]
        pairs += [(key, value) for key, value in (("deriver", record.deriver), ("ca", record.ca)) if value]
        self.as_user("root", "POST", "/import", objects.lines(*pairs) + archive)
        return True

    def delete(self, bases: list[str], have: dict) -> None:
        """Deletes objects of the target, which has no root yet, and all that refer to them."""
        if bases:
            text = self.as_user("root", "POST", "/delete", objects.lines(*[("path", base) for base in bases]))
            for line in text.splitlines()[:-1]:
                have.pop(line.rpartition("/")[2], None)

    # ---- roots

    def set_roots(self, roots: list[tuple]) -> None:
        """Sets roots as a listing has them. Profiles need generations in between, which are deleted again."""
        profiles, runtime = collections.defaultdict(dict), []
        for kind, label, base in roots:
            path = objects.lines(("path", base))
            if kind == "permanent":
                self.as_user("root", "POST", f"/root/permanent/{label[0]}", path)
            elif kind == "user":
                self.as_user(label[0], "POST", f"/root/user/{label[0]}/{label[1]}", path)
            elif kind == "temporary":
                self.as_user("root", "POST", f"/temp/root/{label[0]}", path)
            elif kind == "profile":
                profiles[label[0], label[1]][int(label[2])] = base
            else:
                runtime.append(("root", f"{label[0]} {self.target.full(base)}"))
        if runtime:
            self.as_user("root", "POST", "/runtime", objects.lines(*runtime))
        for (user, name), generations in profiles.items():
            self.set_profile(user, name, generations)

    def set_profile(self, user: str, name: str, generations: dict[int, str]) -> None:
        fillers = []
        if len(generations) < max(generations):
            fillers = [self.filler(user, at) for at in range(2)]
        for number in range(1, max(generations) + 1):
            base = generations.get(number) or fillers[number % 2]
            said = self.as_user(user, "POST", f"/profile/{user}/{name}", objects.lines(("path", base)))
            if said != f"generation {number}\n":
                raise Stop(f"failed: profile: {user} {name}: generation {number} is {said.strip()} in the copy")
        for number in {*range(1, max(generations))} - generations.keys():
            self.as_user(user, "DELETE", f"/generation/{user}/{name}/{number}")
        if fillers:
            self.as_user("root", "POST", "/delete", objects.lines(*[("path", filler) for filler in fillers]))

    def filler(self, user, at):
        """The path of a new object, which no store has."""
        body = objects.lines(("name", f"filler{at}")) + os.urandom(32)
        return self.as_user(user, "POST", "/text", body).strip().rpartition("/")[2]

    # ---- all

    def run(self) -> Done:
        """Copies all, and returns what was Done. Raises Stop if the store changes in each pass."""
        have = {}
        for number in range(1, PASSES + 1):
            before = listed(self.source)
            if number == 1 and (total := backup_file.TOTAL.search(before.report)):
                disk_room.demand(int(total[2]), self.file)
            large = map(pointers.read_line, before.pointers.splitlines())
            self.pointers = {pointer.path.rpartition("/")[2]: pointer for pointer in large}
            self.copy_objects([path.rpartition("/")[2] for path in before.paths.splitlines()], have)
            if listed(self.source) == before and len(have) == len(before.paths.splitlines()):
                break
        else:
            raise Stop(f"failed: changing: the store changed in each of {PASSES} passes")
        self.demand_labels(before.roots)
        roots = read_roots(before.roots)
        self.set_roots(roots)
        self.compare(before)
        count, size = map(int, backup_file.TOTAL.search(before.report).groups())
        return Done(count, size, len(roots), number, before.report)

    def compare(self, wanted: Listed) -> None:
        """The copy answers as the server did."""
        self.target.server.fields = {"store-user": "root"}
        for what, came, meant in zip(Listed._fields, listed(self.target), wanted):
            if came != meant and what != "pointers":
                raise Stop(f"failed: test: the copy lists other {what} than the server")


def fetch(source: objects.Store, program: str, table: dict, to: str) -> Done:
    """Makes a copy in a new file. `table` is that of the store's configuration. Returns what was Done."""
    backup_file.create(to)
    with tempfile.TemporaryDirectory() as folder:
        config = f"{folder}/store.toml"
        kept = {key: table[key] for key in ("store-dir", "keep-outputs", "keep-derivations") if key in table}
        with open(config, "w", encoding="utf-8") as file:
            # (a text and a truth value are the same in JSON)
            file.writelines(f"{key} = {json.dumps(value)}\n" for key, value in {"trusted-users": ["*"], **kept}.items())
        child = objects.Child(program, to, config)
        target = objects.Store(child.server(objects.FilePlace(to), {}), "root", source.folder, child)
        try:
            done = Fetch(source, target, to).run()
        except ValueError as error:
            raise Stop(f"failed: answer: {source}: it isn't that of a store: {str(error)[:200]}") from None
        finally:
            target.close()
    return done
