"""Requests made of choices, as texts that a command line or an HTTP message then carries."""
import functools
from collections import namedtuple
from collections.abc import Callable, Collection, Iterable, Sequence
from types import SimpleNamespace

from . import archives, policy, texts
from .store import Store
from .values import GROUPS, ODD_NAMES, ODD_STORE_NAMES, STORE_NAMES, USERS, Choices, Values, nearest

# The choices that make a request: its kind; who asks, and what it names; what is wrong with it, and how it is written;
# what it adds.
Drawn = namedtuple("Drawn", "kind aim form data")
# How many bytes each of them has.
SIZES = Drawn(2, 22, 16, 24)
# How often each kind of request is made.
WEIGHTS = {
    "list": 2, "live": 3, "dead": 3, "roots": 4, "report": 2, "info": 4, "archive": 3, "listing": 3, "roots-of": 4,
    "add-text": 8, "add-source": 5, "import": 14, "set-permanent": 3, "drop-permanent": 2, "set-user-root": 4,
    "drop-user-root": 3, "set-profile": 5, "rollback": 3, "switch": 3, "delete-generation": 3, "replace-runtime": 4,
    "add-temporary": 4, "end-session": 3, "collect": 4, "delete": 4,
}
ADDS = ["add-text", "add-source", "import", "import"]
# Kinds that are made more often in one scenario than in another.
THEMES = [
    (),
    ("add-text", "add-source", "import", "info", "archive", "listing"),
    ("import", "collect", "delete", "dead", "report"),
    ("set-profile", "rollback", "switch", "delete-generation", "delete", "roots"),
    ("replace-runtime", "roots", "roots-of", "delete", "live"),
    ("add-temporary", "end-session", "roots", "collect", "live"),
    ("set-permanent", "drop-permanent", "set-user-root", "drop-user-root", "roots", "delete"),
]
TRUST = ("set-permanent", "drop-permanent", "replace-runtime", "import")
OF_PROFILE = ("set-profile", "rollback", "switch", "delete-generation")
OF_ROOT = ("set-permanent", "drop-permanent", "set-user-root", "drop-user-root")
OF_FILE = ("add-text", "add-source", "import")
ROOTS, PROFILES, SESSIONS = ["r", "s", "work"], ["work", "sys"], [1, 2, 10]
ODD_SESSIONS = ["0", "007", "4194304", "4194305", "-1", "x", "99999999999"]
ODD_LIMITS = [str(2**64), "01", "00", "-1", "+1", "", "x", "9" * 30]
# What is wrong with a request: in how many of a thousand, and of which kinds.
FAULTS = {
    "name": (40, (*OF_PROFILE, *OF_ROOT, "end-session", "add-temporary")), "user": (50, WEIGHTS),
    "path": (60, (*OF_FILE, "info", "archive", "listing", "roots-of", "delete", "set-profile", *OF_ROOT)),
    "number": (80, ("switch", "delete-generation", "add-temporary", "end-session", "collect")),
    "store name": (50, ["add-text", "add-source"]), "many references": (3, OF_FILE), "pieces": (6, OF_FILE),
    "digest": (30, ["import"]), "self reference": (40, ["import"]), "address": (120, ["import"]),
    "archive": (100, ("add-source", "import")), "derivation": (90, OF_FILE),
    "label": (60, ["replace-runtime"]), "pair": (50, ["replace-runtime"]), "liveness": (100, ("collect", "delete")),
    # (those of messages)
    "method": (20, WEIGHTS), "target": (20, WEIGHTS), "version": (5, WEIGHTS), "blank lines": (30, WEIGHTS),
    "no head": (4, WEIGHTS), "long head": (3, WEIGHTS), "many fields": (4, WEIGHTS), "no user": (6, WEIGHTS),
    "double field": (12, WEIGHTS), "connection": (20, WEIGHTS), "length": (5, WEIGHTS), "spoiled line": (40, WEIGHTS),
    "no empty line": (12, WEIGHTS), "more bytes": (12, WEIGHTS), "store directory": (12, WEIGHTS),
}


@functools.cache
def faults_of(kind: str) -> list[str | None]:
    """A thousand of what may be wrong with a kind of request, most of which are nothing; what is more often comes
    last."""
    names = [name for name, (share, kinds) in FAULTS.items() for _ in range(share) if kind in kinds]
    return [None] * (1000 - len(names)) + names


@functools.cache
def kinds_of(theme: tuple) -> list[str]:
    """The kinds of a theme, each as often as it is made."""
    return [kind for kind, weight in WEIGHTS.items() for _ in range(weight * (5 if kind in theme else 1))]


class Requests(Values):
    """Makes requests with a store in sight, so that most of them name what is there."""

    def __init__(self):
        super().__init__()
        self.kinds, self.oddness = kinds_of(()), 1

    def set_manner(self, by: Choices) -> None:
        """Chooses which kinds are made most, and how much goes wrong."""
        self.kinds, self.oddness = kinds_of(by.pick(THEMES)), by.pick([0.1, 0.3, 0.6, 1.2])

    def set_store(self, store: Store) -> None:
        self.store, self.dir = store, store.dir

    def known(self, number: int) -> str:
        objects = self.store.world.objects
        return nearest(number, objects) if objects and number % 16 < 15 else self.base(number // 16)

    def doomed(self, number: int) -> str:
        """A base name, most often one of a dead path."""
        dead = self.store.world.dead(self.store.config) if number % 8 < 5 else ()
        return nearest(number, dead) if dead else self.known(number)

    def path(self, by: Choices, base: Callable | None = None) -> str:
        """The text of a path, that of a valid one most often."""
        number = by.number(65_536)
        return self.path_text((base or self.known)(number), number)

    def references(self, by: Choices) -> list[str]:
        if "many references" in self.faults:
            return [self.base(0)] * self.form.pick([4096, 4097])
        count = by.pick([0, 0, 0, 1, 1, 2, 3])
        base = by.pick([self.known, self.known, self.doomed])
        return [self.path(by, base) for _ in range(count if self.store.world.objects else count // 3)]

    def caller(self, kind: str, by: Choices) -> tuple[str, str | None]:
        """Name and group of who asks."""
        number, group = by.number(256), by.pick([None, None, *GROUPS])
        is_trusted = lambda user: policy.class_of(self.store.config, policy.Caller(user, group)) == "trusted"
        trusted = [user for user in USERS if is_trusted(user)] if kind in TRUST and number // 16 % 4 < 3 else USERS
        user = (trusted or USERS)[number % len(trusted or USERS)]
        if "user" not in self.faults:
            return user, group
        return (user, self.form.pick(ODD_NAMES)) if self.form.chance(0.3) else (self.form.pick(ODD_NAMES), group)

    def kind(self, drawn: Drawn, kinds: Sequence[str] = ()) -> str:
        """One of these kinds or, where there are none, of those that the scenario has."""
        return (kinds or self.kinds)[drawn.kind.number(65_536) % len(kinds or self.kinds)]

    def fault(self, kind: str, number: int) -> str | None:
        """What a number makes wrong with a kind of request; the less is wrong the smaller it is."""
        place = 1000 - (65_536 - number) / 65.536 / self.oddness
        return faults_of(kind)[int(place)] if number and place > 0 else None

    def request(self, drawn: Drawn, kind: str | None = None) -> SimpleNamespace:
        """A request of this kind, or of one by choice: who asks, and its fields as texts and bytes."""
        kind, self.form = kind or self.kind(drawn), drawn.form
        self.faults = {self.fault(kind, drawn.form.number(65_536)) for _ in range(2)}
        user, group = self.caller(kind, drawn.aim)
        made = SimpleNamespace(kind=kind, user=user, group=group, ignore=None)
        if kind in ("add-text", "add-source"):
            self.fill_add(made, drawn)
        elif kind == "import":
            self.fill_import(made, drawn)
        elif kind == "replace-runtime":
            made.pairs = [(self.label(drawn.data), self.path(drawn.aim)) for _ in range(drawn.aim.number(5))]
            if "pair" in self.faults:
                made.pairs = [("a b", self.base(0)), *made.pairs]
        elif kind in ("collect", "delete"):
            self.fill_deletion(made, drawn.aim)
        else:
            self.fill_root(made, drawn.aim)
        return made

    def fill_deletion(self, made, by):
        made.ignore = self.form.pick(["false", "true", "yes"]) if "liveness" in self.faults else None
        made.limit = self.limit(by) if by.chance(0.8) else None
        base = by.pick([self.doomed, self.doomed, self.known])
        made.paths = [self.path(by, base) for _ in range(by.pick([1, 1, 1, 2, 3, 0]))]

    def limit(self, by: Choices) -> str:
        """A number of bytes, most often near what some dead paths have together."""
        dead, which = sorted(self.store.world.dead(self.store.config)), by.number(65_536)
        size = sum(len(self.store.world.objects[base].archive) for at, base in enumerate(dead) if which >> at % 16 & 1)
        return self.written([max(size + by.pick([0, -1, 1]), 0)] * 6 + [0, 1, 2**64 - 1], by, ODD_LIMITS)

    def fill_add(self, made, drawn):
        made.name = self.often("store name", STORE_NAMES, ODD_STORE_NAMES, drawn.aim)
        made.references = self.references(drawn.aim)
        make = self.file_contents if made.kind == "add-text" else self.archive
        made.payload = make(drawn.data, made.name)

    def fill_import(self, made, drawn):
        number, by = drawn.aim.number(65_536), drawn.aim
        base = self.known(number) if by.chance(0.15) else self.base(number // 16)
        kind = by.pick([None, None, "text", "source"])
        made.deriver = self.path(by) if by.chance(0.3) else None
        made.payload, made.references, made.address = self.archive(drawn.data, base), self.references(by), None
        if kind:
            base, made.address = self.addressed(kind, base, made)
        made.path = self.path_text(base, number)
        made.digest = "sha256:" + texts.base32(texts.sha256(made.payload))
        if "digest" in self.faults:
            other = "sha256:" + texts.base32(texts.sha256(b""))
            odd = ["sha256:" + "z" * 52, made.digest[:-1], made.digest.upper(), "sha256:" + "0" * 52]
            made.digest = self.form.pick([other] * 8 + odd)
        if "self reference" in self.faults:
            made.references.append(base)

    def addressed(self, kind, base, made):
        """A base name and a content address that most often fits it."""
        try:
            references = [texts.base_of(self.dir, reference) for reference in made.references]
            plain = archives.plain_contents(archives.read(made.payload))
        except texts.Refused:
            references, plain = [], None
        kind, prefix, data = "source", "fixed:r:sha256:", made.payload
        if plain is not None and kind == "text":
            kind, prefix, data = "text", "text:sha256:", plain
        wrong = self.form.number(5) if "address" in self.faults else None
        digest, digits = texts.sha256(data if wrong != 0 else b"other"), None
        if wrong == 1:
            prefix = self.form.pick(["text:sha256:", "fixed:r:sha256:", "fixed:sha256:", "fixed:r:sha1:", ""])
        if wrong == 2:
            digits = self.form.pick(["2" + "0" * 51, "1" * 51, "e" * 52, ""])
        name = base[33:] if wrong != 3 else "other"
        path = base if wrong == 4 else texts.path_of(kind, self.dir, name, references, digest)
        return path, prefix + (texts.base32(digest) if digits is None else digits)

    def fill_root(self, made, by):
        """The fields of a request on roots, profiles and sessions, or of one that names a path alone."""
        made.path = self.path(by)
        number, is_own = by.number(65_536), not by.chance(0.2)
        made.owner = made.user if is_own else self.plain_name(USERS, by)
        made.name = self.plain_name(PROFILES if made.kind in OF_PROFILE else ROOTS, by)
        made.number, made.session = self.written([1, 2, 3, 1, 2, 4], by), self.written(SESSIONS, by, ODD_SESSIONS)
        pool = self.there(made.kind)
        if not pool or self.faults & {"name", "user"} or by.chance(0.3):
            return
        owner, name = nearest(number, pool)
        if made.kind == "end-session":
            made.session = name
        else:
            made.name = name
        # (a trusted caller may do some of it for others)
        made.owner, made.user = owner, made.user if owner is None or by.chance(0.15) else owner
        if made.kind in OF_PROFILE:
            self.aim_at(made, number, self.store.world.profiles[owner, name].generations, by)

    def there(self, kind: str) -> Collection[tuple]:
        """Owner and name, or number, of what is there and that a kind of request is about."""
        world = self.store.world
        if kind in OF_PROFILE:
            return world.profiles
        if kind == "end-session":
            return {(owner, str(session)) for owner, session, _ in world.temporary}
        return {"drop-user-root": world.user,
                "drop-permanent": [(None, name) for name in world.permanent]}.get(kind, ())

    def aim_at(self, made, number, generations, by):
        """Names a generation that is there, or the path of one."""
        if not by.chance(0.15):
            made.number = self.written([nearest(number, generations)], by)
        if by.chance(0.4):
            made.path = self.path_text(generations[nearest(number, generations)], number)


def drawn_of(parts: Iterable[bytes]) -> Drawn:
    return Drawn(*map(Choices, parts))
