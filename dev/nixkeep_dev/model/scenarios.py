"""Scenarios: a first database, configurations, and commands over them, some of which serve a stream of messages.

Each object, root, message and command is made of bytes of its own (`nixkeep_dev.testing.drawn` draws them). They get
their meaning when what comes before is there: a number means a path, a root or a generation that the store has by then.
So any of them can be left out, and what remains means the same where it can.
"""
import contextlib
import random
from collections.abc import Sequence

from . import archives, policy, server, tables, texts, values, worlds
from .forms import Commands
from .requests import ADDS, PROFILES, SESSIONS, SIZES, Drawn, drawn_of
from .runs import FILE, Scenario, Step
from .store import Store
from .values import LABELS, STORE_DIRS, USERS, Choices, nearest

# A server's configuration that has callers of each class, and any keep settings.
OF_SERVER = """trusted-users = ["root", "@wheel"]
allowed-users = ["ann", "bob"]
keep-outputs = {}
keep-derivations = {}
"""
ODD_COMMANDS = [["who"], ["list"], ["ls"], ["serve"], ["text-path", ".."], ["list", "x"]]
# Kinds of the last messages of a stream.
ENDS = [[], ["roots", "live"], ["collect", "collect", "list"]]
ODD_ENDS = [b"\r\n", b"\n", b"GET /paths", b"x", b"\r", b"\0"]
NUMBERS = [1, 2, 3, 9998, 9999]


class Scenarios(Commands):
    """Makes scenarios of choices."""

    def scenario(self, commands: Sequence, stream: tuple | None, world: tuple | None, configs: Sequence[bytes],
                 manner: bytes) -> Scenario:
        """A scenario of commands, a stream of messages after them and a first database, if there are these."""
        self.set_manner(by := Choices(manner))
        self.dir = by.pick(STORE_DIRS)
        # (the second configuration may have another store directory)
        folders = [self.dir, by.pick([self.dir] * 6 + STORE_DIRS[4:])]
        made = [values.config(folder, Choices(each)) for folder, each in zip(folders, configs)]
        scenario = Scenario(dict(zip(["c.toml", "d.toml"], made)), {}, [])
        self.set_config(made[0], worlds.World())
        if world:
            scenario.rows = self.first_rows(*world)
        self.machine = scenario.machine()
        for each in commands:
            scenario.steps.append(self.command_step(scenario, drawn_of(each)))
        if stream:
            scenario.steps.append(self.stream_step(scenario, *stream))
        return scenario

    def set_config(self, text, world):
        self.set_store(Store(policy.config_of(text), world))

    def server_config(self, rng: random.Random) -> bytes:
        """The configuration of a server by chance, whose empty store is in sight from now on."""
        by = Choices(rng.randbytes(4))
        self.set_manner(by)
        config = OF_SERVER.format(by.pick(["false", "true"]), by.pick(["true", "false"])).encode()
        self.set_config(config, worlds.World())
        return config

    def by_chance(self, rng: random.Random) -> tuple[Drawn, str]:
        """What makes a request by chance, and of which kind: most often an add where there is little."""
        is_add, drawn = len(self.store.world.objects) < 6 and rng.random() < 0.5, drawn_of(map(rng.randbytes, SIZES))
        return drawn, self.kind(drawn, ADDS if is_add else ())

    def follow(self, config):
        """Makes what comes next with the present database in sight, or an empty one where it can't be opened."""
        try:
            parsed = policy.config_of(config)
            world = self.machine.databases.setdefault(FILE, tables.Database({})).open(parsed["store-dir"])
        except texts.Refused:
            world = worlds.World()
        self.set_config(config, world)

    def config_words(self, configs, by):
        """A configuration, and the words that name it; now and then none is named."""
        names = [name for name in configs if not name.startswith("odd")]
        name = by.pick([*names, None] if self.dir == "/nix/store" else names)
        return (configs[name], ["--config", name]) if name else (b"", [])

    def stream_step(self, scenario: Scenario, adds: Sequence, others: Sequence[Sequence], end: bytes) -> Step:
        """A server of a stream of messages, of which the first are adds."""
        drawn = [(drawn_of(kind), ADDS) for kind in adds] + [(drawn_of(kind), ()) for some in others for kind in some]
        by = Choices(end)
        config, words = self.config_words(scenario.configs, by)
        self.follow(config)
        collects = ["collect"] * 2 if by.chance(0.2 if self.store.world.roots() else 0.5) else []
        messages, closes = self.messages_of(collects, by), False
        for each, kinds in drawn:
            messages.append(self.message(each, self.kind(each, kinds)))
            if closes:
                break
            closes = server.serve(self.store, messages[-1])[1]
        messages += self.messages_of(by.pick(ENDS) if not closes else [], by)
        if messages and by.chance(0.3):
            messages[-1] = messages[-1][: by.number(len(messages[-1]))]
        if by.chance(0.1):
            messages.append(by.pick(ODD_ENDS))
        return Step(["--db", FILE, *words, "serve"], messages, self.cuts(sum(map(len, messages)), by))

    def messages_of(self, kinds: Sequence[str], by: Choices) -> list[bytes]:
        """A message of each of these kinds; none of them closes the connection."""
        messages = []
        for kind in kinds:
            messages.append(self.message(drawn_of([b"", by.bytes(4), b"", b""]), kind))
            server.serve(self.store, messages[-1])
        return messages

    def cuts(self, size: int, by: Choices) -> list[int]:
        """Places at which an input is cut, if it is."""
        count = by.number(6) + 1 if by.chance(0.25) else 0
        return sorted({by.number(size + 1) for _ in range(count)})

    def command_step(self, scenario: Scenario, drawn: Drawn) -> Step:
        if drawn.aim.chance(0.05):
            return self.odd_config_step(scenario, drawn.aim)
        config, words = self.config_words(scenario.configs, drawn.aim)
        self.follow(config)
        command, given = self.command(drawn)
        database = ["--db", FILE] * (not drawn.aim.chance(0.03))
        step = Step([*database, *words, *command], [given], self.cuts(len(given), drawn.data))
        self.machine.run(step.words, given)
        return step

    def odd_config_step(self, scenario, by):
        name = f"odd{len(scenario.configs)}.toml"
        if not by.chance(0.1):
            scenario.configs[name] = values.odd_config(by)
        common = self.common(by.pick([None, "ann", "-x"]), None, by)
        return Step(["--config", name, *common, *by.pick(ODD_COMMANDS)], [b""])

    # ---- the first database

    def first_rows(self, objects: Sequence[tuple], roots: Sequence[bytes], manner: bytes) -> dict[str, set] | None:
        """The rows of a database of any schema, most often a sound one; None is a file that is no database."""
        by = Choices(manner)
        if by.chance(0.02):
            return None
        world, schema = self.first_world(by, objects, roots), by.pick([3, 3, 3, 3, 2, 1])
        if schema < 3:
            world.temporary.clear()
        rows = tables.rows_of(world, self.dir if not by.chance(0.05) else "/other", schema)
        for _ in range(by.pick([1, 1, 2]) if by.chance(0.2) else 0):
            self.change(rows, by)
        return rows

    def first_world(self, by, objects, roots):
        """A world in which references may make cycles."""
        world = self.store.world = worlds.World()
        for aim, data in objects:
            self.put(world, Choices(aim), Choices(data))
        for base, stored in [*world.objects.items()]:
            if stored.address is None:
                known = frozenset(nearest(number, world.objects) for number in stored.references)
                world.objects[base] = stored._replace(references=known)
        if by.chance(0.4):
            self.put_ring(world, by)
        for each in roots if world.objects else []:
            self.put_root(world, Choices(each))
        return world

    def put(self, world: worlds.World, aim: Choices, data: Choices) -> None:
        """Adds an object whose archive fits its name, if one does. Its references are numbers as yet, but for one with
        a content address, which has references to those before it."""
        base, address, deriver = self.base(aim.number(65_536)), None, aim.number(65_536)
        references = [aim.number(65_536) for _ in range(aim.pick([0, 1, 1, 2, 3]))]
        if aim.chance(0.2):
            references = frozenset(nearest(number, world.objects) for number in references if world.objects)
            base, archive, address = self.addressed_file(self.contents(data), references, aim)
        elif base.endswith(".drv"):
            archive = archives.file_archive(self.derivation(data))
        else:
            archive = archives.write(self.node(data))
        with contextlib.suppress(texts.Refused):
            outputs = tables.outputs_of(base, archives.read(archive), self.dir)
            deriver = self.known(deriver) if deriver % 3 == 1 else None
            world.objects[base] = worlds.Object(archive, references, deriver, address, outputs)

    def addressed_file(self, contents, references, by):
        """The base name, the archive and the content address of a file."""
        archive = archives.file_archive(contents)
        if by.chance(0.5):
            base, digest = texts.text_path(self.dir, "t", references, contents), texts.sha256(contents)
            return base, archive, "text:sha256:" + texts.base32(digest)
        base = texts.source_path(self.dir, "s", references, archive)
        return base, archive, "fixed:r:sha256:" + texts.base32(texts.sha256(archive))

    def put_ring(self, world, by):
        """Makes some objects refer to one another in a ring; now and then there are no others."""
        ring = by.turned([base for base, stored in world.objects.items() if stored.address is None])[: by.number(2) + 2]
        for base, after in zip(ring, ring[1:] + ring[:1]):
            world.objects[base] = world.objects[base]._replace(references=frozenset([after]))
        if by.chance(0.4):
            world.objects = {base: world.objects[base] for base in ring}

    def put_root(self, world, by):
        """Adds a root of some kind."""
        kind, owner, target = by.pick([0, 1, 2, 2, 2, 3, 4]), by.pick(USERS), nearest(by.number(65_536), world.objects)
        if kind == 0:
            world.permanent[by.pick(["r", "s"])] = target
        elif kind == 1:
            world.user[owner, by.pick(["r", "s", "work"])] = target
        elif kind == 2:
            profile = world.profiles.setdefault((owner, by.pick(PROFILES)), worlds.Profile({}, 0))
            for number in by.some(NUMBERS, 2) + [by.pick(NUMBERS)]:
                profile.generations[number] = nearest(by.number(65_536), world.objects)
                profile.current = profile.current if profile.current and by.chance(0.5) else number
        elif kind == 3:
            world.runtime.add((by.pick(LABELS[:3]), target))
        else:
            world.temporary.add((owner, by.pick([*SESSIONS, 4_194_304]), target))

    def change(self, rows: dict[str, set], by: Choices) -> None:
        """Removes a table or a row, or changes one value."""
        if by.chance(0.05):
            del rows[by.pick([*rows])]
            return
        if not (filled := [name for name in rows if rows[name]]):
            return
        name = by.pick(filled)
        row = by.pick(sorted(rows[name], key=repr))
        rows[name] = rows[name] - {row}
        if by.chance(0.7):
            at = by.number(len(row))
            new = (*row[:at], self.changed(row[at], self.column(name, at), by), *row[at + 1 :])
            if not any(self.has_key(name, new, other) for other in rows[name]):
                rows[name] = rows[name] | {new}

    def column(self, name, at):
        return tables.TABLES[name][0].split(", ")[at].split(" ")[1]

    def has_key(self, name, row, other):
        key = [tables.columns_of(name).index(column) for column in tables.TABLES[name][1].split(", ")]
        return [row[at] for at in key] == [other[at] for at in key]

    def changed(self, value: object, kind: str, by: Choices) -> object:
        if kind == "INTEGER":
            return by.pick([0, 1, 2, -1, 9999, 10_000, 4_194_304, 4_194_305, value + 1])
        if kind == "BLOB":
            return self.broken(value, by)
        texts_of_all_kinds = ["", "x", "-x", "a b", "/other", "3", "2", "schema", "a" * 65]
        return by.pick([*texts_of_all_kinds, self.base(by.number(65_536)), (value or "") + "x"])
