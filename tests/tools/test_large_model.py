"""All interleavings of uploads, a sweep and a collection, on the code of nixkeep-cache itself.

Each wait of that code for a disk or a server is a step of one of the tasks. Every order of the steps is tried, and
after each step every pointer has to name a blob that is there. States that were seen before aren't tried again.
"""
import collections

import pytest

pytest.importorskip("aiohttp", reason="needs python3-aiohttp (Debian: python3-aiohttp)")
from nixkeep_dev.testing import nar
from nixkeep_tools import blob_reading, blobs, cache_blobs, cache_counts, cache_large, cache_server, cache_shares
from nixkeep_tools import cache_sweep
from nixkeep_tools.blob_packing import Packed

MADE = Packed(None, bytes(32), 5_000, bytes(32), 4_000)
NAME = nar.base32(MADE.nar_hash)
ANN = cache_server.Caller("ann", None)


class Wait:
    """A step: what a coroutine waits for, which may go on once `is_ready` says so."""

    def __init__(self, is_ready=lambda: True):
        self.is_ready = is_ready

    def __await__(self):
        yield self


class Lock:
    def __init__(self):
        self.is_taken = False

    async def __aenter__(self):
        await Wait(lambda: not self.is_taken)
        self.is_taken = True

    async def __aexit__(self, *_):
        self.is_taken = False


class NoLock(Lock):
    async def __aexit__(self, *_):
        pass

    async def __aenter__(self):
        await Wait()


class World:
    """A store and its blobs, with the parts of nixkeep-cache over them. `seen` has what each step has returned."""

    def __init__(self, is_there, named, lock):
        self.blobs = {NAME: 0} if is_there else {}
        self.pointers, self.seen, self.lock, self.now = set(named), [], lock(), 1e9
        kept = cache_blobs.Blobs.__new__(cache_blobs.Blobs)
        kept.place, kept.relied, kept.seen, kept.apart, kept.lock = self, {}, {}, self.apart, lambda _: self.lock
        kept.put, kept.ends = cache_counts.Count(), None
        self.kept, self.large = kept, cache_large.Large(kept, self, 0, None, "/nix/store")
        self.large.uploads, self.large.checked = self, self.checked
        self.sweep = cache_sweep.Sweep(kept, self, cache_shares.Shares(None, None), 3600, 60, "/dev/full/none")

    async def step(self, work):
        await Wait()
        self.seen.append(repr(result := work()))
        return result

    async def apart(self, work, *words):
        return await self.step(lambda: work(*words))

    # ---- the place of the blobs

    where, server = "the blobs", None

    def put(self, part, name):
        is_new = name not in self.blobs
        self.blobs.setdefault(name, self.now)
        return is_new

    def size(self, name):
        return MADE.file_size if name in self.blobs else None

    def delete(self, name):
        self.blobs.pop(name, None)

    def list(self):
        return [blobs.Blob(name, MADE.file_size, since) for name, since in self.blobs.items()]

    # ---- the store: its pointers, imports and collections

    async def listed(self, _):
        return await self.step(lambda: sorted(self.pointers))

    async def among(self, _, bases):
        named = lambda: {base: collections.namedtuple("Found", "nar_hash")(MADE.nar_hash) for base in bases
                         if base in self.pointers}
        return await self.step(named)

    async def imported(self, caller, base, given, size, blob):
        await self.step(lambda: self.pointers.add(base))
        return cache_server.Reply(200, "text/plain", base.encode())

    async def checked(self, caller, base, pointer, answer):
        return answer

    async def collect(self):
        await self.step(self.pointers.clear)

    async def upload(self, base):
        made = await self.kept.keep("part", MADE)
        await Wait()
        try:
            await self.large.imported(ANN, base, b"path: x\nnar-hash: x\n\n", made)
        except cache_large.Bad:
            # (the client sends it again)
            self.seen.append(f"{base} again")

    async def swept(self):
        async for _ in self.sweep.lines(ANN, 3600, False):
            pass

    def is_sound(self):
        return not self.pointers or NAME in self.blobs


def measured(place, name):
    if name not in place.blobs:
        raise FileNotFoundError(name)
    return MADE[1:]


class Run:
    """A run of the tasks, step by step in a given order."""

    def __init__(self, world, tasks):
        self.world, self.tasks, self.waits = world, tasks, [None] * len(tasks)
        for at in range(len(tasks)):
            self.step(at)

    def step(self, at):
        try:
            self.waits[at] = self.tasks[at].send(None)
        except StopIteration:
            self.waits[at] = False

    def ready(self):
        return [at for at, wait in enumerate(self.waits) if wait and wait.is_ready()]

    def close(self):
        for task in self.tasks:
            task.close()


def search(make):
    """The first order of steps after which a pointer names no blob, or None."""
    known, left = set(), [()]
    while left:
        order = left.pop()
        world, tasks = make()
        run, histories = Run(world, tasks), collections.defaultdict(list)
        for at in order:
            before = len(world.seen)
            run.step(at)
            histories[at] += ["step", *world.seen[before:]]
        ready, is_sound = run.ready(), world.is_sound()
        run.close()
        if not is_sound:
            return order
        state = (tuple(tuple(histories[at]) for at in range(len(tasks))), tuple(world.blobs), tuple(world.pointers),
                 tuple(world.kept.relied), world.lock.is_taken)
        if state not in known:
            known.add(state)
            left += [(*order, at) for at in ready]
    return None


# What is tried, next to a sweep: whether the blob is there, the objects that name it, and the tasks.
SCENES = {
    "an upload of an archive that nothing names": (True, [], ("upload", "a"), ("swept",)),
    "a new archive": (False, [], ("upload", "a"), ("swept",)),
    "two uploads": (True, [], ("upload", "a"), ("upload", "b"), ("swept",)),
    "an upload and a collection": (True, ["a"], ("upload", "a"), ("collect",), ("swept",)),
    "two sweeps and an upload": (True, ["a"], ("upload", "b"), ("collect",), ("swept",), ("swept",)),
}


def losing(lock, is_there, named, *works):
    """An order of steps that loses a blob, or None."""
    def make():
        world = World(is_there, named, lock)
        return world, [getattr(world, name)(*words) for name, *words in works]

    return search(make)


@pytest.fixture(autouse=True)
def quiet(monkeypatch):
    monkeypatch.setattr(blob_reading, "measured", measured)
    for module in (cache_sweep, cache_blobs):
        monkeypatch.setattr(module, "say", lambda _: None)


@pytest.mark.parametrize("scene", SCENES)
def test_no_order_loses_a_blob(scene):
    assert losing(Lock, *SCENES[scene]) is None


def test_without_the_lock_an_order_loses_one():
    assert any(losing(NoLock, *value) for value in SCENES.values())


def test_before_a_deletion_a_sweep_asks_again():
    """A sweep on which a pointer comes once pointers were listed, by another way than an upload, has to see it."""
    world = World(True, [], Lock)
    run = Run(world, [world.swept()])
    while run.ready():
        run.step(0)
        if len(world.seen) == 3:
            # (blobs, objects and their pointers have been listed)
            world.pointers.add("a")
    assert NAME in world.blobs and len(world.seen) > 3
