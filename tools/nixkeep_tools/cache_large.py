"""Objects with large archives, as nixkeep-cache takes and serves them: a pointer in the store, and a blob."""
import functools
import re
import time
from collections.abc import AsyncIterable, AsyncIterator

from aiohttp import web

from . import blob_reading, cache_changes, cache_records, paths, pointers
from .blob_packing import Packed
from .cache_archives import BYTES, DIGITS
from .cache_blobs import Blobs, missing
from .cache_http import BODY, PIECE, READ, Answered, Route, passed, pieces, reply
from .cache_pointers import Pointers
from .cache_records import Bad
from .cache_room import Held, demand_client
from .cache_server import Caller, Reply
from .cache_stored import Stored
from .cache_turns import Turns
from .cache_waiting import Waiting
from .cache_who import class_of

# Archives in blobs have addresses of their own, since a proxy needn't keep them.
ARCHIVE = re.compile(rf"/large/({DIGITS}{{52}})/(none|zstd)/({DIGITS}{{32}}-[0-9A-Za-z+._?=-]+)")
OWN = re.compile(rf"/(info|nar)/({DIGITS}{{32}}-[0-9A-Za-z+._?=-]+)")
# (as the proxy reads it, which knows no other letters than those of ASCII)
OLD = re.compile(r"\bNix/(1|2\.[0-3])\b", re.A)
IMPORT, LISTING = re.compile(r"/import"), re.compile(r"/pointers")
# The longest head of an import: as many references as an object may have, each of a long name.
HEAD = 1_200_000
MISMATCH, POINTER = "refused: 25 nar-hash-mismatch\n", "denied: pointer\n"


def word_of(made):
    """A Packed as one word, which is noted for an archive that waits for its record."""
    return f"{paths.base32(made.nar_hash)}.{made.nar_size}.{paths.base32(made.file_hash)}.{made.file_size}"


def read_word(word):
    nar_hash, nar_size, file_hash, file_size = word.split(".")
    return Packed(None, paths.unbase32(nar_hash, 32), int(nar_size), paths.unbase32(file_hash, 32), int(file_size))


def with_hash(head, archive):
    """The head of an import, for a pointer in the place of its archive, and without a content address."""
    lines = [line for line in head.decode().split("\n") if not line.startswith("ca: ")]
    hashed = f"nar-hash: {paths.nar_hash(paths.sha256([archive]))}"
    return "\n".join(hashed if line.startswith("nar-hash: ") else line for line in lines).encode()


def said(head: bytes, key: str) -> str:
    """What a line of an import's head says, or ''. (A head may have 20 MB, in which a regular expression is slow.)"""
    word = f"{key}: ".encode()
    at = 0 if head.startswith(word) else head.find(b"\n" + word) + 1
    if not head.startswith(word, at):
        return ""
    end = head.find(b"\n", at)
    return head[at + len(word) : end if end >= 0 else None].decode("latin-1")


def form_for(request):
    """The form of archives that a client can read: Nix reads zstd from 2.4 on."""
    return "none" if OLD.search(request.headers.get("user-agent", "")) else "zstd"


class Large:
    """`least` is the largest archive that the store itself keeps. `arrived` has the uploaded files whose blobs wait for
    their records. `uploads` imports, and `passing` has the store's own requests."""

    def __init__(self, blobs: Blobs, lookup: Pointers, least: int, arrived: Stored, store: str):
        self.blobs, self.pointers, self.least, self.arrived, self.store = blobs, lookup, least, arrived, store
        self.server, self.uploads, self.passing, self.turns = lookup.server, None, None, Turns()

    def routes(self) -> list[Route]:
        return [
            Route(READ, ARCHIVE, self.archive),
            Route(READ, OWN, self.own),
            Route(READ, LISTING, self.listing),
            Route(("POST",), IMPORT, self.import_),
        ]

    # ---- what comes

    async def demand_trust(self, caller):
        """Raises Answered for a caller who may not add objects without a content address."""
        if (await class_of(self.server, caller))[0] != "trusted":
            raise Answered(reply(403, "denied: trusted-import\n"))

    async def is_arrived(self, name: str) -> bool:
        """Whether an uploaded file is a blob."""
        word = self.arrived.base(name)
        if not word:
            return False
        digest = word.partition(".")[0]
        self.blobs.relied[digest] = time.time()
        return await self.blobs.size(digest) is not None

    async def take(self, request: web.Request, name: str, given: AsyncIterable[bytes]) -> None:
        """Makes an archive that comes in pieces a blob, which waits for its record. Raises Bad."""
        digits, caller = cache_records.file_named(name), request["caller"]
        await self.demand_trust(caller)
        compression = next(key for key, suffix in cache_records.SUFFIXES.items() if name.endswith(f".nar{suffix}"))
        async with self.blobs.taken(request, compression, given) as (part, made):
            if paths.base32(made.sent) != digits:
                raise Bad(f"nar/{name} has another SHA-256: {paths.nar_hash(made.sent)}")
            self.arrived.add(name, word_of(await self.kept(caller, part, made)))

    async def kept(self, caller: Caller, part: str, made: Packed) -> Packed:
        """Makes a file a blob, which counts for its user until an object names it or a sweep deletes it."""
        made = await self.blobs.keep(part, made)
        self.uploads.shares.add(caller.user, paths.base32(made.nar_hash), made.file_size)
        return made

    async def is_large(self, request: web.Request, name: str, record: dict[str, str], waiting: Waiting) -> bool:
        """Whether the archive of a record is a blob. One that waits as a file becomes one, if it unpacks to more than
        the store itself keeps."""
        if await self.is_arrived(name):
            return True
        size = record.get("NarSize", "0")
        if not (size.isascii() and size.isdigit() and len(size) < 20):
            raise Bad(f"NarSize: {size[:100]}: a number is meant")
        if name not in waiting.files or int(size) <= self.least:
            return False
        await self.take(request, name, waiting.pieces(name))
        return True

    async def recorded(self, caller: Caller, name: str, record: dict[str, str], head: bytes) -> web.Response:
        """The reply to the record of an archive that is a blob. Raises Bad."""
        made, base = read_word(self.arrived.base(name)), record["StorePath"].rpartition("/")[2]
        if record["NarHash"] != paths.nar_hash(made.nar_hash) or record.get("NarSize", str(made.nar_size)) != str(
                made.nar_size):
            raise Answered(reply(400, MISMATCH))
        return await self.imported(caller, base, head, made)

    async def imported(self, caller: Caller, base: str, head: bytes, made: Packed) -> web.Response:
        """The reply to an import of a pointer to a blob. The blob is there when the pointer comes, and no sweep deletes
        it meanwhile. Raises Bad."""
        pointer = pointers.Pointer(paths.full(base, self.store), *made[1:])
        name, archive = paths.base32(made.nar_hash), pointers.archive(pointer)
        async with self.blobs.lock(name):
            self.blobs.relied[name] = time.time()
            if await self.blobs.size(name) != made.file_size:
                raise Bad(f"the archive of {base} isn't here any more: upload it again")
            data = with_hash(head, archive) + archive
            answer = await self.uploads.imported(caller, base, data, made.nar_size, name)
        return passed(answer) if answer.status != 200 else await self.checked(caller, base, pointer, answer)

    async def checked(self, caller: Caller, base: str, pointer: pointers.Pointer, answer: Reply) -> web.Response:
        """The reply to an import that was done. An object that was there before stays as it is, also where it is a
        pointer to another file of the same archive."""
        _, there = await self.pointers.at(caller, base)
        if there and there != pointer and there.nar_hash == pointer.nar_hash:
            return reply(409, f"failed: blob-differs {pointer.path}: the path names another file of this archive: "
                              "delete the path, and upload it again\n")
        return passed(answer)

    async def import_(self, request: web.Request) -> web.StreamResponse:
        """The store's own import. A large archive becomes a blob."""
        if (request.content_length or 0) <= BODY:
            return await self.passing.request(request, functools.partial(self.import_whole, request))
        await self.demand_trust(request["caller"])
        given = pieces(request, self.passing.idle)
        # (the head is in memory until the last piece, and an upload may wait for others)
        async with self.passing.coming.taken(request, HEAD) as held:
            head, first = await head_of(given, held)
            if head is None:
                return reply(400, "refused: 38 too-large\n")
            self.passing.coming.resize(held, len(head) + len(first))
            held.is_safe = True
            cache_changes.note(request, head)
            return await self.import_pieces(request, head, again(first, given), request.content_length)

    async def import_whole(self, request: web.Request, _: object, data: bytes) -> web.StreamResponse | None:
        """The reply to an import with a large archive, or None for another one, which the store does. Raises
        Answered."""
        end = data.find(b"\n\n") + 2
        head, size = data[:end], len(data) - end
        # (20 MB are in memory once)
        if end > 1 and size > self.least:
            parts = (data[at : at + PIECE] for at in range(end, len(data), PIECE))
            return await self.import_pieces(request, head, coming(parts), len(data))
        if end > 1 and size == pointers.SIZE:
            self.refuse_pointer(said(head, "ca"), said(head, "path"), data[end:])
        return None

    def refuse_pointer(self, address: str | bool, path: str, archive: bytes) -> None:
        """Raises Answered for an archive that would be a pointer: what is read at a path is what was added there."""
        if not address and pointers.read(archive, paths.full(path.rpartition("/")[2], self.store)):
            raise Answered(reply(403, POINTER))

    async def import_pieces(self, request, head, given, size):
        caller = request["caller"]
        try:
            base = paths.base_name(said(head, "path"), self.store)
        except paths.Malformed as malformed:
            return reply(400, f"{malformed}\n")
        await self.demand_trust(caller)
        with self.uploads.shares.room(caller.user, size):
            made = await self.import_blob(request, head, given)
        return await self.imported(caller, base, head, made)

    async def import_blob(self, request, head, given):
        """Makes the archive of an import a blob."""
        async with self.blobs.taken(request, "none", given) as (part, made):
            if said(head, "nar-hash") != paths.nar_hash(made.nar_hash):
                raise Answered(reply(400, MISMATCH))
            return await self.kept(request["caller"], part, made)

    # ---- what is served

    async def record(self, request: web.Request, base: str, text: bytes) -> tuple[bytes | None, web.Response | None]:
        """The text of a record as clients get it, and None or the reply where its blob is gone. A record of a pointer
        has the hash and the size of the archive."""
        text, pointer = await self.pointers.of(request["caller"], base, text)
        if not pointer:
            return None, None
        name = paths.base32(pointer.nar_hash)
        if not await self.blobs.is_there(name):
            answer = missing(f"blob-missing {pointer.path}: {name} isn't in the blobs")
            return None, reply(404, answer.body)
        return real(text, pointer, base, form_for(request)), None

    async def archive(self, request: web.Request, digest: str, form: str, base: str) -> web.StreamResponse:
        _, pointer = await self.pointers.at(request["caller"], base)
        if not pointer or paths.base32(pointer.nar_hash) != digest:
            return reply(404, "the path has other contents\n")
        return await self.blobs.send(request, pointer, form)

    async def own(self, request: web.Request, kind: str, base: str) -> web.StreamResponse:
        """The store's own record and archive of a pointer are those of what it names."""
        if kind == "info":
            return await self.passing.request(request, functools.partial(self.own_record, request, base))
        answer = await self.passing.request(request)
        # (a longer one has been sent)
        if len(getattr(answer, "body", None) or b"") != pointers.SIZE or answer.status != 200:
            return answer
        _, pointer = await self.pointers.at(request["caller"], base)
        return await self.blobs.send(request, pointer, "none") if pointer else answer

    async def own_record(self, request, base, caller, data):
        """The reply with a record, which may be long; None for a request with a body, which the store refuses."""
        if data not in (b"", b"\n"):
            return None
        text, pointer = await self.pointers.at(caller, base)
        answer, sending = reply(200, real(text, pointer) if pointer else text), self.passing.sending
        await sending.room(request, answer)
        return await sending.send(request, answer)

    async def uploaded(self, request: web.Request, name: str, base: str) -> web.StreamResponse | None:
        """The reply with the archive of a pointer as a client has uploaded it, or None for another object."""
        _, pointer = await self.pointers.at(request["caller"], base)
        if not pointer:
            return None
        if not name.endswith(".xz"):
            return await self.blobs.send(request, pointer, "zstd" if name.endswith(".zst") else "none")
        blob = paths.base32(pointer.nar_hash)
        given = blob_reading.pieces(self.blobs.place, blob, pointer, "none")
        answer = web.StreamResponse(headers={"content-type": BYTES})
        async with self.blobs.dear.taken(request["caller"].user):
            demand_client(request)
            return await self.blobs.streamed(request, blob_reading.as_xz(given), answer, blob)

    async def listing(self, request: web.Request) -> web.StreamResponse:
        """All pointers, a line each: the path, and the hashes and sizes of the archive and of its file."""
        caller = request["caller"]
        # (one is made at a time, and users take turns: each has the names of all objects in memory)
        async with self.turns.turn(caller.user):
            demand_client(request)
            by_base = await self.pointers.among(caller, await self.pointers.listed(caller))
        lines = [f"{pointer.path} {paths.nar_hash(pointer.nar_hash)} {pointer.nar_size} "
                 f"{paths.nar_hash(pointer.file_hash)} {pointer.file_size}"
                 for _, pointer in sorted(by_base.items())]
        answer, sending = reply(200, "".join(f"{line}\n" for line in lines)), self.passing.sending
        await sending.room(request, answer)
        return await sending.send(request, answer)


def real(text, pointer, base=None, form="none"):
    """The record of a pointer, with what it names; as a binary cache gives it where `base` is given."""
    fields = {"NarHash": paths.nar_hash(pointer.nar_hash), "NarSize": pointer.nar_size, "Compression": form,
              "FileHash": paths.nar_hash(blob_reading.hash_of(pointer, form)),
              "FileSize": blob_reading.size_of(pointer, form)}
    fields |= {"URL": f"large/{paths.base32(pointer.nar_hash)}/{form}/{base}"} if base else {}
    put = lambda match: f"{match[1]}: {fields.get(match[1], match[2])}"
    return re.sub(r"^(\w+): (.*)$", put, text.decode(), flags=re.M).encode()


async def again(first, given):
    """Yields what was read ahead, and the rest."""
    if first:
        yield first
    async for piece in given:
        yield piece


async def coming(given):
    """Yields pieces that are there."""
    for piece in given:
        yield piece


async def head_of(given: AsyncIterator[bytes], held: Held | None = None) -> tuple[bytes | None, bytes]:
    """The head of an import with its empty line, and what was read of the archive; None for a head that is too long.
    `held` is the room that it has, if it has any."""
    data = bytearray()
    async for piece in given:
        data += piece
        if held:
            held.moved()
        # (a piece may be a byte, so what came before isn't looked at again)
        end = data.find(b"\n\n", max(0, len(data) - len(piece) - 1)) + 2
        if end > 1:
            return bytes(data[:end]), bytes(data[end:])
        if len(data) > HEAD:
            break
    return None, b""


