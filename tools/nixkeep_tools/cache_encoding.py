"""Archives compressed on their way by zstd, for clients that say that they read it."""
import asyncio
import re

from aiohttp import web

try:
    import zstandard
except ImportError:
    zstandard = None

# The bytes from which on an archive is compressed, and the part of them that it has to save.
LEAST, SAVED = 1024, 0.05
LEVEL = 3
# What an archive's reply has, so that a cache keeps what is compressed apart.
VARY = {"vary": "accept-encoding"}
REFUSED = re.compile(r"q *= *0(\.0*)?")


def accepts(request):
    """Whether a client reads zstd, by its `accept-encoding`."""
    for item in ",".join(request.headers.getall("accept-encoding", [])).lower().split(","):
        name, *more = [part.strip() for part in item.split(";")]
        if name == "zstd":
            return bool(zstandard) and not any(map(REFUSED.fullmatch, more))
    return False


def tag_of(digest):
    """The tag of an archive that is compressed: its bytes are others than those of the archive."""
    return f"{digest}-zstd"


def tag_kept(request: web.Request, digest: str) -> str | None:
    """The tag by which a client has the archive already, or None."""
    tags = [digest, *([tag_of(digest)] if accepts(request) else [])]
    return next((tag.value for tag in request.if_none_match or () if tag.value in tags), None)


def packed(data):
    return zstandard.ZstdCompressor(level=LEVEL).compress(data)


async def encoded(request: web.Request, answer: web.Response, digest: str) -> web.Response:
    """The reply with an archive, compressed where the client reads that and it saves something. HEAD has the head of
    the archive as it is, whose length is known without it."""
    if request.method != "GET" or answer.status != 200 or len(answer.body) < LEAST or not accepts(request):
        return answer
    data = await asyncio.get_running_loop().run_in_executor(None, packed, answer.body)
    if len(data) > (1 - SAVED) * len(answer.body):
        return answer
    head = {key: answer.headers[key] for key in ("cache-control", "content-type", "vary")}
    return web.Response(body=data, headers=head | {"etag": f'"{tag_of(digest)}"', "content-encoding": "zstd"})
