"""Uploaded records (narinfo) and archives: what a client of a binary cache sends, as the body of an import."""
import lzma
import re

from . import nar, paths

try:
    import zstandard
except ImportError:
    zstandard = None

# The compressions that are read, each with the suffix of its files.
SUFFIXES = {"none": "", "xz": ".xz", "zstd": ".zst"}
# An archive on its way: the SHA-256 of the file in base 32, and the suffix of its compression.
FILE = re.compile(r"([0-9abcdfghijklmnpqrsvwxyz]{52})\.nar(\.[0-9a-z]+)?")
# A SHA-256 in base 32, which is the name of a blob.
DIGEST = re.compile(r"[0-9abcdfghijklmnpqrsvwxyz]{52}")
# The memory that one compressed file may ask for, and the lines that a record may have.
ROOM, LINES = 128 << 20, 10_000


class Bad(Exception):
    """An upload that can't be accepted, with the text of the reply."""


def file_named(name: str) -> str:
    """The digits of a file's hash. Raises Bad for a name or a compression that isn't known."""
    match = FILE.fullmatch(name)
    if not match:
        raise Bad(
            f"nar/{name}: the name has to be the SHA-256 of its file in base 32, .nar, and a suffix of its compression"
        )
    if (match[2] or "") not in SUFFIXES.values():
        raise Bad(f"nar/{name}: archives come as they are, as .xz or as .zst; ask for compression=none")
    if match[2] == ".zst" and not zstandard:
        raise Bad(f"nar/{name}: zstd needs the Debian package python3-zstandard here; ask for compression=none")
    return match[1]


def fields(text: bytes) -> dict[str, str]:
    """The fields of a record. Raises Bad."""
    if text.count(b"\n") > LINES:
        raise Bad(f"a record has at most {LINES} lines")
    try:
        lines = [line.partition(":") for line in text.decode("ascii").split("\n") if line]
    except UnicodeDecodeError:
        raise Bad("the record isn't ASCII text") from None
    values = {key: value.strip() for key, colon, value in lines if colon}
    for key in ("StorePath", "URL", "NarHash"):
        if key not in values:
            raise Bad(f"the record has no {key}")
    return values


def file_of(record: dict[str, str]) -> str:
    """The name of the archive's file. Raises Bad."""
    folder, _, name = record["URL"].rpartition("/")
    compression = record.get("Compression", "bzip2")
    if folder != "nar" or compression not in SUFFIXES:
        raise Bad(f"URL: {record['URL']}, Compression: {compression}: nar/FILE is meant, and none, xz or zstd")
    file_named(name)
    if not name.endswith(f".nar{SUFFIXES[compression]}"):
        raise Bad(f"URL: {record['URL']} isn't of Compression: {compression}")
    return name


def is_kept(address, base, references):
    """Whether the store can verify this content address. It can't for flat ones, for other hashes, and for an object
    that refers to itself. Such an object comes as one without an address, which trusted users may import."""
    try:
        paths.read_address(address)
    except paths.Malformed:
        return False
    return base not in references


def import_head(record: dict[str, str], digits: str, store: str) -> bytes:
    """The lines of an import's body before the archive. Raises Bad."""
    try:
        base = paths.base_name(record["StorePath"], store)
        references = [paths.base_name(path, store) for path in record.get("References", "").split()]
        deriver = record.get("Deriver", "unknown-deriver")
        named = [] if deriver in ("", "unknown-deriver") else [("deriver", paths.base_name(deriver, store))]
    except paths.Malformed as malformed:
        raise Bad(f"a path of the record isn't one in {store}: {malformed}") from None
    if base[:32] != digits:
        raise Bad(f"the record of {base} isn't that of {digits}")
    address = record.get("CA", "")
    if address and is_kept(address, base, references):
        named.append(("ca", address))
    lines = [("path", base), ("nar-hash", record["NarHash"]), *(("reference", target) for target in references), *named]
    return "".join(f"{key}: {value}\n" for key, value in lines).encode() + b"\n"


def unpacked(name: str, data: bytes) -> bytes:
    """The archive in a file. Raises Bad if it can't be unpacked or is too long; at most a byte beyond the limit is
    unpacked."""
    try:
        if name.endswith(".xz"):
            unpacker = lzma.LZMADecompressor(lzma.FORMAT_XZ, memlimit=ROOM)
            data = unpacker.decompress(data, nar.LIMIT + 1)
            if unpacker.needs_input:
                raise EOFError("it ends too early")
        elif name.endswith(".zst"):
            data = zstandard.ZstdDecompressor(max_window_size=ROOM).stream_reader(data).read(nar.LIMIT + 1)
    except (lzma.LZMAError, EOFError, *([zstandard.ZstdError] if zstandard else [])) as error:
        raise Bad(f"nar/{name} can't be unpacked: {error}") from None
    if len(data) > nar.LIMIT:
        raise Bad(f"nar/{name}: an archive has at most {nar.LIMIT} bytes")
    return data


def packed(name: str, archive: bytes) -> bytes:
    """The archive as a file of this name has it: compressed, by its suffix. Raises Bad for a compression that isn't
    there."""
    file_named(name)
    if name.endswith(".xz"):
        return lzma.compress(archive, preset=0)
    return zstandard.ZstdCompressor(level=1).compress(archive) if name.endswith(".zst") else archive
