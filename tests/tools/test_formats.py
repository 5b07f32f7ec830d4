"""Compares what the tools know of Nix's formats with the model, which is written apart: base 32, names, store paths,
content addresses, archives and derivations.

Texts, trees and outputs are random, and so are the bytes that are changed in them: both read the same, or refuse it by
the same number. `--count` is how many are tried of each (2,000).
"""
import hashlib

import pytest

from nixkeep_dev.model import archives, derivations, texts
from nixkeep_tools import drv, nar, paths

STORES = ["/nix/store", "/s", "/srv/ann/.store"]
# Characters of names and labels, ends of ranges of them, and some that no text may have.
CHARACTERS = "abeoutz019-._+?=@AZ[`{!~ /\n\x7f\xe9" + texts.DIGITS
ENTRIES = [b"a", b"b", b"a.b", b"a-b", b"B", b"..a", b"\xff", b"x" * 9, b"bin", b"\x01 \\"]


@pytest.fixture
def many(count):
    return 2000 if count is None else count


def came(work, *given):
    """What comes of a call: its value, or the number of the refusal."""
    try:
        return work(*given)
    except (paths.Malformed, nar.Fault, texts.Refused) as refused:
        return refused.number


def some_text(rng, sizes):
    return "".join(rng.choices(CHARACTERS[:rng.choice([5, 12, len(CHARACTERS)])], k=rng.choice(sizes)))


def spoiled(rng, data):
    """Bytes of which some are changed, cut off or added."""
    data = bytearray(data)
    for _ in range(rng.choice([0, 0, 0, 1, 2])):
        data[rng.randrange(len(data))] = rng.choice([0, 1, 7, 34, 40, 41, 91, 92, 93, 255])
    cut = rng.choice([len(data)] * 6 + [rng.randrange(len(data))])
    return bytes(data[:cut]) + rng.choice([b""] * 12 + [b"\0", bytes(8), b")"])


def test_a_path_of_the_nix_manual():
    """The archive, path and digest of a file `myfile` with this contents are published in the Nix Pills, 18."""
    archive = nar.regular_file(b"mycontent\n")
    digest = hashlib.sha256(archive).digest()
    assert digest.hex() == "2bfef67de873c54551d884fdab3055d84d573e654efa79db3c0d7b98883f9ee3"
    assert paths.path_of("source", digest, "myfile") == "xv2iccirbrvklck36f1g7vldn5v58vck-myfile"


@pytest.mark.parametrize("size", [0, 1, 20, 32])
def test_base_32(rng, many, size):
    for _ in range(many):
        data = rng.randbytes(size)
        text = paths.base32(data)
        assert text == texts.base32(data)
        text = rng.choice([text, some_text(rng, [len(text)]), text[1:], text + "0", "1" * len(text), "z" * len(text)])
        assert came(paths.unbase32, text, size) == came(texts.unbase32, text, size), repr(text)


@pytest.mark.parametrize("kind", ["plain_name", "store_name", "store_dir", "label"])
def test_texts_of_a_kind(rng, many, kind):
    by_tool, by_model = getattr(paths, f"is_{kind}"), getattr(texts, f"is_{kind}")
    limits = [limit + more for limit in (64, 200, 211, 256) for more in (-1, 0, 1)]
    known = ["", ".", "..", ".-a", "..-a", "...", ".a", "-a", "/", "//", "/.", "/..", "/a/", "/a//b", *STORES]
    known += [text * (size // len(text)) for text in ("a", "/a", "~") for size in limits]
    drawn = [*(some_text(rng, [1, 2, 3, 8]) for _ in range(many)), *(some_text(rng, limits) for _ in known)]
    for text in [*known, *drawn, *(f"/{name.replace('@', '/')}" for name in drawn)]:
        assert by_tool(text) == by_model(text), repr(text)


def test_base_names(rng, many):
    for _ in range(many):
        store, digits = rng.choice(STORES), texts.base32(rng.randbytes(20))
        text = f"{digits}-{some_text(rng, [1, 2, 3])}"
        text = rng.choice([text, f"{store}/{text}", f"{rng.choice(STORES)}/{text}", text[1:], some_text(rng, [34, 35])])
        assert came(paths.base_name, text, store) == came(texts.base_of, store, text), repr(text)


def some_references(rng):
    return [f"{texts.base32(bytes([choice]) * 20)}-r" for choice in rng.choices(range(9), k=rng.randrange(4))]


@pytest.mark.parametrize("kind", ["text", "source"])
def test_paths_and_content_addresses(rng, many, kind):
    for _ in range(many):
        inner, name, refs, store = rng.randbytes(32), some_text(rng, [1, 3]), some_references(rng), rng.choice(STORES)
        assert paths.path_of(kind, inner, name, refs, store) == texts.path_of(kind, store, name, refs, inner)
        address = spoiled(rng, paths.address(kind, inner).encode()).decode("latin-1")
        assert came(paths.read_address, address) == came(texts.address_of, address), repr(address)
        assert texts.address_of(paths.address(kind, inner)) == (kind, inner)


# ---- archives and derivations


def some_node(rng, depth):
    kind = rng.choice(["regular", "symlink", "directory", "directory"][:None if depth else 2])
    if kind == "regular":
        return kind, rng.random() < 0.5, rng.randbytes(rng.choice([0, 1, 7, 8, 9, 100]))
    if kind == "symlink":
        return kind, rng.choice(ENTRIES)
    # (most are in order, and each once)
    names = rng.sample(ENTRIES, rng.randrange(4))
    return kind, [(name, some_node(rng, depth - 1)) for name in rng.choice([sorted(names)] * 9 + [names])]


def by_tool(data, size):
    return "".join(f"{line}\n" for line in nar.listing(data[at:at + size] for at in range(0, len(data), size)))


def test_archives(rng, many):
    for _ in range(many):
        data = spoiled(rng, archives.write(some_node(rng, 3)))
        wanted = came(lambda: archives.listing(archives.read(data)))
        assert came(by_tool, data, rng.choice([1, 7, 64, 4096])) == wanted, data.hex()


@pytest.mark.parametrize("depth", [archives.DEPTH - 1, archives.DEPTH])
def test_nodes_inside_one_another(depth):
    node = ("symlink", b"x")
    for _ in range(depth):
        node = ("directory", [(b"d", node)])
    data = archives.write(node)
    assert came(by_tool, data, 4096) == came(lambda: archives.listing(archives.read(data)))


def test_the_archive_of_a_file(rng):
    for size in (0, 1, 7, 8, 9, 5000):
        contents = rng.randbytes(size)
        for is_executable in (False, True):
            assert nar.regular_file(contents, is_executable) == archives.file_archive(contents, is_executable)


def some_output(rng, store):
    path = f"{store}/{texts.base32(rng.randbytes(20))}-{rng.choice(['a', 'b+', some_text(rng, [1, 2])])}"
    path = rng.choice([path] * 12 + ["", path[1:], f"/x{path}"])
    name = rng.choice(["out", "dev", "lib", "man", some_text(rng, [1, 2])])
    return [text.encode("latin-1") for text in (name, path, "", "r:sha256")]


def test_derivations(rng, many):
    for _ in range(many):
        store = rng.choice(STORES)
        inputs, sources = [(b"/nix/store/a.drv", [b"out", b"dev"])][:rng.randrange(2)], [b"s"] * rng.randrange(3)
        outputs = [some_output(rng, store) for _ in range(rng.randrange(4))]
        text = derivations.write(outputs, inputs, sources, args=[b"-e", b'"\\\n\t'], env=[(b"k", rng.randbytes(9))])
        data = spoiled(rng, text)
        assert came(drv.outputs, data, store) == came(derivations.outputs, data, store), repr(data)
