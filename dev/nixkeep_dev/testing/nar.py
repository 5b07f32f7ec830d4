"""Archives, digests, store paths and derivation texts as Nix defines them, apart from the program: what tests compare
it with. The model (dev/nixkeep_dev/model) has most of them; here the store is at /nix/store."""
import os
from collections.abc import Iterable

from nixkeep_dev.model import archives, texts

STORE, LIMIT = "/nix/store", archives.LIMIT
DIGITS, base32, folded, sha256 = texts.DIGITS, texts.base32, texts.folded, texts.sha256
# The archive of a node, as the model has nodes; that of a regular file; and strings as an archive has them.
of_node, archive, strings = archives.write, archives.file_archive, archives.spell


def digest(data: bytes) -> str:
    """The digest of an archive, or of other bytes, in base 32."""
    return base32(sha256(data))


def nar_hash(data: bytes) -> str:
    """The digest of an archive, or of other bytes, as records and addresses have it."""
    return f"sha256:{digest(data)}"


def listing(tree: dict, path: str = ".") -> list[str]:
    """The lines of `nixkeep ls` for a tree as the JSON of Nix describes it."""
    kind = tree["type"]
    if kind == "directory":
        entries = sorted((os.fsencode(name), entry) for name, entry in tree["entries"].items())
        return [f"d {path}", *(line for name, of in entries for line in listing(of, f"{path}/{archives.shown(name)}"))]
    if kind == "symlink":
        return [f"l {path} -> {archives.shown(os.fsencode(tree['target']))}"]
    return [f"{'x' if tree.get('executable') else 'r'} {tree['size']} {path}"]


def text_path(name: str, contents: bytes, refs: Iterable[str] = ()) -> str:
    return texts.text_path(STORE, name, refs, contents)


def source_path(name: str, nar: bytes, refs: Iterable[str] = ()) -> str:
    return texts.source_path(STORE, name, refs, nar)


def hidden(text: str) -> str:
    """A path that no add gives."""
    return f"{base32(sha256(text.encode())[:20])}-{text}"


def derivation(outputs: dict | Iterable[tuple], inputs: Iterable[str] = (), env: Iterable = ()) -> bytes:
    """A derivation text: its outputs, a base name by each name, the full paths of inputs, and values as they are
    written."""
    named = outputs.items() if isinstance(outputs, dict) else outputs
    outs = ",".join(f'("{name}","{STORE}/{base}","","")' for name, base in sorted(named))
    drvs = ",".join(f'("{path}",["dev","out"])' for path in inputs)
    pairs = ",".join(f'("v{at:06}","{value}")' for at, value in enumerate(env))
    return f'Derive([{outs}],[{drvs}],[],"x86_64-linux","/bin/sh",[],[{pairs}])'.encode()
