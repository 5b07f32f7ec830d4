"""Archives and digests as Nix makes them: what the tools of nixkeep are compared with."""
import hashlib
import subprocess
import tempfile


def printed(*words: str) -> bytes:
    return subprocess.run(words, stdout=subprocess.PIPE, check=True).stdout


def archive(contents: bytes) -> bytes:
    """That of a file with these contents."""
    with tempfile.NamedTemporaryFile() as file:
        file.write(contents)
        file.flush()
        return printed("nix-store", "--dump", file.name)


def digest(data: bytes) -> str:
    """The SHA-256 of an archive, or of other bytes, in base 32."""
    return printed("nix-hash", "--type", "sha256", "--to-base32", hashlib.sha256(data).hexdigest()).decode().strip()


def nar_hash(data: bytes) -> str:
    """That digest as records and addresses have it."""
    return f"sha256:{digest(data)}"
