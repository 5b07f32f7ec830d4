"""nixkeep-remote as its tests call it: with an environment of its own, and what it prints where it fails."""
import os
import re
import subprocess
from pathlib import Path

from nixkeep_dev.build.program import HERE
from tests.tools.servers import ran

REMOTE = f"{HERE}/tools/nixkeep-remote"
ALLOWED = 0, b"class: allowed\nconnect: yes\n", b""


def certificate(folder: str) -> tuple[str, str]:
    """A certificate for 127.0.0.1 that signs itself, and its key."""
    pair = f"{folder}/cert.pem", f"{folder}/key.pem"
    words = "openssl req -x509 -newkey rsa:2048 -nodes -days 2 -subj /CN=127.0.0.1".split()
    words += ["-addext", "subjectAltName=IP:127.0.0.1", "-out"]
    subprocess.run([*words, pair[0], "-keyout", pair[1]], check=True, capture_output=True)
    return pair


class Client:
    """nixkeep-remote with an environment of its own."""

    def __init__(self, folder: str):
        self.env = {key: value for key, value in os.environ.items() if not key.startswith("NIXKEEP_")}
        self.env.update(HOME=folder, NO_PROXY="*")

    def __call__(self, server: str | None, *words: str, given: bytes = b"", **env: str) -> tuple[int, bytes, bytes]:
        return ran([REMOTE, *(["--server", server] if server else []), *words], given, env={**self.env, **env})


def file_of(folder: str, name: str, text: str, mode: int = 0o600) -> str:
    """Makes a file of a folder, and returns its path."""
    path = Path(folder, name)
    path.write_text(text)
    path.chmod(mode)
    return str(path)


def fails(came: tuple[int, bytes, bytes], pattern: str) -> None:
    """A command failed with one line."""
    status, output, errors = came
    assert (status, output) == (1, b"")
    assert re.fullmatch(pattern, errors.decode().rstrip("\n")) and errors.endswith(b"\n"), errors


def trusted(folder: str, file: str) -> dict[str, dict[str, str]]:
    """The variables by which OpenSSL's certificates of the system are in a file, or in a folder with links by hash."""
    for name in ("empty", "trusted"):
        Path(folder, name).mkdir()
    words = ["openssl", "x509", "-noout", "-subject_hash", "-in", file]
    os.symlink(file, f"{folder}/trusted/{subprocess.check_output(words, text=True).strip()}.0")
    return {"file": {"SSL_CERT_FILE": file, "SSL_CERT_DIR": f"{folder}/empty"},
            "folder": {"SSL_CERT_FILE": f"{folder}/empty/file", "SSL_CERT_DIR": f"{folder}/trusted"}}
