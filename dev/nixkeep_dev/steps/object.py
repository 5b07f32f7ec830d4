"""Writes what `nixkeep import` reads: `object PATH [LINE..]` with an archive on standard input.

The lines are the path, the digest of the archive in base 32, those that are given, such as `reference: PATH`, and an
empty one; then comes the archive.
"""
import signal
import sys

from nixkeep_dev.testing.nar import nar_hash


def main():
    if sys.argv[1:] == ["--help"]:
        sys.exit(print(__doc__))
    # (who reads it may end before, as of an archive with a fault)
    signal.signal(signal.SIGPIPE, signal.SIG_DFL)
    archive = sys.stdin.buffer.read()
    path, *lines = sys.argv[1:]
    head = [f"path: {path}", f"nar-hash: {nar_hash(archive)}", *lines, "", ""]
    sys.stdout.buffer.write("\n".join(head).encode() + archive)


if __name__ == "__main__":
    main()
