"""A command that gets its standard input in pieces, each only when all before it was read."""
import fcntl
import os
import socket
import struct
import subprocess
import termios
import time
from collections.abc import Iterable

# Between two looks whether a piece was read: who looks again at once takes the time of who reads.
SECONDS = 0.0003


def unread(pipe: int | socket.socket) -> int:
    """How many bytes wait in a pipe or a socket."""
    return struct.unpack("i", fcntl.ioctl(pipe, termios.FIONREAD, bytes(4)))[0]


def run(command: list, pieces: Iterable[bytes]) -> tuple[bytes, int]:
    """What the command prints, and its status, for an input that comes in these pieces."""
    source, sink = os.pipe()
    with open(os.memfd_create("output"), "w+b") as output, \
            subprocess.Popen(command, stdin=source, stdout=output) as running:
        os.close(source)
        for piece in pieces:
            # (a read gives no more than one packet, so that a single byte needs no look)
            is_packet = len(piece) == 1
            fcntl.fcntl(sink, fcntl.F_SETFL, os.O_DIRECT if is_packet else 0)
            try:
                os.write(sink, piece)
            except BrokenPipeError:
                break
            while not is_packet and unread(sink) and running.poll() is None:
                time.sleep(SECONDS)
        os.close(sink)
        status = running.wait()
        output.seek(0)
        return output.read(), status
