"""Sends standard input to a port of 127.0.0.1, and prints what comes back: `peer PORT [bytes]`.

It waits until somebody listens there, sends its input whole, or each byte by itself, ends its sending, and reads until
the other side ends.
"""
import socket
import sys
import time

from nixkeep_dev.testing.http_messages import connected


def main():
    if sys.argv[1:] == ["--help"]:
        sys.exit(print(__doc__))
    given, size = sys.stdin.buffer.read(), 1 if sys.argv[2:] else None
    with connected(int(sys.argv[1])) as other:
        other.setsockopt(socket.IPPROTO_TCP, socket.TCP_NODELAY, 1)
        for at in range(0, len(given), size or max(len(given), 1)):
            other.sendall(given[at : at + (size or len(given))])
            # (what is sent soon after a byte would be read with it)
            time.sleep(0.001)
        other.shutdown(socket.SHUT_WR)
        while came := other.recv(65_536):
            sys.stdout.buffer.write(came)


if __name__ == "__main__":
    main()
