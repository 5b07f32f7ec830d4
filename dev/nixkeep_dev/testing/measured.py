"""Says which lines of modules a process of Python has run: tests/gate/coverage.py has each process load this module.

A process writes no file, since its disk may be full, or its files limited: it sends its lines to a socket, before it
ends by itself, by `os._exit`, by SIGTERM, or as it kills itself. Those of a process that another one kills are lost.
"""
import atexit
import contextlib
import json
import os
import signal
import socket
from collections.abc import Callable
from typing import Any

# What is no fault of a process that runs no line of these modules.
NO_FAULTS = ["module-not-imported", "module-not-measured", "no-data-collected"]


def begin(place: str, folder: str) -> None:
    """Measures this process, whose lines of modules in a folder go to the Unix socket at this place."""
    import coverage

    lines = coverage.Coverage(data_file=None, config_file=False, source=[folder], messages=False)
    lines.set_option("run:disable_warnings", NO_FAULTS)

    def send():
        data = lines.get_data()
        said = json.dumps({file: data.lines(file) for file in data.measured_files()}).encode()
        with contextlib.suppress(OSError), socket.socket(socket.AF_UNIX) as listening:
            listening.connect(place)
            listening.sendall(said)

    lines.start()
    atexit.register(send)
    os._exit = ahead(os._exit, send)
    os.kill = ahead(os.kill, send, lambda pid, number: pid == os.getpid() and number == signal.SIGKILL)
    # (a program that has its own handler ends by itself)
    signal.signal(signal.SIGTERM, lambda *_: (send(), end_by(signal.SIGTERM)))


def ahead(call: Callable, send: Callable, is_end: Callable = lambda *_: True) -> Callable:
    """A function that sends the lines ahead of a call which ends the process."""

    def sending(*words: Any) -> Any:
        if is_end(*words):
            send()
        return call(*words)

    return sending


def end_by(number: int) -> None:
    """Ends this process as a signal does that it doesn't handle."""
    signal.signal(number, signal.SIG_DFL)
    os.kill(os.getpid(), number)
