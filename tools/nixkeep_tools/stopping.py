"""Signals that end a program, such as that of a terminal whose connection is lost: they end it with a line, once it has
tidied up."""
import contextlib
import signal
from collections.abc import Iterator

from .failures import Stop

ENDING = signal.SIGHUP, signal.SIGTERM


def by_signals(what: str) -> None:
    """From now on such a signal raises Stop, unless it was ignored so far, as by nohup. `what` is what fails then. The
    first one is enough: another would end what is tidied up, and a lost terminal's shell sends one more."""
    heard = [ending for ending in ENDING if signal.getsignal(ending) is not signal.SIG_IGN]

    def stop(number, _):
        for ending in heard:
            signal.signal(ending, drop)
        raise Stop(f"failed: {what}: it was stopped by {signal.Signals(number).name}")

    for ending in heard:
        signal.signal(ending, stop)


def drop(*_: object) -> None:
    """The handler of a signal that does nothing."""


@contextlib.contextmanager
def whole() -> Iterator[None]:
    """What is done here is done to its end: such signals, and that of Ctrl-C, are dropped meanwhile."""
    before = {ending: signal.signal(ending, drop) for ending in (*ENDING, signal.SIGINT)}
    try:
        yield
    finally:
        for ending, handler in before.items():
            signal.signal(ending, handler)
