"""The units of a store, which are stopped while its files are put back, and started again."""
import contextlib
from collections.abc import Iterable, Iterator

from . import backup_file, stopping
from .failures import Stop

# What is stopped, in this order: nothing may start the server meanwhile, or copy what isn't whole.
TIMER, COPY, SOCKET, SERVER = UNITS = [
    "nixkeep-backup@{}.timer", "nixkeep-backup@{}.service", "nixkeep@{}.socket", "nixkeep@{}.service"]
# The states of a unit that runs, or is on its way.
RUNS = "active", "activating", "deactivating"


def state_of(unit: str) -> str:
    """The state of a unit: `active`, or `activating` for a server that is started again and again."""
    words = ["sh", "-c", 'systemctl is-active "$1" || true', "sh", unit]
    return backup_file.ran(words, "unit").strip()


def set_unit(what, unit):
    # (in a group of its own: what a terminal sends to all that run there, as when it is lost, would end systemctl)
    backup_file.ran(["systemctl", what, unit], "unit", process_group=0)


def start(units: Iterable[str]) -> None:
    """Starts units, also those after one that fails: without its timer a store would have no copies any more. Raises
    the Stop of the first that fails."""
    failed = []
    for unit in units:
        try:
            set_unit("start", unit)
        except Stop as stop:
            failed.append(stop)
    if failed:
        raise failed[0]


@contextlib.contextmanager
def stopped(name: str) -> Iterator[None]:
    """Stops the units of a store, and starts those again that ran, also where something fails meanwhile."""
    unit = {kind: kind.format(name) for kind in UNITS}
    ran = {kind: state_of(unit[kind]) in RUNS for kind in UNITS}
    # (while a copy is made the server is stopped, and is started at its end)
    ran[SERVER] = ran[SERVER] or ran[COPY]
    try:
        for kind in UNITS:
            if ran[kind] or kind in (SOCKET, SERVER):
                set_unit("stop", unit[kind])
        yield
    finally:
        with stopping.whole():
            start([unit[kind] for kind in (SOCKET, SERVER, TIMER) if ran[kind]])
