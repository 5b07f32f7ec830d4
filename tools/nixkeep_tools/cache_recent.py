"""Records that are in memory, so that the server isn't asked for them again."""
import collections

from .cache_server import Server
from .cache_signing import Signing

# The bytes of the texts that are in memory, and what each has besides.
MOST, EACH = 32 << 20, 1000


class Recent:
    """Texts of records as clients get them, by base names. They are good while the server says that none has changed
    (`Server.age`), and while the same signatures are kept. Those that were asked for last stay."""

    def __init__(self, server: Server, signing: Signing, most: int = MOST):
        self.server, self.signing, self.most = server, signing, most
        # The state of the store that all of these are of.
        self.of = None
        self.texts, self.size = collections.OrderedDict(), 0

    def now(self) -> tuple | None:
        """Which state of the store the next reply of the server is of; None where that isn't known."""
        age = self.server.age()
        return None if age is None else (age, self.signing.changes)

    def text(self, base: str) -> bytes | None:
        """The text of a record, or None where the server has to be asked."""
        now = self.now()
        if now is None or now != self.of:
            return None
        if text := self.texts.get(base):
            self.texts.move_to_end(base)
        return text

    def add(self, base: str, text: bytes, state: tuple | None) -> None:
        """Adds a record for which the server was asked when `now` gave `state`."""
        if state is None or state != self.now():
            return
        if self.of != state:
            self.texts.clear()
            self.of, self.size = state, 0
        self.size += len(text) + EACH - self.size_of(base)
        self.texts[base] = text
        while self.size > self.most:
            self.size -= self.size_of(next(iter(self.texts)))
            self.texts.popitem(last=False)

    def size_of(self, base):
        return len(self.texts[base]) + EACH if base in self.texts else 0
