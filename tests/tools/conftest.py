"""What the tests of nixkeep-explain, nixkeep-cache and nixkeep-remote are given."""
import tempfile
from pathlib import Path

import pytest

import parts
from nixkeep_dev.testing.tables import ALL, put
from nixkeep_dev.testing.unsound import Faulty
from tests.tools import servers
from tests.tools.cached import CONFIG
from tests.tools.explained import Program
from tests.tools.remote import Client


@pytest.fixture
def nixkeep(program, folder):
    return Program(program, folder)


@pytest.fixture(scope="module")
def many(count):
    """How many random files are tried."""
    return 40 if count is None else count


@pytest.fixture
def path(folder):
    """A sound file."""
    made = f"{folder}/apart.db"
    put(made, Faulty().store.rows(), ALL)
    return made


@pytest.fixture
def unit(program, folder):
    """Makes a store in the folder, as its units run it, with further options of nixkeep-cache."""
    def made(*more):
        Path(config := f"{folder}/store.toml").write_text(CONFIG)
        words = more and ("--proxied", *more)
        return parts.Unit(program, folder, config, f"{folder}/store.db", f"{folder}/socket", *words)

    return made


@pytest.fixture(scope="module")
def port(program):
    """The port of a server of a store with an object."""
    with tempfile.TemporaryDirectory() as folder, servers.server(program, "--db", f"{folder}/store.db") as made:
        assert Client(folder)(f"http://127.0.0.1:{made}", "--as", "ann", "add-text", "n", given=b"x")[0] == 0
        yield made


@pytest.fixture
def client(folder):
    return Client(folder)
