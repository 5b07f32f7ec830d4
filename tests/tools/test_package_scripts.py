"""What the scripts of the package do as it is installed, upgraded and removed.

They run over folders of a test in place of the machine's, with commands that log their words.
"""
import os
import subprocess
from pathlib import Path

import pytest

from tests.tools.packed import pack
from tests.tools.remote import file_of

pytestmark = pytest.mark.needs("dpkg-deb")
# The folders of a machine that the scripts use, with those of a test, and the commands.
PLACES = {"/run/systemd/system": "systemd", "/usr/lib/nixkeep": "lib"}
COMMANDS = ("systemctl", "deb-systemd-invoke", "py3compile", "nixkeep-backup")
RELOADED = "systemctl --system daemon-reload"
# A server that runs is tested before it is restarted.
LISTED = "systemctl list-units --plain --no-legend --state=active nixkeep@*.service"
TESTED = ("nixkeep-backup check --db /var/lib/nixkeep/red/store.db --config /etc/nixkeep/red.toml "
          "--server unix:/run/nixkeep/red.socket --unit nixkeep@red.service")
RESTARTED = "deb-systemd-invoke try-restart nixkeep@red.service"
# A copy that is made would start its server again.
STOPPED = ["deb-systemd-invoke stop nixkeep-backup@*.service",
           "deb-systemd-invoke stop nixkeep@*.socket nixkeep@*.service"]


class Scripts:
    """The scripts of a package in a folder."""

    def __init__(self, deb, room):
        self.room, self.log, self.compiled = room, f"{room}/log", f"py3compile {room}/lib"
        subprocess.run(["dpkg-deb", "-e", deb, room], check=True)
        for folder in ("bin", *PLACES.values()):
            os.makedirs(f"{room}/{folder}")
        for name in COMMANDS:
            text = f'#!/bin/sh\necho "{name} $*" >>{self.log}\n'
            text += "[ $1 != list-units ] || echo nixkeep@red.service loaded active running\n" * (name == "systemctl")
            text += f"[ ! -e {room}/bad ]\n" * (name == "nixkeep-backup")
            file_of(f"{room}/bin", name, text, 0o755)

    def run(self, name, *words):
        """The status of a script, what it printed, and what it had commands do."""
        text = Path(f"{self.room}/{name}").read_text()
        for path, folder in PLACES.items():
            text = text.replace(path, f"{self.room}/{folder}")
        Path(self.log).write_text("")
        path = {"PATH": f"{self.room}/bin:/usr/sbin:/usr/bin:/sbin:/bin"}
        ran = subprocess.run(["sh", "-c", text, name, *words], env={**os.environ, **path}, text=True,
                             stdout=subprocess.PIPE, stderr=subprocess.STDOUT)
        return ran.returncode, ran.stdout, Path(self.log).read_text().splitlines()


@pytest.fixture(scope="module")
def deb(program, shared_folder):
    return pack(shared_folder, ["--program", program])[0]


@pytest.fixture
def scripts(deb, folder):
    return Scripts(deb, f"{folder}/scripts")


def test_a_first_installation(scripts):
    assert scripts.run("postinst", "configure", "") == (0, "", [scripts.compiled, RELOADED])


def test_an_upgrade(scripts):
    wanted = [scripts.compiled, RELOADED, LISTED, TESTED, RESTARTED]
    assert scripts.run("postinst", "configure", "0.9.0") == (0, "", wanted)


def test_an_upgrade_next_to_a_server_that_could_not_start_again(scripts):
    Path(f"{scripts.room}/bad").touch()
    status, said, done = scripts.run("postinst", "configure", "0.9.0")
    assert (status, done) == (0, [scripts.compiled, RELOADED, LISTED, TESTED])
    assert "nixkeep@red.service might not start again" in said


def test_an_upgrade_from_another_schema_restarts_nothing(scripts):
    status, said, done = scripts.run("postinst", "configure", "0.0.9")
    assert (status, done) == (0, [scripts.compiled, RELOADED])
    assert "another schema" in said and said.count("\n") == 2


def test_a_step_back(scripts):
    assert scripts.run("postinst", "abort-upgrade", "1.0.0") == (0, "", [])


@pytest.mark.parametrize("words, wanted", [(["remove"], STOPPED), (["upgrade", "9.9"], [])])
def test_what_python_compiled_is_removed(scripts, words, wanted):
    made = f"{scripts.room}/lib/nixkeep_tools/__pycache__"
    os.makedirs(made)
    assert scripts.run("prerm", *words) == (0, "", wanted)
    assert not Path(made).exists()


def test_where_systemd_does_not_run(scripts):
    os.rmdir(f"{scripts.room}/systemd")
    assert scripts.run("postinst", "configure", "0.9.0") == (0, "", [scripts.compiled])
