"""Tries the examples for NixOS and containers, as far as a machine without these can.

NixOS: Nix evaluates the module over options and packages in place of those of nixpkgs: the files, groups and units that
it makes of two stores; the program takes the configuration that it writes. What package.nix does in its phase of
installation is done on the files of an archive: the units name no program below /usr, and the tools run.

Containers: each instruction is one that there is, what is copied is what bin/package makes, and the commands of the
image serve a store, whose check of health succeeds while it runs and fails after.
"""
import json
import os
import re
import subprocess
import tempfile
import time
from pathlib import Path

import pytest

import parts
from nixkeep_dev.build.layout import version
from nixkeep_dev.build.program import HERE
from nixkeep_dev.testing import report

MODULE, PACKAGE = f"{HERE}/examples/nixos/module.nix", f"{HERE}/examples/nixos/package.nix"
CONTAINER = f"{HERE}/examples/container/Containerfile"
CONFIGURATION = 'allowed-users = ["ann"]\ntrusted-users = ["build"]\n'
# What the module uses of nixpkgs, as nixpkgs defines it.
LIB = """{
  mkOption = it: it;
  mkIf = condition: it: if condition then it else { };
  nameValuePair = name: value: { inherit name value; };
  mapAttrs' = f: set: builtins.listToAttrs (map (name: f name set.${name}) (builtins.attrNames set));
  types = { package = "package"; lines = "lines"; str = "str"; listOf = it: it; attrsOf = it: it; submodule = it: it; };
  licenses = { mit = "mit"; asl20 = "asl20"; };
}"""


def evaluated(expression):
    """The value of an expression of Nix, which needs no store."""
    report.skip_without("nix-instantiate")
    with tempfile.TemporaryDirectory() as folder:
        environment = {"HOME": folder, "NIX_STATE_DIR": f"{folder}/state", "NIX_STORE_DIR": f"{folder}/store"}
        words = ["nix-instantiate", "--eval", "--strict", "--json", "--readonly-mode", "--expr", expression]
        ran = subprocess.run(words, env={**os.environ, **environment}, capture_output=True, text=True)
    assert ran.returncode == 0, f"{expression}: {ran.stderr}"
    return json.loads(ran.stdout)


# ---- NixOS


@pytest.fixture(scope="module")
def machine():
    """What the module makes of two stores."""
    stores = f"{{ red = {{ configuration = {json.dumps(CONFIGURATION)}; proxies = [ \"nginx\" ]; }}; " \
             "blue = { configuration = \"\"; proxies = [ \"caddy\" \"ops\" ]; }; }"
    config = f"{{ services.nixkeep = {{ package = \"/nixkeep\"; stores = {stores}; }}; }}"
    return evaluated(f"(import {MODULE} {{ lib = {LIB}; config = {config}; }}).config")


def test_the_groups_of_the_module(machine):
    assert machine["users"]["groups"] == {"nixkeep-blue": {"members": ["caddy", "ops"]},
                                          "nixkeep-red": {"members": ["nginx"]}}
    assert "SocketGroup=nixkeep-%i" in Path(f"{HERE}/packaging/nixkeep@.socket").read_text()


def test_the_packages_of_the_module(machine):
    assert machine["systemd"]["packages"] == ["/nixkeep"]
    assert machine["environment"]["systemPackages"] == ["/nixkeep"]


@pytest.mark.parametrize("kind, target", [("sockets", "sockets.target"), ("services", "multi-user.target")])
def test_the_units_of_the_module(machine, kind, target):
    units = machine["systemd"][kind]
    assert [*units] == ["nixkeep@blue", "nixkeep@red"]
    assert {value["wantedBy"][0] for value in units.values()} == {target}
    # (without it NixOS would make a unit of its own in place of the package's)
    assert {value["overrideStrategy"] for value in units.values()} == {"asDropin"}
    assert Path(f"{HERE}/packaging/nixkeep@.{kind.removesuffix('s')}").exists()


def test_the_program_takes_the_configuration_of_the_module(machine, program, folder):
    file = f"{folder}/red.toml"
    Path(file).write_text(machine["environment"]["etc"]["nixkeep/red.toml"]["text"])
    ran = subprocess.run([program, "--config", file, "--user", "build", "who"], capture_output=True)
    assert ran.stdout == b"class: trusted\nconnect: yes\n"


def test_without_a_store_the_module_makes_nothing():
    assert evaluated(f"(import {MODULE} {{ lib = {LIB}; config.services.nixkeep.stores = {{ }}; }}).config") == {}


@pytest.fixture(scope="module")
def installed(program, shared_folder):
    """What the phase of installation of package.nix makes of an archive, and the version that it has."""
    report.skip_without("nix-instantiate", "dpkg-deb")
    room, out = f"{shared_folder}/package", f"{shared_folder}/out"
    os.makedirs(room)
    words = [f"{HERE}/bin/package", "--to", room, "--program", program]
    ran = subprocess.run(words, capture_output=True, text=True)
    archive = ran.stdout.splitlines()[1]
    stand_in = f"{{ lib = {LIB}; stdenv.mkDerivation = it: it; autoPatchelfHook = 1; " \
               "python3.withPackages = f: f { aiohttp = 1; zstandard = 1; jinja2 = 1; }; " \
               f"src = {archive}; }}"
    package = evaluated(f"removeAttrs (import {PACKAGE} {stand_in}) [ \"src\" ]")
    subprocess.run(["tar", "-xf", archive, "--strip-components=1", "-C", room], check=True)
    ran = subprocess.run(["bash", "-ec", package["installPhase"]], cwd=room, env={**os.environ, "out": out},
                         capture_output=True, text=True)
    assert (ran.returncode, ran.stderr) == (0, "")
    return out, package["version"]


def test_the_version_of_the_package(installed):
    assert installed[1] == version()
    ran = subprocess.run([f"{installed[0]}/bin/nixkeep-explain", "--version"], capture_output=True, text=True)
    assert ran.stdout == f"nixkeep-explain {version()}\n"


def test_the_units_of_the_package(installed):
    units = [*Path(f"{installed[0]}/lib/systemd/system").iterdir()]
    assert units
    for unit in units:
        lines = [line for line in unit.read_text().splitlines() if not line.startswith("#")]
        assert [line for line in lines if "/usr/" in line] == [], unit.name
        for line in (setting for setting in lines if setting.startswith("Exec")):
            assert os.access(line.partition("=")[2].lstrip("-+").split()[0], os.X_OK), line


# ---- containers

INSTRUCTIONS = {"FROM", "COPY", "RUN", "USER", "VOLUME", "EXPOSE", "CMD", "HEALTHCHECK"}


@pytest.fixture
def container():
    """The instructions of the file, each with its words as one text."""
    lines = re.sub(r"\\\n", " ", Path(CONTAINER).read_text()).splitlines()
    pairs = [tuple(line.split(" ", 1)) for line in lines if line and not line.startswith("#")]
    assert {name for name, _ in pairs} <= INSTRUCTIONS
    return dict(pairs)


def test_what_is_copied_is_what_bin_package_makes(container):
    assert container["COPY"].split()[0] == "nixkeep_*_amd64.deb"
    named = 'f"{program.NAME}_{layout.version()}_amd64"'
    assert named in Path(f"{HERE}/dev/nixkeep_dev/commands/package.py").read_text()


def test_who_runs_the_image(container):
    ran = subprocess.run(["sh", "-n", "-c", container["RUN"]], capture_output=True)
    assert ran.returncode == 0, ran.stderr
    assert "useradd" in container["RUN"]
    assert (container["USER"], container["VOLUME"]) == ("keeper", "/store")


def here(text, folder, port):
    """A command of the image in the form of a list, after the options of a check of health, as it runs in this
    checkout: its folders and its port are others."""
    words = []
    for word in json.loads(text[text.index("[") :]):
        word = word.replace("/etc/nixkeep/store.toml", f"{folder}/store.toml").replace("/store/", f"{folder}/")
        words.append(word.replace("0.0.0.0:8081", f"127.0.0.1:{port}").replace(":8081", f":{port}"))
    return words


@pytest.mark.needs("python3-aiohttp")
def test_the_check_of_health(container, program, folder):
    Path(f"{folder}/store.toml").write_text(CONFIGURATION)
    environment = {**os.environ, "PATH": f"{HERE}/tools:{os.environ['PATH']}"}
    port = parts.free_port()
    served, health = (here(container[key], folder, port) for key in ("CMD", "HEALTHCHECK"))
    with subprocess.Popen([*served, "--nixkeep", program], env=environment) as running:
        try:
            for _ in range(300):
                ran = subprocess.run(health, env=environment, capture_output=True, text=True)
                if ran.returncode == 0 or running.poll() is not None:
                    break
                time.sleep(0.2)
        finally:
            running.terminate()
    assert (ran.returncode, ran.stderr) == (0, ""), health
    assert subprocess.run(health, env=environment, capture_output=True).returncode != 0, "after the end"
