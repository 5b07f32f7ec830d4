"""Installs, uses and removes the package on a clean Debian, in a folder.

mmdebstrap makes the clean system of the packages that this machine's apt finds, with apt, python3, man and bash
completion. apt installs the package there; `who` answers, the installed program runs all steps of cases that need no
more than this system has (the last lines say how many do), each manual page is found and shown, and bash completes.
Then apt upgrades it to itself, removes and purges it, and nothing is left but the store, which the user has made.
lintian says nothing of the package, but for what packaging/lintian-overrides excuses with a reason. `--root FOLDER`
names such a system that was made before, which is copied. Needs root, mmdebstrap and lintian, and skips what needs what
isn't there.
"""
import contextlib
import os
import re
import shutil
import subprocess
from pathlib import Path

import pytest

from nixkeep_dev.build import layout
from nixkeep_dev.build.program import HERE
from nixkeep_dev.testing import report
from nixkeep_dev.testing.tracked import copy_to

SUITE = "bookworm"
# Next to what is essential: what shows manual pages and completes, and what runs cases and what their steps use.
INCLUDED = "apt,python3,man-db,bash-completion,ca-certificates,python3-pytest,curl,sqlite3,iproute2,openssl"
# Where removed packages and logs leave traces that aren't the package's.
ASIDE = ("var/lib/dpkg", "var/lib/apt", "var/cache", "var/log", "proc", "dev", "sys", "run", "tmp", "checkout",
         "usr/share/man/index.db", "var/lib/systemd")
STORE = "/var/lib/nixkeep/clean/store.db"
LEFT = {"etc/nixkeep", "etc/nixkeep/store.toml"}
KEPT = {"var/lib/nixkeep", "var/lib/nixkeep/clean", STORE[1:], f"{STORE[1:]}-wal"}
INSTALL = "apt-get", "install", "-yq", "--no-install-recommends"
COMPLETE = """. /usr/share/bash-completion/bash_completion; _completion_loader nixkeep; COMP_WORDS=(nixkeep ad)
COMP_CWORD=1; _nixkeep; printf '%s\\n' "${COMPREPLY[@]}\""""
STARTED = 'mount -t proc proc "$1/proc" && mount --rbind /dev "$1/dev" && root=$1 && shift && exec chroot "$root" "$@"'


def run(words, text=None, **more):
    """The status of a command, and what it printed."""
    how = {"stdout": subprocess.PIPE, "stderr": subprocess.STDOUT, "text": True, "errors": "replace"}
    ran = subprocess.run(words, input=text, stdin=None if text else subprocess.DEVNULL, **how, **more)
    return ran.returncode, ran.stdout


class Machine:
    """A clean Debian in a folder."""

    def __init__(self, root):
        self.root = root

    def run(self, *words):
        """Runs a command there, with namespaces of its own, as a machine's root."""
        path = "/usr/local/sbin:/usr/local/bin:/usr/sbin:/usr/bin:/sbin:/bin"
        environment = {"PATH": path, "LANG": "C.UTF-8", "DEBIAN_FRONTEND": "noninteractive", "HOME": "/root"}
        words = ["unshare", "--mount", "--pid", "--fork", "--kill-child", "sh", "-c", STARTED, "-", self.root, *words]
        return run(words, env=environment)

    def well(self, *words):
        """A command that has to succeed: what it printed."""
        status, said = self.run(*words)
        report.right(" ".join(words[:3]), status and said[-3000:])
        return said

    def files(self):
        paths = {str(Path(at, name).relative_to(self.root)) for at, folders, names in os.walk(self.root)
                 for name in [*names, *folders]}
        return {path for path in paths if not f"{path}/".startswith(tuple(f"{aside}/" for aside in ASIDE))}


def make(machine, other):
    """Makes the clean system, or copies another; returns why there is none, or None."""
    words = ["mmdebstrap", "--quiet", "--variant=apt", f"--include={INCLUDED}", SUITE, machine.root]
    status, said = run(["cp", "-a", other, machine.root] if other else words)
    if status:
        return f"mmdebstrap can't make one here: {said.strip()[-300:]}"
    with contextlib.suppress(OSError):
        shutil.copyfile("/etc/resolv.conf", f"{machine.root}/etc/resolv.conf")
    status, said = machine.run("apt-get", "update", "-q")
    return f"apt-get update fails there: {said.strip()[-300:]}" if status else None


@pytest.fixture(scope="module")
def deb(pytestconfig, shared_folder):
    """The package, of the program that is tried."""
    given = [f"--program={str(Path(file).absolute())}" for file in [pytestconfig.getoption("--program")] if file]
    status, said = run([f"{HERE}/bin/package", "--to", shared_folder, *given])
    report.right("bin/package", status and said)
    return said.split()[0]


@pytest.fixture(scope="module")
def machine(pytestconfig, shared_folder, deb):
    """A clean Debian, on which the package is installed."""
    if os.geteuid():
        pytest.skip("the clean Debian: needs root")
    if why := report.missing(["mmdebstrap"]):
        pytest.skip(f"the clean Debian: {why}")
    made = Machine(f"{shared_folder}/root")
    if why := make(made, pytestconfig.getoption("--root")):
        pytest.skip(f"the clean Debian: {why}")
    copy_to(f"{made.root}/checkout", ["release/"])
    made.before = made.files()
    Path(made.root, "tmp/nixkeep.deb").write_bytes(layout.content(deb))
    made.well(*INSTALL, "/tmp/nixkeep.deb")
    return made


@pytest.fixture(scope="module")
def store(machine):
    """A store that a user makes there."""
    machine.well("mkdir", "-p", str(Path(STORE).parent))
    add = f"echo hello | nixkeep --db {STORE} --config /etc/nixkeep/store.toml --user root add-text greeting"
    machine.well("sh", "-c", add)


@pytest.mark.needs("lintian")
def test_lintian(deb):
    words = ["lintian", "--allow-root", "--tag-display-limit", "0", "--fail-on", "error,warning", deb]
    report.same("what lintian says of the package", run(words), (0, ""))


def test_who(machine):
    report.same("its answer", machine.well("nixkeep", "--user", "root", "who"), "class: trusted\nconnect: yes\n")


def test_cases_by_the_installed_program(machine):
    """The steps that need what isn't there run on this machine, among the cases."""
    cases = "cd /checkout && exec python3 -B bin/run tests/cases --program /usr/bin/nixkeep"
    said = machine.well("sh", "-c", cases)
    passed, skipped = re.fullmatch(r"(\d+) passed, 0 failed(?:, (\d+) skipped)?", said.splitlines()[-1]).groups()
    report.passes(int(passed))
    lacking = sorted({*re.findall(r"^skipped: .* without (.*)$", said, re.M)})
    report.ends_with(f"{skipped or 0} steps of cases aren't run on the clean Debian: {', '.join(lacking)}")


@pytest.mark.parametrize("page", sorted(os.listdir(f"{HERE}/man")))
def test_a_manual_page_has_its_name(machine, page):
    name, _, section = page.rpartition(".")
    shown = machine.well("man", section, name)
    report.right(page, name not in shown and shown[:500])


def test_what_bash_completes(machine):
    report.same("what bash completes", machine.well("bash", "-c", COMPLETE).split(), ["add-text", "add-source"])


def test_what_a_removal_and_a_purge_leave(machine, store):
    """A package that was installed once more is removed and purged, and the store stays."""
    machine.well(*INSTALL, "--reinstall", "/tmp/nixkeep.deb")
    machine.well("apt-get", "remove", "-yq", "--autoremove", "nixkeep")
    report.same("what a removal leaves", sorted(machine.files() - machine.before - KEPT), sorted(LEFT))
    machine.well("apt-get", "purge", "-yq", "nixkeep")
    report.same("what a purge leaves but the store", sorted(machine.files() - machine.before - KEPT), [])
    report.right("the store stays", not Path(f"{machine.root}{STORE}").exists() and "it is gone")
