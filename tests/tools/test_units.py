"""Tests the units of a store: what systemd says of them, and what they do on a machine that systemd-nspawn boots.

What is said of them (`-k said`): systemd-analyze finds no fault in a unit, and little that one may do. On the machine,
a Debian with the package: what the unit sees, who may open the socket, restarts and `kill -9` under load, a copy under
load, a timer in a restore, a restore, an upgrade, a failing start, a reboot, and that the lines of OPERATING.md leave
nothing of a store.

mmdebstrap makes the machine from Debian's mirror, in some minutes, as a tar archive that is kept in the folder for
caches. This needs root, systemd and systemd-nspawn (Debian: systemd-container). Where a machine doesn't allow that,
tests/cases/set-up.txt alone does by hand what the units say.
"""
import contextlib
import fcntl
import hashlib
import os
import re
import shlex
import shutil
import signal
import subprocess
import tempfile
import time
from pathlib import Path

import pytest

from nixkeep_dev.build.program import HERE
from nixkeep_dev.testing import report
from nixkeep_dev.testing.pages import command_blocks
from tests.tools.servers import ran
from tests.tools.ed25519 import VECTORS, coded
from tests.tools.words import SUBCOMMANDS, options_in, options_of

PACKAGED, EXAMPLES = f"{HERE}/packaging", f"{HERE}/examples/team"
UNITS = {f"{PACKAGED}/nixkeep@.service": 5, f"{PACKAGED}/nixkeep@.socket": None,
         f"{EXAMPLES}/nixkeep-backup@.service": 5, f"{EXAMPLES}/nixkeep-backup@.timer": None,
         f"{EXAMPLES}/nixkeep-sweep@.service": 6, f"{EXAMPLES}/nixkeep-sweep@.timer": None}
# Who a unit runs as, and who may read its files and open its socket, as docs/OPERATING.md says.
ACCOUNT = {"DynamicUser": ["yes"], "User": ["store-%i"], "StateDirectoryMode": ["0700"], "UMask": ["0077"],
           "PrivateNetwork": ["yes"], "Type": ["notify"]}
SETTINGS = {
    "nixkeep@.service": {**ACCOUNT, "CacheDirectoryMode": ["0700"], "Restart": ["always"],
                         "LimitNOFILE": ["16384"], "OOMPolicy": ["continue"]},
    "nixkeep@.socket": {"SocketUser": ["root"], "SocketGroup": ["nixkeep-%i"], "SocketMode": ["0660"],
                        "ListenStream": ["/run/nixkeep/%i.socket"], "Backlog": ["4096"]},
    "nixkeep-backup@.service": {**ACCOUNT, "OOMPolicy": ["continue"]},
    "nixkeep-backup@.timer": {"Persistent": ["yes"]},
    "nixkeep-sweep@.service": {"DynamicUser": ["yes"], "User": ["sweep-%i"], "SupplementaryGroups": ["nixkeep-%i"],
                               "UMask": ["0077"], "PrivateNetwork": ["yes"], "Type": ["oneshot"],
                               "OOMPolicy": ["stop"]},
    "nixkeep-sweep@.timer": {"Persistent": ["yes"]},
}
DEBIAN = ["systemd", "systemd-sysv", "dbus", "adduser", "curl", "procps", "sqlite3", "python3", "python3-aiohttp",
          "python3-nacl", "python3-prometheus-client", "python3-zstandard"]


# ---- what is said of them


def settings_of(path):
    """The keys of a unit, each with its values."""
    settings = {}
    for key, value in re.findall(r"^(\w+)=(.*)$", Path(path).read_text(), re.M):
        settings.setdefault(key, []).append(value)
    return settings


of_unit = pytest.mark.parametrize("path", UNITS, ids=lambda path: Path(path).name)
of_service = pytest.mark.parametrize("path", [path for path in UNITS if UNITS[path]], ids=lambda path: Path(path).name)


@of_unit
def test_said_settings(path):
    """A unit has the settings that a page promises."""
    wanted = SETTINGS[Path(path).name]
    assert {key: settings_of(path).get(key) for key in wanted} == wanted


@of_service
def test_said_options(path):
    """The tools that a unit starts have the subcommands and all options that it names."""
    lines = [value for key, values in settings_of(path).items() if key.startswith("Exec") for value in values]
    assert [line for line in lines if "/usr/bin/nixkeep-" in line]
    for line in lines:
        for tool, words in re.findall(r"/usr/bin/(nixkeep-[a-z]+)([^;|]*)", line):
            if (known := options_of(tool)) is None:
                pytest.skip(f"{tool}: a module of Python that it needs isn't installed")
            assert options_in(words) <= known
            first = words.split()[0]
            if tool in SUBCOMMANDS and not (tool == "nixkeep-cache" and first.startswith("--")):
                assert first in SUBCOMMANDS[tool]


@pytest.mark.parametrize("make", [lambda at: None, os.mkfifo, os.mkdir, lambda at: os.symlink(at, at)],
                         ids=["nothing", "a pipe", "a folder", "a link to itself"])
def test_said_delay(make, folder):
    """What waits after a failure ends, whatever a service that was taken over has put in the place of its count."""
    line, = settings_of(f"{PACKAGED}/nixkeep@.service")["ExecStopPost"]
    make(f"{folder}/failures")
    words = shlex.split(line.replace("$$", "$").replace("timeout 90", "timeout 2"))
    subprocess.run(words, env={**os.environ, "CACHE_DIRECTORY": folder, "SERVICE_RESULT": "signal"}, timeout=60)


@pytest.fixture
def instance(path, folder):
    """The file of a unit of the store red among all of them. (The programs of the units aren't installed here.)"""
    for file in map(Path, UNITS):
        text = re.sub(r"/usr/bin/nixkeep[a-z-]*", shutil.which("true"), file.read_text())
        Path(folder, file.name.replace("@", "@red")).write_text(text)
    return f"{folder}/{Path(path).name.replace('@', '@red')}"


@of_unit
@pytest.mark.needs("systemd-analyze")
def test_said_faults(instance, folder):
    errors = ran(["systemd-analyze", "verify", "--man=no", instance], cwd=folder)[2].decode()
    assert [line for line in errors.splitlines() if "nixkeep" in line] == []


@of_service
@pytest.mark.needs("systemd-analyze")
def test_said_of_what_it_may_do(path, instance):
    status, output, errors = ran(["systemd-analyze", "security", "--offline=true", "--no-pager",
                                  f"--threshold={UNITS[path]}", instance])
    assert status == 0, f"{output.decode()[-300:]}{errors.decode()}"


# ---- a machine


def tree():
    """The archive of a machine's files, which is made once."""
    cache = Path(os.environ.get("XDG_CACHE_HOME") or Path.home() / ".cache", "nixkeep")
    place = cache / f"machine-{hashlib.sha256(' '.join(DEBIAN).encode()).hexdigest()[:8]}.tar"
    if not place.exists():
        cache.mkdir(parents=True, exist_ok=True)
        words = ["mmdebstrap", "--variant=minbase", f"--include={','.join(DEBIAN)}", "bookworm", f"{place}.new.tar"]
        made = subprocess.run(words, stdin=subprocess.DEVNULL, capture_output=True, text=True, errors="replace")
        if made.returncode:
            pytest.skip(f"mmdebstrap can't make a machine here: {made.stderr.strip()[-300:]}")
        Path(f"{place}.new.tar").rename(place)
    return place


class Machine:
    """A machine in a folder."""

    def __init__(self, root):
        self.root, self.supervisor = root, None

    def boot(self):
        """Boots it, and waits until it has booted. Returns whether it has."""
        words = ["systemd-nspawn", "--quiet", "--directory", self.root, "--boot", "--keep-unit", "--register=no",
                 "--private-network", "--console=pipe"]
        null = subprocess.DEVNULL
        self.supervisor = subprocess.Popen(words, stdin=null, stdout=null, stderr=null, start_new_session=True)
        until = time.monotonic() + 600
        while time.monotonic() < until and self.supervisor.poll() is None:
            if self.first() and self("systemctl is-system-running")[1] in ("running\n", "degraded\n"):
                return True
            time.sleep(0.3)
        return False

    def stop(self):
        self.supervisor.send_signal(signal.SIGTERM)
        self.ended()

    def ended(self):
        """Waits until the machine is off."""
        try:
            self.supervisor.wait(300)
        except subprocess.TimeoutExpired:
            self.supervisor.kill()
            self.supervisor.wait()

    def first(self):
        """The number of the machine's first process, or None."""
        with contextlib.suppress(OSError):
            for number in Path(f"/proc/{self.supervisor.pid}/task/{self.supervisor.pid}/children").read_text().split():
                if re.search(r"^NSpid:.*\t1$", Path(f"/proc/{number}/status").read_text(), re.M):
                    return int(number)
        return None

    def command(self, text):
        return ["nsenter", "--all", "--target", str(self.first()), "env", "-i", "PATH=/usr/sbin:/usr/bin:/sbin:/bin",
                "sh", "-c", text]

    def __call__(self, text):
        """The status and the output, with the errors, of a line of shell on the machine."""
        done = subprocess.run(self.command(text), stdin=subprocess.DEVNULL, stdout=subprocess.PIPE,
                              stderr=subprocess.STDOUT, text=True, errors="replace", timeout=600)
        return done.returncode, done.stdout

    def output(self, text):
        return self(text)[1].strip()

    def state(self, unit):
        return self.output(f"systemctl is-active {unit}")


# There is one machine at a time, also where planted faults are tried meanwhile.
LOCK = "/run/nixkeep-machine"
ASK = "curl -sS --max-time 500 --unix-socket /run/nixkeep/red.socket"
AS_ANN = f"{ASK} -H 'store-user: ann' http://store"
# What a client may see of an answer that was lost, or of which a part was.
LOST = (r"curl: \(52\) Empty reply from server|curl: \(56\) Recv failure: Connection reset by peer"
        r"|curl: \(18\) transfer closed with \d+ bytes remaining to read| (000|200)")
# (no copy is made but those that are asked for, also where this runs at the hour of the timer)
SET_UP = r"""set -e
dpkg -i /root/nixkeep.deb
addgroup --quiet --system nixkeep-red
adduser --quiet --system --ingroup nixkeep-red proxy-red
adduser --quiet --system nobody-red
cp /root/red.toml /root/green.toml /etc/nixkeep
cp /root/nixkeep-backup@.* /etc/systemd/system
touch /etc/nixkeep/red.htpasswd
mkdir /etc/systemd/system/nixkeep-backup@.timer.d
printf '[Timer]\nOnCalendar=\nOnCalendar=2099-01-01\n' >/etc/systemd/system/nixkeep-backup@.timer.d/not-today.conf
systemctl daemon-reload
systemctl enable --quiet --now nixkeep@red.socket nixkeep@red nixkeep-backup@red.timer
"""


class Load:
    """Clients that add texts one after another, until the `with` statement ends; `answers` has what they got."""

    def __init__(self, machine, what, clients=3):
        self.machine, self.what, self.clients, self.running = machine, what, clients, []

    def __enter__(self):
        for number in range(self.clients):
            line = (f"at=0; while [ ! -e /run/stop ]; do at=$((at + 1)); name={self.what}-{number}-$at; "
                    f"printf 'name: %s\\n\\n%s' $name $name | {AS_ANN}/text -w ' %{{http_code}}\\n' --data-binary @- "
                    "| tr -d '\\n'; echo; done")
            self.running.append(subprocess.Popen(self.machine.command(line), stdout=subprocess.PIPE,
                                                 stderr=subprocess.STDOUT, text=True))
        return self

    def __exit__(self, *_):
        self.machine("touch /run/stop")
        self.answers = [line for process in self.running for line in process.communicate()[0].splitlines()]
        self.machine("rm /run/stop")

    def check(self, lost=None):
        """Each add was done, and is in the store. `lost` is the pattern of what a client may see whose connection was
        lost."""
        done = [answer for answer in self.answers if re.fullmatch(r"/nix/store/\S+ 200", answer)]
        assert [line for line in self.answers if line not in done and not (lost and re.fullmatch(lost, line))] == []
        assert len(done) >= self.clients, "there were adds"
        listed = self.machine.output(f"{AS_ANN}/paths").split()
        assert [line for line in done if line.split()[0] not in listed] == [], "none is lost"


@pytest.fixture(scope="module")
def machine(program):
    """A machine with the package and the store red."""
    report.skip_without("systemd-nspawn", "dpkg-deb", "mmdebstrap")
    if os.geteuid():
        pytest.skip("a machine is booted by root alone")
    # (a tree of many small files is unpacked and deleted sooner in memory)
    memory = "/dev/shm" if Path("/dev/shm").is_dir() and shutil.disk_usage("/dev/shm").free > 2 << 30 else None
    with open(LOCK, "w") as lock, tempfile.TemporaryDirectory(dir=memory) as folder:
        # (the units of two machines would have the same control groups, and each end those of the other)
        fcntl.flock(lock, fcntl.LOCK_EX)
        root = f"{folder}/machine"
        os.mkdir(root)
        subprocess.run(["tar", "-xf", tree(), "-C", root], check=True)
        status, output, errors = ran([f"{HERE}/bin/package", "--to", f"{folder}/package", "--program", program])
        assert status == 0, errors.decode()
        shutil.copy(output.decode().split()[0], f"{root}/root/nixkeep.deb")
        for file in (f"{EXAMPLES}/red.toml", f"{EXAMPLES}/green.toml", *UNITS):
            shutil.copy(file, f"{root}/root")
        made = Machine(root)
        try:
            if not made.boot():
                pytest.skip("systemd-nspawn boots no machine here")
            status, output = made(SET_UP)
            assert status == 0, output
            yield made
        finally:
            made.stop()


def states(machine):
    return [machine.state(unit) for unit in ("nixkeep@red.socket", "nixkeep@red", "nixkeep-backup@red.timer")]


def test_the_set_up(machine):
    assert states(machine) == ["active"] * 3
    assert machine.output(f"{AS_ANN}/paths -w '%{{http_code}}'") == "200"
    # (state 0A is a port that listens)
    ports = "cat /proc/$(systemctl show -p MainPID --value nixkeep@red)/net/tcp | grep -c ' 0A '"
    assert machine.output(ports) == "0", "it has no open port"


def as_user(user, text):
    return f"setpriv --reuid={user} --regid=$(id -g {user}) --init-groups sh -c \"{text}\""


def user_of(machine):
    """The number of the user of the unit, whose name only libnss-systemd knows."""
    return machine.output("systemctl show -p UID --value nixkeep@red")


def test_who_sees_what(machine):
    assert machine.output("stat -c '%U %G %a' /run/nixkeep/red.socket") == "root nixkeep-red 660", "the socket"
    line = f"{AS_ANN}/paths -o /dev/null -w '%{{http_code}}'"
    assert machine.output(as_user("proxy-red", line)) == "200", "its group may ask"
    assert "000" in machine.output(as_user("nobody-red", f"{line} 2>/dev/null")), "nobody else may"
    inside = "nsenter --mount --target $(systemctl show -p MainPID --value nixkeep@red)"
    assert machine.output(f"{inside} ls /etc/nixkeep") == "red.toml", "the unit sees its configuration alone"
    # (a file that another one is mounted over is of its own type in a listing)
    sockets = r"find /run /tmp -exec test -S {} \; -print 2>/dev/null"
    assert machine.output(f"{inside} {sockets}") == "/run/systemd/notify", "no other program's socket"
    account = f"setpriv --reuid={user_of(machine)} --regid={user_of(machine)} --clear-groups"
    written = f"{inside} {account} find / -xdev -type d -writable 2>/dev/null | sort"
    assert machine.output(written) == "/tmp\n/var/tmp", "what it may write on the machine's disk, which are its own"
    folders = "/run /run/lock /dev /dev/shm /dev/mqueue /etc/nixkeep"
    common = f"for it in {folders}; do touch $it/probe 2>/dev/null && echo $it; done"
    assert machine.output(f"{inside} {account} sh -c '{common}'") == "", "and nothing that others write"
    assert machine.output(f"{inside} ls /var/lib/private/nixkeep") == "red", "no file of another store"
    files = "/var/lib/nixkeep/red/store.db /var/lib/nixkeep/red/store.db-wal"
    assert machine.output(f"stat -c '%u %a' {files}") == "\n".join([f"{user_of(machine)} 600"] * 2), "what is made"


def test_signing(machine):
    """Without a key a store signs nothing. One in the folder of credentials signs each record, and a file that is no
    key is a line."""
    path = machine.output(f"printf 'name: signed\\n\\nx' | {AS_ANN}/text --data-binary @-")
    record = f"{AS_ANN}/{path[11:43]}.narinfo"
    said = machine(record)[1]
    assert f"StorePath: {path}\n" in said and "Sig:" not in said, ("a record without a key", said)
    file = "/etc/credstore/nixkeep-red.sign-with"
    machine(f"install -d -m 0700 /etc/credstore; umask 077; echo 'red-1:{coded(*VECTORS[0][:2])}' >{file}")
    said = machine.output(f"systemctl restart nixkeep@red; {record} | grep -o '^Sig: red-1:'")
    assert said == "Sig: red-1:", "with a key"
    inside = "nsenter --mount --target $(systemctl show -p MainPID --value nixkeep@red)"
    seen = machine.output(f"{inside} stat -c '%a' /run/credentials/nixkeep@red.service/sign-with")
    assert seen == "400", "the credential's mode"
    assert machine(f"{inside} {as_user('nobody-red', f'cat {file}')}")[0] != 0, "the file itself isn't seen"
    machine(f"cp {file} /root/key; echo none >{file}")
    line = "journalctl -u nixkeep@red -o cat | grep -q 'sign-with: it isn.t a key'"
    machine(f"systemctl restart --no-block nixkeep@red; timeout 300 sh -c \"until {line}; do sleep 0.3; done\"")
    assert machine(line)[0] == 0, "a file that is no key: a line"
    assert machine.state("nixkeep@red") != "active", "and no start"
    machine(f"cp /root/key {file}; systemctl restart nixkeep@red")
    assert machine.state("nixkeep@red") == "active", "with the key again"


def test_restarts_and_kills_under_load(machine):
    """Requests wait while the store restarts, also by itself. What has the connections is killed at the end: then the
    answers are lost that it was about to give, and no others."""
    restarts = ["systemctl restart nixkeep@red", "pkill -KILL -x nixkeep",
                "systemctl stop nixkeep@red; sleep 1; systemctl start nixkeep@red"]
    kill = "systemctl kill --kill-whom=main -s KILL nixkeep@red"
    for what, lines, lost in (("restarted", restarts, None), ("killed", [kill], LOST)):
        with Load(machine, what) as load:
            time.sleep(3)
            for line in lines:
                assert machine(line)[0] == 0, line
                machine("until systemctl is-active --quiet nixkeep@red; do sleep 0.3; done; sleep 3")
        load.check(lost)


def test_a_copy_under_load(machine):
    with Load(machine, "copied") as load:
        time.sleep(2)
        assert machine("systemctl start --wait nixkeep-backup@red")[1] == "", "a copy"
        machine("until systemctl is-active --quiet nixkeep@red; do sleep 0.3; done; sleep 2")
    load.check()
    said = machine.output("journalctl -u nixkeep-backup@red -o cat | grep objects")
    assert re.search(r"^/var/lib/nixkeep-backup/red/\S+Z\.db: \d+ objects, ", said, re.M), (
        "its line", machine.output("journalctl -u nixkeep-backup@red -o cat"))
    seen = machine.output("stat -c '%u %a' /var/lib/nixkeep-backup/red/*")
    assert seen == f"{user_of(machine)} 600", "its owner and mode"
    assert '"succeeded"' in machine.output("cat /var/lib/nixkeep/red/backup.json"), "its state"


# (a slow test of a copy, in the place of nixkeep-explain)
SLOW = """import runpy, time
time.sleep(8)
runpy.run_path("/usr/lib/nixkeep/nixkeep-explain.kept", run_name="__main__")
"""


def test_a_stop_while_a_copy_is_tested(machine):
    """Whoever stops a server finds it stopped, also once the copy is done. Before that it runs again by itself."""
    machine("cd /usr/lib/nixkeep; cp nixkeep-explain nixkeep-explain.kept")
    Path(machine.root, "usr/lib/nixkeep/nixkeep-explain").write_text(SLOW)
    machine("systemctl start nixkeep-backup@red; until systemctl is-active --quiet nixkeep@red; do sleep 0.3; done")
    machine("systemctl stop nixkeep@red.socket nixkeep@red")
    assert machine.state("nixkeep-backup@red") == "active", "the copy is still tested"
    machine("while systemctl is-active --quiet nixkeep-backup@red; do sleep 0.3; done; sleep 1")
    assert machine.state("nixkeep@red") == "inactive"
    assert machine.output("journalctl -u nixkeep-backup@red -o cat | grep -c objects") == "2", "there is another copy"
    machine("mv /usr/lib/nixkeep/nixkeep-explain.kept /usr/lib/nixkeep/nixkeep-explain")
    machine("systemctl start nixkeep@red.socket nixkeep@red")
    copy = "systemctl kill --kill-whom=main -s KILL nixkeep-backup@red"
    machine(f"systemctl start --no-block nixkeep-backup@red; until {copy} 2>/dev/null; do sleep 0.05; done")
    machine("until systemctl is-active --quiet nixkeep@red; do sleep 0.3; done")
    assert states(machine) == ["active"] * 3, "after a copy that was killed the server runs"


# (a slow test of the configuration, which a copy makes before it asks the server)
SLOWLY = """#!/bin/sh
case "$*" in *who) sleep 4 ;; esac
exec /usr/bin/nixkeep.kept "$@"
"""


def test_a_kill_while_a_copy_asks(machine):
    """The start of the server waits for that of a copy, which doesn't wait for the server then."""
    machine("cd /usr/bin; mv nixkeep nixkeep.kept")
    Path(machine.root, "usr/bin/nixkeep").write_text(SLOWLY)
    machine("chmod 755 /usr/bin/nixkeep; systemctl start --no-block nixkeep-backup@red; sleep 2")
    assert machine.state("nixkeep-backup@red") == "activating", "the copy is about to ask for the report"
    machine("systemctl kill -s KILL nixkeep@red; sleep 1")
    until = "timeout 60 sh -c 'until systemctl is-active --quiet nixkeep@red; do sleep 0.3; done'"
    assert machine(until)[0] == 0, machine("systemctl list-jobs; systemctl status 'nixkeep*red*' --no-pager")
    machine("mv /usr/bin/nixkeep.kept /usr/bin/nixkeep; systemctl restart nixkeep@red")
    assert states(machine) == ["active"] * 3


# What a service that was taken over may put in the place of its file, and what a copy says of that.
HOSTILE = {"mkfifo store.db": "it is no file", "ln -s /dev/zero store.db": "No such file or directory",
           "true": "No such file or directory", "cp kept.db store.db": "the server has another one open",
           "mkdir store.db": "Is a directory"}


def test_a_service_that_was_taken_over(machine):
    """What it leaves in its folder holds up no copy, stops no server, and has root read or write nothing."""
    main = "systemctl show -p MainPID --value nixkeep@red"
    before, folder = machine.output(main), "cd /var/lib/nixkeep/red"
    for line, said in HOSTILE.items():
        at = f"setpriv --reuid={user_of(machine)} --regid={user_of(machine)} --clear-groups sh -c '{line}'"
        machine(f"{folder}; mv store.db kept.db; {at}")
        # (systemd refuses a sixth start within ten seconds)
        start = "timeout 60 systemctl start --wait nixkeep-backup@red"
        status = machine(f"systemctl reset-failed nixkeep-backup@red; {start}")[0]
        machine(f"{folder}; rm -rf store.db; mv kept.db store.db; journalctl --sync")
        lines = machine.output("journalctl -u nixkeep-backup@red -o cat | grep 'failed: ' | tail -n 1")
        assert status == 1 and f"{said}: the server isn't stopped" in lines, (line, status, lines)
    assert machine.output(main) == before, "the server goes on"
    copied = machine("systemctl reset-failed nixkeep-backup@red; systemctl start --wait nixkeep-backup@red")
    assert copied[0] == 0, ("and is copied again", copied)
    machine("until systemctl is-active --quiet nixkeep@red; do sleep 0.3; done")


def test_the_shell_of_sqlite(machine):
    """The line of the page runs it as the store's account, and the file stays the store's."""
    line = re.search(r"^systemd-run .*?VACUUM$", Path(HERE, "docs/OPERATING.md").read_text(), re.M | re.S)[0]
    machine("systemctl stop nixkeep-backup@red.timer nixkeep-backup@red; systemctl stop nixkeep@red.socket nixkeep@red")
    was = machine.output("stat -c '%u %a' /var/lib/nixkeep/red/store.db /var/lib/nixkeep/red/")
    status, said = machine(line)
    assert status == 0, said
    assert machine.output("stat -c '%u %a' /var/lib/nixkeep/red/store.db /var/lib/nixkeep/red/") == was
    machine("systemctl start nixkeep@red.socket nixkeep@red nixkeep-backup@red.timer")
    assert states(machine) == ["active"] * 3


def test_a_restore(machine):
    """A timer that comes in the middle of a restore by hand does nothing; then a restore as one command."""
    copies = machine.output("ls /var/lib/nixkeep-backup/red")
    machine("systemctl stop nixkeep@red.socket nixkeep@red; cd /var/lib/nixkeep/red; mkdir away; mv store.db* away")
    machine("systemctl start --wait nixkeep-backup@red; sleep 1")
    assert machine.state("nixkeep@red") == "inactive", "the server stays stopped"
    assert machine("ls /var/lib/nixkeep/red/store.db")[0] == 2, "no file is made"
    assert machine.output("ls /var/lib/nixkeep-backup/red") == copies, "nor a copy"
    machine("cd /var/lib/nixkeep/red; mv away/* .; systemctl start nixkeep@red.socket nixkeep@red")
    line = f"{AS_ANN}/paths"
    machine(f"printf 'name: lost\\n\\nlost' | {AS_ANN}/text --data-binary @-")
    assert "-lost" in machine.output(line), "what a restore loses"
    status, said = machine(f"nixkeep-backup restore red /var/lib/nixkeep-backup/red/{copies.split()[0]}")
    assert status == 0 and said.startswith("restored "), ("a restore", said)
    assert states(machine) == ["active"] * 3
    paths = machine.output(line)
    assert "-lost" not in paths and "-restarted-" in paths, "the store is that of the copy"
    seen = machine.output("stat -c '%u %a' /var/lib/nixkeep/red/store.db")
    assert seen == f"{user_of(machine)} 600", "the file's owner and mode"


def test_an_upgrade(machine):
    main = "systemctl show -p MainPID --value nixkeep@red"
    before = machine.output(main)
    assert machine("dpkg -i /root/nixkeep.deb >/dev/null")[0] == 0, "an upgrade"
    machine("until systemctl is-active --quiet nixkeep@red; do sleep 0.3; done")
    after = machine.output(main)
    assert before != after, ("restarts the server", (before, after))
    machine("cp /etc/nixkeep/red.toml /root/good.toml; echo wrong >>/etc/nixkeep/red.toml")
    status, said = machine("dpkg -i /root/nixkeep.deb")
    machine("cp /root/good.toml /etc/nixkeep/red.toml")
    assert status == 0 and "refused: 19" in said and "might not start again" in said, said
    assert machine.output(main) == after, "stops nothing"
    said = machine.output("/var/lib/dpkg/info/nixkeep.postinst configure 0.0.9")
    assert "another schema" in said, ("one from an earlier schema says so", said)
    assert machine.output(main) == after, "and restarts nothing"


def test_a_start_that_fails(machine):
    """A server that can't start is started again and again, ever more slowly, and the socket stays."""
    machine("cp /etc/nixkeep/red.toml /root/good.toml; echo wrong >>/etc/nixkeep/red.toml")
    machine("systemctl restart --no-block nixkeep@red; sleep 20")
    count = int(machine.output("systemctl show -p NRestarts --value nixkeep@red"))
    assert count <= 7, ("starts in 20 seconds", count)
    assert machine.state("nixkeep@red.socket") == "active", "the socket"
    machine("cp /root/good.toml /etc/nixkeep/red.toml; systemctl restart nixkeep@red")
    assert machine.state("nixkeep@red") == "active", "with a right configuration"


def test_a_reboot(machine):
    line = f"{AS_ANN}/paths"
    before = machine.output(line)
    machine("systemctl poweroff")
    machine.ended()
    assert machine.boot()
    assert machine.output(line) == before, "after it the store answers the same"


def test_a_removal(machine):
    """The lines of the page, but for nginx's, leave nothing of a store. The other store's configuration stays."""
    machine("cp /root/nixkeep-sweep@.* /etc/systemd/system; systemctl daemon-reload; deluser --quiet proxy-red")
    for _, text in command_blocks(Path(HERE, "docs/OPERATING.md").read_text())["Remove"]:
        for line in [row for row in text.splitlines() if "nginx" not in row]:
            status, said = machine(f"bash -c {shlex.quote(line)}")
            assert status == 0, (line, said)
    left = "find /etc /var/lib /var/cache -name '*red*' -path '*nixkeep*' -not -path '*/timers/*'; ls /etc/nixkeep"
    assert machine.output(left) == "green.toml\nstore.toml", "what is left"
