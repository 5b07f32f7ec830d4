"""Packs nixkeep, and installs, uses, upgrades and removes the package in a folder that stands for the root of a
machine.

That root has nothing but the package and the C library of this machine, so the program is tried as on a machine
without the toolchain. Also compares the archive with the package, looks at what it depends on, and tries bin/install
below two prefixes. test_package_scripts.py has the package's scripts run. Without --program the program is proved and
built first.
"""
import glob
import os
import re
import shutil
import tarfile
from pathlib import Path

import pytest

from nixkeep_dev.build import layout, release
from nixkeep_dev.build import program as built
from nixkeep_dev.build.program import HERE
from nixkeep_dev.testing import report
from tests.tools import packed
from tests.tools.packed import pack, ran

# What the program answers to a text, where no store is named.
GREETING = "/nix/store/ybf7by4xvcgjhwilsg87rqz9di79bify-greeting"
CONFIGURATION = "etc/nixkeep/store.toml"
LIBRARIES = ("/lib64/ld-linux-x86-64.so.2", "/lib/x86_64-linux-gnu/libc.so.6")
TOOLS = [name for name in layout.names_in("tools") if name.startswith("nixkeep-")]


def greets(words):
    return ran([*words, "--user", "root", "add-text", "greeting"], "hello\n")


@pytest.fixture(scope="module")
def given(pytestconfig):
    """The words that name the program, where it isn't that of this checkout."""
    file = pytestconfig.getoption("--program")
    return ["--program", str(Path(file).absolute())] if file else []


@pytest.fixture(scope="module")
def both(given, shared_folder):
    """The package, and the archive of its files."""
    report.skip_without("dpkg-deb", "dpkg")
    return pack(shared_folder, given)


@pytest.fixture(scope="module")
def deb(both):
    return both[0]


@pytest.fixture(scope="module")
def files(deb, shared_folder):
    """The folder with the files of the package."""
    ran(["dpkg-deb", "-x", deb, f"{shared_folder}/files"])
    return f"{shared_folder}/files"


# ---- the files


def test_two_packages_have_the_same_bytes(both, given, folder):
    assert [layout.sum_of(file) for file in pack(folder, given)] == [layout.sum_of(file) for file in both]


def test_the_archive_has_the_files_of_the_package(both):
    """All are root's, and only programs can be run."""
    deb, archive = both
    with tarfile.open(archive) as file:
        entries = file.getmembers()
    top = entries[0].name
    lines = ran(["dpkg-deb", "-c", deb])[1].splitlines()
    in_deb = sorted(line.split(maxsplit=5)[5].partition(" -> ")[0].removeprefix("./")
                    for line in lines if line[0] != "d")
    assert sorted(entry.name.removeprefix(f"{top}/") for entry in entries if not entry.isdir()) == in_deb
    assert all(entry.uid == entry.gid == 0 for entry in entries)
    run_by = [line.split()[5] for line in lines if line[0] == "-" and "x" in line[:10] and "/examples/" not in line]
    assert [name for name in run_by if not name.startswith(("./usr/bin/", "./usr/lib/"))] == []


def test_what_the_archive_has_runs_where_it_is_unpacked(both, folder):
    ran(["tar", "-xf", both[1], "--strip-components=1", "-C", folder])
    assert greets([f"{folder}/usr/bin/nixkeep"]) == (0, f"{GREETING}\n")
    assert ran([f"{folder}/usr/bin/nixkeep-remote", "--version"]) == (0, f"nixkeep-remote {layout.version()}\n")


def test_sums_of_the_sources_are_there_where_they_were_proved(files, given):
    """A package of a program that is given has none."""
    assert Path(f"{files}/usr/share/doc/nixkeep/sources.sha256").exists() != bool(given)


def test_the_sums_of_the_sources(deb, given, folder):
    if not release.is_ready():
        pytest.skip("the sums of the sources: neither release/ nor what was proved here is of these sources")
    deb = pack(f"{folder}/proved", [])[0] if given else deb
    wrong, named, read = packed.sums(deb, folder)
    assert wrong == ""
    assert sorted(named) == sorted(read)


# ---- what it depends on


def test_the_package_needs_the_c_library_of_the_program(deb, files):
    """It is the one of which the program names a function."""
    depends = packed.depends(deb)
    assert f"libc6 (>= {packed.libc_of(f'{files}/usr/bin/nixkeep')})" in depends
    assert "python3 (>= 3.11)" in depends


def test_the_package_needs_what_the_tools_import(deb):
    assert packed.python_packages(deb) == packed.imported()


# ---- the unit


@pytest.mark.needs("dpkg-deb", "systemd-analyze")
def test_systemd_finds_no_fault_in_the_unit(files):
    """But that its program isn't installed on this machine."""
    said = ran(["systemd-analyze", "verify", f"{files}/usr/lib/systemd/system/nixkeep@.service"])[1].splitlines()
    assert [line for line in said
            if "nixkeep" in line and "is not executable" not in line and "'man " not in line] == []


def calls_in(name):
    """The system calls of a set that systemd knows, or the one call of that name."""
    if not name.startswith("@"):
        return {name}
    lines = ran(["systemd-analyze", "syscall-filter", name])[1].splitlines()[1:]
    return set().union(*[calls_in(line.strip()) for line in lines if line.strip() and "#" not in line])


def calls_allowed(unit):
    """The system calls that a unit allows: each line adds some, or takes some away."""
    allowed = set()
    for line in layout.content(unit).decode().splitlines():
        key, _, names = line.partition("=")
        if key == "SystemCallFilter":
            calls = set().union(*[calls_in(word) for word in names.removeprefix("~").split()])
            allowed = allowed - calls if names.startswith("~") else allowed | calls
    return allowed


@pytest.mark.needs("dpkg-deb", "strace", "systemd-analyze")
def test_the_unit_allows_the_system_calls_of_the_server(files, folder):
    """Those that it makes for a few messages on its standard streams."""
    message = "POST /text HTTP/1.1\r\nstore-user: root\r\ncontent-length: 21\r\n\r\nname: greeting\n\nhello\n"
    words = ["strace", "-f", "-qq", "-o", f"{folder}/calls", f"{files}/usr/bin/nixkeep", "--db", f"{folder}/store.db"]
    ran([*words, "serve"], message + message.replace("hello", "other"))
    text = layout.content(f"{folder}/calls").decode(errors="replace")
    made = set(re.findall(r"^\d+ +(\w+)\(", text, re.M))
    assert {"pwrite64", "fdatasync"} <= made
    assert made <= calls_allowed(f"{files}/usr/lib/systemd/system/nixkeep@.service")


# ---- an installation


class Root:
    """A root with the C library of this machine, where the package alone is installed."""

    def __init__(self, root, deb):
        self.root = root
        for folder in ("var/lib/dpkg/info", "var/lib/dpkg/updates", "var/lib/dpkg/triggers", "tmp", "dev"):
            os.makedirs(f"{root}/{folder}")
        for name in ("status", "available"):
            open(f"{root}/var/lib/dpkg/{name}", "w").close()
        for path in LIBRARIES:
            Path(f"{root}{path}").parent.mkdir(parents=True, exist_ok=True)
            shutil.copyfile(str(Path(path).resolve()), f"{root}{path}")
            os.chmod(f"{root}{path}", 0o755)
        self.dpkg("--install", deb)

    def dpkg(self, *words):
        """Runs dpkg on the files, where there is no shell for the package's scripts, and no other package."""
        force = ["--force-script-chrootless", "--force-depends", "--force-unsafe-io", "--force-confold"]
        status, said = ran(["dpkg", f"--root={self.root}", "--log=/dev/null", *force, *words])
        assert status == 0, said

    def files(self):
        """The files and links below usr and etc."""
        tops = [f"{self.root}/{top}" for top in ("usr", "etc")]
        paths = [f"{at}/{name}" for top in tops for at, _, names in os.walk(top) for name in names]
        return sorted(str(Path(path).relative_to(self.root)) for path in paths)


@pytest.fixture(scope="module")
def installed(deb, shared_folder):
    """A root in which the package is installed."""
    return Root(f"{shared_folder}/root", deb)


@pytest.fixture
def fresh(deb, folder):
    """Another one, which a test changes."""
    return Root(f"{folder}/root", deb)


def test_dpkg_lists_the_package(installed):
    query = ["dpkg-query", f"--admindir={installed.root}/var/lib/dpkg", "-W"]
    _, printed = ran([*query, "-f", "${Status} ${Version}${Conffiles}", "nixkeep"])
    assert printed.startswith(f"install ok installed {layout.version()}")
    assert f" /{CONFIGURATION} " in printed, "the configuration is one that dpkg keeps"


def test_the_program_runs_with_the_c_library_alone(fresh):
    if os.geteuid():
        pytest.skip("the program in a root of its own needs root")
    words = ["chroot", fresh.root, "/usr/bin/nixkeep"]
    assert greets(words) == (0, f"{GREETING}\n")
    words += ["--db", "/tmp/store.db", "--config", f"/{CONFIGURATION}", "--user", "root"]
    assert ran([*words, "add-text", "greeting"], "hello\n") == (0, f"{GREETING}\n")
    assert ran([*words, "list"]) == (0, f"{GREETING}\n")


def test_the_program_names_no_file_of_the_toolchain(installed):
    kit = built.toolchain()
    if not kit:
        pytest.skip("the names of files of the toolchain, which isn't here")
    assert kit.encode() not in layout.content(f"{installed.root}/usr/bin/nixkeep")


def not_compiled(folder):
    """The modules of an installation that aren't compiled, by Debian's Python or by the one that there is."""
    modules = {name.removesuffix(".py") for name in os.listdir(f"{folder}/nixkeep_tools") if name.endswith(".py")}
    made = {Path(path).name.split(".")[0] for path in glob.glob(f"{folder}/nixkeep_tools/__pycache__/*.pyc")}
    return sorted(modules - made)


@pytest.mark.needs("dpkg-deb", "dpkg", "py3compile")
def test_an_installation_compiles_the_modules(installed):
    assert not_compiled(f"{installed.root}/usr/lib/nixkeep") == []


@pytest.mark.parametrize("name", TOOLS)
def test_a_tool_is_installed(installed, name):
    status, said = ran([f"{installed.root}/usr/bin/{name}", "--help"])
    if "python3-" in said and status:
        pytest.skip(f"{name}: {said.strip()}")
    assert status == 0 and "usage" in said.lower(), said


def test_an_upgrade(fresh, deb):
    """It leaves a configuration that was changed, and puts the rest anew."""
    configuration = Path(fresh.root, CONFIGURATION)
    configuration.write_text(configuration.read_text() + "# changed\n")
    os.remove(f"{fresh.root}/usr/bin/nixkeep")
    fresh.dpkg("--install", deb)
    assert configuration.read_text().endswith("# changed\n")
    assert os.access(f"{fresh.root}/usr/bin/nixkeep", os.X_OK)


def test_a_removal_leaves_the_configuration_and_a_purge_nothing(fresh):
    fresh.dpkg("--remove", "nixkeep")
    assert fresh.files() == [CONFIGURATION]
    fresh.dpkg("--purge", "nixkeep")
    assert fresh.files() == []


# ---- bin/install


def install(*words, **more):
    return ran([f"{HERE}/bin/install", *words], **more)


@pytest.mark.parametrize("option", [["--prefix"], []], ids=["--prefix", "a word"])
def test_bin_install(given, folder, option):
    status, said = install(*option, folder, *given)
    assert status == 0 and said.startswith(f"{folder}/bin/nixkeep\n"), said
    assert greets([f"{folder}/bin/nixkeep"]) == (0, f"{GREETING}\n")
    assert not_compiled(f"{folder}/lib/nixkeep") == []
    for name in os.listdir(f"{folder}/bin"):
        if name != "nixkeep":
            assert ran([f"{folder}/bin/{name}", "--version"]) == (0, f"{name} {layout.version()}\n")


def test_bin_install_runs_nothing_of_the_folder_where_it_is_called(given, folder):
    """Python looks there first for a module that it is to run, and for what that imports."""
    os.mkdir(hostile := f"{folder}/hostile")
    for name in ("compileall", "filecmp", "py_compile", "struct"):
        Path(f"{hostile}/{name}.py").write_text(f"open({f'{folder}/ran'!r}, 'w')\n")
    assert install("--prefix", f"{folder}/prefix", *given, cwd=hostile)[0] == 0
    assert not Path(f"{folder}/ran").exists()
    assert not_compiled(f"{folder}/prefix/lib/nixkeep") == []


def test_two_prefixes_are_refused(folder):
    assert install("--prefix", f"{folder}/one", f"{folder}/two")[0] == 2


@pytest.fixture
def prefix(given, folder):
    """A prefix below which nixkeep is installed."""
    assert install("--prefix", folder, *given)[0] == 0
    return folder


def test_another_installation_takes_away_what_only_the_one_before_had(given, prefix):
    old = f"{prefix}/lib/nixkeep/nixkeep_tools/old.py"
    open(old, "w").close()
    with open(f"{prefix}/lib/nixkeep/installed", "a") as file:
        file.write("lib/nixkeep/nixkeep_tools/old.py\n")
    assert install("--prefix", prefix, *given)[0] == 0
    assert not Path(old).exists()


def test_bin_install_removes_what_it_has_installed(prefix):
    """What others have put there stays."""
    others = [f"{prefix}/bin/other", f"{prefix}/share/man/man1/other.1"]
    for path in others:
        open(path, "w").close()
    assert install("--remove", "--prefix", prefix) == (0, "")
    assert sorted(f"{at}/{name}" for at, _, names in os.walk(prefix) for name in names) == sorted(others)
    folders = sorted(str(Path(at).relative_to(prefix)) for at, _, _ in os.walk(prefix))
    assert folders == [".", "bin", "share", "share/man", "share/man/man1"], "no empty folder"
    status, said = install("--remove", "--prefix", prefix)
    assert status == 1 and said.count("\n") == 1 and "nothing" in said, "a second one is one line"


def test_nothing_outside_of_the_prefix_is_removed(folder):
    os.makedirs(f"{folder}/lib/nixkeep")
    Path(f"{folder}/lib/nixkeep/installed").write_text("../other\n")
    status, said = install("--remove", "--prefix", folder)
    assert status == 1 and "../other" in said, said
