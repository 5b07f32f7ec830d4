"""Packs the proved program `nixkeep`: that of release/, or, where the sources have changed, a newly proved one.

    bin/package [--to FOLDER] [--program FILE]

Writes a package for Debian, nixkeep_VERSION_amd64.deb, and nixkeep_VERSION_amd64.tar.gz with the same files, into
FOLDER, or into out/ where none is given, and prints their paths. Both have the program, the tools, manual pages,
completion of shells, a unit for systemd, a configuration file in etc, documents, licences and examples, and in
usr/share/doc/nixkeep/sources.sha256 the sums of the sources that were proved: `sha256sum -c` compares them with a
checkout. --program packs another program; as nothing is known of its sources, those sums are left out. Needs
dpkg-deb.
"""
import argparse
import contextlib
import io
import os
import re
import shutil
import subprocess
import sys
import tarfile
import textwrap
import tempfile
from email.utils import formatdate
from pathlib import Path

from nixkeep_dev.build import layout, program, release
from nixkeep_dev.build.layout import HERE

DOCUMENTS = "usr/share/doc/nixkeep"


def date():
    """The time that all files get, in seconds: that of the last commit, or of the version where there is no commit."""
    if os.environ.get("SOURCE_DATE_EPOCH", "").isdigit():
        return int(os.environ["SOURCE_DATE_EPOCH"])
    with contextlib.suppress(OSError, subprocess.CalledProcessError, ValueError):
        words = ["git", "log", "-1", "--format=%ct"]
        return int(subprocess.check_output(words, cwd=HERE, stderr=subprocess.DEVNULL))
    return int(os.stat(f"{HERE}/VERSION").st_mtime)


def put(top, place, data, mode=0o644):
    path = Path(top, place)
    path.parent.mkdir(parents=True, exist_ok=True)
    path.write_bytes(data)
    path.chmod(mode)


def put_program(top, file):
    """Puts what an installation has below usr, with packed manual pages."""
    files, links = layout.parts(file)
    for place, path, mode in files:
        is_page = place.startswith("share/man/")
        data = layout.content(path)
        put(top, f"usr/{place}{'.gz' * is_page}", layout.packed(data) if is_page else data, mode)
    for place, target in links:
        Path(f"{top}/usr/{place}").parent.mkdir(parents=True, exist_ok=True)
        os.symlink(target, f"{top}/usr/{place}")


def put_service(top):
    put(top, "etc/nixkeep/store.toml", layout.content(f"{HERE}/packaging/store.toml"))
    for unit in ("nixkeep@.service", "nixkeep@.socket"):
        put(top, f"usr/lib/systemd/system/{unit}", layout.content(f"{HERE}/packaging/{unit}"))


def changelog(when):
    """CHANGELOG.md in Debian's form: for each version its lines, and who packed it when. What isn't released yet has no
    version."""
    maintainer = re.search("^Maintainer: (.*)$", Path(f"{HERE}/packaging/control").read_text(), re.M)[1]
    parts = re.split(r"^## (\d\S*|Unreleased)\n", Path(f"{HERE}/CHANGELOG.md").read_text(), flags=re.M)
    for version, text in zip(parts[1::2], parts[2::2]):
        if version == "Unreleased":
            continue
        lines = re.findall(r"^- (.*(?:\n  .*)*)", text, re.M)
        items = [textwrap.fill(" ".join(line.split()), 76, initial_indent="  * ", subsequent_indent="    ",
                               break_long_words=False, break_on_hyphens=False) for line in lines]
        items = "\n".join(items)
        yield f"{program.NAME} ({version}) stable; urgency=medium\n\n{items}\n\n -- {maintainer}  {formatdate(when)}\n"


def put_documents(top, is_proved, when):
    for place, path in layout.documents():
        put(top, f"{DOCUMENTS}/{place}", layout.content(path), 0o755 if os.access(path, os.X_OK) else 0o644)
    put(top, f"{DOCUMENTS}/copyright", layout.content(f"{HERE}/packaging/copyright"))
    put(top, f"usr/share/lintian/overrides/{program.NAME}", layout.content(f"{HERE}/packaging/lintian-overrides"))
    put(top, f"{DOCUMENTS}/changelog.gz", layout.packed("\n".join(changelog(when)).encode()))
    if is_proved:
        put(top, f"{DOCUMENTS}/sources.sha256", layout.sources().encode())


def files_below(top):
    return sorted(str(Path(at, name).relative_to(top)) for at, _, names in os.walk(top) for name in names)


def libc_of(file):
    """The lowest version of the C library that has all that a program names of it."""
    versions = {tuple(map(int, version.split(b".")))
                for version in re.findall(rb"\0GLIBC_([0-9.]+)\0", layout.content(file))}
    return ".".join(map(str, max(versions, default=(2, 34))))


def put_control(top, file):
    size = sum(os.lstat(f"{top}/{name}").st_size for name in files_below(top))
    text = Path(f"{HERE}/packaging/control").read_text().format(version=layout.version(), size=(size + 1023) // 1024,
                                                                libc=libc_of(file))
    plain = [name for name in files_below(top) if name.startswith("usr/") and not Path(f"{top}/{name}").is_symlink()]
    sums = "".join(f"{layout.sum_of(f'{top}/{name}', 'md5')}  {name}\n" for name in plain)
    put(top, "DEBIAN/control", text.encode())
    put(top, "DEBIAN/conffiles", b"/etc/nixkeep/store.toml\n")
    put(top, "DEBIAN/md5sums", sums.encode())
    for name in ("postinst", "prerm"):
        put(top, f"DEBIAN/{name}", layout.content(f"{HERE}/packaging/{name}"), 0o755)


def pack(top, name, to, when):
    """Packs the files as a tape archive, all of root's and of one time, in one order."""
    def as_root(entry):
        entry.uid = entry.gid = 0
        entry.uname = entry.gname = "root"
        entry.mtime, entry.mode = when, 0o755 if entry.isdir() else entry.mode
        return entry

    plain = io.BytesIO()
    with tarfile.open(fileobj=plain, mode="w") as file:
        file.add(top, name, filter=as_root)
    Path(to).write_bytes(layout.packed(plain.getvalue()))


def make(top, file, to, is_proved):
    """Makes both packages from a folder, and returns their paths."""
    name, when = f"{program.NAME}_{layout.version()}_amd64", date()
    put_program(top, file)
    put_service(top)
    put_documents(top, is_proved, when)
    pack(top, name, f"{to}/{name}.tar.gz", when)
    put_control(top, file)
    environment = {**os.environ, "SOURCE_DATE_EPOCH": str(when)}
    words = ["dpkg-deb", "--root-owner-group", "-Zxz", "--build", top, f"{to}/{name}.deb"]
    subprocess.run(words, env=environment, stdout=subprocess.DEVNULL, check=True)
    return f"{to}/{name}.deb", f"{to}/{name}.tar.gz"


def arguments(words):
    parser = argparse.ArgumentParser(description=__doc__, formatter_class=argparse.RawDescriptionHelpFormatter)
    parser.add_argument("--to", default=f"{HERE}/out", help="the folder for the packages, out/ where none is given")
    parser.add_argument("--program", help="a program to pack in place of the one that is proved here")
    return parser.parse_args(words)


def main(words: list[str]) -> None:
    given = arguments(words)
    if not shutil.which("dpkg-deb"):
        sys.exit("bin/package: the command dpkg-deb isn't on the path")
    file = given.program or release.ready()
    os.umask(0o022)
    os.makedirs(given.to, exist_ok=True)
    with tempfile.TemporaryDirectory(prefix="nixkeep-package-") as room:
        try:
            made = make(f"{room}/all", file, str(Path(given.to).absolute()), not given.program)
        except (OSError, subprocess.CalledProcessError) as fault:
            sys.exit(f"bin/package: {fault}")
    print(*made, sep="\n")


if __name__ == "__main__":
    main(sys.argv[1:])
