"""The released program: release/ has the proved program, packed, and in `made-of` what it was made of.

bin/release writes both from a program that was proved, and nothing else writes them. So a checkout needs no toolchain
to run: where `made-of` has the sum of the present sources, that program is unpacked into out/released, once, and its
own sum is compared before each start.
"""
import hashlib
import lzma
import os
import platform
import subprocess
import sys
import tempfile
from pathlib import Path

from nixkeep_dev.build import program

FOLDER = f"{program.HERE}/release"
PACKED = f"{FOLDER}/{program.NAME}.xz"
MADE_OF = f"{FOLDER}/made-of"
UNPACKED = f"{program.HERE}/out/released/{program.NAME}"
KEYS = ("version", "sources", "toolchain", "machine", "program", "packed")


class Unusable(Exception):
    """The released program can't be run; with the reason."""


def shown(path):
    return str(Path(path).relative_to(program.HERE))


def sum_of(data):
    return hashlib.sha256(data).hexdigest()


def version() -> str:
    return Path(f"{program.HERE}/VERSION").read_text().strip()


def wanted():
    """What `made-of` has to have in this checkout, next to the toolchain and the sum of the sources."""
    return {"version": version(), "machine": program.MACHINE}


def read(path):
    """The bytes of a file of the release."""
    try:
        return Path(path).read_bytes()
    except OSError as error:
        raise Unusable(f"{shown(path)}: {error.strerror}") from None


def made_of():
    """What the released program was made of, by KEYS; None where there is no release."""
    if not Path(FOLDER).exists():
        return None
    pairs = [line.partition(": ") for line in read(MADE_OF).decode(errors="replace").splitlines()]
    fields = {key: value for key, _, value in pairs}
    if tuple(fields) != KEYS:
        raise Unusable(f"{shown(MADE_OF)} is damaged: it hasn't the lines {', '.join(KEYS)}")
    return fields


def packed(record):
    """The bytes of the packed program, whose sum is that of `made-of`."""
    data = read(PACKED)
    if sum_of(data) != record["packed"]:
        raise Unusable(f"{shown(PACKED)} is damaged: its sum isn't that of {shown(MADE_OF)}")
    return data


def unpack(data, record):
    """The bytes of the released program, whose sum is that of `made-of`."""
    try:
        data = lzma.decompress(data)
    except (lzma.LZMAError, EOFError, MemoryError) as error:
        raise Unusable(f"{shown(PACKED)} is damaged: {error}") from None
    if sum_of(data) != record["program"]:
        raise Unusable(f"{shown(PACKED)} is damaged: the program's sum isn't that of {shown(MADE_OF)}")
    return data


def write(path, data, mode=0o644, test=lambda fresh: None):
    """Puts a file at its place at once and durably, never a part of it, and only if it passes the test."""
    Path(path).parent.mkdir(parents=True, exist_ok=True)
    with tempfile.TemporaryDirectory(prefix=".fresh-", dir=Path(path).parent) as room:
        with open(f"{room}/fresh", "wb") as file:
            os.fchmod(file.fileno(), mode)
            file.write(data)
            file.flush()
            os.fsync(file.fileno())
        test(file.name)
        os.replace(file.name, path)


def unpacked(record):
    """The file of the released program, which is unpacked where it isn't there, or isn't the released one."""
    data = packed(record)
    for line in differing(record, wanted()):
        raise Unusable(line)
    here = f"{platform.system()} on {platform.machine()}"
    if here != f"Linux on {program.MACHINE}":
        raise Unusable(f"the released program is for Linux on {program.MACHINE}, and this is {here}")
    try:
        if not os.access(UNPACKED, os.X_OK) or sum_of(Path(UNPACKED).read_bytes()) != record["program"]:
            write(UNPACKED, unpack(data, record), 0o755, refuse_unless_it_runs)
    except OSError as error:
        raise Unusable(f"{shown(UNPACKED)}: {error.strerror}") from None
    return UNPACKED


def refuse_unless_it_runs(file):
    """Starts the program once: an old C library, a processor of another level and a folder without programs show."""
    try:
        ran = subprocess.run([file, "help"], stdin=subprocess.DEVNULL, capture_output=True, text=True)
        why = f"status {ran.returncode}: {ran.stderr.strip()}" if ran.returncode else None
    except OSError as error:
        why = error.strerror
    if why:
        raise Unusable(f"the released program doesn't run on this machine ({why})")


def is_ready() -> bool:
    """Whether the program of the present sources is there, released or proved here."""
    return program.is_built() or not faults()


def ready() -> str:
    """The file of the program for the present sources: what was proved here, else the released one. Where neither is of
    these sources, or the released one can't be run, the program is proved and built first."""
    if program.is_built():
        return program.FILE
    try:
        record = made_of()
        if record and record["sources"] == program.source():
            return unpacked(record)
        why = "the sources aren't those of the released program" if record else "there is no released program"
    except Unusable as fault:
        why = str(fault)
        if program.fault_of_toolchain():
            sys.exit(f"{program.NAME}: {why}; with the Rattle toolchain on the path this command proves and builds it")
    program.prove([program.NAME], why)
    program.say("built")
    return program.FILE


def differing(record, wanted):
    """What `made-of` has otherwise than this checkout, a line for each. Any toolchain of its logic is right."""
    lines = [f"{shown(MADE_OF)} has {key} {record[key]}, and this checkout has {value}"
             for key, value in wanted.items() if record[key] != value]
    if not program.proves(record["toolchain"]):
        lines.append(f"{shown(MADE_OF)} has toolchain {record['toolchain']}, and this checkout needs {program.LOGIC}")
    return lines


def faults() -> list[str]:
    """What is wrong with the release, a line for each: that it isn't of the present sources, or is damaged."""
    try:
        record = made_of()
        if not record:
            return ["there is no release"]
        unpack(packed(record), record)
    except Unusable as fault:
        return [str(fault)]
    return differing(record, {**wanted(), "sources": program.source()})


def make() -> dict[str, str]:
    """Writes the release from the program that was proved and built here for the present sources, and returns what it
    was made of."""
    data = Path(program.FILE).read_bytes()
    small = lzma.compress(data, preset=9 | lzma.PRESET_EXTREME)
    record = {"version": version(), "sources": program.source(), "toolchain": program.toolchain_version(),
            "machine": program.MACHINE, "program": sum_of(data), "packed": sum_of(small)}
    write(PACKED, small)
    write(MADE_OF, "".join(f"{key}: {record[key]}\n" for key in KEYS).encode())
    return record


def compare(file: str) -> tuple[bool, str]:
    """Compares the bytes of a program that was proved and built just before with those of the release. Returns whether
    they may differ or are the same, and what to print of it: another toolchain may build other bytes."""
    record, here = made_of(), program.toolchain_version()
    if here != record["toolchain"]:
        return True, f"not compared: release/ was made by {record['toolchain']}, and rt here is {here}"
    if Path(file).read_bytes() == unpack(packed(record), record):
        return True, f"compared: what was proved and built is release/, byte for byte (sha256 {record['program']})"
    return False, "what was proved and built has other bytes than release/: bin/release makes it anew"
