"""A repository of a few crates, with the launcher of this one, and a toolchain that proves nothing and only waits."""
import os
import shutil
import subprocess
from pathlib import Path
from typing import Any

from nixkeep_dev.build import program
from nixkeep_dev.build.program import HERE

CRATES = {"low": [], "left": ["low"], "right": ["low"], "join": ["low", "left", "right"], "nixkeep": ["join"]}
# One that the program doesn't need.
ASIDE = {"aside": ["low"]}
# A rattle that logs what it is asked, and when; it fails for a crate that the folder of the log names, and goes on as
# long as one is held there.
RATTLE = '''#!/usr/bin/env python3
import os, sys, time
from pathlib import Path
words, top = sys.argv, os.environ["STAND_IN"]
crate, made = words[words.index("--crate-name") + 1], words[words.index("-o") + 1]
log = lambda what: open(f"{top}/log", "a").write(f"{what} {crate} {time.monotonic()}\\n")
log("starts")
open(f"{top}/words-{crate}", "w").write(" ".join(words[1:]))
externs = [word.partition("=")[2] for at, word in enumerate(words) if words[at - 1] == "--extern"]
lacking = [folder for folder in externs if "/rlibs/" not in folder and not Path(folder, "format").is_file()]
time.sleep(float(dict(word.split("=") for word in os.environ["STAND_IN_SECONDS"].split()).get(crate, "0.2")))
while Path(top, f"holds-{crate}").exists():
    time.sleep(0.05)
if lacking or Path(top, f"fails-{crate}").exists():
    print(f"error: {crate} isn't proved", *lacking)
    sys.exit(1)
if "--statements" in words:
    os.makedirs(made)
    made += "/format"
open(made, "w").write(crate)
log("ends")
'''
RT = f"""#!/bin/sh
echo 'rattle-kit {program.LOGIC}'
"""
LINK = r'''#!/usr/bin/env python3
import os, sys
made = sys.argv[sys.argv.index("-o") + 1]
open(made, "w").write("#!/bin/sh\necho it runs \"$@\"\n")
os.chmod(made, 0o755)
'''


# A path without a toolchain: git and python3 alone.
SYSTEM = "/usr/bin:/bin"


def put_program(path: str, text: str) -> None:
    Path(path).write_text(text)
    os.chmod(path, 0o755)


class Repository:
    """A repository of a few crates, and the stand-in for the toolchain."""

    def __init__(self, room: str):
        self.top, self.kit, self.room = f"{room}/repository", f"{room}/kit", room
        crates = {**CRATES, **ASIDE}
        for crate in crates:
            self.write(f"crates/{crate}/src/{'main' if crate == 'nixkeep' else 'lib'}.rt", f"// {crate}\n")
        self.write("crates.txt", "".join(f"{crate}: {' '.join(below)}\n" for crate, below in crates.items()))
        self.write("HANDLES", "Handles allowed: none.\n")
        self.write("VERSION", "1.2.3\n")
        for folder in ("bin", "dev"):
            shutil.copytree(f"{HERE}/{folder}", f"{self.top}/{folder}", ignore=shutil.ignore_patterns("__pycache__"))
        for folder in (f"{self.kit}/bin", f"{room}/rooms"):
            os.makedirs(folder)
        for name, text in (("rt", RT), ("rattle", RATTLE), ("rattle-link", LINK)):
            put_program(f"{self.kit}/bin/{name}", text)

    def write(self, path: str, text: str) -> None:
        Path(f"{self.top}/{path}").parent.mkdir(parents=True, exist_ok=True)
        Path(f"{self.top}/{path}").write_text(text)

    def start(self, *words: str, top: str | None = None, path: str | None = None,
              seconds: str = "") -> subprocess.Popen:
        """Starts a command of bin/, or the launcher with two arguments. Its path has the toolchain before the system's
        folders, or is the one given. `seconds` has crates that take longer than others: `left=2 right=2`."""
        environment = {**os.environ, "PATH": path or f"{self.kit}/bin:{SYSTEM}", "STAND_IN": self.room}
        environment |= {"STAND_IN_SECONDS": seconds, "TMPDIR": f"{self.room}/rooms"}
        how = {"env": environment, "stdout": subprocess.PIPE, "stderr": subprocess.PIPE, "text": True}
        name, *given = words or ("nixkeep", "a", "b c")
        return subprocess.Popen([f"{top or self.top}/bin/{name}", *given], **how)

    def run(self, *words: str, **how: Any) -> tuple[int, str, str, list]:
        """The status of a command, what it printed, and the lines of the log that it made."""
        if Path(f"{self.room}/log").exists():
            os.remove(f"{self.room}/log")
        ran = self.start(*words, **how)
        out, said = ran.communicate()
        return ran.returncode, out, said, self.log()

    def log(self) -> list[list]:
        try:
            with open(f"{self.room}/log") as file:
                return [line.split() for line in file]
        except OSError:
            return []


def started(log: list) -> list[str]:
    return sorted(crate for what, crate, _ in log if what == "starts")
