"""Times the first command of README.md in a fresh clone: by the released program, and proving and building it.

    bin/run bench/first_run.py [--processors N] [--at COMMIT] [--folder FOLDER]

Makes a clone of this checkout's last commit, or of another, and runs there the command with which README.md begins,
first as it is, and then without the folder release/, so that the program is proved. Nothing that this or another
checkout on the machine has proved is used: the launcher reads only the toolchain and its own folder out/. With
--processors N the command is bound to N of them. Prints what is proved meanwhile, and at the end seconds of the first
answer, minutes and processor minutes of the proof, what share of the processors' time this run, other work and nothing
took, the largest process, and the five longest crates. Run it on a quiet machine. The clone is deleted at the end,
unless --folder says where it is: a second run there shows what a run that was stopped has left to do. Needs git and the
toolchain.
"""
import os
import re
import shutil
import subprocess
import sys
import tempfile
import time
from pathlib import Path

from nixkeep_dev.bench.figures import add_records, ended, limit, title
from nixkeep_dev.build import program
from nixkeep_dev.build.program import HERE
from nixkeep_dev.testing import report
from nixkeep_dev.testing.runs import spent
from nixkeep_dev.testing.tracked import git

# The most seconds of the first answer, and the most minutes of the proof, by the number of processors.
SECONDS = 2
MOST = {4: 20, 2: 45}


def command(folder):
    """The first command of a clone's README.md that runs bin/nixkeep, and the answer below it."""
    match = re.search(r"^\$ (.*bin/nixkeep .*)\n(.*\n)", Path(f"{folder}/README.md").read_text(), re.M)
    return match.groups() if match else sys.exit("bench/first_run.py: README.md has no command that runs bin/nixkeep")


def clone(folder, commit):
    subprocess.run(["git", "clone", "--quiet", "--no-checkout", HERE, folder], check=True)
    subprocess.run(["git", "checkout", "--quiet", "--detach", *git("rev-parse", commit)], cwd=folder, check=True)


def ticks(processors):
    """The ticks that these processors have been busy, and all of them, since the machine started."""
    rows = re.findall(r"^cpu(\d+) (.*)", Path("/proc/stat").read_text(), re.M)
    counts = [[int(word) for word in row.split()[:8]] for number, row in rows if int(number) in processors]
    whole = sum(map(sum, counts))
    return whole - sum(row[3] + row[4] for row in counts), whole


def shares(work, seconds, before, after, processors):
    """What part of the processors' time this run took, and other work, and nothing."""
    own = work / (seconds * processors)
    busy = (after[0] - before[0]) / max(after[1] - before[1], 1)
    return own, max(busy - own, 0), 1 - max(busy, own)


def tell(crates, seconds, work, part, processors):
    title(f"the same without a release: proving and building, {processors} processors")
    limit("time", seconds / 60, MOST.get(processors), "min")
    limit("processor time", work / 60, None, "min")
    for what, share in zip(("this run", "other work", "nothing"), part):
        limit(f"share of the processors' time: {what}", 100 * share, None, "%")
    if crates:
        most = max(crates, key=lambda crate: crates[crate]["memory"])
        limit(f"memory of the largest process ({most})", crates[most]["memory"] / 1e9, None, "GB")
    for crate in sorted(crates, key=lambda crate: -crates[crate]["seconds"])[:5]:
        limit(f"one of the five longest crates: {crate}", crates[crate]["seconds"] / 60, None, "min")


def answer_released(folder):
    """Runs the command in a clone by the released program; returns whether it answered as README.md says."""
    words, answer = command(folder)
    since = time.monotonic()
    ran = subprocess.run(["sh", "-c", words], cwd=folder, stdout=subprocess.PIPE, text=True)
    title("the first command of README.md in a fresh clone")
    limit("time", time.monotonic() - since, SECONDS, "s")
    return ran.returncode == 0 and ran.stdout == answer


def run(folder, processors):
    """Runs the command in a clone without a release, and prints what it took; returns whether it answered as README.md
    says."""
    words, answer = command(folder)
    shutil.rmtree(f"{folder}/release", ignore_errors=True)
    for file in Path(folder).glob("store.db*"):
        file.unlink()
    print(f"$ {words}", flush=True)
    before, since, old = ticks(processors), time.monotonic(), spent()
    ran = subprocess.run(["sh", "-c", words], cwd=folder, stdout=subprocess.PIPE, text=True)
    seconds, work = time.monotonic() - since, spent() - old
    part = shares(work, seconds, before, ticks(processors), len(processors))
    print(ran.stdout, end="", flush=True)
    tell(program.times(f"{folder}/out/times.json"), seconds, work, part, len(processors))
    return ran.returncode == 0 and ran.stdout == answer


def bind(number):
    """Binds this process and what it starts to this number of processors, and returns them."""
    mine = sorted(os.sched_getaffinity(0))
    if number:
        if not 1 <= number <= len(mine):
            sys.exit(f"bench/first_run.py: there are {len(mine)} processors here")
        os.sched_setaffinity(0, mine[:number])
    return mine[: number or None]


def main():
    parser = report.parser(__doc__)
    add_records(parser)
    parser.add_argument("--processors", type=int, metavar="N", help="how many processors may be used")
    parser.add_argument("--at", default="HEAD", metavar="COMMIT", help="what to clone, by default the last commit")
    parser.add_argument("--folder", help="where the clone is made, and stays; one that is there is used again")
    words = parser.parse_args()
    processors = bind(words.processors)
    with tempfile.TemporaryDirectory(prefix="nixkeep-first-run-") as room:
        folder = str(Path(words.folder or f"{room}/nixkeep").absolute())
        is_new = not Path(folder).exists()
        if is_new:
            clone(folder, words.at)
        is_well = (not is_new or answer_released(folder)) and run(folder, processors)
    if not is_well:
        sys.exit("bench/first_run.py: the command didn't answer as README.md says")
    ended(words)


if __name__ == "__main__":
    main()
