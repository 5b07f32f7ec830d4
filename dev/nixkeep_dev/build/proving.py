"""Proves crates side by side: each once those below it are, and first those with the longest chain of others above
them.

Each crate is one run of the toolchain's `rattle build`, which proves it from scratch and writes its library with
its statements alone (--statements), so a crate far up loads no proof of those below. The libraries lie in a folder
of this run, where no other command waits for them. How long a crate takes, and how much memory, is known from
earlier runs, or guessed from its lines.
"""
import contextlib
import os
import re
import shutil
import signal
import subprocess
import sys
import tempfile
import threading
import time
from collections.abc import Iterable, Iterator
from concurrent.futures import FIRST_COMPLETED, Future, ThreadPoolExecutor, wait
from pathlib import Path
from typing import IO, Any

from nixkeep_dev.build import program

TARGET = f"{program.MACHINE}-unknown-linux-gnu"
# The most jobs that a crate gets: more than four seldom help.
MOST = 4
# Where the libraries of a run lie, which are several GB: a folder for temporary files that isn't in memory.
ROOMS = os.environ.get("TMPDIR") or ("/var/tmp" if Path("/var/tmp").is_dir() else tempfile.gettempdir())
PREFIX = "nixkeep-proofs-"
# How many bytes they may take in all.
ROOM = 5_000_000_000


class Stopped(Exception):
    """A crate could not be proved or built; with what was said of it."""


def processors() -> int:
    return len(os.sched_getaffinity(0))


class Runs:
    """The commands that run now, so that all can be ended."""

    def __init__(self):
        self.now, self.is_over, self.lock = set(), False, threading.Lock()

    def start(self, words: list[str], folder: str, out: IO[str]) -> subprocess.Popen:
        with self.lock:
            if self.is_over:
                raise Stopped("")
            ran = subprocess.Popen(words, cwd=folder, stdin=subprocess.DEVNULL, stdout=out, stderr=subprocess.STDOUT)
            self.now.add(ran)
            return ran

    def end(self) -> None:
        with self.lock:
            self.is_over = True
            for ran in self.now:
                ran.kill()

    def run(self, words: list[str], folder: str) -> tuple[int, str, float, int]:
        """Runs a command: its status, what it printed, its processor seconds and the memory of its largest process."""
        with tempfile.TemporaryFile("w+", errors="replace") as out:
            ran = self.start(words, folder, out)
            _, status, used = os.wait4(ran.pid, 0)
            with self.lock:
                ran.returncode = os.waitstatus_to_exitcode(status)
                self.now.discard(ran)
            out.seek(0)
            return ran.returncode, out.read(), used.ru_utime + used.ru_stime, 1024 * used.ru_maxrss


def call(crate, words, folder, runs):
    """Runs a command for a crate, once more with one job where it is killed: its processor seconds and memory."""
    status, said, *used = runs.run(words, folder)
    if status == -signal.SIGKILL and "--jobs" in words and not runs.is_over:
        # (most likely for memory)
        words[words.index("--jobs") + 1] = "1"
        status, said, *used = runs.run(words, folder)
    if status:
        raise Stopped(f"{''.join(said.splitlines(True)[-60:])}nixkeep: {crate} could not be proved or built")
    return used


def build(crate, named, room, jobs, runs):
    """Proves a crate, and makes its library in the folder or the program: its processor seconds and memory."""
    kit, folder, is_program = program.toolchain(), f"{program.HERE}/crates/{crate}", crate == program.NAME
    made = f"{program.FILE}.o" if is_program else f"{room}/.{crate}.rlib"
    to = ["--toolchain", f"{kit}/toolchain", "--backend", "llvm"] if is_program else ["--statements"]
    Path(made).parent.mkdir(parents=True, exist_ok=True)
    words = ["build", *program.words_of(crate, named, lambda library: room, jobs), "--links", f"{crate}="]
    words = [f"{kit}/bin/rattle", *words, *to, "-o", made]
    used = call(crate, words, folder, runs)
    if is_program:
        words = [f"{kit}/bin/rattle-link", "--target", TARGET, "--toolchain", f"{kit}/toolchain", "-o", program.FILE]
        call(crate, [*words, made, f"{kit}/c/libos_c.a", f"{kit}/c/liblibc_c.a"], program.HERE, runs)
        os.remove(made)
    else:
        os.rename(made, f"{room}/{crate}.rlib")
    return used


def guess(crate, below):
    """The processor seconds and the memory that a crate may take, by its lines and the crates below it."""
    code, proofs = lines(crate)
    memory = 900_000_000 + 500_000 * code + 50_000 * proofs + 60_000_000 * len(below)
    if crate == program.NAME:
        # (the program is linked and compiled whole)
        return 0.014 * sum(lines(library)[0] for library in below), 4_500_000_000
    return max(10, 0.2 * code + 0.011 * proofs + 4.9 * len(below) - 37), memory


class Plan:
    """What each crate is likely to take: processor seconds and memory, as measured by earlier runs, or guessed."""

    def __init__(self, crates, named):
        known = program.times()
        self.work, self.memory = {}, {}
        for crate in crates:
            work, memory = guess(crate, program.with_below(crate, named)[:-1])
            self.work[crate] = max(0.1, known.get(crate, {}).get("work", work))
            self.memory[crate] = known.get(crate, {}).get("memory", memory)
        # The work from the start of a crate to the end of all, on the longest way. Crates come lowest first.
        self.chain = {}
        for crate in reversed(crates):
            above = [self.chain[other] for other in self.chain if crate in named[other]]
            self.chain[crate] = self.work[crate] + max(above, default=0)

    def needs(self, crate: str, jobs: int) -> float:
        return self.memory[crate] * (1 + 0.3 * (jobs - 1))

    def seconds(self, crate: str, jobs: int) -> float:
        """How long a crate is likely to take: it loads what it reads by one process, and jobs share the rest. The
        program is linked and compiled by one process."""
        alone = self.work[crate] if crate == program.NAME else min(15, self.work[crate])
        return alone + (self.work[crate] - alone) / (0.85 * jobs + 0.15)


def lines(crate):
    """How many lines of code and of statements and proofs a crate has."""
    texts = [(path, Path(program.HERE, path).read_bytes()) for path in program.files_of(crate)]
    return [sum(text.count(b"\n") for name, text in texts if name.endswith(kind)) for kind in (".rt", ".antt")]


class Shown:
    """Shows what is being proved: on a terminal one line that is written anew, elsewhere a line for each crate."""

    def __init__(self, crates, left, plan):
        self.crates, self.left, self.plan = crates, [*left], plan
        self.at, self.taken, self.planned = {}, 60.0, 60.0
        self.lock, self.is_line, self.is_over = threading.Lock(), sys.stderr.isatty(), threading.Event()
        if self.is_line:
            threading.Thread(target=self.tick, daemon=True).start()

    def tick(self):
        while not self.is_over.wait(2):
            with self.lock:
                self.say()

    def minutes(self) -> int:
        """How many minutes are likely to be left, by what the crates until now took of what was planned for them."""
        work = {crate: self.plan.work[crate] * self.part_left(crate) for crate in self.left}
        chain = max((self.plan.chain[crate] - self.plan.work[crate] + work[crate] for crate in self.left), default=0)
        alone = work.get(program.NAME, 0)
        longest = max(sum(work.values()) / processors() / 0.9, (chain - alone) / 2.5 + alone)
        return max(1, round(self.slow() * longest / 60))

    def slow(self):
        return self.taken / self.planned

    def part_left(self, crate):
        """What part of a crate is likely to be left: of one that runs, never none."""
        since, jobs = self.at.get(crate, (time.monotonic(), 1))
        return max(0.1, 1 - (time.monotonic() - since) / (self.plan.seconds(crate, jobs) * self.slow()))

    def count(self) -> str:
        done = len(self.crates) - len(self.left)
        ahead = f", about {self.minutes()} minute{'s' * (self.minutes() > 1)} left" if self.left else ""
        return f"{done} of {len(self.crates)} crates{ahead}"

    def say(self, text=None):
        if self.is_line and not self.is_over.is_set():
            now = ", ".join(f"{crate} {time.monotonic() - since:.0f} s" for crate, (since, _) in self.at.items())
            text = f"nixkeep: {self.count()}; now {now}" if text is None else text
            print(f"\r\x1b[K{text[: shutil.get_terminal_size().columns - 1]}", end="", file=sys.stderr, flush=True)

    def starts(self, crate: str, jobs: int) -> None:
        with self.lock:
            self.at[crate] = time.monotonic(), jobs

    def ends(self, crate: str) -> float:
        """Notes that a crate is proved, and returns the seconds that it took."""
        with self.lock:
            since, jobs = self.at.pop(crate)
            seconds = time.monotonic() - since
            self.left.remove(crate)
            self.taken, self.planned = self.taken + seconds, self.planned + self.plan.seconds(crate, jobs)
            if not self.is_line:
                program.say(f"{crate} proved in {seconds / 60:.1f} minutes ({self.count()})")
            self.say()
            return seconds

    def close(self) -> None:
        with self.lock:
            self.say("")
            self.is_over.set()


class Schedule:
    """Which crate is proved next, and with how many jobs."""

    def __init__(self, left, named, plan):
        self.left = sorted(left, key=lambda crate: -plan.chain[crate])
        self.below = {crate: {*program.with_below(crate, named)} for crate in left}
        self.plan, self.running, self.memory = plan, {}, 0.85 * program.free()
        # A crate has times in which one process alone works, so there are more jobs than processors.
        self.lanes = 2 * processors()

    def ready(self) -> list[str]:
        """The crates that can start, first those with the longest chain above them."""
        waited_for = {*self.left, *self.running}
        return [crate for crate in self.left if not self.below[crate] & waited_for - {crate}]

    def jobs(self, crate: str, ready: int) -> int:
        """How many jobs a crate can have now, next to `ready` that are ready too; none where it has to wait. More than
        one job costs a third more of processor time, so only the crate with the longest chain above it gets all
        that it can use, and another gets a second one only where too few are ready for the idle processors."""
        idle = self.lanes - sum(self.running.values())
        room = self.memory - sum(self.plan.needs(*item) for item in self.running.items())
        is_first = all(self.plan.chain[crate] > self.plan.chain[other] for other in self.running)
        most = min(MOST if is_first else 2 if idle // ready > 2 else 1, processors(), idle)
        fitting = [count for count in range(1, most + 1) if self.plan.needs(crate, count) <= room]
        return max(fitting, default=int(not self.running))

    def next(self) -> tuple[str, int] | None:
        """The next crate and its jobs, or None where nothing can start now."""
        ready = self.ready()
        for at, crate in enumerate(ready if len(self.running) < processors() else []):
            jobs = self.jobs(crate, len(ready) - at)
            if jobs:
                self.left.remove(crate)
                self.running[crate] = jobs
                return crate, jobs
        return None


class Proving:
    """A run over some crates: their libraries lie in its folder."""

    def __init__(self, left, digests, named, by, room):
        self.digests, self.named, self.by, self.room, self.runs = digests, named, by, room, Runs()
        plan = Plan([*digests], named)
        self.schedule, self.shown = Schedule(left, named, plan), Shown([*digests], left, plan)

    def prove(self, crate, jobs):
        """Proves a crate; returns it, and what it took."""
        self.shown.starts(crate, jobs)
        used = build(crate, self.named, self.room, jobs, self.runs)
        return crate, self.shown.ends(crate), *used

    def keep(self, crate: str, *taken: Any) -> None:
        """Keeps what a proved crate made, while those above it begin."""
        program.keep_times(crate, *taken)
        if crate == program.NAME:
            program.keep(crate, self.digests[crate], self.by)
        else:
            program.keep_library(crate, f"{self.room}/{crate}.rlib", self.digests[crate], self.by)

    def start(self, pool: ThreadPoolExecutor) -> set[Future]:
        """Starts what can start now."""
        return {pool.submit(self.prove, *task) for task in iter(self.schedule.next, None)}

    def run(self) -> None:
        """Proves all, and returns when what is proved is kept."""
        kept = []
        with ThreadPoolExecutor(1) as keeper, ThreadPoolExecutor(processors()) as pool:
            try:
                running = self.start(pool)
                while running:
                    ended, running = wait(running, return_when=FIRST_COMPLETED)
                    for future in sorted(ended, key=lambda future: future.exception() is not None):
                        crate, *taken = future.result()
                        kept.append(keeper.submit(self.keep, crate, *taken))
                        del self.schedule.running[crate]
                    running |= self.start(pool)
            finally:
                self.runs.end()
                self.shown.close()
        for future in kept:
            future.result()


def sweep():
    """Removes the folders of runs that were killed."""
    for name in os.listdir(ROOMS):
        match = re.match(rf"{PREFIX}(\d+)-", name)
        if match and not Path(f"/proc/{match[1]}").exists():
            shutil.rmtree(f"{ROOMS}/{name}", ignore_errors=True)


@contextlib.contextmanager
def room_with(crates: Iterable[str]) -> Iterator[str]:
    """A folder with the kept libraries of these crates, for as long as it is used."""
    sweep()
    with tempfile.TemporaryDirectory(prefix=f"{PREFIX}{os.getpid()}-", dir=ROOMS) as room:
        for crate in crates:
            program.take_library(crate, room)
        yield room


@contextlib.contextmanager
def stops_cleanly():
    """Has a signal that ends this process end the runs below it first."""
    def stop(number, _):
        print(file=sys.stderr)
        program.say("stopped; what is proved is kept, and the next run goes on from there")
        sys.exit(128 + number)

    old = {number: signal.signal(number, stop) for number in (signal.SIGINT, signal.SIGTERM, signal.SIGHUP)}
    try:
        yield
    finally:
        for number, handler in old.items():
            signal.signal(number, handler)


def prove_all(left: list[str], digests: dict[str, str], named: dict[str, list], by: str) -> None:
    """Proves the crates that are left, lowest first, and builds what they make. All crates have digests."""
    if shutil.disk_usage(ROOMS).free < ROOM:
        program.say(f"note: this takes {ROOM / 1e9:.0f} GB in {ROOMS}, which has less; TMPDIR names another folder")
    kept = {below for crate in left for below in program.with_below(crate, named)} - {*left}
    with stops_cleanly(), room_with(kept) as room:
        try:
            Proving(left, digests, named, by, room).run()
        except Stopped as stopped:
            sys.exit(str(stopped))
