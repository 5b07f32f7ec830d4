"""The store's server as a child process: `nixkeep serve` on its standard streams, so that no port is open for it."""
import asyncio
import contextlib
import os
import shutil
import signal
import sys
from pathlib import Path

from . import store_size
from .cache_server import AHEAD, BROKEN, Caller, Request, message, read_reply

# A server that has run for WELL seconds is started again at once. Else the delay in seconds is LEAST, and each time
# twice as many, up to MOST.
LEAST, MOST, WELL = 0.5, 60, 60
# The seconds in which a server has to end by itself.
END = 10
# Statuses of a command line or a store that is refused. Another start wouldn't help. And that of other ends.
REFUSED, FAILED = (2, 3), 1
# What a client gets whose request the server hasn't answered.
ENDED = "the server has ended: try again later"


def program_near(file: str) -> str:
    """The program `nixkeep`: next to a tool, or on the path. A checkout has its own, as installations have."""
    here = Path(file).resolve().parent
    near = [f"{here}/nixkeep", f"{here}/../../bin/nixkeep", f"{here}/../bin/nixkeep"]
    return next((path for path in near if os.access(path, os.X_OK)), shutil.which("nixkeep") or "nixkeep")


def identity(program: str) -> tuple | None:
    """What changes where another file takes the name of a program; None where there is none."""
    with contextlib.suppress(OSError):
        seen = os.stat(shutil.which(program) or program)
        return seen.st_dev, seen.st_ino, seen.st_size, seen.st_mtime_ns
    return None


class Refused(Exception):
    """The server has ended, and no other one is started. `line` says why; the text is for clients."""

    def __init__(self, line: str, text: str | None = None):
        super().__init__(text or line)
        self.line = line


class Child:
    """A server over a file. It is started ahead of requests, and again whenever it has ended."""

    idle = None

    def __init__(self, program: str, file: str, config: str | None):
        self.words = [program, *(["--config", config] if config else []), "--db", file, "serve"]
        self.identity = identity(program)
        self.process, self.handle, self.running, self.why, self.refused = None, None, None, "it starts", 0
        # The process that answers, as soon as there is one; and of when it had opened its file the most bytes of memory
        # that it had had, those that it had, and those of the file.
        self.file, self.ready, self.opened = file, None, None

    async def open(self) -> tuple[asyncio.StreamReader, asyncio.StreamWriter]:
        """The streams of a server that has opened its file. Raises Refused."""
        if not self.running:
            self.ready = asyncio.get_running_loop().create_future()
            self.running = asyncio.create_task(self.run())
        # (a process that has ended isn't taken, also where its end wasn't seen yet)
        while (process := await asyncio.shield(self.ready)).returncode is not None or process.stdout.at_eof():
            await asyncio.sleep(0.01)
        return process.stdout, process.stdin

    async def ended(self) -> None:
        """Waits until no other server is started. Raises Refused."""
        await asyncio.shield(self.running)
        await self.ready

    async def run(self) -> None:
        """Starts a server again and again. Where no other one is started, whoever waits for one is refused at once: the
        end of this process would wait for them."""
        now, delay, has_answered = asyncio.get_running_loop().time, 0, False
        while True:
            began = now()
            try:
                status, answers = await self.serve()
                has_answered |= answers
                if status in REFUSED and not has_answered:
                    self.refused = status
                    raise Refused(f"the server ended with status {status} before its first answer")
                self.refuse_another()
            except Refused as refused:
                self.refused = self.refused or FAILED
                return self.ready.set_exception(refused)
            delay = 0 if now() - began > WELL else min(MOST, max(LEAST, 2 * delay))
            self.why = f"it ended with status {status}"
            print(f"nixkeep-cache: the server ended with status {status}; the next start is in {delay:g} s",
                  file=sys.stderr, flush=True)
            await asyncio.sleep(delay)

    def refuse_another(self) -> None:
        """Raises Refused if the program was replaced, as by an upgrade that has restarted nothing: another one may
        migrate the file, and what starts this process makes a copy of it before."""
        if self.identity != identity(self.words[0]):
            raise Refused(f"the server has ended, and {self.words[0]} is another program by now: start this again",
                          ENDED)

    async def serve(self) -> tuple[int, bool]:
        """Starts a server, and waits for its end. Returns its status, and whether it has answered. Raises Refused where
        none can be started."""
        pipe, answers, self.opened = asyncio.subprocess.PIPE, False, None
        try:
            self.process = await asyncio.create_subprocess_exec(*self.words, stdin=pipe, stdout=pipe, limit=AHEAD)
            with contextlib.suppress(ProcessLookupError):
                self.handle = os.pidfd_open(self.process.pid)
        except OSError as error:
            raise Refused(f"{self.words[0]}: {error}", ENDED) from None
        with contextlib.suppress(*BROKEN):
            # (it answers once the file is open, which takes long for a large one)
            self.process.stdin.write(message(Request(Caller("nixkeep-cache", None), "GET", "/"))[0])
            answers = bool(await read_reply(self.process.stdout))
            with contextlib.suppress(OSError, ValueError):
                self.opened = store_size.highest(self.process.pid), self.memory(), store_size.used(self.file)
            self.ready.set_result(self.process)
        status = await self.process.wait()
        with contextlib.suppress(*BROKEN):
            # (else asyncio prints a trace of what was being written to a server that was killed)
            async with asyncio.timeout(1):
                await self.process.stdin.wait_closed()
        if self.handle is not None:
            os.close(self.handle)
            self.handle = None
        if self.ready.done():
            self.ready = asyncio.get_running_loop().create_future()
        return status, answers

    def close(self, writer: asyncio.StreamWriter) -> None:
        """Ends the server of a connection that was given up: what it still does would answer another request."""
        if self.process and self.process.stdin is writer:
            self.signal(signal.SIGTERM)

    def memory(self) -> int | None:
        """The bytes of memory that the server has, or None where it doesn't run."""
        with contextlib.suppress(OSError, AttributeError, ValueError):
            return store_size.resident(self.process.pid)
        return None

    def signal(self, number: int) -> None:
        # (asyncio's own way would reap a process that has ended, and asyncio wouldn't learn its status)
        if self.handle is not None:
            with contextlib.suppress(ProcessLookupError):
                signal.pidfd_send_signal(self.handle, number)

    async def end(self) -> None:
        """Ends the server after its request: it sees the end of its input."""
        if not self.running:
            return
        self.running.cancel()
        if self.process and self.process.returncode is None:
            self.process.stdin.close()
            try:
                async with asyncio.timeout(END):
                    await self.process.wait()
            except TimeoutError:
                self.signal(signal.SIGKILL)
                await self.process.wait()
