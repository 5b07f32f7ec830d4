"""Does the commands of the cases over servers: each process of stand_in.c asks for one, and gets its exit status.

Starting Python takes a hundred times as long as a command. So one process loads the client once, and becomes the
client of a command by a fork: it takes over the streams, the words, the environment, the folder, the ignored signals
and the limits of the one that asks. A log gets a line for each command: its subcommand, and whether a server was asked.
"""
import contextlib
import os
import resource
import signal
import socket
import stat
import struct
import subprocess
import sys
import traceback
from collections.abc import Iterator
from pathlib import Path

from nixkeep_dev.build.program import HERE
from nixkeep_tools import streams
from tests.tools import shim

SOURCE = str(Path(__file__).resolve().with_name("stand_in.c"))
BY_THE_PROGRAM = 255


def compiled(folder, program, listening):
    """The program that takes the place of another one, in a folder. It asks at a socket of this path."""
    file = f"{folder}/nixkeep"
    named = [f'-D{name}="{value}"' for name, value in (("LISTENING", listening), ("PROGRAM", program))]
    subprocess.run(["cc", "-O1", "-Wall", "-Wextra", "-Werror", *named, "-o", file, SOURCE], check=True)
    return file


@contextlib.contextmanager
def answering(program: str, folder: str) -> Iterator[tuple[str, str]]:
    """The file of the stand-in for a program, and its log. Both are in a folder, and work until the end."""
    path, log = f"{folder}/asked", f"{folder}/log"
    file = compiled(folder, program, path)
    script = "import sys; from tests.tools import stand_in; stand_in.listen(*sys.argv[1:])"
    with socket.socket(socket.AF_UNIX) as made, open(log, "wb"):
        made.bind(path)
        made.listen(100)
        path = ":".join(filter(None, [HERE, f"{HERE}/dev", f"{HERE}/tools", os.environ.get("PYTHONPATH")]))
        where = {"cwd": HERE, "env": {**os.environ, "PYTHONPATH": path}}
        how = {"stdin": subprocess.DEVNULL, "pass_fds": [made.fileno()], "start_new_session": True}
        words = [sys.executable, "-B", "-c", script, str(made.fileno()), program, log]
        listening = subprocess.Popen(words, **how, **where)
    try:
        yield file, log
    finally:
        os.killpg(listening.pid, signal.SIGKILL)
        listening.wait()


def listen(number, program, log):
    """Does each command that is asked for at a socket, side by side, without end."""
    signal.signal(signal.SIGCHLD, signal.SIG_IGN)
    listener = socket.socket(fileno=int(number))
    while True:
        with listener.accept()[0] as connection:
            if os.fork():
                continue
            listener.close()
            signal.signal(signal.SIGCHLD, signal.SIG_DFL)
            status = 254
            try:
                status = done(connection, program, log)
            except BaseException:
                os.write(2, traceback.format_exc().encode())
            connection.send(bytes([status]))
            os._exit(0)


def of_process(pid, name):
    return Path(f"/proc/{pid}/{name}").read_bytes()


def strings(written):
    return [os.fsdecode(text) for text in written.split(b"\0")[:-1]]


def become(pid, is_open, descriptors):
    """Takes over the streams and settings of a process: which streams are open, and those in their order."""
    for number in range(3):
        if is_open[number]:
            os.dup2(descriptors[0], number)
            os.close(descriptors.pop(0))
        else:
            os.close(number)
    streams.keep_closed()
    os.chdir(f"/proc/{pid}/cwd")
    os.environ.clear()
    os.environ.update(pair.split("=", 1) for pair in strings(of_process(pid, "environ")) if "=" in pair)
    status = dict(line.split(":\t", 1) for line in of_process(pid, "status").decode().splitlines())
    os.umask(int(status["Umask"], 8))
    for kind in signal.Signals:
        if int(status["SigIgn"], 16) >> (kind - 1) & 1:
            signal.signal(kind, signal.SIG_IGN)
    for name in (limit for limit in dir(resource) if limit.startswith("RLIMIT_")):
        resource.setrlimit(getattr(resource, name), resource.prlimit(pid, getattr(resource, name)))


def done(connection, program, log):
    """The exit status of the command that is asked for, or that the program has to do it."""
    is_open, descriptors, _, _ = socket.recv_fds(connection, 3, 3)
    pid, _, _ = struct.unpack("3i", connection.getsockopt(socket.SOL_SOCKET, socket.SO_PEERCRED, 12))
    words = strings(of_process(pid, "cmdline"))
    line = shim.leading(words[1:])
    why = shim.why_not(line)
    with open(log, "a") as file:
        file.write(f"by the program: {why}\n" if why else f"by a server: {line[1][0][:20]!r}\n")
    if why:
        return BY_THE_PROGRAM
    become(pid, is_open, descriptors)
    if stat.S_ISDIR(os.fstat(0).st_mode):
        # (as a program of Python's, the client doesn't start there)
        return subprocess.call([sys.executable, f"{HERE}/tools/nixkeep-remote"])
    return shim.by_remote(program, Path(words[0]).name, *line)
