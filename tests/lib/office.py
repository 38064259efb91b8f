"""Programs that stay: how `serve` and `open` are started and how they end, and callers that speak to them."""

from __future__ import annotations

import contextlib
import os
import re
import socket
import subprocess
import threading
import time
from collections.abc import Sequence
from typing import Any

from .checks import same
from .options import PROGRAM
from .program import SECONDS, Found, begun, call, free_port
from .sites import EMPTY_LOG, intact, opened

# The file of an office, and what one says whose history is nearly full.
FILE = "site.db"
FILLED = re.compile(rb"filled (90|95|99) of 100: \d+ of \d+ entries\n")

Program = subprocess.Popen[bytes]


def started(folder: str, port: int, sessions: int, rounds: int, files: list[str], **more: Any) -> Program:
    """A `serve`."""
    return begun(folder, ["serve", str(port), str(sessions), str(rounds), *files], **more)


def ended(program: Program, seconds: float = SECONDS) -> Found:
    """Its status, standard output and standard error; one that does not end is killed, so that it holds no file."""
    try:
        out, err = program.communicate(timeout=seconds)
    finally:
        program.kill()
    return program.returncode, out.decode(), err.decode()


def connected(port: int, seconds: float = SECONDS, program: Program | None = None) -> socket.socket:
    """A connection, once the program listens."""
    end = time.monotonic() + seconds
    while True:
        try:
            return socket.create_connection(("127.0.0.1", port), timeout=SECONDS)
        except OSError:
            if time.monotonic() > end or program and program.poll() is not None:
                raise
            time.sleep(0.005)


def is_reached(address: str, port: int) -> bool:
    """Whether anything listens to the port at this address of this machine."""
    try:
        socket.create_connection((address, port), timeout=SECONDS).close()
    except ConnectionRefusedError:
        return False
    return True


class Caller:
    """A session over a connection: each line is sent once the reply to the one before was read."""

    def __init__(self, port: int, seconds: float = SECONDS, program: Program | None = None) -> None:
        self.stream = connected(port, seconds, program)
        self.lines = self.stream.makefile("r")

    def send(self, line: str) -> None:
        with contextlib.suppress(ConnectionError):
            self.stream.sendall(line.encode() + b"\n")

    def begin(self, part: str) -> "Caller":
        """Sends a part of a line. In the middle of one a caller is not idle, however slow the machine is."""
        with contextlib.suppress(ConnectionError):
            self.stream.sendall(part.encode())
        return self

    def reply(self) -> str:
        """The next line, or nothing where the connection has ended."""
        with contextlib.suppress(ConnectionError):
            return self.lines.readline().rstrip("\n")
        return ""

    def ask(self, line: str) -> str:
        self.send(line)
        return self.reply()

    def quit(self) -> bool:
        """Whether the connection ends after `quit` with no reply, while other sessions go on."""
        self.send("quit")
        return self.reply() == ""

    def go_away(self) -> None:
        self.stream.close()
        self.lines.close()


class Operator(Caller):
    """A session at the socket of an open office."""

    def __init__(self, path: str) -> None:
        self.stream = socket.socket(socket.AF_UNIX)
        self.stream.settimeout(SECONDS)
        self.stream.connect(path)
        self.lines = self.stream.makefile("r")

    def message(self, line: str) -> str:
        """A message that begins with this line, up to `end`, or to the end of the connection."""
        lines = [line]
        while lines[-1] not in ("end", ""):
            lines.append(self.reply())
        return "".join(one + "\n" for one in lines)

    def export(self, to: int) -> str:
        first = self.ask(f"export {to}")
        return self.message(first) if first.startswith("delta ") else first

    def take(self, message: str) -> tuple[str, str]:
        """The word that answers a message, and the acknowledgement."""
        word = self.ask("import\n" + message.removesuffix("\n"))
        return word, self.message(self.reply()) if word in ("joined", "nothing-new") else ""


class Office:
    """An office, once callers can come. The words come behind those that it has to be opened by."""

    def __init__(
        self,
        folder: str,
        file: str = FILE,
        port: int | None = None,
        seconds: float = SECONDS,
        program: str = PROGRAM,
        words: Sequence[str] = (),
        **more: Any,
    ) -> None:
        self.folder, self.file, self.port, self.built = folder, file, port or free_port(), program
        self.path = os.path.join(folder, file + "-sock")
        self.program = begun(folder, ["open", str(self.port), file, *words], program, **more)
        watch = threading.Timer(seconds, self.program.kill)
        watch.start()
        assert self.program.stdout
        same(f"what {file} prints as it opens", self.program.stdout.readline(), f"open {self.port} {file}\n".encode())
        watch.cancel()

    def kill(self) -> None:
        self.program.kill()
        status, (out, err) = self.program.wait(SECONDS), self.program.communicate()
        same("it was killed", (status, out, FILLED.sub(b"", err)), (-9, b"", b""))

    def close(self) -> None:
        same(f"close {self.file}", call(self.folder, ["close", self.file], program=self.built), (0, "", ""))
        self.has_ended()

    def has_ended(self) -> None:
        """Nothing but the file and a log without entries is left."""
        status, out, err = ended(self.program)
        same(f"the end of {self.file}", (status, out, FILLED.sub(b"", err.encode())), (0, "", b""))
        same(f"no socket of {self.file} is left", os.path.lexists(self.path), False)
        log = os.path.join(self.folder, self.file + "-wal")
        same(f"the log of {self.file}", (os.path.getsize(log) if os.path.exists(log) else 0) in (0, EMPTY_LOG), True)
        with opened(self.folder, self.file) as db:
            intact(self.file, db)
