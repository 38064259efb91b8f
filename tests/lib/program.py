"""How the program is called, and where: ports, and folders in memory."""

from __future__ import annotations

import contextlib
import os
import socket
import subprocess
import tempfile
from collections import deque
from collections.abc import Iterable, Sequence
from typing import Any

from .options import PROGRAM

# How long the program may take. (The machine may be busy with proofs.)
SECONDS = 240
# What the trials need where the disk is not what is tried.
ROOM = 512 << 20
# What keeps the last ports that were given out.
KEPT: deque[socket.socket] = deque(maxlen=500)
Found = tuple[int, str, str]


def memory() -> str | None:
    """A folder in memory that has room; None where there is none. Its path is short: that of a socket has to be."""
    for folder in (os.environ.get("TESTS_FOLDER", ""), "/dev/shm"):
        with contextlib.suppress(OSError):
            about = os.statvfs(folder)
            if about.f_bavail * about.f_frsize >= ROOM and os.access(folder, os.W_OK):
                return folder
    return None


MEMORY = memory()
tempfile.tempdir = MEMORY


def text_of(lines: Iterable[str]) -> str:
    return "".join(line + "\n" for line in lines)


def call(
    folder: str, words: Sequence[str | bytes], given: str = "", seconds: float = SECONDS, program: str = PROGRAM
) -> Found:
    """The status, what was written to standard output, and what to standard error."""
    done = subprocess.run(
        [program, *words], input=given.encode(), capture_output=True, cwd=folder, timeout=seconds, check=False
    )
    return done.returncode, done.stdout.decode(), done.stderr.decode()


def begun(folder: str, words: list[str], program: str = PROGRAM, **more: Any) -> subprocess.Popen[bytes]:
    """A program that runs, with pipes at its outputs. (Of a `Popen` it is not known that its streams are there.)"""
    streams: dict[str, Any] = {"stdin": subprocess.DEVNULL, "stdout": subprocess.PIPE, "stderr": subprocess.PIPE}
    return subprocess.Popen([program, *words], cwd=folder, **{**streams, **more})


def free_port() -> int:
    """A port of this machine that no other program is given, also while no one listens at it. It stays bound here,
    without a listener: a program that sets SO_REUSEADDR, as servers do, may listen at it again and again."""
    keeper = socket.socket()
    keeper.setsockopt(socket.SOL_SOCKET, socket.SO_REUSEADDR, 1)
    keeper.bind(("127.0.0.1", 0))
    if len(KEPT) == KEPT.maxlen:
        KEPT[0].close()
    KEPT.append(keeper)
    return int(keeper.getsockname()[1])
