"""A folder of sites, whose files C SQLite reads."""

from __future__ import annotations

import contextlib
import os
import shutil
import sqlite3
import subprocess
import tempfile
from collections.abc import Iterable, Sequence
from typing import Any

from .checks import CHECKS, Checks, same
from .options import PROGRAM
from .program import SECONDS, call, text_of

ROWS = "SELECT pos, peer, number, verb, event, amount, target, reply, rest, delta FROM entries ORDER BY pos"
# The bytes of a log without entries.
EMPTY_LOG = 41
# A message that no site sent: it tells the second of two sites that the first released more seats than it did.
FORGED = "delta 0 1 1\nname gala\ngave gala 0 0 1000\nend\n"


def make_site(
    folder: str, file: str, me: int = 0, sites: int = 2, limit: int = 1_000_000, program: str = PROGRAM
) -> None:
    words = ["init", file, str(me), str(sites), str(limit)]
    same(f"init {file}", call(folder, words, program=program), (0, "done\n", ""))


def make_sites(folder: str, files: Sequence[str], limit: int = 1000) -> None:
    """Makes a file for each site of a new world."""
    for me, file in enumerate(files):
        make_site(folder, file, me, len(files), limit)


def opened(folder: str, file: str) -> contextlib.closing[sqlite3.Connection]:
    """The file in C SQLite until the end of a `with`; each statement is committed at once."""
    return contextlib.closing(sqlite3.connect(os.path.join(folder, file), isolation_level=None))


def change(folder: str, file: str, statements: Iterable[str]) -> None:
    with opened(folder, file) as db:
        for statement in statements:
            db.execute(statement)


def intact(what: str, db: sqlite3.Connection, checks: Checks = CHECKS) -> None:
    checks.same(what, db.execute("PRAGMA integrity_check").fetchall(), [("ok",)])


def copied(folder: str, files: Iterable[str], to: str) -> str:
    """Copies of these files and their logs in a folder."""
    for file in files:
        for part in (file, file + "-wal"):
            with contextlib.suppress(FileNotFoundError):
                shutil.copy(os.path.join(folder, part), to)
    return to


def copied_inside(folder: str, files: Iterable[str], name: str) -> str:
    """A folder inside this one with copies of these files and their logs."""
    copy = os.path.join(folder, name)
    shutil.rmtree(copy, ignore_errors=True)
    os.mkdir(copy)
    return copied(folder, files, copy)


def rows_kept(folder: str, file: str, checks: Checks = CHECKS) -> list[tuple[Any, ...]]:
    """The entries that C SQLite finds in a copy of file and log, so that the program finds what is there now."""
    with tempfile.TemporaryDirectory() as copy:
        with opened(copied(folder, [file], copy), file) as db:
            intact(f"{file} in C SQLite", db, checks)
            return db.execute(ROWS).fetchall()


def reply_of(row: Sequence[Any]) -> str:
    reply, rest = row[7:9]
    return str(reply) if rest is None else f"{reply} {rest}"


def asked_and_killed(folder: str, file: str, lines: Sequence[str]) -> list[str]:
    """The replies of a session that is killed once it has answered, so that its entries stand in the log."""
    pipe, words = subprocess.PIPE, [PROGRAM, "ask", file]
    with subprocess.Popen(words, cwd=folder, stdin=pipe, stdout=pipe) as program:
        assert program.stdin and program.stdout
        program.stdin.write(text_of(lines).encode())
        program.stdin.flush()
        replies = [program.stdout.readline().decode() for _ in lines]
        program.kill()
        program.communicate(timeout=SECONDS)
    return replies
