#!/usr/bin/env python3
"""Looks at files and their logs behind commands of the built program, also where a file may not grow.

Usage: tests/files_are_closed.py [PROGRAM]     (PROGRAM: crates/boxoffice/out/boxoffice)

A command with status 0 or 1 leaves no entry in a log: each file holds all by itself. Where a file cannot take what its
log holds, the command says `disk` behind its answer, and the log still holds it. A session of `serve` whose request
cannot be stored is told so, and `serve` ends with `closed`. Prints what differs, and ends with status 1 where anything
does.
"""

import os
import resource
import shutil
import subprocess
import sys
import tempfile
from collections.abc import Mapping, Sequence
from typing import Any

from lib import (
    asked_and_killed,
    call,
    Caller,
    EMPTY_LOG,
    ended,
    free_port,
    intact,
    make_sites,
    opened,
    PROGRAM,
    ROWS,
    same,
    SECONDS,
    started,
    try_each,
)
from lib.model import Row
from lib.program import Found

FILES = ["north.db", "south.db"]
# More than the pages of a new file hold.
EVENTS = 300
MOST_LOG = 1 << 20
AUDIT = [f"event-{number} released 0 sold 0 refunded 0 outstanding 0\n" for number in range(1, EVENTS + 1)]
LISTED = "4 announce 5 event-5 done\n"


def size(folder: str, name: str) -> int:
    path = os.path.join(folder, name)
    return os.path.getsize(path) if os.path.exists(path) else 0


def asked(folder: str, file: str) -> None:
    lines = [f"announce {number} event-{number}" for number in range(1, EVENTS + 1)]
    same(f"the replies of {file}", asked_and_killed(folder, file, lines), ["done\n"] * EVENTS)


def rows(folder: str, names: Sequence[str]) -> list[Row]:
    """The entries that C SQLite finds in a copy of these files."""
    with tempfile.TemporaryDirectory() as copy:
        for name in names:
            if os.path.exists(os.path.join(folder, name)):
                shutil.copy(os.path.join(folder, name), copy)
        with opened(copy, names[0]) as db:
            intact(f"{names}", db)
            return db.execute(ROWS).fetchall()


def commands() -> list[tuple[list[str], int, int, str]]:
    """Commands, which of the files they open, their status and what they print. None makes an entry."""
    both = "".join(sorted(AUDIT))
    return [
        (["find", FILES[0], "5"], 1, 0, "4 done\n"),
        (["find", FILES[0], "9999"], 1, 1, "none\n"),
        (["list", FILES[0], "event-5"], 1, 0, LISTED),
        (["export", FILES[0], "0"], 1, 1, "no-site\n"),
        (["migrate", FILES[0]], 1, 1, "nothing\n"),
        (["init", FILES[0], "0", "2", "1000"], 1, 1, "already-there\n"),
        (["grow", FILES[0], "2"], 1, 1, "not-more\n"),
        (["import", FILES[0]], 1, 1, "truncated\n"),
        (["ask", FILES[0]], 1, 0, ""),
        (["audit", *FILES], 2, 0, both),
        (["audit", FILES[0]], 1, 1, "not-whole\n"),
        (["serve", str(free_port()), "0", "0", *FILES], 2, 0, both),
        (["serve", str(free_port()), "0", "3", *FILES], 2, 0, both),
        (["serve", str(free_port()), "0", "0", FILES[0]], 1, 1, "not-whole\n"),
    ]


def restored(folder: str, kept: str) -> None:
    """The files as they were."""
    for name in os.listdir(folder):
        os.remove(os.path.join(folder, name))
    shutil.copytree(kept, folder, dirs_exist_ok=True)


def closed_well(folder: str, kept: str, wanted: Mapping[str, list[Row]]) -> None:
    for words, count, status, out in commands():
        restored(folder, kept)
        same(f"{words}", call(folder, words), (status, out, ""))
        for file in FILES[:count]:
            same(f"the log of {file} behind {words}", size(folder, file + "-wal") in (0, EMPTY_LOG), True)
            alone = rows(folder, [file])
            same(f"{file} alone behind {words}", alone[:EVENTS], wanted[file])
    restored(folder, kept)


def limited(most: int) -> dict[str, Any]:
    """No file may have more bytes than this; a write beyond them fails, and no signal ends the program."""
    return {"restore_signals": False, "preexec_fn": lambda: resource.setrlimit(resource.RLIMIT_FSIZE, (most, most))}


def with_limit(folder: str, words: list[str], most: int) -> Found:
    options: dict[str, Any] = {"stdin": subprocess.DEVNULL, "capture_output": True, "text": True, **limited(most)}
    done = subprocess.run([PROGRAM, *words], cwd=folder, timeout=SECONDS, check=False, **options)
    return done.returncode, done.stdout, done.stderr


def closing_fails(folder: str, kept: str, wanted: Mapping[str, list[Row]]) -> None:
    """The file cannot grow, so what its log holds cannot be moved there."""
    for words, count, status, out in commands():
        restored(folder, kept)
        told = with_limit(folder, words, size(folder, FILES[0]))
        same(f"{words} where no file may grow", told, (3, out, "disk\n"))
        for file in FILES[:count]:
            same(f"{file} and its log behind {words}", rows(folder, [file, file + "-wal"])[:EVENTS], wanted[file])
        same(f"{words} where it may", call(folder, words), (status, out, ""))


def logs_and_files(folder: str) -> None:
    with tempfile.TemporaryDirectory() as kept:
        make_sites(kept, FILES)
        for file in FILES:
            asked(kept, file)
        wanted = {file: rows(kept, [file, file + "-wal"]) for file in FILES}
        closed_well(folder, kept, wanted)
        closing_fails(folder, kept, wanted)


def ask_until_refused(caller: Caller) -> tuple[list[str], str, str]:
    """The lines that were answered `done`, and the first that was not, with its reply."""
    answered: list[str] = []
    for number in range(10, 10 + 10 * EVENTS):
        line = f"announce {number} event-{number}"
        reply = caller.ask(line)
        if reply != "done":
            return answered, line, reply
        answered.append(line)
    return answered, "", "done"


def storing_fails(folder: str) -> None:
    """A log that may not grow: the request that cannot be stored is told so, and all sessions of its site are
    closed."""
    make_sites(folder, ["only.db"])
    same("ask", call(folder, ["ask", "only.db"], "announce 1 gala\nrelease 2 gala 9\n"), (0, "done\ndone\n", ""))
    port = free_port()
    serving = started(folder, port, 2, 0, ["only.db"], **limited(MOST_LOG))
    first, second = Caller(port), Caller(port)
    same("an event that is not known", second.ask("left expo"), "unknown")
    answered, line, reply = ask_until_refused(first)
    same(f"the reply behind {len(answered)}", (reply, len(answered) > 0), ("store", True))
    lines = ["left gala", "left expo", "sell 3 gala 1", "announce 1 gala"]
    for caller in [first, second]:
        same("the replies behind it", [caller.ask(line) for line in lines], ["closed"] * len(lines))
        same("the caller is let go", caller.quit(), True)
    same("the end of serving", ended(serving), (3, "", "closed 0\n"))
    count = 2 + len(answered)
    same("the entries", len(rows(folder, ["only.db", "only.db-wal"])) in (count, count + 1), True)
    again = call(folder, ["ask", "only.db"], "".join(text + "\n" for text in [*answered, line]))
    same("asked again", again, (0, "done\n" * (len(answered) + 1), ""))


sys.exit(try_each([logs_and_files, storing_fails], "files are closed as they should be"))
