#!/usr/bin/env python3
"""Runs the built program where it cannot end well: its input or output fails, memory is refused, or a script is too
long.

Usage: tests/commands_end_badly.py [PROGRAM]     (PROGRAM: crates/boxoffice/out/boxoffice)

Says what differs and ends with status 1 where anything does.
"""

import functools
import os
import resource
import shutil
import subprocess
import sys
from typing import IO, Any

from lib import call, free_port, HERE, PROGRAM, same, try_each

MOST_LINES = 1_000_000
LONGEST_LINE = 200
# Far less than a world of so many sales takes, and more than the program takes to begin.
FEW_BYTES = 128 << 20
MANY_SALES = 600_000
# What another site tells.
NEWS = b"delta 1 0 1\nname expo\nend\n"


def ended(
    folder: str,
    words: list[str],
    given: bytes | int = b"",
    out: int | IO[bytes] = subprocess.PIPE,
    memory: int | None = None,
) -> tuple[int, bytes, str]:
    """The status, what was written to standard output and the word on standard error; `given` is bytes or a file."""
    source: dict[str, Any] = {"input": given} if isinstance(given, bytes) else {"stdin": given}
    least = None if memory is None else functools.partial(resource.setrlimit, resource.RLIMIT_AS, (memory, memory))
    done = subprocess.run(
        [PROGRAM, *words],
        stdout=out,
        stderr=subprocess.PIPE,
        cwd=folder,
        timeout=900,
        check=False,
        preexec_fn=least,
        **source,
    )
    return done.returncode, done.stdout, done.stderr.decode()


def asked(count: int) -> bytes:
    return b"sites 1\n" + b"".join(b"0 left gala\n" for _ in range(count))


def reading_fails(folder: str) -> None:
    folder_as_input = os.open(folder, os.O_RDONLY)
    for words in [["world"], ["ask", "site.db"], ["import", "site.db"]]:
        same(f"{words}: a folder as input", ended(folder, words, folder_as_input), (3, b"", "read\n"))
    os.close(folder_as_input)


def writing_fails(folder: str) -> None:
    with open("/dev/full", "wb") as full:
        trials = [
            (["world"], b"sites 1\n0 announce 1 gala\n"),
            (["ask", "site.db"], b"left gala\n"),
            (["find", "site.db", "1"], b""),
            (["list", "site.db", "gala"], b""),
            (["events", "site.db"], b""),
            (["shares", "site.db", "gala"], b""),
            (["export", "site.db", "1"], b""),
            (["audit", "site.db", "other.db"], b""),
            (["serve", str(free_port()), "0", "0", "site.db", "other.db"], b""),
            (["grow", "site.db", "3"], b""),
            (["import", "site.db"], NEWS),
            (["migrate", "old.db"], b""),
            (["init", "new.db", "0", "2", "1000"], b""),
        ]
        for words, given in trials:
            same(f"{words}: a full device", ended(folder, words, given, full), (3, None, "write\n"))
    same("it has grown", call(folder, ["grow", "site.db", "3"]), (1, "not-more\n", ""))
    same("it was joined", call(folder, ["import", "site.db"], NEWS.decode()), (0, "nothing-new\n", ""))
    same("it was raised", call(folder, ["migrate", "old.db"]), (1, "nothing\n", ""))
    same("it was made", call(folder, ["init", "new.db", "0", "2", "1000"]), (1, "already-there\n", ""))


def lines_are_too_many_or_long(folder: str) -> None:
    longest = b"0 left " + b"g" * (LONGEST_LINE - 7)
    same("the longest line", ended(folder, ["world"], b"sites 1\n" + longest + b"\n"), (0, b"bad-line\n", ""))
    for end in [b"\n", b""]:
        given = b"sites 1\n0 left gala\n" + longest + b"g" + end
        same(f"a line too long {end!r}", ended(folder, ["world"], given), (3, b"unknown\n", "line-too-long\n"))
    same("the first line too long", ended(folder, ["world"], longest + b"g\n"), (3, b"", "line-too-long\n"))
    replies = b"unknown\n" * (MOST_LINES - 1)
    same("as many lines as there may be", ended(folder, ["world"], asked(MOST_LINES - 1)), (0, replies, ""))
    status, out, word = ended(folder, ["world"], asked(MOST_LINES))
    same("a line more", (status, out == replies, word), (3, True, "too-many-lines\n"))


def memory_is_refused(folder: str) -> None:
    script = b"sites 1\n0 announce 1 gala\n0 release 2 gala 1000000\n"
    script += b"".join(b"0 sell %d gala 1\n" % number for number in range(3, MANY_SALES + 3))
    status, out, word = ended(folder, ["world"], script, memory=FEW_BYTES)
    same("a world without memory", (status, word), (3, "memory\n"))
    same("a front of its replies", (b"done\n" * MANY_SALES).startswith(out), True)
    status, out, word = ended(folder, ["world"], script)
    same("the same world with memory", (status, out[: 5 * MANY_SALES] == b"done\n" * MANY_SALES, word), (0, True, ""))


def bad_ends(folder: str) -> None:
    for site, name in enumerate(["site.db", "other.db"]):
        same(f"init {name}", ended(folder, ["init", name, str(site), "2", "1000"]), (0, b"done\n", ""))
    same("ask", ended(folder, ["ask", "site.db"], b"announce 1 gala\n"), (0, b"done\n", ""))
    shutil.copyfile(os.path.join(HERE, "schema-1.db"), os.path.join(folder, "old.db"))
    for trial in [reading_fails, writing_fails, lines_are_too_many_or_long, memory_is_refused]:
        trial(folder)


sys.exit(try_each([bad_ends], "commands end badly as they should"))
