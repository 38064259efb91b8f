#!/usr/bin/env python3
"""Runs sessions of the built program as a person types: each line is sent once the reply to the line before has come.
The script of the examples' first night is run too, as a whole.

Usage: tests/sessions_as_typed.py [PROGRAM]     (PROGRAM: crates/boxoffice/out/boxoffice)

Says what differs and ends with status 1 where anything does.
"""

import os
import select
import subprocess
import sys
from collections.abc import Iterable

from lib import call, PROGRAM, same, try_each
from lib.program import Found

SECONDS = 240
EXAMPLES = os.path.join(os.path.dirname(os.path.abspath(__file__)), "..", "examples")

# Each line of an evening with its reply.
TYPED = [
    ("announce 1 gala", "done"),
    ("release 2 gala 100", "done"),
    ("sell 3 gala 61", "done"),
    ("sell 4 gala 40", "short 39"),
    ("sell 3 gala 61", "done"),
    ("sell 3 gala 60", "reused"),
    ("sell", "bad-line"),
    ("sell 6 gala 1\r", "bad-line"),
    ("left gala", "left 39"),
    ("refund 5 3", "done"),
    ("totals gala", "totals released 100 sold 61 refunded 61 open 100"),
]
# What the records keep of them: number, place and reply.
KEPT = [("1", "0 done"), ("2", "1 done"), ("3", "2 done"), ("4", "3 short 39"), ("5", "4 done")]


class Session:
    """A running `ask` with a pipe at each end."""

    def __init__(self, folder: str, file: str) -> None:
        pipe, words = subprocess.PIPE, [PROGRAM, "ask", file]
        self.program = subprocess.Popen(words, stdin=pipe, stdout=pipe, stderr=pipe, cwd=folder, bufsize=0)

    def send(self, text: str) -> None:
        assert self.program.stdin
        self.program.stdin.write(text.encode())

    def has_more(self, seconds: float) -> bool:
        """Whether output, or its end, comes within these seconds."""
        return bool(select.select([self.program.stdout], [], [], seconds)[0])

    def reply(self) -> str:
        """The next line, or as much of it as came."""
        assert self.program.stdout
        line = b""
        while not line.endswith(b"\n") and self.has_more(SECONDS):
            byte = self.program.stdout.read(1)
            if not byte:
                break
            line += byte
        return line.decode()

    def type(self, typed: Iterable[tuple[str, str]]) -> None:
        for line, wanted in typed:
            self.send(line + "\n")
            same(f"the reply to {line!r}", self.reply(), wanted + "\n")
            same(f"behind the reply to {line!r}", self.has_more(0), False)

    def end(self) -> Found:
        """What it still prints, with its status and standard error, once nothing more is typed."""
        out, err = self.program.communicate(timeout=SECONDS)
        return self.program.returncode, out.decode(), err.decode()

    def kill(self) -> None:
        self.program.kill()
        self.program.communicate(timeout=SECONDS)


def run(folder: str, words: list[str], given: str = "") -> Found:
    return call(folder, words, given, SECONDS)


def make(folder: str) -> None:
    same("init", run(folder, ["init", "site.db", "0", "1", "1000"]), (0, "done\n", ""))


def line_by_line(folder: str) -> None:
    make(folder)
    session = Session(folder, "site.db")
    same("before the first line", session.has_more(0.2), False)
    session.type(TYPED)
    same("at the end of the input", session.end(), (0, "", ""))
    for number, kept in KEPT:
        same(f"find {number}", run(folder, ["find", "site.db", number]), (0, kept + "\n", ""))


def in_pieces(folder: str) -> None:
    make(folder)
    session = Session(folder, "site.db")
    for piece in ["anno", "unce 1", " gala"]:
        session.send(piece)
        same(f"behind {piece!r}", session.has_more(0.1), False)
    session.send("\nrelease 2 gala 10\nsell 3")
    same("two lines and a piece", [session.reply(), session.reply()], ["done\n", "done\n"])
    same("behind the piece", session.has_more(0.1), False)
    session.send(" gala 4")
    same("a last line without its end", session.end(), (0, "done\n", ""))


def until_quit(folder: str) -> None:
    make(folder)
    session = Session(folder, "site.db")
    session.type(TYPED[:2])
    session.send("quit\nsell 3 gala 1\n")
    same("quit", session.end(), (0, "", ""))
    same("a line behind quit", run(folder, ["find", "site.db", "3"]), (1, "none\n", ""))


# The file is one program's as long as its session lasts.
def alone(folder: str) -> None:
    make(folder)
    session = Session(folder, "site.db")
    session.type(TYPED[:2])
    same("a second session", run(folder, ["ask", "site.db"], "sell 3 gala 100\n"), (3, "", "disk\n"))
    session.type([("sell 3 gala 100", "done"), ("sell 4 gala 1", "short 0")])
    same("the first session", session.end(), (0, "", ""))


# Whatever was answered is in the file, though the program is killed as soon as its reply is read.
def killed_behind_a_reply(folder: str) -> None:
    make(folder)
    asked = [typed for typed in TYPED if typed[1] not in ("reused", "bad-line")]
    for count in range(1, len(asked) + 1):
        session = Session(folder, "site.db")
        session.type([typed for typed in asked[:count] if not typed[0].startswith(("left", "totals"))])
        session.kill()
    for number, kept in KEPT:
        same(f"find {number} behind a kill", run(folder, ["find", "site.db", number]), (0, kept + "\n", ""))


# A newcomer's first script prints what stands beside it.
def first_night(folder: str) -> None:
    with open(os.path.join(EXAMPLES, "first-night.script")) as script:
        with open(os.path.join(EXAMPLES, "first-night.expected")) as expected:
            same("the first night", run(folder, ["world"], script.read()), (0, expected.read(), ""))


TRIALS = [line_by_line, in_pieces, until_quit, alone, killed_behind_a_reply, first_night]

sys.exit(try_each(TRIALS, "sessions answer as they are typed"))
