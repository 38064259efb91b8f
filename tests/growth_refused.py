#!/usr/bin/env python3
"""Runs the built program, and a site in memory, with one request for memory refused: the first, the second, and so on
until nothing is refused.

Usage: tests/growth_refused.py [PROGRAM [TRIAL ..]] [--driver=DRIVER] [--full]
    (PROGRAM: crates/boxoffice/out/boxoffice; DRIVER: crates/site_trial/out/site_trial)

A script ends with all that it prints, or with a front of it and `memory`. What a site is told it answers or refuses,
and then answers as if it had not been told before. Sessions at one desk are answered, refused or broken off, and have a
receipt or a look for each answer. Of two sessions of `serve` one request of many is refused, by `--full` each of them.
Prints what differs, and ends with status 1 where anything does.
"""

import concurrent.futures
import contextlib
import os
import re
import shutil
import socket
import subprocess
import sys
import time
from collections.abc import Callable, Iterable

from lib.refuser import begun, ended, make_refuser
from lib import call, DRIVER, free_port, OPTIONS, PROGRAM, same, SECONDS, try_each

# More requests than any of the runs makes.
MANY = 100_000
SELLING = b"sites 1\n0 announce 1 gala\n0 release 2 gala 100\n0 sell 3 gala 3\n"
SOLD = b"done\ndone\ndone\ngala released 100 sold 3 refunded 0 outstanding 3\n"
CEDING = (
    b"sites 2\n0 announce 1 gala\n0 release 2 gala 100\n0 cede 3 gala 40 1\n1 sell 1 gala 40\n0 sell 4 gala 61\n"
    b"send 0 1\ndeliver 0\n1 sell 2 gala 40\n1 sell 3 gala 1\n"
)
CEDED = (
    b"done\ndone\ndone\nunknown\nshort 60\nmessage 0\njoined message 1\ndone\nshort 0\n"
    b"gala released 100 sold 40 refunded 0 outstanding 40\n"
)
RESTARTING = (
    b"sites 2\n0 announce 1 gala\n0 release 2 gala 100\n0 cede 3 gala 40 1\nsend 0 1\ndeliver 0\n1 sell 1 gala 40\n"
    b"send 1 0\ndeliver 2\ndeliver 3\nsend 1 0\nrestart 1\n1 left gala\nsend 1 0\ndeliver 4\n"
)
RESTARTED = (
    b"done\ndone\ndone\nmessage 0\njoined message 1\ndone\nmessage 2\njoined message 3\nacked\nnothing\nrestarted\n"
    b"left 0\nmessage 4\nnothing-new message 5\ngala released 100 sold 40 refunded 0 outstanding 40\n"
)


# Two sessions of one site that has released 100 seats, and what each may write: nothing where its thread or its buffer
# was refused, else a line for each line, of which the second shows the own sale where it was made, and perhaps the
# other's.
SESSIONS = [b"sell 10 gala 3\nleft gala\n", b"sell 20 gala 4\nleft gala\n"]
SALES = [("10", 3), ("20", 4)]
REPLIES = [
    rb"|done\n(left (97|93)|memory|closed)\n|(memory|store|closed)\n(left (100|96)|memory|closed)\n",
    rb"|done\n(left (96|93)|memory|closed)\n|(memory|store|closed)\n(left (100|97)|memory|closed)\n",
]
SERVE_WORDS = [b"memory\n", b"disk\n", b"not-started\n", b"accept\n", b"bind\n", b"closed 0\n"]
# One of so many requests of `serve` is refused: most of them are made while its file is opened.
STEP = 1 if OPTIONS.flag("full") else 41


def refuse_each(what: str, run: Callable[[str, int], bool], step: int = 1) -> None:
    """Runs with each request refused, or with one of so many, until none is; `run` judges, and tells whether it was."""
    for number in range(1, MANY, step):
        if not run(f"{what}: request {number}", number):
            print(f"{what}: {number - 1} requests, of which one of {step} was refused")
            return
    same(f"{what}: requests end", False, True)


def scripts(folder: str) -> None:
    refuser = make_refuser(folder)
    for what, script, printed in [
        ("selling", SELLING, SOLD),
        ("ceding", CEDING, CEDED),
        ("restarting", RESTARTING, RESTARTED),
    ]:

        def run(which: str, number: int) -> bool:
            was_refused, (status, out, err) = ended(*begun(refuser, number, [PROGRAM, "world"], folder), script)
            if status == 3 and was_refused:
                same(which, (printed.startswith(out), err), (True, b"memory\n"))
            else:
                same(which, (status, out, err), (0, printed, b""))
            return was_refused

        refuse_each(what, run)


# What a site is told, and what it answers: one site cedes, and the other sells what was ceded.
ZERO = [
    ("?announce 1 gala\n", "done\n"),
    ("?release 2 gala 100\n", "done\n"),
    ("?cede 3 gala 40 1\n", "done\n"),
    ("?sell 4 gala 61\n", "short 60\n"),
    (">1", "delta 0 1 4\nname gala\ngave gala 0 0 100\ngave gala 0 1 40\nend\n"),
    ("<ack 1 0 4\nend\n", "acked\n"),
    ("?left gala\n", "left 60\n"),
]
ONE = [
    ("?sell 1 gala 40\n", "unknown\n"),
    ("<" + ZERO[4][1], "joined ack 1 0 4\nend\n"),
    ("?sell 2 gala 40\n", "done\n"),
    ("?sell 3 gala 1\n", "short 0\n"),
    ("?left gala\n", "left 0\n"),
    (">0", "delta 1 0 4\nname gala\ngave gala 0 0 100\ngave gala 0 1 40\nused gala 1 40\nend\n"),
]
# How a site refuses what it is told for want of memory.
REFUSED = ["memory\n", "store\n", "refused\n", "ended badly\n"]


def told(refuser: str, folder: str, number: int, pieces: Iterable[str]) -> tuple[bool, tuple[int, bytes], str]:
    """Whether the request was refused, and how the site ended that was told these pieces, and what it wrote."""
    given = "".join("\0" + piece for piece in pieces)
    was_refused, (status, out, err) = ended(*begun(refuser, number, [DRIVER], folder), given.encode())
    return was_refused, (status, err), out.decode()


def cut(text: str, fronts: Iterable[str]) -> tuple[str, str]:
    """The front that the text begins with, if there is one, and what stands behind it."""
    front = next((front for front in fronts if text.startswith(front)), "")
    return front, text[len(front) :]


def books(folder: str) -> None:
    """Each piece is told twice, with a new start between, so that the second finds what the first left: all or
    nothing."""
    refuser = make_refuser(folder)
    for me, rows in [(0, ZERO), (1, ONE)]:
        pieces = [f"!{me} 2 1000", *(piece for said, _ in rows for piece in (said, "~", said))]

        def run(which: str, number: int) -> bool:
            was_refused, end, rest = told(refuser, folder, number, pieces)
            if was_refused and end[0] == 1 and rest == "":
                return True  # There was no book yet.
            refusals = 0
            for said, answer in rows:
                first, rest = cut(rest, [answer, *REFUSED])
                wanted = answer.replace("joined", "nothing-new") if first == answer else answer
                second, rest = cut(rest, [wanted, *REFUSED])
                same(f"{which}: {said!r}", "" not in (first, second), True)
                refusals += (first != answer) + (second != wanted)
            same(which, (end, rest, refusals <= was_refused), ((0, b""), "", True))
            return was_refused

        refuse_each(f"the book of site {me}", run)


def may_write(own: int, other: int) -> str:
    """What a session that sells so many of 100 seats may write at a desk, and be given, where another sells so many."""
    done = rf"left ({100 - own}|{100 - own - other})\nreceipts 1 looks 1|(memory|closed)\nreceipts 1 looks 0"
    done += r"|ended badly\nreceipts 1 looks 1"
    refused = rf"memory\nleft (100|{100 - other})\nreceipts 0 looks 1|(store|closed)\nclosed\nreceipts 0 looks 0"
    return rf"(done\n({done})|{refused}|ended badly\nreceipts [01] looks 0)\n"


def at_once(folder: str) -> None:
    """Sessions sell at one desk, and the same is asked twice again behind a new start: each sale is entered once."""
    refuser = make_refuser(folder)
    lines = [text.decode() for text in SESSIONS]
    for what, sessions, replies, again, last in [
        ("a session at a desk", lines[:1], may_write(3, 0), "done\nleft 97\n", "done\nleft 97\n"),
        (
            "two sessions at a desk",
            lines,
            may_write(3, 4) + may_write(4, 3),
            "done\nleft 9[37]\ndone\nleft 93\n",
            "done\nleft 93\n" * 2,
        ),
    ]:
        asked = "?" + "".join(sessions)
        pieces = ["!0 2 1000", "?announce 1 gala\nrelease 2 gala 100\n", "=" + "|".join(sessions), "~", asked, asked]

        def run(which: str, number: int) -> bool:
            was_refused, end, text = told(refuser, folder, number, pieces)
            if was_refused and (end[0] == 1 or not text.startswith("done\ndone\n")):
                return True  # There was no desk, or no seat to sell.
            came = re.match(rf"done\ndone\n{replies}whole\n", text)
            same(f"{which}: {text!r}", (end, came is not None), ((0, b""), True))
            rest = text[came.end() :] if came else ""
            is_sold = re.match(again, rest) is not None, rest.endswith(last)
            same(f"{which}: asked again {rest!r}", any(is_sold) if was_refused else all(is_sold), True)
            return was_refused

        refuse_each(what, run)


def talked(program: subprocess.Popen[bytes], port: int, lines: bytes) -> bytes | None:
    """What a session of `serve` wrote, or None where the program ended before it listened."""
    while program.poll() is None:
        try:
            with socket.create_connection(("127.0.0.1", port), timeout=SECONDS) as stream:
                stream.sendall(lines)
                stream.shutdown(socket.SHUT_WR)
                return stream.makefile("rb").read()
        except OSError:
            time.sleep(0.001)
    return None


def served(refuser: str, folder: str, which: str, number: int) -> bool:
    """Sells from two connections of `serve`, and asks for the same again behind it."""
    shutil.copyfile(os.path.join(folder, "first.db"), os.path.join(folder, "site.db"))
    with contextlib.suppress(FileNotFoundError):
        os.remove(os.path.join(folder, "site.db-wal"))
    port = free_port()
    program, told = begun(refuser, number, [PROGRAM, "serve", str(port), "2", "0", "site.db"], folder)
    with concurrent.futures.ThreadPoolExecutor(len(SESSIONS)) as pool:
        replies = list(pool.map(lambda lines: talked(program, port, lines), SESSIONS))
        was_refused, (status, out, err) = ended(program, told)
    sold = 0
    for (_, seats), may_be, reply in zip(SALES, REPLIES, replies):
        same(f"{which}: replies {reply!r}", reply is None or re.fullmatch(may_be, reply) is not None, True)
        sold += seats if (reply or b"").startswith(b"done\n") else 0
    line = b"gala released 100 sold %d refunded 0 outstanding %d\n" % (sold, sold)
    if status == 3 and was_refused:
        same(f"{which}: {err!r}", (out in (b"", line), err in SERVE_WORDS), (True, True))
    else:
        same(which, (status, out, err), (0, line, b""))
    for (request, seats), reply in zip(SALES, replies):
        if (reply or b"").startswith(b"done\n"):
            found = call(folder, ["find", "site.db", request])
            same(f"{which}: request {request} is in the file", (found[0], found[1].endswith(" done\n")), (0, True))
    again = b"".join(SESSIONS).decode()
    asked = call(folder, ["ask", "site.db"], again)
    same(
        f"{which}: asked again",
        (asked[0], asked[1].splitlines()[::2], asked[1].splitlines()[-1]),
        (0, ["done", "done"], "left 93"),
    )
    return was_refused


def sessions(folder: str) -> None:
    refuser = make_refuser(folder)
    same("init", call(folder, ["init", "first.db", "0", "1", "1000"]), (0, "done\n", ""))
    same("ask", call(folder, ["ask", "first.db"], "announce 1 gala\nrelease 2 gala 100\n"), (0, "done\ndone\n", ""))
    refuse_each("two sessions", lambda which, number: served(refuser, folder, which, number), STEP)


sys.exit(try_each([scripts, books, at_once, sessions], "no answer stands in the place of a refusal"))
