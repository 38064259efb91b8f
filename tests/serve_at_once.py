#!/usr/bin/env python3
"""Starts the built `serve` on the files of two sites, sells at both at once over loopback, and holds the audit's lines
against what was answered and against C SQLite's view of the files.

Usage: tests/serve_at_once.py [PROGRAM]     (PROGRAM: crates/boxoffice/out/boxoffice)

Says what differs and ends with status 1 where anything does.
"""

import os
import shutil
import socket
import subprocess
import sys
import threading
import time
from collections.abc import Sequence

from lib import (
    call,
    Caller,
    ended,
    FORGED,
    free_port,
    intact,
    is_reached,
    make_sites,
    opened,
    same,
    SECONDS,
    started,
    try_each,
)

CALLERS = 8
SALES = 20
# Of 100 seats 40 are ceded to the other site, so that each has fewer than its callers ask for.
NORTH = ["announce 1 gala", "release 2 gala 100", "cede 3 gala 40 1"]

# What all sites sold, once both have sold all that they had.
LINE = "gala released 100 sold 100 refunded 0 outstanding 100\n"
# The same behind two seats more, which a session by `nc` released and sold.
LINE_BEHIND_NC = "gala released 102 sold 102 refunded 0 outstanding 102\n"


def offices(folder: str) -> list[str]:
    """The files of two new sites, of which the first has seats and ceded some."""
    files = ["north.db", "south.db"]
    make_sites(folder, files)
    asked = call(folder, ["ask", "north.db"], "".join(line + "\n" for line in NORTH))
    same("ask north.db", asked, (0, "done\n" * len(NORTH), ""))
    return files


def sell(number: int, caller: Caller, replies: dict[int, str]) -> None:
    """Asks for a seat at a time, once the site has some, and keeps each reply under its request's number."""
    end = time.monotonic() + SECONDS
    while caller.ask("left gala") == "unknown" and time.monotonic() < end:
        time.sleep(0.01)
    for k in range(SALES):
        line = f"sell {number * 100 + k + 10} gala 1"
        replies[number * 100 + k + 10] = caller.ask(line)
    same(
        f"the first sale of caller {number} again",
        caller.ask(f"sell {number * 100 + 10} gala 1"),
        replies[number * 100 + 10],
    )
    same(f"a line of caller {number} that cannot be read", caller.ask("sell"), "bad-line")
    same(f"caller {number} is let go", caller.quit(), True)


def kept(folder: str, file: str) -> dict[int, str]:
    with opened(folder, file) as records:
        asked = records.execute("SELECT number, reply, rest FROM entries WHERE verb = 'sell'").fetchall()
        intact(f"the file {file}", records)
    return {number: reply if rest is None else f"{reply} {rest}" for number, reply, rest in asked}


def sell_at_once(folder: str, files: list[str]) -> None:
    port = free_port()
    serving = started(folder, port, CALLERS, 1000, files)
    # The connection at each place comes to the site whose number is the place modulo the count of sites.
    callers = [Caller(port) for _ in range(CALLERS)]
    replies: dict[int, str] = {}
    threads = [threading.Thread(target=sell, args=(number, caller, replies)) for number, caller in enumerate(callers)]
    for thread in threads:
        thread.start()
    for thread in threads:
        thread.join()
    same("the end of serving", ended(serving), (0, LINE, ""))
    same("all are answered", len(replies), CALLERS * SALES)
    for site, file in enumerate(files):
        at_site = {number: reply for number, reply in replies.items() if number // 100 % 2 == site}
        same(f"what {file} has kept", kept(folder, file), at_site)
        sold = [60, 40][site]
        same(f"the sales at {file}", sum(reply == "done" for reply in at_site.values()), sold)
    same("the audit behind it", call(folder, ["audit", *files]), (0, LINE, ""))


def netcat(folder: str, files: list[str]) -> str:
    """A session by `nc`, whose input is a pipe, beside one at the other site. Tells the audit's line behind it."""
    if shutil.which("nc") is None:
        print("serve at once: there is no nc here, so no session by it")
        return LINE
    port = free_port()
    serving = started(folder, port, 2, 0, files)
    caller = Caller(port)
    lines = b"left gala\nrelease 5000 gala 2\nsell 5001 gala 2\nsell 5002 gala 1\nquit\n"
    told = subprocess.run(
        ["nc", "127.0.0.1", str(port)], input=lines, capture_output=True, timeout=SECONDS, check=False
    )
    same("what nc was answered", told.stdout, b"left 0\ndone\ndone\nshort 0\n")
    same("what is left beside it", caller.ask("left gala"), "left 0")
    same("the caller beside nc is let go", caller.quit(), True)
    same("the end of serving nc", ended(serving), (0, LINE_BEHIND_NC, ""))
    at_nc = {number: reply for file in files for number, reply in kept(folder, file).items() if number > 5000}
    same("what is kept of nc's sales", at_nc, {5001: "done", 5002: "short 0"})
    return LINE_BEHIND_NC


def bad_sessions(folder: str, files: list[str], line: str) -> None:
    """A session that ends by a fault changes neither the status nor the others, and its connection is ended."""
    port = free_port()
    serving = started(folder, port, 3, 0, files)
    long, gone, other = Caller(port), Caller(port), Caller(port)
    same("a line too long ends its session", long.ask("a" * 201), "")
    same("a caller that goes away", gone.ask("sell 6000 gala 1"), "short 0")
    gone.go_away()
    same("another session beside them", other.ask("sell 6001 gala 1"), "short 0")
    same("it is let go", other.quit(), True)
    same("the end of bad sessions", ended(serving), (0, line, ""))


def this_machine_alone(folder: str, files: list[str], line: str) -> None:
    """While it waits for its second connection, it listens to 127.0.0.1, and not to every address of this machine."""
    port = free_port()
    serving = started(folder, port, 2, 0, files)
    first = Caller(port)
    same("another address is not listened to", is_reached("127.0.0.2", port), False)
    second = Caller(port)
    same("the first of the two is let go", first.quit(), True)
    same("the second of the two is let go", second.quit(), True)
    same("the end of two sessions", ended(serving), (0, line, ""))


def forged(folder: str, files: list[str]) -> None:
    """A view above its owner's row is told in place of the sums, behind the sessions, whose sales stay."""
    same("a forged message", call(folder, ["import", files[1]], FORGED), (0, "joined\n", ""))
    port = free_port()
    serving = started(folder, port, 1, 0, files)
    caller = Caller(port)
    same("a request before it is found out", caller.ask("announce 7000 late"), "done")
    same("the caller is let go", caller.quit(), True)
    same("a view above its owner", ended(serving), (1, "ahead 1 0\n", ""))
    same("what was entered stays", call(folder, ["find", files[0], "7000"])[1].split(" ", 1)[1], "done\n")


def refusals(folder: str, files: list[str], line: str) -> None:
    north, south = files
    port = str(free_port())
    same("one of two", call(folder, ["serve", port, "1", "0", north]), (1, "not-whole\n", ""))
    same("in another order", call(folder, ["serve", port, "1", "0", south, north]), (1, "not-whole\n", ""))
    same("no such file", call(folder, ["serve", port, "1", "0", north, "west.db"]), (3, "", "not-ours\n"))
    same("no west.db is made", os.path.exists(os.path.join(folder, "west.db")), False)
    same("a file twice", call(folder, ["serve", port, "1", "0", north, north]), (3, "", "disk\n"))
    with socket.create_server(("127.0.0.1", int(port))):
        same("a port that is taken", call(folder, ["serve", port, "0", "0", north, south]), (3, "", "bind\n"))
    no_words = [["0", "1", "0"], ["65536", "1", "0"], [port, "1025", "0"], [port, "1", "1000001"], [port, "1"]]
    for words in no_words:
        same(f"serve {words}", call(folder, ["serve", *words, north, south])[:2], (2, ""))
    no_session = call(folder, ["serve", port, "0", "1", north, south])
    same("no session", no_session, (0, line, ""))


def at_once(callers: Sequence[Caller], lines: list[list[str]]) -> list[list[str]]:
    """The replies to each caller's lines, asked in threads."""
    replies: list[list[str]] = [[] for _ in callers]

    def ask(place: int) -> None:
        replies[place] = [callers[place].ask(line) for line in lines[place]]

    threads = [threading.Thread(target=ask, args=(place,)) for place in range(len(callers))]
    for thread in threads:
        thread.start()
    for thread in threads:
        thread.join()
    return replies


def two_at_one_site(folder: str) -> None:
    """Two connections come to one site, and each sells and looks, with no gate between them."""
    make_sites(folder, ["only.db"])
    asked = call(folder, ["ask", "only.db"], "announce 1 gala\nrelease 2 gala 100\n")
    same("ask only.db", asked, (0, "done\ndone\n", ""))
    port = free_port()
    serving = started(folder, port, 2, 0, ["only.db"])
    callers = [Caller(port), Caller(port)]
    first, second = at_once(callers, [["sell 10 gala 3", "left gala"], ["sell 20 gala 4", "left gala"]])
    same("the first of two at one site", first in (["done", "left 97"], ["done", "left 93"]), True)
    same("the second of two at one site", second in (["done", "left 96"], ["done", "left 93"]), True)
    same("both are let go", [caller.quit() for caller in callers], [True, True])
    same("the end of two at one site", ended(serving), (0, "gala released 100 sold 7 refunded 0 outstanding 7\n", ""))
    same("what only.db has kept", kept(folder, "only.db"), {10: "done", 20: "done"})


def three_sites(folder: str) -> None:
    """Each site is sent its own message in one round."""
    files = ["a.db", "b.db", "c.db"]
    make_sites(folder, files)
    lines = ["announce 1 gala", "release 2 gala 100", "cede 3 gala 40 1", "cede 4 gala 20 2"]
    same("ask a.db", call(folder, ["ask", files[0]], "".join(line + "\n" for line in lines))[:2], (0, "done\n" * 4))
    served = call(folder, ["serve", str(free_port()), "0", "1", *files])
    same("three sites", served, (0, "gala released 100 sold 0 refunded 0 outstanding 0\n", ""))
    for file, left in zip(files, ["left 40\n", "left 40\n", "left 20\n"]):
        same(f"what {file} has left", call(folder, ["ask", file], "left gala\n"), (0, left, ""))


def all_at_two_sites(folder: str) -> None:
    files = offices(folder)
    sell_at_once(folder, files)
    line = netcat(folder, files)
    bad_sessions(folder, files, line)
    this_machine_alone(folder, files, line)
    refusals(folder, files, line)
    forged(folder, files)


sys.exit(
    try_each([two_at_one_site, three_sites, all_at_two_sites], "serve at once: 0 differ", "serve at once: {} differ")
)
