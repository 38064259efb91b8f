#!/usr/bin/env python3
"""Attacks an open office of the built program from outside: garbage, half lines, idle and slow callers, floods of
connections and of looks, a browser's request, files and sockets that go away. A sale beside each is answered, nothing
of an attack is in the file, and `close` returns.

Usage: tests/office_attacks.py [PROGRAM] [ATTACK ..] [--slack=N]     (PROGRAM: crates/boxoffice/out/boxoffice)

Each answer may take N times (4) what is written here, which a quiet machine keeps many times over; the machine may be
busy. What an office of before cannot stand (its port has no line `site`) is not tried at one, and it says so.
"""

from __future__ import annotations

import contextlib
import os
import random
import socket
import sys
import time
from collections.abc import Iterator

from lib import OPTIONS, Caller, Office, Operator, call, ended, make_site, rows_kept, same, try_each
from lib.office import FILE

SLACK = OPTIONS.number("slack", 4)
# How long a sale beside an attack, and `close`, may take, in seconds.
A_SALE, A_CLOSE = 5.0, 15.0
SEATS = 100_000
OPENING = ["announce 1 gala", f"release 2 gala {SEATS}"]


class Attacked:
    """An office, a clerk who sells in it, and connections that are ended at the end."""

    def __init__(self, folder: str) -> None:
        self.folder, self.number = folder, 2
        make_site(folder, FILE)
        self.office = Office(folder)
        self.clerk = Caller(self.office.port)
        same("the opening", [self.clerk.ask(line) for line in OPENING], ["done"] * 2)
        self.streams: list[socket.socket] = []

    def connect(self, path: str = "") -> socket.socket | None:
        """A connection to the port, or to the socket; nothing where none can be had."""
        stream = socket.socket(socket.AF_UNIX if path else socket.AF_INET)
        stream.settimeout(2)
        try:
            stream.connect(path or ("127.0.0.1", self.office.port))
        except OSError:
            stream.close()
            return None
        self.streams.append(stream)
        return stream

    def send(self, data: bytes, path: str = "") -> None:
        """A caller who sends this, as far as it is taken, and stays."""
        if stream := self.connect(path):
            with contextlib.suppress(OSError):
                stream.sendall(data)

    def sells(self, what: str) -> None:
        """A sale beside the attack is answered in time. Where the clerk has to give its place up it asks again on a new
        connection, as a till does."""
        self.number += 1
        begin = time.monotonic()
        while (reply := self.clerk.ask(f"sell {self.number} gala 1")) in ("idle", "full", ""):
            if time.monotonic() > begin + A_SALE * SLACK:
                break
            self.clerk.go_away()
            self.clerk = Caller(self.office.port)
        same(f"{what}: a sale", reply, "done")
        took = time.monotonic() - begin
        same(f"{what}: a sale took {took:.2f} s", took < A_SALE * SLACK, True)

    def leave(self) -> None:
        for stream in self.streams:
            stream.close()
        self.streams = []

    def closes(self, what: str) -> None:
        """`close` returns in time, and the file has what was sold and nothing else."""
        begin = time.monotonic()
        found = call(self.folder, ["close", FILE], "", 10 * A_CLOSE * SLACK)
        took = time.monotonic() - begin
        same(f"{what}: close", found, (0, "", ""))
        same(f"{what}: close took {took:.1f} s", took < A_CLOSE * SLACK, True)
        same(f"{what}: the end", ended(self.office.program), (0, "", ""))
        self.leave()
        self.is_kept(what)

    def is_kept(self, what: str) -> None:
        rows = rows_kept(self.folder, FILE)
        same(f"{what}: what is kept", [row[2] for row in rows], [*range(1, self.number + 1)])


@contextlib.contextmanager
def attacked(folder: str) -> Iterator[Attacked]:
    office = Attacked(folder)
    try:
        yield office
    finally:
        office.leave()
        office.office.program.kill()


def is_new(office: Attacked, what: str) -> bool:
    """Whether the office has the line `site`, and so stands what one of before does not."""
    if Caller(office.office.port).ask("site").startswith("site "):
        return True
    print(f"{what}: not tried, as this office is one of before")
    return False


def garbage(folder: str) -> None:
    chance = random.Random(5)
    with attacked(folder) as office:
        pieces = [
            b"sell 900 gala 1",
            b"import\ndelta 1 0 1\nname expo\n",
            bytes(range(256)) * 4,
            b"\0" * 300,
            b"x" * 300_000,
        ]
        pieces += [b"sell 901 gala 1\r\n", b"sell  902 gala 1\n", b"close", b"\n" * 100, chance.randbytes(5000)]
        for at in range(60):
            office.send(pieces[at % len(pieces)], office.office.path if at % 2 and at % 10 != 7 else "")
            if len(office.streams) > 5:
                office.leave()
        office.sells("garbage")
        for length, answer in ((201, ""), (200, "bad-line")):
            caller = Caller(office.office.port)
            same(f"a first line that can be read, before {length} bytes", caller.ask("left gala")[:5], "left ")
            caller.stream.sendall(b"y" * length + (b"\n" if length == 200 else b""))
            same(f"{length} bytes", caller.reply(), answer)
            caller.go_away()
        office.closes("garbage")


def idle_callers(folder: str) -> None:
    with attacked(folder) as office:
        for _ in range(62):
            office.connect()
        office.sells("62 idle")
        for _ in range(130):
            office.connect()
        office.sells("192 idle")
        office.closes("192 idle")


def half_lines(folder: str) -> None:
    with attacked(folder) as office:
        for text in (b"sell 900 gala 1", b"sell 901"):
            office.send(text)
        for text in (b"import\ndelta 1 0 1\nname expo\n", b"sell 902 gala 1", b"export 1\n"):
            office.send(text, office.office.path)
        office.sells("half lines")
        office.closes("half lines")


def floods(folder: str) -> None:
    """Looks that come faster than they are read, and connections that come faster than they are taken."""
    with attacked(folder) as office:
        flood = office.connect()
        assert flood
        flood.setblocking(False)
        with contextlib.suppress(OSError):
            for _ in range(200):
                flood.send(b"left gala\n" * 100)
        office.sells("a flood of looks")
        office.leave()
        for path in ("", office.office.path):
            for at in range(1500):
                stream = socket.socket(socket.AF_UNIX if path else socket.AF_INET)
                stream.setblocking(False)
                with contextlib.suppress(OSError):
                    stream.connect(path or ("127.0.0.1", office.office.port))
                office.streams.append(stream)
                if at % 300 == 299:
                    office.leave()
            office.sells(f"1500 connections at the {'socket' if path else 'port'}")
        office.leave()
        end = time.monotonic() + 60 * SLACK
        while call(folder, ["status", FILE])[0] != 0 and time.monotonic() < end:
            time.sleep(0.2)
        office.closes("floods")


def a_browser(folder: str) -> None:
    """What a page in a browser may send to the port sells nothing."""
    with attacked(folder) as office:
        if not is_new(office, "a browser"):
            return
        body = b"sell 5000 gala 7\ncede 5001 gala 7 1\n"
        head = b"POST / HTTP/1.1\r\nHost: 127.0.0.1\r\nContent-Type: text/plain\r\nContent-Length: %d\r\n\r\n" % len(
            body
        )
        for text in (head + body, b"GET /sell HTTP/1.1\n\n" + body, b"OPTIONS * HTTP/1.1\r\n\r\n" + body):
            caller = Caller(office.office.port)
            with contextlib.suppress(OSError):
                caller.stream.sendall(text)
            same("what a browser is answered", [caller.reply(), caller.reply()], ["bad-line", ""])
            caller.go_away()
        office.sells("a browser")
        office.closes("a browser")


def no_readers(folder: str) -> None:
    """Callers who ask and never read do not keep an office from closing."""
    with attacked(folder) as office:
        for _ in range(30):
            office.sells("a history")
        if not is_new(office, "callers who do not read"):
            return
        for path in ["", "", office.office.path]:
            office.send(b"left gala\n" * 30_000 if not path else b"list gala\n" * 5000, path)
        office.sells("callers who do not read")
        office.closes("callers who do not read")


def no_socket(folder: str) -> None:
    """The socket is removed: the office sells on, and a kill leaves all that was answered."""
    with attacked(folder) as office:
        os.remove(office.office.path)
        office.sells("no socket")
        office.office.kill()
        office.is_kept("no socket")
        office.office = Office(folder)
        office.clerk = Caller(office.office.port)
        office.sells("opened again")
        office.closes("opened again")


def doors_are_held(folder: str) -> None:
    """Eight idle operators do not keep `status` and `close` out."""
    with attacked(folder) as office:
        if not is_new(office, "idle operators"):
            return
        for _ in range(16):
            office.connect(office.office.path)
        office.sells("idle operators")
        begin = time.monotonic()
        same("status beside idle operators", call(folder, ["status", FILE])[::2], (0, ""))
        same("it is soon", time.monotonic() - begin < A_SALE * SLACK, True)
        same("an operator beside them", Operator(office.office.path).ask("find 1") in ("0 done", "full", ""), True)
        office.closes("idle operators")


ATTACKS = [garbage, idle_callers, half_lines, floods, a_browser, no_readers, no_socket, doors_are_held]
if __name__ == "__main__":
    sys.exit(try_each(ATTACKS, "an office under attack: 0 differ", "an office under attack: {} differ"))
