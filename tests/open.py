#!/usr/bin/env python3
"""Opens offices with the built program: callers come and go at the port and at the socket, two offices exchange
messages while they sell, and one is killed (SIGKILL) as it answers. What was answered has to be in the files as C
SQLite reads them.

Usage: tests/open.py [PROGRAM] [--seed=N]     (PROGRAM: crates/boxoffice/out/boxoffice)

The seed, printed first, gives the moments of the kills. Says what differs and ends with status 1 where anything does.
"""

import concurrent.futures
import contextlib
import itertools
import os
import random
import resource
import select
import shutil
import socket
import stat
import subprocess
import sys
import tempfile
import threading
import time
from collections.abc import Callable, Iterable
from typing import Any

from lib import (
    begun,
    call,
    Caller,
    ended,
    FILE,
    FORGED,
    free_port,
    intact,
    is_reached,
    Office,
    opened,
    Operator,
    OPTIONS,
    PROGRAM,
    same,
    SECONDS,
    try_each,
)
from lib.program import Found, text_of
from lib.slower import slowed

SEED = OPTIONS.seed()
# How many are served at once at the port, and the most bytes of a socket's path.
MOST_CALLERS, MOST_OPERATORS, MOST_PATH = 64, 8, 107
# The bytes of a log that may not grow further.
MOST_LOG = 1 << 20
KILLS, KILLED_CALLERS, SEATS = 5, 64, 100_000_000
# By how many microseconds each sync is slower where callers are to share one, and how often each then sells.
SLOWER, EACH = 3000, 10
# How often a store fails at most until it fails several callers at once.
FAILURES = 8
OPENING = ["announce 1 gala", "release 2 gala 100", "cede 3 gala 40 1"]
CESSION = "delta 0 1 3\nname gala\ngave gala 0 0 100\ngave gala 0 1 40\nend\n"


def made(folder: str, file: str = FILE, me: int = 0) -> None:
    same(f"init {file}", call(folder, ["init", file, str(me), "2", "1000000"]), (0, "done\n", ""))


def asked(caller: Caller, lines: list[str], replies: list[str]) -> None:
    same(f"the replies to {lines}", [caller.ask(line) for line in lines], replies)


def kept(folder: str) -> tuple[dict[int, str], list[str]]:
    """The replies under their numbers, and the deltas that were joined, in a copy of file and log."""
    with tempfile.TemporaryDirectory() as copy:
        shutil.copytree(folder, copy, ignore=shutil.ignore_patterns("*-sock"), dirs_exist_ok=True)
        with opened(copy, FILE) as db:
            intact(FILE, db)
            rows = db.execute("SELECT peer, delta, number, reply, rest FROM entries ORDER BY pos").fetchall()
    replies = {row[2]: row[3] if row[4] is None else f"{row[3]} {row[4]}" for row in rows if row[0] is None}
    return replies, [row[1] for row in rows if row[0] is not None]


def frames(folder: str) -> tuple[int, int]:
    """How often the log was reset, and how many frames it has since (the format of SQLite's WAL)."""
    with open(os.path.join(folder, FILE + "-wal"), "rb") as log:
        head = log.read(32)
        page = int.from_bytes(head[8:12], "big")
        every = iter(lambda: log.read(24 + page), b"")
        return int.from_bytes(head[12:16], "big"), sum(frame[8:16] == head[16:24] for frame in every)


def forty_callers(folder: str) -> None:
    """Forty callers ask for 120 of sixty seats, one each time."""
    made(folder)
    office = Office(folder)
    first = Caller(office.port)
    asked(first, ["announce 1 gala", "release 2 gala 60", "sell 3 gala 61"], ["done", "done", "short 60"])

    def sells(caller: int) -> dict[int, str]:
        numbers, session = range(100 * caller + 100, 100 * caller + 103), Caller(office.port)
        replies = {number: session.ask(f"sell {number} gala 1") for number in numbers}
        asked(session, [f"sell {number} gala 1" for number in numbers], list(replies.values()))
        same(f"the end of caller {caller}", session.quit(), True)
        return replies

    with concurrent.futures.ThreadPoolExecutor(40) as pool:
        replies = {number: reply for told in pool.map(sells, range(40)) for number, reply in told.items()}
    found = list(replies.values())
    same("120 sales of 60 seats", (found.count("done"), found.count("short 0")), (60, 60))
    asked(first, ["left gala", "totals gala"], ["left 0", "totals released 60 sold 60 refunded 0 open 0"])
    office.close()
    same("what is kept", kept(folder), ({1: "done", 2: "done", 3: "short 60", **replies}, []))


def two_doors(folder: str) -> None:
    """A caller at the port has the lines of a session alone; what the socket has beside them, and refuses."""
    made(folder)
    office = Office(folder)
    same("another address is not listened to", is_reached("127.0.0.2", office.port), False)
    caller, operator = Caller(office.port), Operator(office.path)
    asked(
        caller, ["left gala", "export 1", "close", "find 1", "list gala", "status", ""], ["unknown"] + ["bad-line"] * 6
    )
    asked(caller, ["events", "shares gala"], ["bad-line"] * 2)
    lines = ["import", *FORGED.splitlines()]
    asked(caller, lines, ["bad-line"] * len(lines))
    asked(operator, ["export", "export 64", "export 01", "import 1", "close 1", " close"], ["bad-line"] * 6)
    asked(operator, ["find", "find 0", "find 01", "list", "list Gala", "list gala gala", "status 1"], ["bad-line"] * 7)
    asked(operator, ["events 1", "shares", "shares Gala", "shares gala 1"], ["bad-line"] * 4)
    asked(operator, ["export 0", "export 2", "export 1"], ["no-site", "no-site", "nothing"])
    asked(operator, OPENING, ["done"] * 3)
    name = "delta 1 0 1\nname gala\n"
    refusals = {
        "sell 4 gala 1\nend\n": "bad-line 1",
        name + "\nend\n": "bad-line 3",
        name + "name expo\nend\n": "out-of-order 3",
    }
    refusals |= {FORGED: "not-for-me", "delta 2 0 1\nend\n": "unknown-site", "ack 1 0 4\nend\n": "stray-ack 3"}
    refusals |= {name + "gave gala 0 0 101\nend\n": "foreign-row"}
    for message, word in refusals.items():
        same(f"import of {message!r}", operator.take(message), (word, ""))
    same("a message of what is known", operator.take(name + "end\n"), ("nothing-new", "ack 0 1 1\nend\n"))
    caller.send("sell 4 gala 61\nsell 5 gala 60\nquit\nsell 6 gala 1")
    same("lines that come at once", [caller.reply() for _ in range(3)], ["short 60", "done", ""])
    same("a line too long", Caller(office.port).ask("a" * 201), "")
    same("quit at the socket", operator.quit(), True)
    same("close at the socket", Operator(office.path).ask("close"), "closing")
    office.has_ended()
    same("what is kept", kept(folder), ({1: "done", 2: "done", 3: "done", 4: "short 60", 5: "done"}, []))


def stands(what: str, status: Callable[[], object], wanted: object) -> None:
    """A caller who went away is counted for a moment more."""
    end = time.monotonic() + SECONDS
    while (found := status()) != wanted and time.monotonic() < end:
        time.sleep(0.01)
    same(what, found, wanted)


def of_several_lines(operator: Caller, question: str, lines: list[str]) -> None:
    operator.send(question)
    same(question, [operator.reply() for _ in lines], lines)


def without_end(lines: list[str]) -> str:
    return "".join(line + "\n" for line in lines if line != "end")


def looked_up(folder: str) -> None:
    """What is kept under a number, what names an event, which events are known, what each site may sell, and where the
    office stands: each as the file has it by then."""
    made(folder)
    office = Office(folder)
    clerk, operator = Caller(office.port), Operator(office.path)
    asked(
        operator,
        ["find 1", "list gala", "events", "shares gala"],
        ["none", "none", "none", "unknown"],
    )
    stood = "site 0 sites 2 entries 0 limit 1000000 callers 2 asking 0 waiting 0"
    stands("status", lambda: operator.ask("status"), stood)
    asked(
        clerk,
        [*OPENING, "sell 4 gala 61", "sell 5 gala 3", "refund 6 5 1"],
        ["done"] * 3 + ["short 60", "done", "done"],
    )
    same("a message", operator.take("delta 1 0 1\nname expo\nend\n"), ("joined", "ack 0 1 1\nend\n"))
    asked(clerk, ["announce 7 expo"], ["known"])
    asked(
        operator,
        ["find 1", "find 4", "find 6", "find 7", "find 8"],
        ["0 done", "3 short 60", "5 done", "7 known", "none"],
    )
    rows = [
        "0 announce 1 gala done",
        "1 release 2 gala 100 done",
        "2 cede 3 gala 40 1 done",
        "3 sell 4 gala 61 short 60",
    ]
    lists = {
        "gala": [*rows, "4 sell 5 gala 3 done", "end"],
        "expo": ["7 announce 7 expo known", "end"],
        "none": ["none"],
    }
    for event, lines in lists.items():
        of_several_lines(operator, f"list {event}", lines)
    events, shares = ["event gala", "event expo", "end"], ["0 left 58 sold 3 back 1", "1 left 40 sold 0 back 0", "end"]
    of_several_lines(operator, "events", events)
    of_several_lines(operator, "shares gala", shares)
    of_several_lines(operator, "shares expo", ["0 left 0 sold 0 back 0", "1 left 0 sold 0 back 0", "end"])
    same("shares of no event", operator.ask("shares none"), "unknown")
    clerk.quit()
    stands(
        "status once the clerk has gone",
        lambda: operator.ask("status"),
        "site 0 sites 2 entries 8 limit 1000000 callers 1 asking 0 waiting 0",
    )
    office.close()
    for event, lines in lists.items():
        printed = without_end(lines)
        same(f"list {event}, closed", call(folder, ["list", FILE, event]), (int(event == "none"), printed, ""))
    same("events, closed", call(folder, ["events", FILE]), (0, without_end(events), ""))
    same("shares, closed", call(folder, ["shares", FILE, "gala"]), (0, without_end(shares), ""))
    same("status, closed", call(folder, ["status", FILE]), (0, "site 0 sites 2 entries 8 limit 1000000\n", ""))


def commands(folder: str) -> None:
    """The same commands print the same with the same status, where an office has the file open and where none has."""
    lines = "\n".join(
        [*OPENING, "close", "export 1", "import", "status", "", "left gala", "sell 4 gala 61", "totals gala"]
    )
    bad = "bad-line\n" * 5 + "left 60\nshort 60\ntotals released 100 sold 0 refunded 0 open 100\n"
    name, longest = "delta 1 0 1\nname expo\nend\n", "x" * 201 + "\n"
    runs: list[tuple[list[str], str, Found | None]] = [
        (["ask", FILE], lines, (0, "done\n" * 3 + bad, "")),
        (["ask", FILE], "quit\nleft gala\n", (0, "", "")),
    ]
    runs += [
        (["ask", FILE], "left gala\n" + longest, (3, "left 60\n", "line-too-long\n")),
        (["ask", FILE], "", (0, "", "")),
    ]
    runs += [(["ask", FILE], "sell 5 gala 1", (0, "done\n", "")), (["find", FILE, "4"], "", (0, "3 short 60\n", ""))]
    runs += [(["find", FILE, "9"], "", (1, "none\n", "")), (["list", FILE, "none"], "", (1, "none\n", ""))]
    runs += [(["list", FILE, "Gala"], "", (1, "none\n", "")), (["export", FILE, "0"], "", (1, "no-site\n", ""))]
    runs += [
        (["import", FILE], text, (1, word + "\n", ""))
        for text, word in {
            "": "truncated",
            "close\n": "bad-line 1",
            name + "close\n": "trailing",
            name[:-4]: "truncated",
            FORGED: "not-for-me",
            "ack 1 0 9\nend\n": "stray-ack 5",
        }.items()
    ]
    runs += [(["import", FILE], name, (0, word + "\n", "")) for word in ("joined", "nothing-new")]
    runs += [(["import", FILE], "ack 1 0 1\nend\n", (0, "acked\n", "")), (["find", FILE, "0"], "", None)]
    runs += [(["list", FILE, "gala"], "", None), (["list", FILE, "expo"], "", None), (["import", FILE], longest, None)]
    runs += [(["events", FILE], "", (0, "event gala\nevent expo\n", "")), (["shares", FILE], "", None)]
    runs += [(["shares", FILE, word], "", (1, "unknown\n", "")) for word in ("none", "Gala")]
    runs += [(["shares", FILE, "gala"], "", (0, "0 left 59 sold 1 back 0\n1 left 40 sold 0 back 0\n", ""))]
    found = []
    for is_open in (True, False):
        with tempfile.TemporaryDirectory() as place:
            made(place)
            office = Office(place) if is_open else None
            same("nothing is due", call(place, ["export", FILE, "1"]), (1, "nothing\n", ""))
            found.append([call(place, words, given) for words, given, _ in runs])
            stood = "site 0 sites 2 entries 6 limit 1000000" + " callers 1 asking 0 waiting 0" * is_open
            stands(f"status, open: {is_open}", lambda: call(place, ["status", FILE]), (0, stood + "\n", ""))
            if office:
                same("a message that is due", call(place, ["export", FILE, "1"])[1][:10], "delta 0 1 ")
                office.close()
    for (words, given, wanted), at_office, at_file in zip(runs, *found):
        same(f"{words} with {given!r}: open, and closed", at_office, at_file)
        same(f"{words} with {given!r}", wanted or at_file, at_file)


def piped(folder: str) -> None:
    """`ask` at an office prints each reply before it reads the next line. What cannot be printed is said. A ninth at
    the socket has no place."""
    made(folder)
    office = Office(folder)
    pipe, words = subprocess.PIPE, [PROGRAM, "ask", FILE]
    with subprocess.Popen(words, cwd=folder, stdin=pipe, stdout=pipe, stderr=pipe, text=True, bufsize=1) as asking:
        assert asking.stdin and asking.stdout
        for line, reply in {"announce 1 gala": "done", "close": "bad-line", "left gala": "left 0"}.items():
            asking.stdin.write(line + "\n")
            is_there = select.select([asking.stdout], [], [], SECONDS)[0]
            same(f"the reply to {line}", asking.stdout.readline() if is_there else "", reply + "\n")
        asking.stdin.close()
        same("the end of ask", asking.wait(SECONDS), 0)
    for words in [["find", FILE, "1"], ["list", FILE, "gala"], ["export", FILE, "1"], ["status", FILE]]:
        with open("/dev/full", "wb") as full:
            done = subprocess.run(
                [PROGRAM, *words], cwd=folder, stdout=full, stderr=subprocess.PIPE, timeout=SECONDS, check=False
            )
        same(f"{words} to a full device", (done.returncode, done.stderr), (3, b"write\n"))
    # (each is in the middle of a line, since an idle one gives its place up)
    operators: list[Caller] = [Operator(office.path).begin("find ") for _ in range(MOST_OPERATORS)]
    found = [operator.begin("1\nfind ").reply() for operator in operators]
    same("as many as there may be", found, ["0 done"] * MOST_OPERATORS)
    same("one more is told so", Operator(office.path).ask("find 1"), "full")
    same("the first has gone", [operators[0].ask("1"), operators[0].quit()], ["0 done", True])
    ninth = Operator(office.path).begin("find 1\n")
    same("then one more is answered", ninth.reply(), "0 done")
    for operator in [*operators[1:], ninth]:
        operator.quit()
    office.close()


def passed_on(giver: Operator, taker: Operator, to: int) -> bool:
    """Takes what is due to the other office there, and the acknowledgement here. False where there is nothing."""
    message = giver.export(to)
    if message == "nothing":
        return False
    same(f"the acknowledgement from {to}", giver.take(taker.take(message)[1]), ("acked", ""))
    return True


def exchange(folder: str) -> None:
    """Two offices sell to four callers each. The first ceded 40 of 100 seats, and gets 10 back while both sell."""
    files, is_over = ["north.db", "south.db"], threading.Event()
    for me, file in enumerate(files):
        made(folder, file, me)
    offices = [Office(folder, file) for file in files]
    north, south = (Operator(office.path) for office in offices)
    asked(Caller(offices[0].port), OPENING, ["done"] * 3)
    same("the cession, twice", [north.export(1), north.export(1)], [CESSION] * 2)
    same("it is joined", south.take(CESSION), ("joined", "ack 1 0 3\nend\n"))
    same("it is acknowledged", north.take("ack 1 0 3\nend\n"), ("acked", ""))
    same("nothing is due", north.export(1), "nothing")
    same("it comes again", south.take(CESSION), ("nothing-new", "ack 1 0 3\nend\n"))

    def sells(place: int) -> int:
        caller, sold, number, was_over, reply = Caller(offices[place % 2].port), 0, 1_000_000 * (place + 1), False, ""
        while reply == "done" or not was_over:
            number, was_over = number + 1, is_over.is_set()
            reply = caller.ask(f"sell {number} gala 1")
            sold += reply == "done"
            time.sleep(0.005)
        return sold

    same("ten go back", south.ask("cede 1 gala 10 0"), "done")
    with concurrent.futures.ThreadPoolExecutor(8) as pool:
        sellers = [pool.submit(sells, place) for place in range(8)]
        for _ in range(5):
            passed_on(south, north, 0)
            passed_on(north, south, 1)
        is_over.set()
        sold = [seller.result(SECONDS) for seller in sellers]
    same("what each sold", [sum(sold[0::2]), sum(sold[1::2])], [70, 30])
    rounds = [passed_on(south, north, 0) + passed_on(north, south, 1) for _ in range(4)]
    same("what is due in the end", rounds[-1], 0)
    totals = "totals released 100 sold 100 refunded 0 open 0"
    same("the totals", [north.ask("totals gala"), south.ask("totals gala")], [totals] * 2)
    for office in offices:
        office.close()
    same(
        "the audit", call(folder, ["audit", *files])[:2], (0, "gala released 100 sold 100 refunded 0 outstanding 100\n")
    )


def until_killed(office: Office, chance: random.Random, begin: int, joined: int) -> tuple[dict[int, str], int]:
    """What each caller was answered until the office was killed, and how many messages were joined so far."""

    def sells(caller: Caller, numbers: Iterable[int]) -> dict[int, str]:
        answers = ((number, caller.ask(f"sell {number} gala 1")) for number in numbers)
        # (as many sell as there are places, so one that a busy machine holds up for a second may lose its own)
        return dict(itertools.takewhile(lambda answer: answer[1] not in ("", "idle", "full"), answers))

    def imports(operator: Operator, count: int) -> int:
        while operator.take(f"delta 1 0 {count + 2}\nname gala\ngave gala 1 1 {count + 1}\nend\n")[0] == "joined":
            count += 1
        return count

    with concurrent.futures.ThreadPoolExecutor(KILLED_CALLERS + 1) as pool:
        ranges = [range(begin + 10_000 * k, begin + 10_000 * (k + 1)) for k in range(KILLED_CALLERS)]
        told = [pool.submit(sells, Caller(office.port), numbers) for numbers in ranges]
        count = pool.submit(imports, Operator(office.path), joined)
        time.sleep(chance.uniform(0.1, 0.8))
        office.kill()
        return {number: reply for one in told for number, reply in one.result(SECONDS).items()}, count.result(SECONDS)


def killed(folder: str) -> None:
    """Nothing answered is lost, with one entry more at most for each caller. Opened again at its port, the office goes
    on."""
    chance = random.Random(SEED)
    made(folder)
    office = Office(folder)
    asked(Caller(office.port), ["announce 1 gala", f"release 2 gala {SEATS}"], ["done", "done"])
    wanted, joined = {1: "done", 2: "done"}, 0
    for kill in range(KILLS):
        told, joined = until_killed(office, chance, 1_000_000 * (kill + 1), joined)
        wanted |= told
        replies, deltas = kept(folder)
        more = [number for number in replies if number not in wanted]
        same(f"kill {kill}: what was answered", {number: replies.get(number) for number in wanted}, wanted)
        same(f"kill {kill}: one more for each caller", len({number // 10_000 for number in more}), len(more))
        same(f"kill {kill}: each is a sale", {replies[number] for number in replies}, {"done"})
        same(f"kill {kill}: messages, one more or none", len(deltas) - joined in (0, 1), True)
        same(f"kill {kill}: messages", deltas, [f"name gala\ngave gala 1 1 {k + 1}\n" for k in range(len(deltas))])
        wanted, joined = replies, len(deltas)
        office = Office(folder, port=office.port)
        left = f"left {SEATS - len(wanted) + 2}"
        asked(Caller(office.port), [f"release 2 gala {SEATS}", "left gala"], ["done", left])
    office.close()
    print(f"killed {KILLS} times under {len(wanted) - 2} sales and {joined} messages")


def shared_syncs(folder: str) -> None:
    """Callers who wait share a sync. An answer that has one of its own adds three frames to the log."""
    made(folder)
    slow = slowed(folder, SLOWER)
    more: dict[str, Any] = {"env": slow} if slow else {}
    office = Office(folder, **more)
    first, begin = Caller(office.port), time.monotonic()
    asked(
        first,
        ["announce 1 gala", f"release 2 gala {SEATS}", *(f"sell {k} gala 1" for k in range(3, 23))],
        ["done"] * 22,
    )
    is_slow = slow and time.monotonic() - begin >= 22 * SLOWER / 1e6
    before = frames(folder)

    def sells(caller: int) -> list[str]:
        session = Caller(office.port)
        return [session.ask(f"sell {number} gala 1") for number in range(100 * caller, 100 * caller + EACH)]

    with concurrent.futures.ThreadPoolExecutor(MOST_CALLERS - 1) as pool:
        told = [reply for replies in pool.map(sells, range(1, MOST_CALLERS)) for reply in replies]
    same("what they are answered", told, ["done"] * EACH * (MOST_CALLERS - 1))
    after = frames(folder)
    # A log is reset once it has a thousand frames.
    count = after[1] - before[1] + 1000 * (after[0] - before[0])
    if is_slow:
        same(f"{count} frames for {len(told)} answers", count < len(told), True)
    else:
        print("syncs cannot be made slower here, so it is not tried whether callers share one")
    office.close()


def sent_at_once(folder: str) -> None:
    """Lines that a caller sends at once are answered in order, each as if it came alone. Requests share syncs."""
    made(folder)
    office = Office(folder)
    asked(Caller(office.port), ["announce 1 gala", "release 2 gala 100"], ["done", "done"])
    row = [f"sell {number} gala 1" for number in range(3, 63)]
    mixed = [
        *[("sell 100 gala 10", "done"), ("left gala", "left 30"), ("sell 101 gala 31", "short 30")],
        *[("sell 100 gala 10", "done"), ("sell 100 gala 9", "reused"), ("sell 102 gala 5", "done")],
        *[("nonsense", "bad-line"), ("refund 103 102", "done"), ("sell 104 expo 1", "unknown")],
        *[("sell 105 gala 30", "done"), ("left gala", "left 0"), ("sell 106 gala 1", "short 0")],
        *[("quit", ""), ("sell 107 gala 1", "")],
    ]
    caller, before = Caller(office.port), frames(folder)
    caller.begin(text_of(row))
    same("a row of requests", [caller.reply() for _ in row], ["done"] * len(row))
    after = frames(folder)
    count = after[1] - before[1]
    same(f"{count} frames for {len(row)} requests", (after[0], count < len(row)), (before[0], True))
    caller.begin(text_of([line for line, _ in mixed]))
    same("requests and looks", [caller.reply() for _ in mixed], [reply for _, reply in mixed])
    message = ["import", "delta 1 0 1", "name expo", "end"]
    operator = Operator(office.path).begin(text_of([*message, "sell 108 expo 1", "find 107", "find 108"]))
    told = ["joined", "ack 0 1 1", "end", "short 0", "none", "70 short 0"]
    same("a message among them", [operator.reply() for _ in told], told)
    office.close()


def cut_off(folder: str) -> None:
    """What the end of the connection cuts off is not asked."""
    made(folder)
    office = Office(folder)
    asked(Caller(office.port), ["announce 1 gala", "release 2 gala 100"], ["done", "done"])
    pieces = ["sell 3 gala 1", "close", "import\ndelta 1 0 1\nname expo\n", "import\ndelta 1 0 1\nname expo\nend"]
    for caller, piece in [(Caller(office.port), pieces[0]), *((Operator(office.path), piece) for piece in pieces)]:
        caller.stream.sendall(piece.encode())
        caller.stream.shutdown(socket.SHUT_WR)
        same(f"the answer to {piece!r}, cut off", caller.reply(), "")
    asked(Caller(office.port), ["left expo", "sell 3 gala 10", "left gala"], ["unknown", "done", "left 90"])
    office.close()


def places_of_sockets(folder: str) -> None:
    path, port, longest = os.path.join(folder, FILE + "-sock"), str(free_port()), "n" * (MOST_PATH - len("-sock"))
    os.symlink("other", path)
    same("a link at its place, and no file", call(folder, ["open", port, FILE]), (3, "", "no-socket\n"))
    os.remove(path)
    made(folder)
    for place in (path, os.path.join(folder, FILE + "-shut")):
        with open(place, "wb+") as file:
            file.write(b"mine")
            file.flush()
            same(f"a file at {place}", call(folder, ["open", port, FILE]), (3, "", "no-socket\n"))
            same(
                "it is untouched",
                (os.lstat(place).st_ino, os.lstat(place).st_size),
                (os.fstat(file.fileno()).st_ino, 4),
            )
        os.remove(place)
    same("a path too long", call(folder, ["open", port, longest + "n"]), (3, "", "long-path\n"))
    made(folder, longest)
    Office(folder, longest).close()
    same("none is made of it", os.path.lexists(os.path.join(folder, longest + "n")), False)
    # A socket that no one listens at any more, which anyone may write to, is replaced.
    with contextlib.closing(socket.socket(socket.AF_UNIX)) as stale:
        stale.bind(path)
    os.chmod(path, 0o777)
    same("no one listens at it", call(folder, ["close", FILE]), (3, "", "not-open\n"))
    office = Office(folder)
    mode = os.lstat(path).st_mode
    same("its mode", (stat.S_ISSOCK(mode), oct(stat.S_IMODE(mode))), (True, "0o600"))
    same("it is listened at", Operator(office.path).ask("export 1"), "nothing")
    office.close()
    for name in [FILE, "none.db"]:
        same(f"close of {name}, which is not open", call(folder, ["close", name]), (3, "", "not-open\n"))


def refused(folder: str) -> None:
    made(folder)
    with contextlib.closing(socket.socket()) as taken:
        taken.bind(("127.0.0.1", 0))
        taken.listen()
        port = str(taken.getsockname()[1])
        same("a port that is taken", call(folder, ["open", port, FILE]), (3, "", "bind\n"))
    same("no socket is left", os.path.lexists(os.path.join(folder, FILE + "-sock")), False)
    same("the file is free", call(folder, ["ask", FILE], "announce 1 gala\n"), (0, "done\n", ""))
    same("no file", call(folder, ["open", port, "none.db"]), (3, "", "not-ours\n"))
    for words in [["open", "0", FILE], ["open", "65536", FILE], ["open", FILE], ["open", port, FILE, FILE], ["close"]]:
        same(f"{words}", call(folder, words)[:2], (2, ""))
    office = Office(folder)
    others = [["open", port, FILE], ["audit", FILE], ["audit", "none.db", FILE], ["grow", FILE, "3"], ["migrate", FILE]]
    for words in [*others, ["serve", port, "0", "0", FILE]]:
        same(f"{words} beside it", call(folder, words), (3, "", "already-open\n"))
    same("it goes on", [at.ask("left gala") for at in (Caller(office.port), Operator(office.path))], ["left 0"] * 2)
    office.close()
    same("ask at once after it", call(folder, ["ask", FILE], "left gala\n"), (0, "left 0\n", ""))


def waiting_imports(folder: str) -> None:
    """An `import` whose message has not come yet holds no place at the socket."""
    made(folder)
    office = Office(folder)
    waiting = [begun(folder, ["import", FILE], stdin=subprocess.PIPE) for _ in range(MOST_OPERATORS)]
    time.sleep(1)
    same("the status beside them", call(folder, ["status", FILE])[::2], (0, ""))
    told = [one.communicate(b"delta 1 0 1\nname gala\nend\n", timeout=SECONDS) + (one.returncode,) for one in waiting]
    same("what they come to", told, [(b"joined\n", b"", 0)] + [(b"nothing-new\n", b"", 0)] * (MOST_OPERATORS - 1))
    office.close()


def size(office: Office) -> int:
    """The memory that it holds, in kB."""
    with open(f"/proc/{office.program.pid}/status", encoding="ascii") as status:
        return next(int(line.split()[1]) for line in status if line.startswith("VmRSS"))


def asking_again(folder: str) -> None:
    """Memory does not grow with what 63 callers ask at once, but for what is kept."""
    made(folder)
    office = Office(folder)
    asked(Caller(office.port), ["announce 1 gala", "release 2 gala 1000000"], ["done", "done"])
    callers = [Caller(office.port) for _ in range(MOST_CALLERS - 1)]

    def sells(caller: int) -> None:
        numbers = range(1000 * caller + 1000, 1000 * caller + 1100)
        lines = [
            line for number in numbers for line in (f"sell {number} gala 1", f"sell {number} gala 2", "sell 2 gala 1")
        ]
        asked(callers[caller], lines, 100 * ["done", "reused", "reused"])

    sizes = []
    with concurrent.futures.ThreadPoolExecutor(MOST_CALLERS) as pool:
        for _ in range(5):
            list(pool.map(sells, range(MOST_CALLERS - 1)))
            sizes.append(size(office))
    same(f"{sizes[4] - sizes[1]} kB more after 56700 requests more, of {sizes[1]}", sizes[4] - sizes[1] < 2048, True)
    asked(callers[0], ["left gala"], [f"left {1000000 - 100 * (MOST_CALLERS - 1)}"])
    office.close()


def sessions(folder: str) -> None:
    """Memory does not grow with sessions. Of the callers at the port 64 are served, and the next once one has gone."""
    made(folder)
    office = Office(folder)
    asked(Caller(office.port), ["announce 1 gala", "release 2 gala 9"], ["done", "done"])
    sizes = []
    for _ in range(1000):
        caller = Caller(office.port)
        asked(caller, ["left gala", "announce 1 gala", "sell", "quit"], ["left 9", "done", "bad-line", ""])
        caller.go_away()
        sizes.append(size(office))
    same(
        f"{sizes[999] - sizes[99]} kB more after 900 sessions more, of {sizes[99]}", sizes[999] - sizes[99] < 2048, True
    )
    # (each is in the middle of a line, since an idle one gives its place up)
    callers = [Caller(office.port).begin("left ") for _ in range(MOST_CALLERS)]
    found = [caller.begin("gala\nleft ").reply() for caller in callers]
    same("as many as there may be", found, ["left 9"] * MOST_CALLERS)
    callers.append(Caller(office.port))
    callers[-1].send("left gala")
    same("the first has gone", [callers[0].ask("gala"), callers[0].quit()], ["left 9", True])
    same("then one more is answered", callers[-1].reply(), "left 9")
    callers += [Operator(office.path) for _ in range(3)]
    same("operators beside them", [caller.ask("left gala") for caller in callers[-3:]], ["left 9"] * 3)
    # As the office closes, a line that has not come whole is not asked.
    same("the second goes on", callers[1].ask("gala"), "left 9")
    callers[1].begin("sell 3 gala 9")
    office.close()
    same("who was in has gone", {caller.reply() for caller in callers} <= {"", "idle"}, True)
    same("what is kept", kept(folder), ({1: "done", 2: "done"}, []))


def until_full(folder: str, **more: Any) -> Office:
    """An office whose log may not grow for ever."""
    made(folder)
    most: dict[str, Any] = {
        "preexec_fn": lambda: resource.setrlimit(resource.RLIMIT_FSIZE, (MOST_LOG, MOST_LOG)),
        "restore_signals": False,
    }
    return Office(folder, **most, **more)


def storing_fails(folder: str) -> None:
    """The request that cannot be stored gets `store`, and the office closes."""
    office, number = until_full(folder), 1
    caller, other = Caller(office.port), Operator(office.path)
    while number < 5000 and (reply := caller.ask(f"announce {number} event-{number}")) == "done":
        number += 1
    same(f"the reply after {number - 1}", (reply, number > 1), ("store", True))
    same("another caller", other.ask("left event-1") in ("closed", ""), True)
    same("the end", ended(office.program), (3, "", "closed 0\n"))
    lines = "".join(f"announce {k} event-{k}\n" for k in range(1, number + 1))
    same("asked again", call(folder, ["ask", FILE], lines), (0, "done\n" * number, ""))


def storing_fails_together(folder: str) -> None:
    """Of sixteen callers each whose request was stored with the one that cannot be gets `store`; all of these are kept,
    or none. Syncs are slower, so that callers wait together; it is repeated until more than one is in doubt."""
    slow, doubtful = slowed(folder, SLOWER), 0
    for at in range(FAILURES):
        place = os.path.join(folder, str(at))
        os.mkdir(place)
        doubtful = storing_fails_for_some(place, {"env": slow} if slow else {})
        if doubtful > 1:
            break
    if slow:
        same("more than one caller was in doubt at once", doubtful > 1, True)


def storing_fails_for_some(folder: str, more: dict[str, Any]) -> int:
    """How many callers are in doubt."""
    office = until_full(folder, **more)
    asked(Caller(office.port), ["announce 1 gala", "release 2 gala 1000000"], ["done", "done"])

    def sells(caller: int) -> tuple[list[int], int, str]:
        session, number = Caller(office.port), 10_000 * caller
        done: list[int] = []
        while (reply := session.ask(f"sell {number} gala 1")) == "done":
            done.append(number)
            number += 1
        return done, number, reply

    with concurrent.futures.ThreadPoolExecutor(16) as pool:
        told = list(pool.map(sells, range(1, 17)))
    last = {reply: {number for _, number, what in told if what == reply} for reply in ("store", "closed", "")}
    same("how many got no reply that a failed store explains", len(told) - sum(map(len, last.values())), 0)
    same("one got `store`", len(last["store"]) > 0, True)
    same("the end", ended(office.program), (3, "", "closed 0\n"))
    sold, doubtful = {1, 2}.union(*(done for done, _, _ in told)), last["store"]
    numbers = set(kept(folder)[0])
    same("what is kept", numbers in (sold, sold | doubtful), True)
    print(f"a store failed behind {len(sold) - 2} sales, for {len(doubtful)} callers at once")
    return len(doubtful)


def storing_a_message_fails(folder: str) -> None:
    """So does the message that cannot be stored, and what it brought may be in the file."""
    office, count = until_full(folder), 0
    operator = Operator(office.path)
    while count < 5000 and (word := operator.take(f"delta 1 0 {count + 1}\nname event-{count}\nend\n")[0]) == "joined":
        count += 1
    same(f"the answer after {count}", (word, count > 0), ("store", True))
    same("the end", ended(office.program), (3, "", "closed 0\n"))
    with opened(folder, FILE) as db:
        same("what is kept", db.execute("SELECT count(*) FROM entries").fetchone()[0] - count in (0, 1), True)


TRIALS = [
    forty_callers,
    two_doors,
    looked_up,
    commands,
    piped,
    exchange,
    killed,
    shared_syncs,
    sent_at_once,
    cut_off,
    places_of_sockets,
    refused,
    waiting_imports,
    sessions,
]
TRIALS += [asking_again, storing_fails, storing_fails_together, storing_a_message_fails]
sys.exit(try_each(TRIALS, "an open office: 0 differ", "an open office: {} differ"))
