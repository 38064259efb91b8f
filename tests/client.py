#!/usr/bin/env python3
"""Tries the client for tills over offices of the built program: office and till are killed (SIGKILL) at ten moments
each, and then an office and its eight tills at random; replies are cut, late or none, journals are torn and disks full.
Each request has to be in the file once, with the reply of the journal.

Usage: tests/client.py [PROGRAM [TRIAL ..]] [--kills=N] [--offices=SHARE] [--between=BYTES] [--seed=N]
       [--longest=SECONDS]
       (PROGRAM: crates/boxoffice/out/boxoffice; without names each TRIAL; N kills of an office and its eight tills: 12;
       the SHARE of them that the office has: 0.3; between two of them up to so many BYTES of journals: 2000; a trial
       may take so many SECONDS: 600, and 30 for each kill)

The seed, printed first, gives the moments of the kills. Says what differs and ends with status 1 where anything does,
also where a trial does not end in time.
"""

import concurrent.futures
import contextlib
import os
import pathlib
import queue
import random
import re
import resource
import shutil
import socket
import subprocess
import sys
import tempfile
import threading
import time
import unittest.mock
from collections.abc import Callable, Iterable

from lib import call, Caller, FILE, HERE, Office, opened, Operator, OPTIONS, same, SECONDS, try_each

import boxoffice
from boxoffice import Done, Low, Refused, Short, Till, Totals

SEED = OPTIONS.seed()
TILL_KILLS, BETWEEN = OPTIONS.count("kills", 12), OPTIONS.count("between", 2000)
OFFICES = OPTIONS.number("offices", 0.3)
JOURNAL, FIRST, FINAL, KILLS, SEATS = "till.journal", 1001, 999_999, 10, 100_000
SCRIPT = os.path.join(HERE, "..", "examples", "till.py")
# How long a trial may take, and for each of its kills; a client that is wrong may wait for ever.
LONGEST, LONGEST_KILL, TILLS, RANGE = OPTIONS.count("longest", 600), 30, 8, 1_000_000


# What a connection is sent: an answer, none yet, or several, of which each is sent for a line.
Answer = bytes | None | tuple[bytes | None, ...]


class Stub:
    """In place of an office, it reads a line of each connection and sends the next answer; None is none yet."""

    def __init__(self, *answers: Answer) -> None:
        self.listener = socket.create_server(("127.0.0.1", 0))
        self.lines: list[str] = []
        self.silent: queue.Queue[socket.socket] = queue.Queue()
        self.port = self.listener.getsockname()[1]
        self.thread = threading.Thread(target=self.serve, args=(answers,), daemon=True)
        self.thread.start()

    def serve(self, answers: Iterable[Answer]) -> None:
        for answer in answers:
            stream = self.listener.accept()[0]
            source = stream.makefile("r")
            # (of several answers each is sent for a line)
            *before, last = answer if isinstance(answer, tuple) else (answer,)
            for one in before:
                self.lines.append(source.readline())
                assert one is not None
                stream.sendall(one)
            self.lines.append(source.readline())
            if last is None:
                self.silent.put(stream)
            else:
                with contextlib.suppress(BrokenPipeError):
                    stream.sendall(last)
                    stream.shutdown(socket.SHUT_RDWR)

    def end(self, *lines: str) -> None:
        self.thread.join(SECONDS)
        same("what was asked, by connections", self.lines, [line + "\n" for line in lines])
        self.listener.close()


def begun(folder: str) -> Office:
    """An office that has 100,000 seats to sell."""
    same("init", call(folder, ["init", FILE, "0", "2", "1000000"]), (0, "done\n", ""))
    office = Office(folder)
    caller = Caller(office.port)
    same("seats", [caller.ask(line) for line in ("announce 1 gala", f"release 2 gala {SEATS}")], ["done", "done"])
    return office


def till(folder: str, port: int, seconds: float = SECONDS, final: int = FINAL) -> Till:
    return Till(port, os.path.join(folder, JOURNAL), FIRST, final, seconds)


def journalled(folder: str) -> list[tuple[str, str]]:
    """The requests of the journal with their replies, in order; an open one has none."""
    return re.findall("ask (.*)\n(?:reply [0-9]+ (.*)\n)?", pathlib.Path(folder, JOURNAL).read_text("ascii"))


def kept(folder: str) -> list[tuple[str, str]]:
    """The requests of the till in a copy of the file, with their replies, in order."""
    with tempfile.TemporaryDirectory() as copy:
        shutil.copytree(folder, copy, ignore=shutil.ignore_patterns("*-sock"), dirs_exist_ok=True)
        with opened(copy, FILE) as db:
            names = "CASE verb WHEN 'refund' THEN target || coalesce(' ' || amount, '') ELSE event || ' ' || amount END"
            line, reply = f"verb || ' ' || number || ' ' || {names}", "reply || coalesce(' ' || rest, '')"
            return db.execute(f"SELECT {line}, {reply} FROM entries WHERE number >= {FIRST} ORDER BY pos").fetchall()


def agree(what: str, folder: str, port: int) -> int:
    """Journal and file have the same, and the totals are their sum."""
    asked = journalled(folder)
    same(f"{what}: journal and file", asked, kept(folder))
    done = [line.split() for line, reply in asked if reply == "done"]
    sold, back = (sum(int(words[3]) for words in done if words[0] == verb) for verb in ("sell", "refund"))
    totals = f"totals released {SEATS} sold {sold} refunded {back} open {SEATS - sold + back}"
    same(f"{what}: totals", Caller(port).ask("totals gala"), totals)
    return len(asked)


def raised(what: str, kind: object, ask: Callable[..., object], *words: object) -> None:
    try:
        same(what, ask(*words), kind)
    except (boxoffice.TillError, ValueError) as error:
        same(what, type(error), kind)


def sells(folder: str) -> None:
    office, path = begun(folder), pathlib.Path(folder, JOURNAL)
    with till(folder, office.port) as seller:
        found = [seller.sell("gala", 3), seller.sell("gala", SEATS), seller.refund(1001, 1), seller.refund(1001, 3)]
        same("sales", found, [Done(1001), Short(1002, SEATS - 3), Done(1003), Refused(1004, "too-many", 2)])
        found = [seller.refund(1001, 2), seller.refund(1001), seller.refund(7), seller.sell("none", 1)]
        same("more", found, [Done(1005), Refused(1006, "refunded"), Refused(1007, "no-sale"), Refused(1008, "unknown")])
        looks = [seller.left("gala"), seller.totals("gala"), seller.left("none"), seller.totals("none")]
        same("looks", looks, [SEATS, Totals(SEATS, 3, 3, SEATS), Refused(None, "unknown"), Refused(None, "unknown")])
        before, bad = path.read_bytes(), ["Gala", "", "a" * 33, "gala\n", "gala x"]
        for words in [*((event, 1) for event in bad), *(("gala", seats) for seats in (0, True, 1.0, 10**12 + 1))]:
            raised(f"sell {words}", ValueError, seller.sell, *words)
        raised("no site", ValueError, seller.cede, "gala", 1, 64)
        same("nothing is journalled", path.read_bytes(), before)
        same("a refusal is asked once", agree("sells", folder, office.port), 8)
        found = [seller.announce("gala"), seller.release("expo", 1), seller.sell("gala", 1), seller.refund(1011)]
        same("others", found, [Refused(1009, "known"), Refused(1010, "unknown"), Done(1011), Done(1012)])
        same("cessions", [seller.cede("gala", 9, 1), seller.cede("gala", 9, 0)], [Done(1013), Refused(1014, "to-self")])
    office.close()
    same("find", call(folder, ["find", FILE, "1002"]), (0, f"3 short {SEATS - 3}\n", ""))


def office_killed(folder: str) -> None:
    chance, offices = random.Random(SEED), [begun(folder)]

    def kills(journal: boxoffice.Journal) -> None:
        for _ in range(KILLS):
            wanted, end = journal.next + chance.randrange(1, 12), time.monotonic() + SECONDS
            while journal.next < wanted and time.monotonic() < end:
                time.sleep(0.001)
            time.sleep(chance.uniform(0, 0.02))
            offices[-1].kill()
            offices.append(Office(folder, port=offices[0].port))

    with till(folder, offices[0].port) as seller, concurrent.futures.ThreadPoolExecutor(1) as pool:
        killer = pool.submit(kills, seller.journal)
        while not killer.done():
            sale = seller.sell("gala", 2)
            assert isinstance(sale, Done)
            same("a refund", type(seller.refund(sale.number, 1)), Done)
        killer.result()
    print(f"an office killed {KILLS} times under {agree('office', folder, offices[0].port)} requests")
    offices[-1].close()


def till_killed(folder: str) -> None:
    chance, office, printed = random.Random(SEED + 1), begun(folder), []
    words = [sys.executable, SCRIPT, str(office.port), JOURNAL, str(FIRST), str(FINAL)]
    pipe, nowhere = subprocess.PIPE, subprocess.DEVNULL
    for _ in range(KILLS):
        with subprocess.Popen(words, cwd=folder, bufsize=0, stdin=pipe, stdout=pipe, stderr=nowhere) as program:
            assert program.stdin and program.stdout
            watch = threading.Timer(SECONDS, program.kill)
            watch.start()
            program.stdin.write(b"sell gala 1\n" * 4000)
            printed += [program.stdout.readline() for _ in range(chance.randrange(12))]
            time.sleep(chance.uniform(0, 0.03))
            program.kill()
            printed += program.stdout.readlines()
            watch.cancel()
    till(folder, office.port).close()
    known = {f"{line.split()[1]} {reply}\n".encode() for line, reply in journalled(folder)}
    same("what it printed", [line for line in printed if line.endswith(b"\n") and line not in known], [])
    print(f"a till killed {KILLS} times in {agree('till', folder, office.port)} requests")
    office.close()


def journals(folder: str) -> None:
    office, path, head = begun(folder), pathlib.Path(folder, JOURNAL), b"range 1001 1003\n"
    half, whole = head + b"ask sell 1001 gala 4\n", head + b"ask sell 1001 gala 4\nreply 1001 done\n"
    torn: dict[bytes, tuple[tuple[str, Done] | None, bytes]] = {}
    torn |= {text: (None, head) for text in (b"", head[:9], head[:-1], b"\0" * 20)}
    torn |= {text: (("sell 1001 gala 4", Done(1001)), whole) for text in (half, half + b"reply", whole[:-1])}
    torn |= {text: (None, whole) for text in (whole, whole + b"ask sell 1002 gala 1", whole + b"\0" * 30)}
    for text, wanted in torn.items():
        path.write_bytes(text)
        with till(folder, office.port, final=1003) as seller:
            same(f"opened at {text!r}", (seller.resumed, path.read_bytes()), wanted)
    with till(folder, office.port, final=1003) as seller:
        found, whole = [seller.refund(1001, 1), seller.sell("gala", SEATS)], path.read_bytes()
        same("other requests take the numbers", found, [Done(1002), Short(1003, SEATS - 3)])
        raised("it is used up", boxoffice.RangeUsedUp, seller.sell, "gala", 1)
        same("looks go on", seller.left("gala"), SEATS - 3)
        raised("a second till", boxoffice.JournalError, till, folder, office.port, SECONDS, 1003)
        words = [sys.executable, SCRIPT, str(office.port), str(path), str(FIRST), "1003"]
        second = subprocess.run(words, input=b"", capture_output=True, timeout=SECONDS, check=False)
        same("one of another process", (second.returncode, second.stderr[:12]), (1, b"JournalError"))
    agree("journals", folder, office.port)
    for text in [
        b"mine",
        whole.replace(b"ask", b"sak", 1),
        whole.replace(b"1003\n", b"1004\n", 1),
        whole + b"reply 1004 done\n",
    ]:
        path.write_bytes(text)
        raised(f"{text[:30]!r}", boxoffice.JournalError, till, folder, office.port, SECONDS, 1003)
        same("it is unchanged", path.read_bytes(), text)
    office.close()


def replies(folder: str) -> None:
    """What an office may answer that decides nothing, and what no office answers."""
    stub = Stub(b"", b"don", b"store\n", b"closed\n", b"memory\n", b"short 5\n")
    with till(folder, stub.port) as seller:
        same("the sixth", seller.sell("gala", 1), Short(1001, 5))
    stub.end(*["sell 1001 gala 1"] * 6)
    line, stub = "sell 1002 gala 1", Stub(
        None, b"hello\n", b"done\ndone\n", b"a" * 300, b"done\n", b"bad-line\n", b"done\n"
    )
    with till(folder, stub.port, seconds=1) as seller:
        raised("no reply", boxoffice.Unanswered, seller.sell, "gala", 1)
        raised("then another", boxoffice.RequestOpen, seller.sell, "gala", 2)
        seller.seconds = SECONDS
        stub.silent.get(timeout=SECONDS).sendall(b"short 0\n")
        for _ in range(3):
            raised("no office", boxoffice.NotAnOffice, seller.resume)
        same("at last", (seller.resume(), seller.resume()), ((line, Done(1002)), None))
        raised("not read", boxoffice.BadLine, seller.sell, "gala", 7)
        same("the next", seller.sell("gala", 8), Done(1004))
    stub.end(*[line] * 5, "sell 1003 gala 7", "sell 1004 gala 8")
    wanted = f"{line}\nreply 1002 done\nask sell 1003 gala 7\nnot-asked 1003\nask sell 1004 gala 8\nreply 1004 done\n"
    same(
        "the end of the journal", pathlib.Path(folder, JOURNAL).read_text("ascii").partition("short 5\nask ")[2], wanted
    )


def ended_by_words(folder: str) -> None:
    """By `idle` and `full` an office ends a connection; what was sent was not asked, and is asked again."""
    stub = Stub(b"idle\n", b"full\n", b"full\n", b"done\n", b"idle\n", b"left 7\n")
    with till(folder, stub.port) as seller:
        same("sold at last", seller.sell("gala", 1), Done(1001))
        same("a look at last", seller.left("gala"), 7)
    stub.end(*["sell 1001 gala 1"] * 4, *["left gala"] * 2)


def of_a_site(folder: str) -> None:
    """A till that is for one site asks an office of no other, and journals nothing for it."""
    path = os.path.join(folder, JOURNAL)

    def seller(port: int, site: int | None, seconds: float = SECONDS) -> Till:
        return Till(port, path, FIRST, FINAL, seconds, site=site)

    stub = Stub(
        b"site 1 of 2\n",
        b"bad-line\n",
        b"hello\n",
        (b"site 0 of 2\n", b"done\n"),
        (b"site 0 of 2\n", b""),
        b"site 1 of 2\n",
    )
    with seller(stub.port, 0) as mine:
        for what in ("another site", "one that does not say", "no office"):
            raised(what, boxoffice.OtherSite, mine.sell, "gala", 1)
        same("nothing is journalled", pathlib.Path(path).read_text("ascii"), f"range {FIRST} {FINAL}\n")
        same("its own site", mine.sell("gala", 1), Done(1001))
        raised("a line that broke, and then another site", boxoffice.OtherSite, mine.sell, "gala", 2)
        same("it is open", mine.journal.open, "sell 1002 gala 2")
    stub.end("site", "site", "site", "site", "sell 1001 gala 1", "site", "sell 1002 gala 2", "site")
    office = begun(folder)
    if Caller(office.port).ask("site") != "site 0 of 2":
        print("this office has no line `site`, so it is not tried there")
    else:
        raised("an office of another site", boxoffice.OtherSite, seller, office.port, 1)
        with seller(office.port, 0) as mine:
            same("asked again at its own", mine.resumed, ("sell 1002 gala 2", Done(1002)))
    office.close()


def given_back(folder: str) -> None:
    """A connection that is not used is given back, and the next request has another."""
    office = begun(folder)
    operator = Operator(office.path)
    with Till(office.port, os.path.join(folder, JOURNAL), FIRST, FINAL, SECONDS, idle=0.2) as seller:
        for number in (FIRST, FIRST + 1):
            same("sold", seller.sell("gala", 1), Done(number))
            end = time.monotonic() + SECONDS
            alone = re.compile(".* (callers|connected) 1( .*)?")
            while not (found := alone.fullmatch(operator.ask("status")) is not None) and time.monotonic() < end:
                time.sleep(0.05)
            same("it is given back", found, True)
    agree("given back", folder, office.port)
    office.close()


def looked_up(folder: str) -> None:
    """What the journal has under a number; and what is wrong with a journal names it."""
    stub, path = Stub((b"done\n", b"short 4\n", b"bad-line\n", b"")), os.path.join(folder, JOURNAL)
    with till(folder, stub.port, seconds=0.3) as seller:
        same("nothing yet", seller.find(FIRST), None)
        found = [seller.sell("gala", 1), seller.sell("gala", 5)]
        raised("not read", boxoffice.BadLine, seller.refund, 7)
        raised("no reply", boxoffice.Unanswered, seller.sell, "gala", 2)
        wanted = [
            ("sell 1001 gala 1", found[0]),
            ("sell 1002 gala 5", found[1]),
            None,
            ("sell 1004 gala 2", None),
            None,
        ]
        same("what it has", [seller.find(number) for number in range(FIRST, FIRST + 5)], wanted)
        raised("no number", ValueError, seller.find, 0)
    for text in ("mine", f"range {FIRST} {FINAL}\nreply {FIRST} done\n"):
        pathlib.Path(path).write_text(text, "ascii")
        try:
            till(folder, stub.port)
        except boxoffice.JournalError as error:
            same("the error names the file", str(error).startswith(f"{path}: "), True)
        else:
            same("a journal that is none", "taken", "refused")
    stub.listener.close()


def connected_to_itself(address: object, timeout: float) -> socket.socket:
    stream = socket.socket()
    stream.settimeout(timeout)
    stream.bind(("127.0.0.1", 0))
    stream.connect(stream.getsockname())
    return stream


def sockets(folder: str) -> None:
    """A port at which no one listens, and a connection to itself that the system may make there."""
    with contextlib.closing(socket.create_server(("127.0.0.1", 0))) as listener:
        port = listener.getsockname()[1]
    with till(folder, port, seconds=0.2) as seller:
        raised("no one listens", boxoffice.Unanswered, seller.left, "gala")
        with unittest.mock.patch("socket.create_connection", connected_to_itself):
            raised("connected to itself", boxoffice.Unanswered, seller.left, "gala")
            raised("a request", boxoffice.Unanswered, seller.sell, "gala", 1)
        same("it is open", seller.journal.open, "sell 1001 gala 1")


def threads(folder: str) -> None:
    """Eight threads share a till."""
    office = begun(folder)
    with till(folder, office.port) as seller, concurrent.futures.ThreadPoolExecutor(8) as pool:
        found = list(pool.map(lambda at: (seller.sell("gala", 1 + at % 3), seller.left("gala"))[0], range(80)))
    numbers = sorted(result.number for result in found if isinstance(result, Done))
    same("each has a number of its own", numbers, list(range(FIRST, FIRST + 80)))
    same("what they asked", agree("threads", folder, office.port), 80)
    office.close()


def disks(folder: str) -> None:
    """Where the journal cannot be written, nothing is asked, and nothing is forgotten."""
    office, failure, path = begun(folder), OSError("the disk fails"), pathlib.Path(folder, JOURNAL)
    for calls, resumed, then in [(1, None, "JournalError"), (2, ("sell 1001 gala 1", Done(1001)), "RequestOpen")]:
        with till(folder, office.port) as seller, unittest.mock.patch(
            "os.fsync", side_effect=[None] * (calls - 1) + [failure]
        ):
            raised(f"sync {calls} fails", boxoffice.JournalError, seller.sell, "gala", 1)
            raised("nothing more is asked", getattr(boxoffice, then), seller.sell, "gala", 1)
        same("what the file has", len(kept(folder)), calls - 1)
        with till(folder, office.port) as seller:
            same("opened again", seller.resumed, resumed)
    with till(folder, office.port) as seller:
        limits, size = resource.getrlimit(resource.RLIMIT_FSIZE), len(path.read_bytes())
        resource.setrlimit(resource.RLIMIT_FSIZE, (size + 7, limits[1]))
        raised("a full disk", boxoffice.JournalError, seller.sell, "gala", 1)
        resource.setrlimit(resource.RLIMIT_FSIZE, limits)
        same("nothing of it is left", len(path.read_bytes()), size)
    with till(folder, office.port) as seller:
        same("the number is free", (seller.resumed, seller.sell("gala", 5)), (None, Done(1002)))
    with unittest.mock.patch("os.fsync", wraps=os.fsync) as sync:
        boxoffice.Journal(os.path.join(folder, "new.journal"), FIRST, FINAL).close()
    same("the folder of a new journal is synced", [type(one.args[0]) for one in sync.call_args_list].count(int), 1)
    agree("disks", folder, office.port)
    office.close()


# A till that sells and gives back until it is killed, and prints each reply: a ticket that went out.
SELLS = """
import random, sys
sys.path.insert(0, sys.argv[1])
from boxoffice import Done, Till
port, path, first, chance, sales = int(sys.argv[2]), sys.argv[3], int(sys.argv[4]), random.Random(sys.argv[5]), []
with Till(port, path, first, first + 999_999, 600.0) as till:
    while True:
        refunds = sales and chance.random() < 0.3
        if refunds:
            result = till.refund(sales.pop(chance.randrange(len(sales))), 1)
        else:
            result = till.sell("gala", chance.randrange(1, 4))
        if type(result) is Done:
            sales += [] if refunds else [result.number]
            print(result.number, flush=True)
"""


class Tills:
    """Eight tills of an office, each a program of its own with a range of its own."""

    def __init__(self, folder: str, port: int) -> None:
        self.folder, self.port, self.starts = folder, port, 0
        self.programs: dict[int, subprocess.Popen[bytes]] = {}
        for at in range(TILLS):
            self.start(at)

    def path(self, at: int) -> str:
        return os.path.join(self.folder, f"till-{at}.journal")

    def start(self, at: int) -> None:
        self.starts += 1
        client = os.path.join(HERE, "..", "clients", "python")
        words = [sys.executable, "-c", SELLS, client, str(self.port), self.path(at), str(RANGE * (at + 1))]
        paths = [os.path.join(self.folder, name) for name in (f"{at}.printed", "faults")]
        with open(paths[0], "ab") as printed, open(paths[1], "ab") as faults:
            words.append(f"{SEED} {self.starts}")
            self.programs[at] = subprocess.Popen(words, stdout=printed, stderr=faults)

    def kill(self, at: int) -> None:
        self.programs[at].kill()
        same(f"till {at} was killed, and had not ended by itself", self.programs[at].wait(SECONDS), -9)

    def asked(self) -> int:
        """How many bytes all journals have, which grows with each request."""
        return sum(os.path.getsize(self.path(at)) for at in range(TILLS) if os.path.exists(self.path(at)))


def killed_at_random(folder: str, chance: random.Random, office: Office, tills: Tills) -> tuple[int, Office]:
    """Kills the office or a till, each time some requests later; gives how often the office, and the office that is
    open then."""
    ends = 0
    for kill in range(TILL_KILLS):
        wanted, end = tills.asked() + chance.randrange(1, BETWEEN), time.monotonic() + SECONDS
        while tills.asked() < wanted and time.monotonic() < end:
            time.sleep(0.001)
        same(f"before kill {kill}: requests go on", tills.asked() >= wanted, True)
        if chance.random() < OFFICES:
            ends += 1
            office.kill()
            office = Office(folder, port=office.port)
        else:
            at = chance.randrange(TILLS)
            tills.kill(at)
            tills.start(at)
    return ends, office


def eight_tills(folder: str) -> None:
    """What was asked and answered in the end: by the journals, by the file as C SQLite reads it, and by what was
    printed."""
    chance, office = random.Random(SEED + 2), begun(folder)
    tills = Tills(folder, office.port)
    ends, office = killed_at_random(folder, chance, office, tills)
    for at in range(TILLS):
        tills.kill(at)
    asked: dict[int, tuple[str, str]] = {}
    for at in range(TILLS):
        Till(office.port, tills.path(at), RANGE * (at + 1), RANGE * (at + 1) + 999_999, SECONDS).close()
        found = re.findall("ask (.*)\n(?:reply [0-9]+ (.*)\n)?", pathlib.Path(tills.path(at)).read_text("ascii"))
        numbers, begin = [int(line.split()[1]) for line, _ in found], RANGE * (at + 1)
        same(f"till {at}: each number once, in order", numbers, list(range(begin, begin + len(found))))
        asked |= {number: entry for number, entry in zip(numbers, found)}
        done = {line.split()[1] for line, reply in found if reply == "done"}
        printed = pathlib.Path(folder, f"{at}.printed").read_text("ascii").split("\n")[:-1]
        same(f"till {at}: what was printed twice", len(printed) - len(set(printed)), 0)
        same(f"till {at}: what was printed and was not done", set(printed) - done, set())
    same("faults of tills", pathlib.Path(folder, "faults").read_text("utf-8"), "")
    rows = kept(folder)
    in_file = {int(line.split()[1]): (line, reply) for line, reply in rows}
    lost = [entry for number, entry in asked.items() if in_file.get(number) != entry]
    doubled = len(rows) - len(in_file) + len(set(in_file) - set(asked))
    same("lost or other, by journals against the file", lost, [])
    same("doubled, or asked by no journal", doubled, 0)
    sales = [line.split() for line, reply in asked.values() if reply == "done"]
    sold, back = (sum(int(words[3]) for words in sales if words[0] == verb) for verb in ("sell", "refund"))
    totals = f"totals released {SEATS} sold {sold} refunded {back} open {SEATS - sold + back}"
    same("the totals", Caller(office.port).ask("totals gala"), totals)
    office.close()
    told = f"an office killed {ends} times and its eight tills {TILL_KILLS - ends} times in {len(asked)} requests"
    print(f"{told}: {len(lost)} lost, {doubled} doubled")


def longest(name: str) -> float:
    """How many seconds a trial may take."""
    kills = {"eight_tills": TILL_KILLS, "office_killed": KILLS, "till_killed": KILLS}.get(name, 0)
    return LONGEST + LONGEST_KILL * kills


def spared(folder: str) -> None:
    """What an office with --low does not ask takes no number, unless an earlier attempt may be under way."""
    stub = Stub((b"low 3\n", b"done\n"))
    with till(folder, stub.port) as seller:
        same("low", [seller.sell("gala", 5), seller.sell("gala", 1)], [Low(3), Done(1001)])
        same("its journal", seller.find(1001), ("sell 1001 gala 1", Done(1001)))
    stub.end("sell 1001 gala 5", "sell 1001 gala 1")
    boxoffice.DOUBT, doubt = 0.0, boxoffice.DOUBT
    stub = Stub(b"", (b"low 3\n", b"done\n"))
    with till(folder, stub.port) as seller:
        same("low after no reply", [seller.sell("gala", 5), seller.sell("gala", 1)], [Low(3), Done(1003)])
        same("no request", (seller.find(1002), seller.find(1001)), (None, ("sell 1001 gala 1", Done(1001))))
    stub.end("sell 1002 gala 5", "sell 1002 gala 5", "sell 1003 gala 1")
    boxoffice.DOUBT = doubt
    journal = pathlib.Path(folder, JOURNAL)
    ends = ["free 1001", "reply 1001 done", "not-asked 1002", "reply 1003 done"]
    same("the journal", journal.read_text("ascii").splitlines()[2::2], ends)
    stub = Stub(b"", (b"low 3\n", b"low 3\n", b"low 3\n", b"low 3\n"))
    with till(folder, stub.port, 0.1) as seller:
        raised("it may be under way", boxoffice.Unanswered, seller.sell, "gala", 5)
        same("so it is open", seller.journal.open, "sell 1004 gala 5")
    journal.unlink()
    office = begun(folder)
    office.close()
    office = Office(folder, words=["--low"])
    with till(folder, office.port) as seller:
        found = [seller.sell("gala", 3), seller.sell("gala", SEATS)]
        found += [seller.cede("gala", SEATS, 1), seller.sell("gala", 1)]
        same("at an office", found, [Done(1001), Low(SEATS - 3), Low(SEATS - 3), Done(1002)])
    same("kept", kept(folder), [("sell 1001 gala 3", "done"), ("sell 1002 gala 1", "done")])
    office.close()


TRIALS = [
    sells,
    spared,
    threads,
    sockets,
    ended_by_words,
    of_a_site,
    given_back,
    looked_up,
    office_killed,
    till_killed,
    journals,
    replies,
    disks,
    eight_tills,
]
sys.exit(try_each(TRIALS, "a client: 0 differ", "a client: {} differ", longest))
