#!/usr/bin/env python3
"""Tries the doors of an open office with the built program: a browser at the port, callers who send nothing, half a
line or read nothing, a file that is taken away or replaced, an office that ends a connection without a word, and
`close` beside each.

Usage: tests/office_doors.py [PROGRAM]     (PROGRAM: crates/boxoffice/out/boxoffice)

The page in a browser is tried where `chromium` is there. Says what differs and ends with status 1 where anything does.
"""

from __future__ import annotations

import contextlib
import http.client
import os
import resource
import shutil
import socket
import stat
import subprocess
import sys
import threading
import time

from collections.abc import Sequence
from typing import Any, Union

from lib import FILE, PROGRAM, SECONDS, Caller, Office, Operator, call, ended, free_port, intact, opened, same
from lib import try_each, within
from lib.hurrier import TO_READ, TO_WRITE, Hurrier
from lib.program import Found, begun

# How many are served at once at the port, and at the socket with all lines.
MOST_CALLERS, MOST_OPERATORS = 64, 8
OPENING = ["announce 1 gala", "release 2 gala 100"]
# How long `close` may take beside whom it has to end, in seconds.
SOON = 30
# What `close` comes to. One that comes as the office has begun to end by itself hears no word, and ends well.
WELL, LOST, NOT_OPEN = (0, "", ""), (3, "", "lost-file\n"), (3, "", "not-open\n")
# How often an office whose file is lost is told to close, until one is told before it has noticed by itself.
TURNS = 8
# How many connections the callers have who stay, and what else is open.
MOST_OPEN = 1500
PAGE = """<script>
for (const port of [%d, %d])
  for (let n = 0; n < 40; n++)
    fetch(`http://127.0.0.1:${port}/`, {
      method: 'POST', mode: 'no-cors', body: `sell ${5000 + n} gala 1\\nquit\\n`
    }).catch(() => 0)
setTimeout(() => { document.title = 'sent' }, 2000)
</script>"""


def office_of_a_hundred(folder: str) -> Office:
    """An open office that sells a hundred seats."""
    same("init", call(folder, ["init", FILE, "0", "2", "1000000"]), (0, "done\n", ""))
    office = Office(folder)
    clerk = Caller(office.port)
    same("what is sold there", [clerk.ask(line) for line in OPENING], ["done", "done"])
    same("the clerk goes", clerk.quit(), True)
    return office


def totals(office: Office) -> str:
    clerk = Caller(office.port)
    reply = clerk.ask("totals gala")
    clerk.go_away()
    return reply


def closes(office: Office, words: tuple[int, str, str] = (0, "", "")) -> None:
    """`close` comes to this soon."""
    began = time.monotonic()
    same("close", call(office.folder, ["close", office.file]), words)
    same(f"close took {time.monotonic() - began:.1f} s", time.monotonic() - began < SOON, True)


def kept_numbers(folder: str, file: str = FILE) -> list[int | None]:
    with opened(folder, file) as db:
        intact(file, db)
        return [row[0] for row in db.execute("SELECT number FROM entries ORDER BY pos")]


def turns_away(listener: socket.socket, came: list[int]) -> None:
    """Ends each connection as it comes."""
    with contextlib.suppress(OSError):
        while True:
            listener.accept()[0].close()
            came.append(1)


def in_chromium(folder: str, port: int) -> None:
    """A page asks for forty seats, and another port for as many: where nothing comes to that, no page was tried."""
    if not (program := shutil.which("chromium")):
        print("a page is not tried, without chromium")
        return
    page, came = os.path.join(folder, "page.html"), list[int]()
    with contextlib.closing(socket.create_server(("127.0.0.1", 0))) as other:
        threading.Thread(target=turns_away, args=(other, came), daemon=True).start()
        with open(page, "w", encoding="ascii") as text:
            text.write(PAGE % (port, other.getsockname()[1]))
        words = [program, "--headless", "--no-sandbox", "--disable-gpu", "--disable-dev-shm-usage"]
        words += ["--virtual-time-budget=5000", f"--user-data-dir={folder}/chromium", "--dump-dom", f"file://{page}"]
        nowhere = subprocess.DEVNULL
        with contextlib.suppress(subprocess.TimeoutExpired):
            subprocess.run(words, timeout=SECONDS, check=False, stdout=nowhere, stderr=nowhere)
        other.shutdown(socket.SHUT_RDWR)
    print("a page in chromium asked for forty seats" if came else "a page is not tried, as none reaches a port here")


def browser(folder: str) -> None:
    """A client of HTTP and a page in a browser sell nothing."""
    office = office_of_a_hundred(folder)
    for body in ("sell 5000 gala 7\n", "sell 5000 gala 7\ncede 5001 gala 50 1\nquit\n"):
        client = http.client.HTTPConnection("127.0.0.1", office.port, timeout=SECONDS)
        with contextlib.suppress(http.client.HTTPException, ConnectionError):
            client.request("POST", "/", body, {"Content-Type": "text/plain"})
            client.getresponse()
        client.close()
    for first in ["GET / HTTP/1.1\r", "left gala\r", "", "sell", "status", "close", "\x16\x03\x01"]:
        caller = Caller(office.port)
        caller.send(first + "\nsell 6000 gala 1")
        same(f"a caller who begins with {first!r}", [caller.reply(), caller.reply()], ["bad-line", ""])
    caller = Caller(office.port)
    lines, replies = ["site", "left gala\r", "sell", "left gala"], ["site 0 of 2", "bad-line", "bad-line", "left 100"]
    same("bad lines behind one that could be read", [caller.ask(line) for line in lines], replies)
    caller.go_away()
    operator = Operator(office.path)
    same(
        "bad lines at the socket",
        [operator.ask(line) for line in ["sell", "left gala\r", "left gala"]],
        ["bad-line"] * 2 + ["left 100"],
    )
    operator.go_away()
    in_chromium(folder, office.port)
    same("what was sold", totals(office), "totals released 100 sold 0 refunded 0 open 100")
    closes(office)
    office.has_ended()


def sites(folder: str) -> None:
    """Who asks is told which site it is, at both doors."""
    same("init", call(folder, ["init", FILE, "3", "5", "1000"]), (0, "done\n", ""))
    office = Office(folder)
    callers = [Caller(office.port), Operator(office.path)]
    same("site", [caller.ask("site") for caller in callers], ["site 3 of 5"] * 2)
    same("it has no more words", [callers[0].ask("site 1"), callers[1].ask("site 1")], ["bad-line"] * 2)
    closes(office)
    office.has_ended()


def is_lost(office: Office) -> None:
    """An office whose file is lost ends by itself and says so."""
    began = time.monotonic()
    same("the end of an office whose file is lost", ended(office.program), LOST)
    same(f"it took {time.monotonic() - began:.1f} s", time.monotonic() - began < SOON, True)
    same("no socket is left", os.path.lexists(office.path), False)


def lost_files(folder: str) -> None:
    """A file that is removed, moved or replaced while it is open, and its log: the office closes. What was answered
    stays."""
    path, log = os.path.join(folder, FILE), os.path.join(folder, FILE + "-wal")
    office = office_of_a_hundred(folder)
    os.rename(path, path + "-moved")
    is_lost(office)
    os.rename(path + "-moved", path)
    same("what is kept once it is moved back", kept_numbers(folder), [1, 2])
    office = Office(folder)
    shutil.copy(path, path + "-copy")
    os.replace(path + "-copy", path)
    is_lost(office)
    office = Office(folder)
    same("a sale", Caller(office.port).ask("sell 3 gala 1"), "done")
    os.remove(log)
    is_lost(office)
    same("what is kept without the log", kept_numbers(folder), [1, 2, 3])
    office = Office(folder)
    os.remove(path)
    is_lost(office)
    same("nothing is made in its place", os.path.lexists(path), False)


def lost_and_closed(folder: str) -> None:
    """`close` looks at the file too; if the office noticed by itself, it finds the file gone, or no office."""
    path, found, told = os.path.join(folder, FILE), list[Found](), list[str]()
    office = office_of_a_hundred(folder)
    for turn in range(TURNS):
        time.sleep(0.2 * turn)
        os.rename(path, path + "-moved")
        found.append(call(folder, ["close", FILE]))
        is_lost(office)
        os.rename(path + "-moved", path)
        office = Office(folder)
        if turn > 1 and LOST in found:
            break
    same(f"close of an office whose file was moved: {found}", set(found) <= {LOST, NOT_OPEN}, True)
    same("one was told so", LOST in found, True)
    while "lost-file" not in told and len(told) < TURNS:
        operator = Operator(office.path)
        same("it is told at the socket", operator.ask("site"), "site 0 of 2")
        os.rename(path, path + "-moved")
        told.append(operator.ask("close"))
        is_lost(office)
        os.rename(path + "-moved", path)
        office = Office(folder)
    same(f"the answers to `close`: {told}", (set(told) <= {"lost-file", ""}, "lost-file" in told), (True, True))
    closes(office)
    office.has_ended()


def moved_folder(folder: str) -> None:
    """An office whose folder is moved ends, and `close` there says so."""
    first, second = os.path.join(folder, "first"), os.path.join(folder, "second")
    os.mkdir(first)
    office = office_of_a_hundred(first)
    os.rename(first, second)
    began = time.monotonic()
    found = call(second, ["close", FILE])
    same(f"close at the new place: {found}", found in (LOST, NOT_OPEN, WELL), True)
    same("it was soon", time.monotonic() - began < SOON, True)
    same("its end", ended(office.program), LOST)
    same("what is kept", kept_numbers(second), [1, 2])
    with contextlib.suppress(FileNotFoundError):
        os.remove(os.path.join(second, FILE + "-sock"))
    office = Office(second)
    closes(office)
    office.has_ended()


# What it answers each connection in turn; None: it ends without a word, and without having read. `full` is
# said before anything is read.
Script = Sequence[Union[bytes, None]]
FULL = b"full\n"


class FakeOffice:
    """Listens where an office would, and deals with each connection as the next word of a script says; then it is
    gone."""

    def __init__(self, folder: str, script: Script, leaves: Sequence[str] = ()) -> None:
        self.heard: list[bytes] = []
        self.leaves = leaves
        self.door, self.path = socket.socket(socket.AF_UNIX), os.path.join(folder, FILE + "-sock")
        self.door.bind(self.path)
        self.door.listen(16)
        self.door.settimeout(SECONDS)
        self.thread = threading.Thread(target=self.serve, args=(script,))
        self.thread.start()

    def serve(self, script: Script) -> None:
        for answer in script:
            with self.door.accept()[0] as stream:
                stream.settimeout(SECONDS)
                if answer is None:
                    continue
                if answer == FULL:
                    with contextlib.suppress(BrokenPipeError):  # (one who only looks is gone)
                        stream.sendall(answer)
                    continue
                self.heard.append(stream.recv(100))
                stream.sendall(answer)
        time.sleep(0.3)
        for name in self.leaves:
            os.rename(self.path, self.path[: -len("-sock")] + name)
        self.door.close()

    def end(self) -> None:
        self.thread.join(SECONDS)
        for name in ("-sock", "-shut"):
            with contextlib.suppress(FileNotFoundError):
                os.remove(self.path[: -len("-sock")] + name)


def unheard(folder: str) -> None:
    """`close` is said again where the connection ended without a word, and a socket at which nobody listens is no
    office."""
    same("init", call(folder, ["init", FILE, "0", "2", "1000"]), (0, "done\n", ""))
    told = b"closing\n"
    scripts: list[tuple[Script, Sequence[str], tuple[int, str, str]]] = [
        ([told], (), (0, "", "")),
        ([None, told], (), (0, "", "")),
        ([b"", None, b"", told], (), (0, "", "")),
        ([told], ("-shut",), (0, "", "")),
        ([None], (), (0, "", "")),
        ([b"lost-file\n"], (), (3, "", "lost-file\n")),
    ]
    for script, leaves, wanted in scripts:
        fake, began = FakeOffice(folder, script, leaves), time.monotonic()
        same(f"close at an office that answers {script}, and leaves {leaves}", call(folder, ["close", FILE]), wanted)
        same("it was soon", time.monotonic() - began < SOON, True)
        same("what it was told", fake.heard, [b"close\n"] * sum(answer is not None for answer in script))
        fake.end()
    path = os.path.join(folder, FILE)
    os.rename(path, path + "-moved")
    fake = FakeOffice(folder, [None])
    same("close of one that ends without a word, and whose file is gone", call(folder, ["close", FILE]), LOST)
    fake.end()
    os.rename(path + "-moved", path)
    same("close of none", call(folder, ["close", FILE]), NOT_OPEN)
    office = Office(folder)
    same("the answer to close at the socket", Operator(office.path).ask("close"), "closing")
    office.has_ended()
    office, found = Office(folder), list[Found]()
    pool = [threading.Thread(target=lambda: found.append(call(folder, ["close", FILE]))) for _ in range(4)]
    for one in pool:
        one.start()
    for one in pool:
        one.join(SECONDS)
    # (one that comes once the office has ended finds none)
    same(f"four at once: {found}", (len(found), WELL in found, set(found) <= {WELL, NOT_OPEN}), (4, True, True))
    office.has_ended()


def full_before_it_reads(folder: str) -> None:
    """An office that says `full` before it has read what a command sends, as where all its places are taken."""
    same("init", call(folder, ["init", FILE, "0", "2", "1000"]), (0, "done\n", ""))
    # (more than the system takes for a reader who does not read)
    long = "delta 1 0 1\n" + "".join(f"name {number:032}\n" for number in range(6_000)) + "end\n"
    # (`import` looks first whether an office is there)
    every = [(["import", FILE], long, 2), (["status", FILE], "", 1), (["ask", FILE], "left gala\n", 1)]
    for words, given, times in every:
        fake = FakeOffice(folder, [FULL] * times)
        same(f"{words} at a full office", call(folder, words, given), (3, "", "full\n"))
        fake.end()


def without_threads(folder: str) -> None:
    """An office that may start no thread says so and ends."""
    program = os.path.join(folder, "program")
    who: dict[str, Any] = {} if os.geteuid() else {"user": 12345, "group": 12345}
    shutil.copy(PROGRAM, program)
    os.chmod(program, 0o755)
    same("init", call(folder, ["init", FILE, "0", "2", "1000"]), (0, "done\n", ""))
    if who:
        # (the folders above are those of the run, which lets nobody else in)
        above = os.path.dirname(folder)
        for at in (folder, above, os.path.dirname(above)):
            os.chmod(at, stat.S_IMODE(os.stat(at).st_mode) | 0o011)
        for name in ("", *os.listdir(folder)):
            os.chown(os.path.join(folder, name), 12345, 12345)
    office = begun(
        folder,
        ["open", str(free_port()), FILE],
        executable=program,
        preexec_fn=lambda: resource.setrlimit(resource.RLIMIT_NPROC, (1, 1)),
        **who,
    )
    status, out, word = ended(office)
    same("its end", (status, out.startswith("open "), word), (3, True, "not-started\n"))
    same("what is kept", call(folder, ["list", FILE, "gala"]), (1, "none\n", ""))


def slow_readers(folder: str) -> None:
    """Who reads nothing, or little, of what it asked for does not keep an office from closing."""
    office = office_of_a_hundred(folder)
    clerk = Caller(office.port)
    same("a hundred refusals", {clerk.ask(f"sell {number} gala 1000") for number in range(10, 110)}, {"short 100"})
    clerk.go_away()
    readers = [Operator(office.path) for _ in range(3)]
    for reader in readers:
        reader.stream.sendall(b"list gala\n" * 800)
    is_over = threading.Event()

    def reads_a_little() -> None:
        while not is_over.wait(0.5):
            with contextlib.suppress(OSError):
                readers[0].stream.recv(30_000)

    looks = [Caller(office.port) for _ in range(20)]
    for look in looks:
        look.stream.settimeout(2)
        with contextlib.suppress(OSError):
            look.stream.sendall(b"totals gala\n" * 100_000)
    reading = threading.Thread(target=reads_a_little)
    reading.start()
    time.sleep(1)
    same("a sale beside them", Caller(office.port).ask("sell 9 gala 1"), "done")
    closes(office)
    office.has_ended()
    is_over.set()
    reading.join(SECONDS)


def an_hour_of_silence(folder: str) -> None:
    """A caller who sends nothing is served for an hour, and no longer."""
    hurrier = Hurrier(folder, TO_READ)
    if not hurrier.is_made():
        print("an_hour_of_silence: no library can be loaded before the C library: not tried")
        return
    same("init", call(folder, ["init", FILE, "0", "2", "1000000"]), (0, "done\n", ""))
    office = Office(folder, **hurrier.more())
    silent = Caller(office.port)
    same("the end of the silent", silent.stream.recv(10), b"")
    same("milliseconds that it was waited for", hurrier.waited(), 3_600_000)
    office.close()


def a_minute_unread(folder: str) -> None:
    """A caller who reads nothing of a long answer is waited for a minute, and not again for what is behind it."""
    hurrier = Hurrier(folder, TO_WRITE)
    if not hurrier.is_made():
        print("a_minute_unread: no library can be loaded before the C library: not tried")
        return
    office = office_of_a_hundred(folder)
    clerk = Caller(office.port)
    clerk.stream.sendall(b"".join(b"sell %d gala 1000\n" % number for number in range(10, 4010)))
    same("refusals", {clerk.reply() for _ in range(4000)}, {"short 100"})
    clerk.go_away()
    office.close()
    office = Office(folder, **hurrier.more())
    reader = Operator(office.path)
    reader.stream.sendall(b"list gala\n" * 20)
    end = time.monotonic() + SECONDS
    while time.monotonic() < end and not hurrier.waited():
        time.sleep(0.01)
    while time.monotonic() < end and not status_of(office).endswith(" callers 1 asking 0 waiting 0"):
        time.sleep(0.05)
    within("milliseconds that it was waited for", hurrier.waited(), 60_000, 70_000)
    reader.go_away()
    office.close()


def status_of(office: Office) -> str:
    asker = Operator(office.path)
    said = asker.ask("status")
    asker.go_away()
    return said


def idle_callers(folder: str) -> None:
    """Who sends nothing for a second gives its place up where all are taken; who sent half a line keeps it."""
    office = office_of_a_hundred(folder)
    idle = [Caller(office.port).begin("left ") for _ in range(MOST_CALLERS)]
    same("as many as there may be", [caller.ask("gala") for caller in idle], ["left 100"] * MOST_CALLERS)
    time.sleep(1.5)
    began, late = time.monotonic(), [Caller(office.port).begin("left gala\n") for _ in range(10)]
    same("ten more are answered", [caller.reply() for caller in late], ["left 100"] * 10)
    same(f"after {time.monotonic() - began:.1f} s", time.monotonic() - began < SOON, True)
    time.sleep(2)
    gone = []
    for caller in idle + late:
        caller.stream.settimeout(0.05)
        with contextlib.suppress(TimeoutError, OSError):
            gone.append(caller.reply())
    same(f"{len(gone)} are told that they were idle", (set(gone), 10 <= len(gone) <= 12), ({"idle"}, True))
    for caller in idle + late:
        caller.go_away()
    halves = [Caller(office.port).begin("left ") for _ in range(MOST_CALLERS)]
    for caller in halves:
        same("each has a place", caller.begin("gala\nsell 3 ga").reply(), "left 100")
    time.sleep(2)
    more = [Caller(office.port) for _ in range(3)]
    same("all places are taken", [[caller.reply(), caller.reply()] for caller in more], [["full", ""]] * 3)
    same("half a line is whole", halves[0].begin("la 1\n").reply(), "done")
    same("its caller goes", halves[0].quit(), True)
    same("then there is a place", totals(office), "totals released 100 sold 1 refunded 0 open 99")
    same("status beside them", call(folder, ["status", FILE])[::2], (0, ""))
    closes(office)
    office.has_ended()


def thousand_tills(folder: str) -> None:
    """A thousand callers who stay connected are each answered."""
    may_open, most = resource.getrlimit(resource.RLIMIT_NOFILE)
    if most < MOST_OPEN:
        print(f"a thousand tills: not tried, as a program may open {most} files here")
        return
    resource.setrlimit(resource.RLIMIT_NOFILE, (max(may_open, MOST_OPEN), most))
    office = office_of_a_hundred(folder)
    answered: list[str] = []
    kept: list[Caller] = []

    def asks(first: int) -> None:
        for number in range(first, first + 50):
            for _ in range(100):
                with contextlib.suppress(OSError):
                    caller = Caller(office.port)
                    if (reply := caller.ask(f"sell {number} gala 1")) not in ("idle", "full", ""):
                        kept.append(caller)
                        answered.append(reply)
                        break
                    caller.go_away()

    pool = [threading.Thread(target=asks, args=(1000 + 50 * turn,)) for turn in range(20)]
    for one in pool:
        one.start()
    for one in pool:
        one.join(SECONDS)
    same("what they were answered", [answered.count("done"), answered.count("short 0")], [100, 900])
    closes(office)
    office.has_ended()


def kept_places(folder: str) -> None:
    """Behind eight sessions at the socket, `status`, `site` and `close` are answered, and nothing else is asked."""
    office = office_of_a_hundred(folder)
    halves = [Operator(office.path) for _ in range(MOST_OPERATORS)]
    for operator in halves:
        operator.begin("left ")
    for operator in halves:
        same("each has a place", operator.begin("gala\nexport ").reply(), "left 100")
    status = (0, f"site 0 sites 2 entries 2 limit 1000000 callers {MOST_OPERATORS + 1} asking 0 waiting 0\n", "")
    began = time.monotonic()
    same("status", call(folder, ["status", FILE]), status)
    same(f"it took {time.monotonic() - began:.1f} s", time.monotonic() - began < SOON, True)
    more = Operator(office.path).begin("site\nsell 3 gala 1\n")
    same("site, and a sale", [more.reply() for _ in range(3)], ["site 0 of 2", "full", ""])
    for words, given in [
        (["find", FILE, "1"], ""),
        (["list", FILE, "gala"], ""),
        (["export", FILE, "1"], ""),
        (["ask", FILE], "left gala\n"),
    ]:
        same(f"{words}", call(folder, words, given), (3, "", "full\n"))
    same("a caller who says nothing there", Operator(office.path).reply(), "idle")
    halves[0].send("1")
    same("the first has its answer", halves[0].message(halves[0].reply())[:9], "delta 0 1")
    same("it goes", halves[0].quit(), True)
    same("then there is a place", call(folder, ["find", FILE, "1"]), (0, "0 done\n", ""))
    closes(office)
    office.has_ended()
    same("nothing was sold", kept_numbers(folder), [1, 2])


def words(folder: str) -> None:
    """What `open` prints, and what is said beside it; and which program it is."""
    same("init", call(folder, ["init", FILE, "0", "2", "1000"]), (0, "done\n", ""))
    # The socket is made in a folder that only its owner enters, and which does not stay; one that a stop left is made
    # anew.
    made_in = os.path.join(folder, FILE + "-in")
    os.symlink(folder, made_in)
    same("something else there", call(folder, ["open", str(free_port()), FILE]), (3, "", "bind\n"))
    os.remove(made_in)
    os.mkdir(made_in)
    within = os.path.join(made_in, "s")
    with open(within, "wb"):
        pass
    same("something else in it", call(folder, ["open", str(free_port()), FILE]), (3, "", "bind\n"))
    os.remove(within)
    with contextlib.closing(socket.socket(socket.AF_UNIX)) as stale:
        stale.bind(within)
    office = Office(folder)
    same("it does not stay", os.path.lexists(made_in), False)
    same("open beside it", call(folder, ["open", str(free_port()), FILE]), (3, "", "already-open\n"))
    closes(office)
    office.has_ended()
    versions = [call(folder, [word]) for word in ("version", "--version")]
    same("both say the same", versions[0], versions[1])
    lines = versions[0][1].splitlines()
    same(
        "which program it is",
        (versions[0][0], lines[:2], len(lines), versions[0][2]),
        (0, ["boxoffice 0.4.0", "schema 2"], 4, ""),
    )
    same("version takes no word", call(folder, ["version", "x"])[:2], (2, ""))


TRIALS = [
    words,
    sites,
    browser,
    lost_files,
    lost_and_closed,
    moved_folder,
    unheard,
    full_before_it_reads,
    without_threads,
    slow_readers,
    an_hour_of_silence,
    a_minute_unread,
    idle_callers,
    kept_places,
    thousand_tills,
]
sys.exit(try_each(TRIALS, "the doors of an office: 0 differ", "the doors of an office: {} differ"))
