#!/usr/bin/env python3
"""Has open offices exchange messages by the scripts of exchange/: office.py alone, ssh, a folder, and three brokers
where mosquitto is there. Messages are torn and forged, an office is closed, brokers are killed, and sites, files and
folders are mistaken; in the end all is summed up.

Usage: tests/exchange.py [PROGRAM] [office|ssh|folder|brokers|limits|silent|full ..]     (PROGRAM:
crates/boxoffice/out/boxoffice; without names: all)

Says what differs and ends with status 1 where anything does. It needs no rights and no network beside this machine's
own. In place of ssh is a script that runs the command of the key at once; what ssh itself does is not tried.
"""

import contextlib
import os
import pathlib
import re
import resource
import shutil
import socket
import subprocess
import sys
import threading
import time
from collections.abc import Sequence
from typing import Any

from lib import call, HERE, make_site, Operator, same, SECONDS, try_each
from lib.exchanges import CITIES, EVERY, FOLDER, NEEDED, OFFICE, OFTEN, SSH
from lib.exchanges import Brokers, Site, comes, free_port, opened_sites, python, running, said
from lib.program import Found

BOARD = os.path.join(HERE, "..", "examples", "board.py")
BOARD_WORDS = ["--ceded", "--events", "gala", "expo", "--output", "page.html"]
OPENING = ["announce 1 gala", "release 2 gala 100", "cede 3 gala 40 1"]
CESSION = "delta 0 1 3\nname gala\ngave gala 0 0 100\ngave gala 0 1 40\nend\n"
ACKNOWLEDGED = "ack 1 0 3\nend\n"
# Messages that are not what they are named, or not whole; what follows `end` would be a line of its own to the office.
REFUSED = {"delta 1 0 9\nname expo\nend\n": "misnamed", "delta 0 1 9\nname expo\n": "truncated", "delta 0": "truncated"}
REFUSED |= {"delta 0 1 9\nname expo\nend\nclose\n": "trailing", "delta 0 1 9\nname Expo\nend\n": "bad-line 2"}


def comes_to_all(what: str, offices: Sequence[Site], totals: str) -> None:
    comes(
        f"{what}: the totals",
        lambda: [office.ask("totals gala") for office in offices],
        [[f"totals {totals}"]] * len(offices),
    )
    due = [[(1, "", "")] * (len(offices) - 1)] * len(offices)
    comes(f"{what}: nothing is due", lambda: [office.due() for office in offices], due)


def audited(offices: Sequence[Site], sold: int) -> None:
    for office in offices:
        office.close()
    sums = f"gala released 100 sold {sold} refunded 0 outstanding {sold}\n"
    # (A program that checks itself, as one unproved does, sums up slowly.)
    found = call(offices[0].folder, ["audit", *(office.file for office in offices)], "", 10 * SECONDS)
    same("the audit", found, (0, sums, ""))


def asked_by_office(folder: str) -> None:
    """What office.py prints and ends with."""
    with opened_sites(folder, 2) as (north, south):
        same("nothing is due", north.export(1), (1, "", ""))
        same("the opening", north.ask(*OPENING), ["done"] * 3)
        same("the cession, twice", [north.export(1), north.export(1)], [(0, CESSION, "")] * 2)
        takes = [OFFICE, "import", south.file + "-sock"]
        refused = {**REFUSED, "": "truncated", "delta 0 1 2\n" + "a" * 201 + "\nend\n": "bad-line 2"}
        for message, word in list(refused.items())[1:]:
            same(f"import of {message!r}", python(folder, takes, message), (1, "", word + "\n"))
        same(
            "it is joined, and comes again",
            [python(folder, takes, CESSION) for _ in range(2)],
            [(0, ACKNOWLEDGED, "")] * 2,
        )
        same("it is acknowledged", python(folder, [OFFICE, "import", north.file + "-sock"], ACKNOWLEDGED), (0, "", ""))
        same("at its own sender", python(folder, takes, ACKNOWLEDGED), (1, "", "not-for-me\n"))
        same("nothing is due any more", north.export(1), (1, "", ""))
        same("to no site", north.export(2), (1, "", "no-site\n"))
        same("wrong arguments", python(folder, [OFFICE, "export", north.file + "-sock"])[:2], (2, ""))
        same("what it may sell", south.ask("left gala", "left expo"), ["left 40", "unknown"])
        same("the board", python(folder, [BOARD, north.path, "south.db-sock", "none-sock", *BOARD_WORDS])[0], 0)
        with open(os.path.join(folder, "page.html"), encoding="utf-8") as page:
            text = page.read()
        shown = ["left at north: 60<", "left at south: 40<", "not given back 0<", "not heard of 0<"]
        shown += ["<td>north</td><td>60</td><td>40</td><td>100</td>", "<td>south</td><td>40</td><td>0</td><td>100</td>"]
        shown += ["2 of 3 answer", "no answer yet"]
        same("what it shows", [part for part in shown if part not in text], [])
        audited([north, south], 0)
        same("no office", [north.export(1), python(folder, takes, CESSION)], [(3, "", "not-open\n")] * 2)
    with contextlib.closing(socket.socket(socket.AF_UNIX)) as office:
        office.bind(os.path.join(folder, "none.db-sock"))
        office.listen()
        threading.Thread(target=answer_memory, args=(office,), daemon=True).start()
        found = python(folder, [FOLDER, "0", "2", "none.db", folder, "--once"])
        same("an office that cannot say whose it is", found, (3, "", "site 0: memory\n"))


def answer_memory(office: socket.socket) -> None:
    with office.accept()[0] as caller:
        same("what the scripts ask", caller.recv(100), b"status\nquit\n")
        caller.sendall(b"memory\n")


# In place of ssh: it runs the command of the key, as the far machine would, unless the line is cut. It hands over a
# byte less where the line tears what goes through it.
FAKE_SSH = """#!/bin/sh
[ ! -e {folder}/cut ] || {{ printf 'ssh: connect to host south port 22: Connection timed out\\r\\n' >&2; exit 255; }}
[ ! -e {folder}/torn ] || {{ head -c 30 | {answer}; exit; }}
[ "$(eval echo \\"\\${{$#}}\\")" = clerk@south ] && exec {answer}
"""


def mistaken_over_ssh(folder: str, place: dict[str, str]) -> None:
    """Of a wrong SITE, PEER or FILE nothing is sent or taken, and it is said."""
    script, answer = f"{SSH}/boxoffice-exchange", f"{SSH}/boxoffice-answer"
    for words, said_so in [
        (["1", "north.db", "--once", "0=clerk@south"], "site 1: site-is 0\n"),
        (["0", "nort.db", "--once", "1=clerk@south"], "site 0: not-open\n"),
        (["0", "north.db", "--once", "2=clerk@south", "3=clerk@south"], "site 0: no-site 2\n"),
    ]:
        same(f"a look with {words}", python(folder, [script, *words], env=place), (3, "", said_so))
    for words, said_so in [
        (["0", "south.db", "1"], "site 0: site-is 1\n"),
        (["1", "sout.db", "0"], "site 1: not-open\n"),
        (["1", "south.db", "2"], "site 1: no-site 2\n"),
        (["1", "south.db", "1"], "site 1: no-site 1\n"),
    ]:
        same(f"an answer with {words}", python(folder, [answer, *words], CESSION), (3, "", said_so))
    for words in (["0", "north.db", "0=clerk@south"], ["0", "north.db"], ["a", "north.db", "1=clerk@south"]):
        same(f"the usage for {words}", python(folder, [script, *words])[2].split(":")[0], "Usage")


def over_ssh(folder: str) -> None:
    answer = f"{sys.executable} {SSH}/boxoffice-answer 1 {folder}/south.db 0"
    with open(os.path.join(folder, "ssh"), "w", encoding="ascii") as file:
        file.write(FAKE_SSH.format(folder=folder, answer=answer))
    os.chmod(file.name, 0o755)
    place = {**os.environ, "PATH": folder + ":" + os.environ["PATH"]}
    words = [f"{SSH}/boxoffice-exchange", "0", "north.db"]
    joined = "site 1: delta from 0: joined\nsite 0: ack from 1: acked\n"

    def looks() -> Found:
        return python(folder, [*words, "--once", "1=clerk@south"], env=place)

    def answers(given: str) -> Found:
        return python(folder, answer.split()[1:], given)

    with opened_sites(folder, 2) as (north, south):
        same("nothing is due", looks(), (0, "", ""))
        same("the opening", north.ask(*OPENING), ["done"] * 3)
        mistaken_over_ssh(folder, place)
        same("nothing came of it", south.ask("left gala"), ["unknown"])
        open(os.path.join(folder, "torn"), "w", encoding="ascii").close()
        same("a look, torn", looks(), (0, "", "site 1: delta from 0: truncated\n"))
        os.remove(os.path.join(folder, "torn"))
        same("a look", looks(), (0, "", joined))
        same(
            "both sell",
            north.ask("sell 5 gala 1") + south.ask("left gala", "sell 1 gala 1"),
            ["done", "left 40", "done"],
        )
        brought = "site 0: delta from 1: joined\nsite 1: ack from 0: acked\n"
        brought += "site 1: delta from 0: nothing-new\nsite 0: ack from 1: acked\n"
        same("a look both ways", looks(), (0, "", joined + brought))
        comes_to_all("by ssh", [north, south], "released 100 sold 2 refunded 0 open 98")
        for message in ("delta 2 1 9\nname expo\nend\n", "ack 1 0 2\nend\n", "close\nend\n", "export 0\nclose\n"):
            kind = "ack" if message.startswith("ack") else "delta"
            same(f"forged {message!r}", answers(message), (0, "", f"site 1: {kind} from 0: misnamed\n"))
        open(os.path.join(folder, "cut"), "w", encoding="ascii").close()
        same("north cedes, cut off", north.ask("cede 6 gala 10 1"), ["done"])
        same("a look, cut off", (looks()[0], south.ask("left gala")), (3, ["left 39"]))
        with running(folder, [[*words, *OFTEN, "1=clerk@south"]], [place]):
            comes("it is said", lambda: "timed out\n" in said(folder, 0), True)
            os.remove(os.path.join(folder, "cut"))
            comes("what was ceded", lambda: south.ask("left gala"), ["left 49"])
            comes_to_all("by itself", [north, south], "released 100 sold 2 refunded 0 open 98")
            north.close()
            comes("it is said that north is closed", lambda: said(folder, 0).endswith("site 0: not-open\n"), True)
            north = Site(folder, 0)
            same("north cedes, opened again", north.ask("cede 7 gala 10 1"), ["done"])
            comes("what was ceded then", lambda: south.ask("left gala"), ["left 59"])
            comes_to_all("opened again", [north, south], "released 100 sold 2 refunded 0 open 98")
        same("what is said once", [said(folder, 0).count(f"site 0: {word}\n") for word in ("not-open", "open")], [1, 1])
        south.close()
        same("no office there", (looks()[0], answers("")), (3, (3, "", "site 1: not-open\n")))
        south = Site(folder, 1)
        audited([north, south], 2)
        same("no office here", looks(), (3, "", "site 0: not-open\n"))


def of_folder(folder: str) -> list[tuple[str, int, int]]:
    """Name, time and number of each file of the shared folder."""
    with os.scandir(os.path.join(folder, "shared")) as files:
        return sorted((file.name, file.stat().st_mtime_ns, file.stat().st_ino) for file in files)


def looks_into_folder(office: Site) -> Found:
    """What the folder's script says as it looks once."""
    return python(office.folder, [FOLDER, str(office.me), "2", office.file, "shared", "--once"])


def damaged_in_folder(folder: str, north: Site, south: Site) -> None:
    """What is torn or forged is refused and said; the next look of its sender puts the message there again."""
    same("twenty more", north.ask("cede 4 gala 20 1"), ["done"])
    for message, word in REFUSED.items():
        same("north looks", looks_into_folder(north)[0], 0)
        with open(os.path.join(folder, "shared", "0-1.delta"), "w", encoding="ascii") as file:
            file.write(message)
        same(f"in the folder {message!r}", looks_into_folder(south), (0, "", f"site 1: delta from 0: {word}\n"))
        same("nothing came", south.ask("left gala", "left expo"), ["left 39", "unknown"])
    found = [looks_into_folder(north)[0], looks_into_folder(south)]
    same("north looks, then south", found, [0, (0, "", "site 1: delta from 0: joined\n")])
    same("it came", south.ask("left gala"), ["left 59"])


def mistaken_at_folder(folder: str) -> None:
    """Of a wrong SITE or FILE nothing is written or taken, and it is said; also that the folder is not there, until it
    is."""
    for words in (
        ["a", "b", "north.db", "shared", "--once"],
        ["2", "2", "north.db", "shared"],
        ["0", "2", "north.db", "shared", "--every"],
    ):
        found = python(folder, [FOLDER, *words])
        same(f"the usage for {words}", (found[0], found[1], found[2].split(":")[0]), (1, "", "Usage"))
    missing = "site {}: folder: No such file or directory\n"
    for me, file in [("0", "north.db"), ("1", "south.db")]:
        same(
            f"{file} without a folder",
            python(folder, [FOLDER, me, "2", file, "shared", "--once"]),
            (3, "", missing.format(me)),
        )
    with running(folder, [[FOLDER, "0", "2", "north.db", "shared", *OFTEN]]):
        comes("it is said", lambda: said(folder, 0), missing.format(0))
        os.mkdir(os.path.join(folder, "shared"))
        comes("it is there", lambda: said(folder, 0), missing.format(0) + "site 0: folder: reached\n")
    comes("what is due", lambda: [name for name, *_ in of_folder(folder)], ["0-1.delta"])
    before = of_folder(folder)
    for words, said_so in [
        (["1", "2", "north.db"], "site 1: site-is 0\n"),
        (["1", "2", "sout.db"], "site 1: not-open\n"),
    ]:
        same(f"a look with {words}", python(folder, [FOLDER, *words, "shared", "--once"]), (3, "", said_so))
    same(
        "of other SITES",
        python(folder, [FOLDER, "0", "3", "north.db", "shared", "--once"]),
        (0, "", "site 0: sites-are 2\n"),
    )
    same("they change no file", of_folder(folder), before)


def grown_at_folder(folder: str, north: Site) -> None:
    """With the number of sites from before it is said how many there are, and all else goes on."""
    same("two more", north.ask("cede 8 gala 2 1"), ["done"])
    before = of_folder(folder)
    status, _, words = looks_into_folder(north)
    same("north looks, grown", (status, words.split("\n")[0]), (0, "site 0: sites-are 3"))
    same("it writes on", [file[0] for file in of_folder(folder) if file not in before], ["0-1.delta"])
    status, _, words = python(folder, [FOLDER, "0", "3", north.file, "shared", "--once"])
    same("north looks, with the new number", (status, "sites-are" in words), (0, False))
    same(
        "it writes for the new site", [name for name, *_ in of_folder(folder) if name.startswith("0-2")], ["0-2.delta"]
    )


def by_folder(folder: str) -> None:
    with opened_sites(folder, 2) as offices:
        north, south = offices
        same("the opening", north.ask(*OPENING), ["done"] * 3)
        mistaken_at_folder(folder)
        same("north looks", looks_into_folder(north), (0, "", ""))
        same("south looks", looks_into_folder(south), (0, "", "site 1: delta from 0: joined\n"))
        same(
            "both sell",
            north.ask("sell 5 gala 1") + south.ask("left gala", "sell 1 gala 1"),
            ["done", "left 40", "done"],
        )
        for _ in range(5):
            same("both look", [looks_into_folder(office)[0] for office in offices], [0, 0])
        comes_to_all("by hand", offices, "released 100 sold 2 refunded 0 open 98")
        before = of_folder(folder)
        same("looks that find nothing new", [looks_into_folder(office)[0] for office in offices * 2], [0] * 4)
        same("they change no file", of_folder(folder), before)
        damaged_in_folder(folder, north, south)
        with running(folder, [[FOLDER, str(office.me), "2", office.file, "shared", *OFTEN] for office in offices]):
            comes_to_all("by itself", offices, "released 100 sold 2 refunded 0 open 98")
            south.close()
            said_before = said(folder, 0)
            same("north cedes, cut off", north.ask("sell 6 gala 4", "cede 7 gala 10 1"), ["done"] * 2)
            time.sleep(5 * float(EVERY))
            same("looks that find nothing new say nothing", said(folder, 0), said_before)
            offices[1] = south = Site(folder, 1)
            comes("south opened again", lambda: south.ask("left gala"), ["left 69"])
            comes_to_all("in the end", offices, "released 100 sold 6 refunded 0 open 94")
        same(
            "its office, away and back",
            [said(folder, 1).count(f"site 1: {word}\n") for word in ("not-open", "open")],
            [1, 1],
        )
        audited(offices, 6)
        same("north grows", call(folder, ["grow", north.file, "3"]), (0, "grown\n", ""))
        offices[0] = Site(folder, 0)
        grown_at_folder(folder, offices[0])


def forged(brokers: Brokers) -> None:
    """Under another's name no broker takes a message, from whomever; one that has another's text no script takes."""
    for me, at, name in [(0, 2, 1), (1, 2, 0), (1, 0, 2), (2, 0, 1), (2, 1, 0), (0, 0, 1)]:
        for kind, message in [
            ("delta", f"delta {name} {at} 9\nname expo\nend\n"),
            ("ack", f"ack {name} {at} 1\nend\n"),
        ]:
            found = brokers.publish(me, at, f"sites/{at}/{name}/{kind}", message)
            same(f"site {me} at broker {at} as site {name}", found, "Warning: Publish 1 failed: Not authorized.")
    brokers.dies(1, 2, "sites/2/0/delta", "delta 0 2 9\nname expo\nend\n")
    same(
        "another's text under its own name",
        brokers.publish(1, 2, "sites/2/1/delta", "delta 0 2 9\nname expo\nend\n"),
        "",
    )


def sold_over_brokers(folder: str, offices: list[Site], brokers: Brokers) -> None:
    north, south, east = offices
    comes("the cession", lambda: south.ask("left gala"), ["left 40"])
    comes("south's broker is reached", lambda: said(folder, 0).count("site 0: broker of 1: reached\n"), 1)
    same("both sell", north.ask("sell 4 gala 1") + south.ask("sell 1 gala 1", "cede 2 gala 1 2"), ["done"] * 3)
    comes("a second cession", lambda: east.ask("left gala"), ["left 1"])
    comes_to_all("over brokers", offices, "released 100 sold 2 refunded 0 open 98")
    forged(brokers)
    comes("a text of another is misnamed", lambda: "site 2: delta from 1: misnamed\n" in said(folder, 2), True)
    same(
        "all sell on", north.ask("sell 5 gala 1") + south.ask("sell 3 gala 1") + east.ask("sell 1 gala 1"), ["done"] * 3
    )
    comes_to_all("after forged messages", offices, "released 100 sold 5 refunded 0 open 95")
    with brokers.killed(1):
        same("north, cut off", north.ask("cede 6 gala 20 1", "sell 7 gala 35"), ["done", "done"])
        same("south, cut off", south.ask("sell 4 gala 37", "sell 5 gala 1"), ["done", "short 0"])
    comes("what was ceded, after the cut", lambda: south.ask("left gala"), ["left 20"])
    same("a name that no site announced", [office.ask("left expo") for office in offices], [["unknown"]] * 3)
    with brokers.killed(0):
        same("five go back", south.ask("cede 6 gala 5 0"), ["done"])
        comes(
            "its own broker is away",
            lambda: said(folder, 0).count("site 0: own broker: Error: Connection refused\n"),
            1,
        )
    comes("what was given back", lambda: north.ask("left gala"), ["left 8"])
    comes_to_all("after the cuts", offices, "released 100 sold 77 refunded 0 open 23")
    south.close()
    same("one more for south", north.ask("cede 8 gala 1 1"), ["done"])
    comes("it is published", lambda: brokers.holds(1, "sites/1/0/delta", "gave gala 0 1 61\n"), True)
    with brokers.killed(1):
        os.remove(os.path.join(folder, "1", "mosquitto.db"))
    offices[1] = south = Site(folder, 1, 3)
    comes("what a broker had lost comes again", lambda: south.ask("left gala"), ["left 16"])
    same(
        "its office, away and back",
        [said(folder, 1).count(f"site 1: {word}\n") for word in ("not-open", "open")],
        [1, 1],
    )
    comes("its own broker is back", lambda: said(folder, 0).count("site 0: own broker: reached\n"), 2)


def mistaken_over_brokers(folder: str, brokers: Brokers) -> None:
    """Of a wrong SITE, PEER or FILE nothing is published or taken, and it is said; also that the site's own broker is
    away."""
    same("something to take", brokers.publish(0, 1, "sites/1/0/delta", CESSION), "")
    words, places = zip(*(brokers.script(me, file) for me, file in [(1, "north.db"), (0, "north.db"), (0, "nort.db")]))
    words[1][-2:] = [words[1][-1].replace("2=", "5=")]
    away = "site 0: own broker: Error: Connection refused"
    wanted = [
        {"site 1: own broker: reached", "site 1: site-is 0"},
        {away, "site 0: no-site 5"},
        {away, "site 0: not-open"},
    ]

    def found() -> list[set[str]]:
        return [set(said(folder, at).splitlines()) for at in range(3)]

    brokers.kill(0)
    with running(folder, words, places):
        comes("it is said", found, wanted)
        brokers.start(0)
        back = {"site 0: own broker: reached"}
        comes("the broker is there", found, [wanted[0], wanted[1] | back, wanted[2] | back])
        time.sleep(2)
        same("no more is said", [said(folder, at).count("\n") for at in range(3)], [2, 3, 3])


def over_brokers(folder: str) -> None:
    if missing := [name for name in NEEDED if not shutil.which(name)]:
        print(f"over brokers: not tried, without {', '.join(missing)}")
        return
    brokers = Brokers(folder, [("127.0.0.1", free_port()) for _ in CITIES])
    try:
        with opened_sites(folder, 3) as offices:
            same("the opening", offices[0].ask(*OPENING), ["done"] * 3)
            mistaken_over_brokers(folder, brokers)
            scripts, places = zip(*(brokers.script(office.me, office.file) for office in offices))
            with running(folder, scripts, places):
                sold_over_brokers(folder, offices, brokers)
            audited(offices, 77)
    finally:
        brokers.end()


# What no message is, as a peer sends it: how it goes on for ever, how much of it there is, and the word for it.
ENDLESS = {"no line end": (b"x" * 65536, 4000, "bad-line 1"), "lines": (b"name e-000001\n" * 4096, 1200, "too-long")}
MOST_MEMORY = 400 << 20  # How much memory a script may have that reads it.


def flooded(words: list[str], folder: str, begin: bytes, piece: bytes, count: int, **more: Any) -> Found:
    """The status and what is printed of a script that is sent pieces until it takes no more, in little memory."""

    def least() -> None:
        resource.setrlimit(resource.RLIMIT_AS, (MOST_MEMORY, MOST_MEMORY))

    streams: dict[str, Any] = {"stdin": subprocess.PIPE, "stdout": subprocess.PIPE, "stderr": subprocess.PIPE}
    program = subprocess.Popen([sys.executable, *words], cwd=folder, preexec_fn=least, **streams, **more)
    assert program.stdin
    with contextlib.suppress(BrokenPipeError):
        program.stdin.write(begin)
        for _ in range(count):
            program.stdin.write(piece)
    with contextlib.suppress(BrokenPipeError):
        program.stdin.close()
    program.stdin = None
    out, err = program.communicate(timeout=SECONDS)
    return program.returncode, out.decode(), err.decode()


def limits(folder: str) -> None:
    """What others send is read no further than it can be messages, in little memory, and a word says so."""
    with opened_sites(folder, 2) as (north, south):
        same("the opening", north.ask(*OPENING), ["done"] * 3)
        answer, takes = [f"{SSH}/boxoffice-answer", "1", "south.db", "0"], [OFFICE, "import", "south.db-sock"]
        for what, (piece, count, word) in ENDLESS.items():
            begin = b"delta 0 1 9\n" if what == "lines" else b""
            same(f"{what}, to office.py", flooded(takes, folder, begin, piece, count), (1, "", word + "\n"))
            said_so = flooded(answer, folder, begin, piece, count)
            kind = "misnamed" if what == "no line end" else word
            same(f"{what}, to boxoffice-answer", said_so, (0, "", f"site 1: delta from 0: {kind}\n"))
        os.mkdir(os.path.join(folder, "shared"))
        with open(os.path.join(folder, "shared", "0-1.delta"), "wb") as file:
            file.write(b"delta 0 1 9\n")
            os.truncate(file.fileno(), 1 << 34)
        same("a file of 16 GB", looks_into_folder(south), (0, "", "site 1: delta from 0: bad-line 2\n"))
        os.remove(file.name)
        os.mkfifo(file.name)
        same("a pipe for a file", looks_into_folder(south), (0, "", ""))
        os.remove(file.name)
        same("north looks, then south", [looks_into_folder(north)[0], looks_into_folder(south)[0]], [0, 0])
        same("what came", south.ask("left gala", "left expo"), ["left 40", "unknown"])


def silent_peers(folder: str) -> None:
    """To whom something is due, since when, and when it was last heard of, is said once; and once that it is there
    again. (What is older than QUIET seconds as it is found tells of no one; a busy machine may be slow to find it.)"""
    quiet = ["--quiet", "5", *OFTEN]
    os.mkdir(os.path.join(folder, "shared"))
    words = [[FOLDER, str(me), "2", f"{CITIES[me]}.db", "shared", *quiet] for me in range(2)]
    clock = "[0-9:]{8}"

    def silences() -> list[str]:
        lines = said(folder, 0).splitlines()
        return [line for line in lines if "heard of" in line or "nothing is due" in line]

    with opened_sites(folder, 2) as offices:
        north, south = offices
        with running(folder, words[:1]):
            same("the opening", north.ask(*OPENING), ["done"] * 3)
            comes("south is silent", lambda: len(silences()), 1)
            time.sleep(1.5)
            never = re.fullmatch(f"site 0: site 1: due since {clock}, never heard of", silences()[0])
            same(f"it is said once: {silences()}", (never is not None, len(silences())), (True, 1))
            peers = pathlib.Path(folder, "north.db-peers").read_text("ascii").split()
            same(f"where it stands: {peers}", (peers[0], int(peers[1]) > 0, peers[2:]), ("1", True, ["0", "1"]))
            page = python(
                folder, [BOARD, "north.db-sock", "south.db-sock", "--events", "gala", "--output", "page.html"]
            )
            text = pathlib.Path(folder, "page.html").read_text("utf-8")
            same("the board shows it", (page[0], "north: site 1 has had something due" in text), (0, True))
            same("south looks", looks_into_folder(south)[0], 0)
            comes("south is there", lambda: silences()[1:], ["site 0: site 1: heard of again"])
            comes("nothing is due", north.due, [(1, "", "")])
            same("ten more", north.ask("cede 9 gala 10 1"), ["done"])
            comes("south is silent again", lambda: len(silences()), 3)
            again = re.fullmatch(f"site 0: site 1: due since {clock}, last heard of {clock}", silences()[2])
            same(f"when it was heard of: {silences()[2:]}", again is not None, True)


def spares(folder: str) -> None:
    """Sales are told of once in some seconds, so that they cost the other site few entries; rights come at once."""
    sparing = 30
    os.mkdir(os.path.join(folder, "shared"))
    words = [[FOLDER, str(me), "2", f"{CITIES[me]}.db", "shared", "--every", EVERY] for me in range(2)]

    def joined(site: Site) -> int:
        """How many messages a site joined: its entries that are no requests of its own."""
        asked = 3 if site.me == 0 else 0
        return int(Operator(site.path).ask("status").split()[5]) - asked

    with opened_sites(folder, 2) as offices:
        north, south = offices
        with running(folder, [[*script, "--sparing", str(sparing)] for script in words]):
            same("the opening", north.ask(*OPENING), ["done"] * 3)
            first = comes("the event and its rights", lambda: south.ask("left gala"), ["left 40"])
            before, sales, begin = joined(south), 0, time.monotonic()
            for number in range(100, 115):
                same("a sale", north.ask(f"sell {number} gala 1"), ["done"])
                sales += 1
                time.sleep(0.3)
            same("rights while north sells", north.ask("cede 200 gala 5 1"), ["done"])
            took = comes("they come at once", lambda: south.ask("left gala"), ["left 45"])
            count, most = joined(south) - before, 2 + (time.monotonic() - begin) / sparing
            same(f"{sales} sales and a cession are {count} entries, of {most:.1f} at most", count <= most, True)
            same(f"rights came after {took:.1f} s, where the first took {first:.1f} s", took < first + 10, True)
            comes("the sums agree", lambda: south.ask("totals gala")[0].split()[4], str(sales))
            left = int(north.ask("left gala")[0].split()[1])
            same("north sells half of what it has", north.ask(f"sell 201 gala {(left + 1) // 2}"), ["done"])
            sales += (left + 1) // 2
            took = comes("that comes at once", lambda: south.ask("totals gala")[0].split()[4], str(sales))
            same(f"it came after {took:.1f} s, where the first took {first:.1f} s", took < first + 10, True)


def nearly_full(folder: str) -> None:
    """A script says once that its site has used nine tenths of its LIMIT, and once that this is over; over ssh also of
    the other site, where no script runs."""
    with open(os.path.join(folder, "ssh"), "w", encoding="ascii") as file:
        answer = f"{sys.executable} {SSH}/boxoffice-answer 1 {folder}/south.db 0"
        file.write(FAKE_SSH.format(folder=folder, answer=answer))
    os.chmod(file.name, 0o755)
    place = {"PATH": folder + ":" + os.environ["PATH"]}
    os.mkdir(os.path.join(folder, "shared"))
    ssh = [f"{SSH}/boxoffice-exchange", "0", "north.db", *OFTEN, "1=clerk@south"]
    scripts = [[FOLDER, "0", "2", "north.db", "shared", *OFTEN], [FOLDER, "1", "2", "south.db", "shared", *OFTEN], ssh]
    for me, file_name in enumerate(["north.db", "south.db"]):
        make_site(folder, file_name, me, 2, 20)

    def histories() -> list[list[str]]:
        return [[line for line in said(folder, k).splitlines() if ": history: " in line] for k in range(3)]

    north_full, south_full = "site 0: history: nearly full", "site 1: history: nearly full"
    with opened_sites(folder, 2) as (north, south):
        with running(folder, scripts, [{}, {}, place]):
            same("the opening", north.ask("announce 1 gala"), ["done"])
            comes("south joins it", lambda: south.ask("left gala"), ["left 0"])
            same("17 of 20", north.ask(*(f"announce {number} gala" for number in range(2, 18))), ["known"] * 16)
            time.sleep(2)
            same("with 17 of 20 nothing is said", histories(), [[], [], []])
            same("18 of 20", north.ask("announce 18 gala"), ["known"])
            comes("it is said of north", histories, [[north_full], [], [north_full]])
            same("as many there", south.ask(*(f"announce {number} gala" for number in range(1, 18))), ["known"] * 17)
            comes("and of south", histories, [[north_full], [south_full], [north_full, south_full]])
            same("19 of 20", north.ask("announce 19 gala") + south.ask("announce 18 gala"), ["known"] * 2)
            time.sleep(2)
            same("it is said once", histories(), [[north_full], [south_full], [north_full, south_full]])
            # (no history gets shorter: this is another file)
            south.close()
            os.remove(os.path.join(folder, "south.db"))
            Site(folder, 1, 2, south.port)
            room = "site 1: history: has room"
            comes("it is over", histories, [[north_full], [south_full, room], [north_full, south_full, room]])


TRIALS = {"spares": spares, "office": asked_by_office, "ssh": over_ssh, "folder": by_folder, "brokers": over_brokers}
TRIALS |= {"limits": limits, "silent": silent_peers, "full": nearly_full}
sys.exit(try_each(TRIALS, "exchange: 0 differ", "exchange: {} differ"))
