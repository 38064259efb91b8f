#!/usr/bin/env python3
"""Kills exchange/succeed at each command that it runs, runs it again, and compares what the two sites then have.

usage: successor.py [PROGRAM]

Whatever it was killed at: no right is lost or doubled, the new site may sell all that the old one might, the sums of
both files agree, and a refund at the old site still works. Then once with an office open, which is closed and opened
for the growth, while a till sells. """

from __future__ import annotations

import contextlib
import os
import stat
import subprocess
import sys
import tempfile
import threading
import time

from lib import PROGRAM, Caller, call, free_port, same, try_each

SCRIPT = os.path.join(os.path.dirname(os.path.abspath(__file__)), "..", "exchange", "succeed")
WORDS = ["old.db", "new.db", "900001"]
# A program in the place of boxoffice that kills its caller before, or after, the N-th command that it is given.
KILLER = """#!/bin/sh
echo x >> {folder}/count
n=$(wc -l < {folder}/count)
[ "$n $WHEN" != "$AT before" ] || {{ kill -9 $PPID; exit 9; }}
"{program}" "$@"
status=$?
[ "$n $WHEN" != "$AT after" ] || kill -9 $PPID
exit $status
"""


def asked(folder: str, file: str, *lines: str) -> list[str]:
    return call(folder, ["ask", file], "".join(line + "\n" for line in lines))[1].splitlines()


def begin(folder: str) -> None:
    same("init", call(folder, ["init", "old.db", "0", "1", "100"])[1], "done\n")
    lines = [
        "announce 1 gala",
        "release 2 gala 100",
        "sell 3 gala 30",
        "announce 4 opera",
        "release 5 opera 7",
        "announce 6 late",
    ]
    same("the old site sells", asked(folder, "old.db", *lines), ["done"] * 6)


def succeed(folder: str, *words: str, program: str = PROGRAM, **env: str) -> subprocess.CompletedProcess[str]:
    argv = [sys.executable, SCRIPT, *WORDS, "--program", program, *words]
    return subprocess.run(
        argv, cwd=folder, env={**os.environ, **env}, text=True, capture_output=True, timeout=300, check=False
    )


def check_end(what: str, folder: str) -> None:
    same(f"{what}: the old site", asked(folder, "old.db", "left gala", "left opera", "left late"), ["left 0"] * 3)
    same(
        f"{what}: the new site",
        asked(folder, "new.db", "left gala", "left opera", "sell 1 gala 70", "sell 2 gala 1"),
        ["left 70", "left 7", "done", "short 0"],
    )
    same(f"{what}: a refund", asked(folder, "old.db", "refund 7 3 2", "left gala"), ["done", "left 2"])
    sums = "gala released 100 sold 100 refunded 2 outstanding 98\nlate released 0 sold 0 refunded 0 outstanding 0\n"
    sums += "opera released 7 sold 0 refunded 0 outstanding 0\n"
    same(f"{what}: audit", call(folder, ["audit", "old.db", "new.db"])[1], sums)


def undisturbed(folder: str) -> None:
    begin(folder)
    done = succeed(folder)
    same("it ends well", (done.returncode, done.stderr, "70 seats ceded to site 1" in done.stdout), (0, "", True))
    same("a second run does nothing", succeed(folder).returncode, 0)
    check_end("undisturbed", folder)
    wrong = subprocess.run(
        [sys.executable, SCRIPT, "old.db", "new.db", "5", "--program", PROGRAM],
        cwd=folder,
        text=True,
        capture_output=True,
        check=False,
    )
    same("another first number is refused", (wrong.returncode, "another succession" in wrong.stderr), (1, True))


def killed_at(folder: str, at: int, when: str) -> bool:
    """Whether it was killed there."""
    begin(folder)
    killer = os.path.join(folder, "killer")
    with open(killer, "w", encoding="ascii") as script:
        script.write(KILLER.format(folder=folder, program=PROGRAM))
    os.chmod(killer, stat.S_IRWXU)
    was_killed = succeed(folder, program=killer, AT=str(at), WHEN=when).returncode != 0
    again = succeed(folder)
    same(f"killed {when} command {at}: run again", (again.returncode, again.stderr), (0, ""))
    check_end(f"killed {when} command {at}", folder)
    return was_killed


def killed(_: str) -> None:
    for when in ("before", "after"):
        at, was_killed = 1, True
        while was_killed:
            with tempfile.TemporaryDirectory() as folder:
                was_killed = killed_at(folder, at, when)
            at += 1
        same(f"killed {when} each command: there were some", at > 10, True)


def while_it_sells(folder: str) -> None:
    """With an office: it is closed and opened again, and a till sells what it can meanwhile."""
    begin(folder)
    port = str(free_port())
    start = f"{PROGRAM} open {port} old.db > office.log 2>&1 < /dev/null &"
    subprocess.run(["sh", "-c", f"{start} until grep -qs open office.log; do sleep 0.05; done"], cwd=folder, check=True)
    told = succeed(folder)
    same(
        "without --stop: it says what to give",
        (told.returncode, told.stderr.rstrip().endswith("already-open: give --stop and --start")),
        (1, True),
    )
    stop, sold = threading.Event(), list[str]()

    def sell() -> None:
        number = 1001
        while not stop.is_set():
            reply = ""
            with contextlib.suppress(OSError):
                caller = Caller(int(port), 1)
                reply = caller.ask(f"sell {number} gala 1")
                caller.go_away()
            if reply == "done" or reply.startswith("short "):
                sold.append(reply)
                number += 1
            time.sleep(0.02)

    till = threading.Thread(target=sell)
    till.start()
    try:
        done = succeed(folder, "--stop", f"{PROGRAM} close old.db", "--start", start)
        same("while it sells: it ends well", (done.returncode, done.stderr), (0, ""))
    finally:
        stop.set()
        till.join()
        call(folder, ["close", "old.db"])
    left = int(asked(folder, "new.db", "left gala")[0].split()[1])
    same(
        "while it sells: each seat is sold or at the new site",
        (sold.count("done") + left, asked(folder, "old.db", "left gala")),
        (70, ["left 0"]),
    )
    same("while it sells: audit", call(folder, ["audit", "old.db", "new.db"])[0], 0)


sys.exit(try_each([undisturbed, killed, while_it_sells], "a succession counts once, wherever it is killed"))
