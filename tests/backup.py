#!/usr/bin/env python3
"""Copies a site's file by `backup` with the built program, closed and beside sales: each copy has all that was answered
before it was begun, is a prefix of what the file has in the end, and is read by `audit`.

Usage: tests/backup.py [PROGRAM] [--full]     (PROGRAM: crates/boxoffice/out/boxoffice)

Says what differs and ends with status 1 where anything does.
"""

from __future__ import annotations

import os
import sys
import threading

from lib import FILE, OPTIONS, SECONDS, Caller, Office, call, make_site, rows_kept, same, text_of, try_each

CALLERS, COPIES, SALES = (16, 12, 4000) if OPTIONS.flag("full") else (8, 5, 1500)
# What does more than look at a copy.
NO_LOOKS = [
    ["ask", "copy.db"],
    ["import", "copy.db"],
    ["export", "copy.db", "1"],
    ["grow", "copy.db", "2"],
    ["open", "1024", "copy.db"],
    ["pair", "copy.db", "x.db"],
]
BEGUN = ["announce 1 gala", "release 2 gala 1000000", "sell 3 gala 2"]


def begun(folder: str) -> None:
    make_site(folder, FILE, sites=1)
    same("ask", call(folder, ["ask", FILE], text_of(BEGUN)), (0, "done\n" * len(BEGUN), ""))


def of_a_closed_file(folder: str) -> None:
    """A copy of a closed file has its rows; what cannot be copied is refused, and nothing is left of it."""
    begun(folder)
    same("backup", call(folder, ["backup", FILE, "copy.db"]), (0, "site 0 sites 1 entries 3 limit 1000000\n", ""))
    same("its rows", rows_kept(folder, "copy.db"), rows_kept(folder, FILE))
    same("a copy that is there", call(folder, ["backup", FILE, "copy.db"]), (1, "already-there\n", ""))
    same("the same file", call(folder, ["backup", FILE, "./" + FILE]), (1, "same-file\n", ""))
    same("no file", call(folder, ["backup", "none.db", "other.db"]), (3, "", "not-ours\n"))
    with open(os.path.join(folder, "text"), "w") as text:
        text.write("no database\n" * 100)
    same("no database", call(folder, ["backup", "text", "other.db"]), (3, "", "not-ours\n"))
    same("nothing is left", [name for name in os.listdir(folder) if name.startswith("other.db")], [])


def of_one_of_two(folder: str) -> None:
    """A copy of a file that is one of two is for looking as any other, and the two are as they were."""
    begun(folder)
    same("pair", call(folder, ["pair", FILE, "second.db"])[:2], (0, "paired\n"))
    same("backup", call(folder, ["backup", FILE, "copy.db"])[1], "site 0 sites 1 entries 3 limit 1000000\n")
    told = "gala released 1000000 sold 2 refunded 0 outstanding 2\n"
    same("audit", call(folder, ["audit", "copy.db"]), (0, told, ""))
    same("the file", call(folder, ["status", FILE]), (3, "", "one-of-two\n"))


def sells_nothing(folder: str) -> None:
    """A copy is looked at, and nothing else; it is not made a file that is alone."""
    begun(folder)
    same("backup", call(folder, ["backup", FILE, "copy.db"])[::2], (0, ""))
    same("find", call(folder, ["find", "copy.db", "3"]), (0, "2 done\n", ""))
    same("shares", call(folder, ["shares", "copy.db", "gala"]), (0, "0 left 999998 sold 2 back 0\n", ""))
    for words in NO_LOOKS:
        same(" ".join(words), call(folder, words, "sell 9 gala 1\n"), (3, "", "one-of-two\n"))
    same("alone", call(folder, ["alone", "copy.db"]), (1, "not-paired\n", ""))
    same("a copy of it", call(folder, ["backup", "copy.db", "copy-2.db"])[::2], (0, ""))
    os.symlink(FILE, os.path.join(folder, "link.db"))
    office = Office(folder)
    caller = Caller(office.port)
    same("a sale", caller.ask("sell 4 gala 1"), "done")
    same("by a link", call(folder, ["backup", "link.db", "copy-3.db"])[1], "site 0 sites 1 entries 4 limit 1000000\n")
    caller.go_away()
    office.close()


def sell(port: int, first: int, answered: list[int]) -> None:
    """Sells one seat after another, and notes each number once it is answered."""
    caller = Caller(port)
    for number in range(first, first + SALES):
        same(f"sell {number}", caller.ask(f"sell {number} gala 1"), "done")
        answered.append(number)
    caller.go_away()


def beside_sales(folder: str) -> None:
    """Copies are made while callers sell."""
    begun(folder)
    office, answered = Office(folder), list[int]()
    callers = [threading.Thread(target=sell, args=(office.port, 1000 + at * SALES, answered)) for at in range(CALLERS)]
    for caller in callers:
        caller.start()
    before = []
    for at in range(COPIES):
        before.append(set(answered))
        same("backup", call(folder, ["backup", FILE, f"copy-{at}.db"])[::2], (0, ""))
    for caller in callers:
        caller.join(SECONDS)
    office.close()
    whole = rows_kept(folder, FILE)
    same("all are in the file", len(whole), len(BEGUN) + CALLERS * SALES)
    for at, numbers in enumerate(before):
        rows = rows_kept(folder, f"copy-{at}.db")
        same("a copy is a prefix", rows, whole[: len(rows)])
        same("what was answered is in it", numbers - {row[2] for row in rows}, set())
        sold = sum(row[5] for row in rows if row[3] == "sell")
        told = f"gala released 1000000 sold {sold} refunded 0 outstanding {sold}\n"
        same("audit of it", call(folder, ["audit", f"copy-{at}.db"]), (0, told, ""))


if __name__ == "__main__":
    trials = [of_a_closed_file, of_one_of_two, sells_nothing, beside_sales]
    sys.exit(try_each(trials, "copies that are made beside sales are whole, and are for looking"))
