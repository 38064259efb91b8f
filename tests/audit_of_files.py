#!/usr/bin/env python3
"""Sells at two sites by the built program, and holds the lines of its audit against C SQLite's view of the files.

Usage: tests/audit_of_files.py [PROGRAM]     (PROGRAM: crates/boxoffice/out/boxoffice)

Says what differs and ends with status 1 where anything does.
"""

import os
import sys

from lib import call, change, FORGED, make_sites, opened, same, try_each

# What each site asks, in this order, with what is delivered between.
NORTH = [
    "announce 1 gala",
    "release 2 gala 100",
    "cede 3 gala 40 1",
    "sell 4 gala 7",
    "sell 5 gala 5",
    "refund 7 4 2",
    "refund 6 4",
]
SOUTH = ["sell 1 gala 30", "sell 2 gala 11", "announce 3 expo", "release 4 expo 9", "sell 5 expo 2", "refund 6 1"]

# How many files an audit may have, and how many `serve`.
MOST_FILES = 64
MOST_SERVED = 16


def asked(folder: str, file: str, lines: list[str]) -> None:
    status, out, err = call(folder, ["ask", file], "".join(line + "\n" for line in lines))
    same(f"ask {file}", (status, len(out.splitlines()), err), (0, len(lines), ""))


def summed(folder: str, files: list[str]) -> str:
    """The lines of an audit, from the entries of all files by C SQLite."""
    sums: dict[str, list[int]] = {}
    for file in files:
        with opened(folder, file) as records:
            for (event,) in records.execute("SELECT event FROM entries WHERE verb = 'announce' AND reply = 'done'"):
                sums.setdefault(event, [0, 0, 0])
            done = "SELECT event, amount FROM entries WHERE verb = ? AND reply = 'done'"
            for place, verb in enumerate(["release", "sell"]):
                for event, amount in records.execute(done, (verb,)):
                    sums.setdefault(event, [0, 0, 0])[place] += amount
            given_back = (
                "SELECT sale.event, min(sale.amount, sum(coalesce(refund.amount, sale.amount)))"
                " FROM entries refund JOIN entries sale ON refund.target = sale.number"
                " WHERE refund.verb = 'refund' AND refund.reply = 'done' GROUP BY sale.number"
            )
            for event, amount in records.execute(given_back):
                sums.setdefault(event, [0, 0, 0])[2] += amount
    return "".join(
        f"{event} released {r} sold {s} refunded {f} outstanding {s - f}\n" for event, (r, s, f) in sorted(sums.items())
    )


def two_sites(folder: str) -> list[str]:
    make_sites(folder, ["north.db", "south.db"])
    both = ["audit", "north.db", "south.db"]
    same("two new sites", call(folder, both), (0, "", ""))
    asked(folder, "north.db", NORTH)
    status, message, err = call(folder, ["export", "north.db", "1"])
    same("export", (status, err), (0, ""))
    same("import", call(folder, ["import", "south.db"], message), (0, "joined\n", ""))
    asked(folder, "south.db", SOUTH)
    wanted = summed(folder, ["north.db", "south.db"])
    same("the sums", wanted.splitlines()[1], "gala released 100 sold 42 refunded 37 outstanding 5")
    same("the audit", call(folder, both), (0, wanted, ""))
    same("the audit again", call(folder, both), (0, wanted, ""))
    return both


def refusals(folder: str, both: list[str]) -> None:
    same("one of two", call(folder, ["audit", "north.db"]), (1, "not-whole\n", ""))
    same("in another order", call(folder, ["audit", "south.db", "north.db"]), (1, "not-whole\n", ""))
    same("a file twice", call(folder, ["audit", "north.db", "north.db"]), (3, "", "disk\n"))
    same("no such file", call(folder, ["audit", "north.db", "west.db"]), (3, "", "not-ours\n"))
    same("no west.db is made", os.path.exists(os.path.join(folder, "west.db")), False)
    same("no file", call(folder, ["audit"])[:2], (2, ""))
    same("65 files", call(folder, ["audit"] + ["north.db"] * (MOST_FILES + 1))[:2], (2, ""))
    same("17 files to serve", call(folder, ["serve", "7394", "0", "0"] + ["north.db"] * (MOST_SERVED + 1))[:2], (2, ""))
    same("a forged message", call(folder, ["import", "south.db"], FORGED), (0, "joined\n", ""))
    same("a view above its owner", call(folder, both), (1, "ahead 1 0\n", ""))
    change(folder, "north.db", ["UPDATE entries SET amount = 8 WHERE pos = 4"])
    same("the first fault ends it", call(folder, both + ["west.db"]), (3, "", "damaged 4\n"))


def sums_and_refusals(folder: str) -> None:
    refusals(folder, two_sites(folder))


def many_sites(folder: str) -> None:
    """More sites than may be served, and as many as there may be, each with an event of its own: one less is not
    whole."""
    for count in [MOST_SERVED + 1, MOST_FILES]:
        files = [f"{count}-{site}.db" for site in range(count)]
        make_sites(folder, files)
        for site, file in enumerate(files):
            asked(
                folder,
                file,
                [f"announce 1 event-{site}", f"release 2 event-{site} {site + 9}", f"sell 3 event-{site} {site + 1}"],
            )
        wanted = summed(folder, files)
        same(f"the lines of {count} sites", len(wanted.splitlines()), count)
        same(f"the audit of {count} sites", call(folder, ["audit", *files]), (0, wanted, ""))
        same(f"a site less than {count}", call(folder, ["audit", *files[:-1]]), (1, "not-whole\n", ""))


sys.exit(try_each([sums_and_refusals, many_sites], "audit of files: 0 differ", "audit of files: {} differ"))
