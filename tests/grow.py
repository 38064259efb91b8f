#!/usr/bin/env python3
"""Has the sites of a world count more sites by the built program, each in its own time, and looks at what they answer
before and behind, and at what C SQLite finds in their files.

Usage: tests/grow.py [PROGRAM]     (PROGRAM: crates/boxoffice/out/boxoffice)

Says what differs and ends with status 1 where anything does.
"""

import sys

from lib import call, change, intact, make_sites, opened, same, try_each

NORTH, SOUTH, EAST = "north.db", "south.db", "east.db"
SALES = "announce 1 gala\nrelease 2 gala 100\ncede 3 gala 40 1\nsell 4 gala 3\n"
ROW = "SELECT peer, number, verb, event, amount, target, reply, rest, delta FROM entries WHERE pos = ?"
GROWN = (None, None, "grow", None, None, 3, None, None, "")


def grows(folder: str, file: str, count: int, word: str, status: int) -> None:
    same(f"{file} to {count}", call(folder, ["grow", file, str(count)]), (status, word + "\n", ""))


def told(folder: str, words: list[str], status: int, out: str, given: str = "") -> None:
    same(" ".join(words), call(folder, words, given), (status, out, ""))


def message(folder: str, file: str, to: int) -> str:
    status, text, err = call(folder, ["export", file, str(to)])
    same(f"export {file} {to}", (status, err), (0, ""))
    return text


def growth_kept(folder: str, file: str, place: int) -> None:
    with opened(folder, file) as db:
        intact(f"{file}: integrity", db)
        same(f"{file}: the growth", db.execute(ROW, (place,)).fetchone(), GROWN)
        same(f"{file}: the count at first", db.execute("SELECT sites FROM meta").fetchone(), (2,))


def site_more(folder: str) -> None:
    """A third site, while the second has not grown yet."""
    make_sites(folder, [NORTH, SOUTH])
    told(folder, ["ask", NORTH], 0, "done\n" * 4, SALES)
    told(folder, ["import", SOUTH], 0, "joined\n", message(folder, NORTH, 1))
    told(folder, ["export", NORTH, "2"], 1, "no-site\n")
    told(folder, ["ask", NORTH], 0, "no-site\n", "cede 5 gala 7 2\n")
    grows(folder, NORTH, 2, "not-more", 1)
    grows(folder, NORTH, 3, "grown", 0)
    grows(folder, NORTH, 3, "not-more", 1)
    growth_kept(folder, NORTH, 5)
    # A refusal that was kept stays, and a new number is decided anew.
    told(folder, ["ask", NORTH], 0, "no-site\ndone\nleft 50\n", "cede 5 gala 7 2\ncede 6 gala 7 2\nleft gala\n")
    told(folder, ["find", NORTH, "6"], 0, "6 done\n")
    told(folder, ["migrate", NORTH], 1, "nothing\n")
    told(folder, ["init", NORTH, "0", "2", "1000"], 1, "already-there\n")
    listed = "0 announce 1 gala done\n1 release 2 gala 100 done\n2 cede 3 gala 40 1 done\n3 sell 4 gala 3 done\n"
    told(folder, ["list", NORTH, "gala"], 0, listed + "4 cede 5 gala 7 2 no-site\n6 cede 6 gala 7 2 done\n")
    same("init", call(folder, ["init", EAST, "2", "3", "1000"]), (0, "done\n", ""))
    told(folder, ["import", EAST], 0, "joined\n", message(folder, NORTH, 2))
    told(folder, ["ask", EAST], 0, "done\nshort 0\n", "sell 1 gala 7\nsell 2 gala 1\n")


def site_that_has_not_grown(folder: str) -> None:
    site_more(folder)
    before = message(folder, SOUTH, 0)
    for file in [NORTH, EAST]:
        told(folder, ["import", SOUTH], 1, "unknown-site\n", message(folder, file, 1))
    same("it is as it was", message(folder, SOUTH, 0), before)
    told(folder, ["ask", SOUTH], 0, "done\n", "sell 1 gala 30\n")
    told(folder, ["audit", NORTH, SOUTH], 1, "not-whole\n")
    told(folder, ["serve", "7393", "0", "0", NORTH, SOUTH], 1, "not-whole\n")
    totals = "gala released 100 sold 40 refunded 0 outstanding 40\n"
    told(folder, ["audit", NORTH, SOUTH, EAST], 0, totals)
    grows(folder, SOUTH, 3, "grown", 0)
    growth_kept(folder, SOUTH, 2)
    told(folder, ["import", SOUTH], 0, "joined\n", message(folder, EAST, 1))
    # The third site had heard of all that the first knows, and hands it on.
    told(folder, ["import", SOUTH], 0, "nothing-new\n", message(folder, NORTH, 1))
    told(folder, ["ask", SOUTH], 0, "totals released 100 sold 40 refunded 0 open 60\n", "totals gala\n")
    told(folder, ["audit", NORTH, SOUTH, EAST], 0, totals)
    told(folder, ["serve", "7393", "0", "2", NORTH, SOUTH, EAST], 0, totals)


def refusals(folder: str) -> None:
    """A full history, counts that are none, and growths that stand where none may."""
    same("init", call(folder, ["init", NORTH, "0", "2", "1"]), (0, "done\n", ""))
    told(folder, ["ask", NORTH], 0, "done\n", "announce 1 gala\n")
    grows(folder, NORTH, 3, "history-full", 1)
    grows(folder, NORTH, 2, "not-more", 1)
    for count in ["0", "65", "03", "three"]:
        status, out, err = call(folder, ["grow", NORTH, count])
        same(f"grow to {count}", (status, out, err), (2, "", "error: SITES is a count of sites, 1 to 64\n"))
    same("no file", call(folder, ["grow", "none.db", "3"]), (3, "", "not-ours\n"))
    same("init", call(folder, ["init", SOUTH, "1", "2", "1000"]), (0, "done\n", ""))
    grows(folder, SOUTH, 64, "grown", 0)
    for spoiled in [
        "delta = 'name gala' || char(10)",
        "target = 65",
        "target = 2",
        "target = NULL",
        "number = 1",
        "reply = 'done'",
    ]:
        change(
            folder,
            SOUTH,
            ["DELETE FROM entries", "INSERT INTO entries (pos, verb, target, delta) VALUES (0, 'grow', 5, '')"],
        )
        told(folder, ["find", SOUTH, "1"], 1, "none\n")
        change(folder, SOUTH, [f"UPDATE entries SET {spoiled}"])
        same(spoiled, call(folder, ["find", SOUTH, "1"]), (3, "", "damaged 0\n"))


sys.exit(try_each([site_that_has_not_grown, refusals], "sites grow in their own time"))
