#!/usr/bin/env python3
"""Raises files of the first schema to the second by the built program, and looks at what it answers before and behind.

Usage: tests/migrate.py [PROGRAM]     (PROGRAM: crates/boxoffice/out/boxoffice)

schema-1.db beside this script was written by the program of the first schema: `init site.db 0 1 1000`, and then
`announce 1 gala`, `release 2 gala 5`, `sell 9 gala 5` and `refund 10 9`.
Says what differs and ends with status 1 where anything does.
"""

import os
import shutil
import sys
from collections.abc import Iterable, Sequence

from lib import call, change, HERE, intact, opened, same, try_each
from lib.model import Row
from lib.program import Found

FILE = "site.db"
TOTALS = "gala released 5 sold 5 refunded 5 outstanding 0\n"
ROWS = "SELECT pos, peer, number, verb, event, amount, target, reply, rest, delta FROM entries ORDER BY pos"
META = "SELECT one, kind, version, me, sites, bound FROM meta"
SCHEMA = "SELECT type, name, tbl_name, sql FROM sqlite_schema ORDER BY name"
HISTORY = [
    (0, None, 1, "announce", "gala", None, None, "done", None, "name gala\n"),
    (1, None, 2, "release", "gala", 5, None, "done", None, "gave gala 0 0 5\n"),
    (2, None, 9, "sell", "gala", 5, None, "done", None, "used gala 0 5\n"),
    (3, None, 10, "refund", None, None, 9, "done", None, "back gala 0 5\n"),
]
# What the other commands are called with.
OTHERS = [
    ["grow", FILE, "2"],
    ["ask", FILE],
    ["find", FILE, "9"],
    ["list", FILE, "gala"],
    ["export", FILE, "1"],
    ["import", FILE],
    ["audit", FILE],
    ["serve", "7391", "0", "0", FILE],
]


def meta_as(version: int) -> list[Row]:
    return [(1, "ticket-escrow", version, 0, 1, 1000)]


def place(folder: str, statements: Sequence[str] = ()) -> None:
    """Puts the file of the first schema there, and changes it by C SQLite."""
    shutil.copyfile(os.path.join(HERE, "schema-1.db"), os.path.join(folder, FILE))
    if statements:
        change(folder, FILE, statements)


def bytes_of(folder: str) -> bytes:
    with open(os.path.join(folder, FILE), "rb") as file:
        return file.read()


def holds(folder: str, what: str, version: int, rows: Sequence[Row]) -> None:
    with opened(folder, FILE) as db:
        intact(f"{what}: integrity", db)
        same(f"{what}: meta", db.execute(META).fetchall(), meta_as(version))
        same(f"{what}: rows", db.execute(ROWS).fetchall(), rows)


# Each of these ends with this word, and the file is as it was.
def refused(folder: str, what: str, all_words: Iterable[list[str]], word: str) -> None:
    before = bytes_of(folder)
    for words in all_words:
        same(f"{what}: {words}", call(folder, words, "quit\n"), (3, "", word + "\n"))
        same(f"{what}: the file after {words}", bytes_of(folder), before)


def migrate(folder: str, what: str, found: Found) -> None:
    same(f"{what}: migrate", call(folder, ["migrate", FILE]), found)


def raised(folder: str) -> None:
    place(folder)
    holds(folder, "first", 1, HISTORY)
    migrate(folder, "first", (0, "migrated\n", ""))
    same("audit", call(folder, ["audit", FILE]), (0, TOTALS, ""))
    holds(folder, "second", 2, HISTORY)
    before = bytes_of(folder)
    migrate(folder, "second", (1, "nothing\n", ""))
    same("the file after nothing", bytes_of(folder), before)
    same("find", call(folder, ["find", FILE, "10"]), (0, "3 done\n", ""))
    asked = "refund 10 9\nrefund 10 9 5\nrefund 14 9 5\nsell 15 gala 5\nrefund 16 15 2\nrefund 17 15 4\nrefund 18 15\n"
    replies = "done\nreused\nrefunded\ndone\ndone\ntoo-many 3\ndone\n"
    same("ask", call(folder, ["ask", FILE], asked), (0, replies, ""))
    migrate(folder, "with parts", (1, "nothing\n", ""))


def refused_before(folder: str) -> None:
    place(folder)
    refused(folder, "the first schema", OTHERS, "other-schema 1")
    same("init", call(folder, ["init", FILE, "0", "1", "1000"]), (1, "already-there\n", ""))
    migrate(folder, "behind the refusals", (0, "migrated\n", ""))


def made_anew(folder: str) -> None:
    same("init", call(folder, ["init", FILE, "0", "1", "1000"]), (0, "done\n", ""))
    migrate(folder, "a new file", (1, "nothing\n", ""))
    holds(folder, "a new file", 2, [])
    change(folder, FILE, ["UPDATE meta SET version = 1"])
    migrate(folder, "no entry", (0, "migrated\n", ""))
    holds(folder, "no entry", 2, [])


def beside_others(folder: str) -> None:
    """What others made in the file stays as it was."""
    made = ["CREATE TABLE notes (text TEXT)", "INSERT INTO notes VALUES ('the gala is on the first night')"]
    place(
        folder, [*made, "CREATE INDEX report ON entries(event, verb)", "CREATE VIEW sales AS SELECT event FROM entries"]
    )
    with opened(folder, FILE) as db:
        before = db.execute(SCHEMA).fetchall()
    migrate(folder, "beside others", (0, "migrated\n", ""))
    holds(folder, "beside others", 2, HISTORY)
    with opened(folder, FILE) as db:
        behind = db.execute(SCHEMA).fetchall()
        notes = db.execute("SELECT * FROM notes").fetchall() if behind == before else []
    same("the schema beside others", behind, before)
    same("the notes", notes, [("the gala is on the first night",)])


def other_versions(folder: str) -> None:
    for version in [7, 3, 0, -1]:
        place(folder, [f"UPDATE meta SET version = {version}"])
        refused(folder, f"version {version}", [["migrate", FILE], *OTHERS], f"other-schema {version}")
    place(folder, ["ALTER TABLE meta ADD COLUMN zone TEXT", "UPDATE meta SET version = 2"])
    refused(folder, "version 2 with a column more", [["migrate", FILE]], "not-ours")


def none_of_ours(folder: str) -> None:
    changes = [
        ["UPDATE meta SET kind = 'seats'"],
        ["UPDATE meta SET me = 1"],
        ["UPDATE meta SET bound = 0"],
        ["DELETE FROM meta"],
        ["DROP TABLE meta"],
        ["DROP TABLE entries"],
        ["ALTER TABLE entries ADD COLUMN zone TEXT"],
    ]
    for statements in changes:
        place(folder, statements)
        refused(folder, f"{statements}", [["migrate", FILE]], "not-ours")
    same("a missing file", call(folder, ["migrate", "missing.db"]), (3, "", "not-ours\n"))
    same("it is not made", os.path.exists(os.path.join(folder, "missing.db")), False)


def damaged(folder: str) -> None:
    changes = [
        ("a hole", "DELETE FROM entries WHERE pos = 1", 1),
        ("a verb", "UPDATE entries SET verb = 'hold' WHERE pos = 2", 2),
        ("a place below 0", "UPDATE entries SET pos = -1 WHERE pos = 3", 3),
        # A part, and the reply that it is too many, are none of the first schema.
        ("a part", "UPDATE entries SET amount = 5 WHERE pos = 3", 3),
        ("a part that is too many", "UPDATE entries SET amount = 1, reply = 'too-many', rest = 0 WHERE pos = 3", 3),
        ("too many", "UPDATE entries SET reply = 'too-many', rest = 5 WHERE pos = 3", 3),
        # These read, but may not stand there.
        ("a sale of more", "UPDATE entries SET amount = 6 WHERE pos = 2", 2),
        ("another delta", "UPDATE entries SET delta = 'used gala 0 4' || char(10) WHERE pos = 2", 2),
        ("another reply", "UPDATE entries SET reply = 'refunded', delta = '' WHERE pos = 3", 3),
        ("a limit that is passed", "UPDATE meta SET bound = 3", 3),
    ]
    for what, statement, place_of in changes:
        place(folder, [statement])
        refused(folder, what, [["migrate", FILE]], f"damaged {place_of}")
        refused(folder, what, OTHERS, "other-schema 1")


def in_use(folder: str) -> None:
    place(folder)
    with opened(folder, FILE) as db:
        db.execute("BEGIN EXCLUSIVE")
        migrate(folder, "in use", (3, "", "disk\n"))
    migrate(folder, "behind it", (0, "migrated\n", ""))


TRIALS = [raised, refused_before, made_anew, beside_others, other_versions, none_of_ours, damaged, in_use]

sys.exit(try_each(TRIALS, "files of the first schema are raised, and others are refused"))
