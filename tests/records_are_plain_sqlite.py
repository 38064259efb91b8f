#!/usr/bin/env python3
"""Makes the records of two sites with the built program and reads them with C SQLite, column by column.

Usage: tests/records_are_plain_sqlite.py [PROGRAM]     (PROGRAM: crates/boxoffice/out/boxoffice)

Says what differs and ends with status 1 where anything does.
"""

import os
import subprocess
import sys
from collections.abc import Sequence

from lib import HERE, intact, opened, PROGRAM, same, SECONDS, try_each
from lib.model import Row

META = (
    "CREATE TABLE meta (one INTEGER PRIMARY KEY CHECK (one = 1), kind TEXT NOT NULL, version INTEGER NOT NULL,"
    " me INTEGER NOT NULL, sites INTEGER NOT NULL, bound INTEGER NOT NULL) STRICT"
)
ENTRIES = (
    "CREATE TABLE entries (pos INTEGER PRIMARY KEY, peer INTEGER, number INTEGER UNIQUE, verb TEXT, event TEXT,"
    " amount INTEGER, target INTEGER, reply TEXT, rest INTEGER, delta TEXT NOT NULL) STRICT"
)

# Each request of the first site with its reply and the columns from `peer` on.
ASKED = [
    ("announce 1 gala", "done", (None, 1, "announce", "gala", None, None, "done", None, "name gala\n")),
    ("announce 2 gala", "known", (None, 2, "announce", "gala", None, None, "known", None, "")),
    ("release 3 gala 100", "done", (None, 3, "release", "gala", 100, None, "done", None, "gave gala 0 0 100\n")),
    ("cede 4 gala 40 1", "done", (None, 4, "cede", "gala", 40, 1, "done", None, "gave gala 0 1 40\n")),
    ("sell 5 gala 61", "short 60", (None, 5, "sell", "gala", 61, None, "short", 60, "")),
    ("sell 6 gala 7", "done", (None, 6, "sell", "gala", 7, None, "done", None, "used gala 0 7\n")),
    ("refund 14 6 2", "done", (None, 14, "refund", None, 2, 6, "done", None, "back gala 0 2\n")),
    ("refund 15 6 6", "too-many 5", (None, 15, "refund", None, 6, 6, "too-many", 5, "")),
    ("refund 7 6", "done", (None, 7, "refund", None, None, 6, "done", None, "back gala 0 7\n")),
    ("refund 8 6", "refunded", (None, 8, "refund", None, None, 6, "refunded", None, "")),
    ("refund 9 5", "no-sale", (None, 9, "refund", None, None, 5, "no-sale", None, "")),
    ("cede 10 gala 1 0", "to-self", (None, 10, "cede", "gala", 1, 0, "to-self", None, "")),
    ("cede 11 gala 1 2", "no-site", (None, 11, "cede", "gala", 1, 2, "no-site", None, "")),
    ("sell 12 expo 1", "unknown", (None, 12, "sell", "expo", 1, None, "unknown", None, "")),
    (
        "release 13 gala 1000000000000",
        "full-cell",
        (None, 13, "release", "gala", 1000000000000, None, "full-cell", None, ""),
    ),
    ("sell 16 gala 5", "done", (None, 16, "sell", "gala", 5, None, "done", None, "used gala 0 12\n")),
    ("refund 17 16 2", "done", (None, 17, "refund", None, 2, 16, "done", None, "back gala 0 9\n")),
    ("sell 18 gala 1", "done", (None, 18, "sell", "gala", 1, None, "done", None, "used gala 0 13\n")),
    ("sell 19 gala 2", "done", (None, 19, "sell", "gala", 2, None, "done", None, "used gala 0 15\n")),
    ("refund 20 19 2", "done", (None, 20, "refund", None, 2, 19, "done", None, "back gala 0 11\n")),
]
OUT = [(16, "gala", 3), (18, "gala", 1)]
ITEMS = "name gala\ngave gala 0 0 100\ngave gala 0 1 40\nused gala 0 15\nback gala 0 11\n"
MESSAGE = f"delta 0 1 20\n{ITEMS}end\n"
JOINED = (0, None, None, None, None, None, None, None, ITEMS)


def run(words: list[str], given: str = "", status: int = 0) -> str:
    done = subprocess.run([PROGRAM, *words], input=given, capture_output=True, text=True, timeout=SECONDS)
    same(f"status of {' '.join(words)}", done.returncode, status)
    return done.stdout


def read(folder: str, file: str, me: int, rows: Sequence[Row]) -> None:
    path = os.path.join(folder, file)
    with opened(folder, file) as db:
        intact(f"{path}: integrity", db)
        texts = db.execute("SELECT name, sql FROM sqlite_schema WHERE type = 'table' ORDER BY name").fetchall()
        same(f"{path}: tables", texts, [("entries", ENTRIES), ("meta", META)])
        strict = db.execute(
            "SELECT name, strict FROM pragma_table_list"
            " WHERE schema = 'main' AND name IN ('meta', 'entries') ORDER BY name"
        )
        same(f"{path}: strict", strict.fetchall(), [("entries", 1), ("meta", 1)])
        meta = db.execute("SELECT one, kind, version, me, sites, bound FROM meta").fetchall()
        same(f"{path}: meta", meta, [(1, "ticket-escrow", 2, me, 2, 1000)])
        found = db.execute(
            "SELECT pos, peer, number, verb, event, amount, target, reply, rest, delta FROM entries ORDER BY pos"
        ).fetchall()
    same(f"{path}: rows", len(found), len(rows))
    for place, (row, wanted) in enumerate(zip(found, rows)):
        same(f"{path}: place {place}", row, (place, *wanted))


def two_sites(folder: str) -> None:
    first, second = os.path.join(folder, "first.db"), os.path.join(folder, "second.db")
    same("init of the first site", run(["init", first, "0", "2", "1000"]), "done\n")
    same("init of the second site", run(["init", second, "1", "2", "1000"]), "done\n")
    same("init again", run(["init", first, "0", "2", "1000"], status=1), "already-there\n")
    missing = os.path.join(folder, "missing.db")
    same("init of a site past the count", run(["init", missing, "2", "2", "1000"], status=1), "no-site\n")
    same("its file", os.path.exists(missing), False)
    asked = "".join(line + "\n" for line, _, _ in ASKED)
    same("replies", run(["ask", first], asked), "".join(reply + "\n" for _, reply, _ in ASKED))
    message = run(["export", first, "1"])
    same("message", message, MESSAGE)
    same("first import", run(["import", second], message), "joined\n")
    same("second import", run(["import", second], message), "nothing-new\n")
    read(folder, "first.db", 0, [columns for _, _, columns in ASKED])
    read(folder, "second.db", 1, [JOINED])
    # The program opens what C SQLite had open.
    same("find", run(["find", first, "5"]), "4 short 60\n")
    listed = [f"{place} {line} {reply}\n" for place, (line, reply, _) in enumerate(ASKED) if " gala" in line]
    same("list", run(["list", first, "gala"]), "".join(listed))
    with opened(folder, "first.db") as db, open(
        os.path.join(HERE, "..", "examples", "tickets-out.sql"), encoding="utf-8"
    ) as query:
        same("the tickets that are out", db.execute(query.read()).fetchall(), OUT)


sys.exit(try_each([two_sites], "the records are plain SQLite files"))
