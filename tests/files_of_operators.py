#!/usr/bin/env python3
"""Does to files what operators do to them, with C SQLite and without, and looks at what the built program answers.

Usage: tests/files_of_operators.py [PROGRAM]     (PROGRAM: crates/boxoffice/out/boxoffice)

Says what differs and ends with status 1 where anything does.
"""

import os
import shutil
import sqlite3
import subprocess
import sys
from collections.abc import Iterable, Sequence

from lib import begun, call, change, free_port, intact, opened, same, SECONDS, try_each

# Each request of a first evening with its reply.
ASKED = [
    ("announce 1 gala", "done"),
    ("release 2 gala 100", "done"),
    ("cede 3 gala 40 1", "done"),
    ("sell 4 gala 3", "done"),
]
# What operators make of a file: statistics, an index and a view for reports, a table of their own.
TENDED = [
    "CREATE INDEX report ON entries(event, verb)",
    "CREATE VIEW sold AS SELECT event, sum(amount) AS seats FROM entries"
    " WHERE verb = 'sell' AND reply = 'done' GROUP BY event",
    "CREATE TABLE notes (text TEXT)",
    "INSERT INTO notes VALUES ('the gala is on the first night')",
    "ANALYZE",
    "VACUUM",
]

# The bytes of a log without entries.
EMPTY_LOG = 41


def run(folder: str, words: list[str], given: str = "") -> str:
    status, out, err = call(folder, words, given)
    same(f"{words}: status and standard error", (status, err), (0, ""))
    return out


def ask(folder: str, file: str, asked: Sequence[tuple[str, str]]) -> None:
    lines, replies = "".join(line + "\n" for line, _ in asked), "".join(reply + "\n" for _, reply in asked)
    same(f"{file}: replies", run(folder, ["ask", file], lines), replies)


def make(folder: str, file: str, site: int = 0) -> None:
    same(f"{file}: init", run(folder, ["init", file, str(site), "2", "1000"]), "done\n")


def commands(file: str) -> list[list[str]]:
    """The commands that open a site's file and read its history."""
    lookups = [["ask", file], ["find", file, "1"], ["list", file, "gala"], ["export", file, "1"], ["import", file]]
    return [*lookups, ["grow", file, "3"], ["audit", file], ["serve", str(free_port()), "0", "0", file]]


def all_commands(file: str) -> list[list[str]]:
    """Those, and the one that reads no history of a file of this schema. Only `init` makes a file."""
    return [*commands(file), ["migrate", file]]


def tree(folder: str) -> dict[str, str | bytes]:
    found: dict[str, str | bytes] = {}
    for name in sorted(os.listdir(folder)):
        path = os.path.join(folder, name)
        if not os.path.exists(path):
            found[name] = os.readlink(path)
            continue
        with open(path, "rb") as file:
            found[name] = file.read()
    return found


# Each of these commands ends with this word, and no byte of the folder is another.
def refused(folder: str, what: str, all_words: Iterable[list[str]], word: str) -> None:
    before = tree(folder)
    for words in all_words:
        same(f"{what}: {words}", call(folder, words, "quit\n"), (3, "", word + "\n"))
        same(f"{what}: the folder after {words}", tree(folder), before)


def tended(folder: str) -> None:
    make(folder, "north.db")
    make(folder, "south.db", 1)
    ask(folder, "north.db", ASKED)
    change(folder, "north.db", TENDED)
    more = [
        ("sell 4 gala 3", "done"),
        ("sell 5 gala 61", "short 57"),
        ("sell 6 gala 2", "done"),
        ("left gala", "left 55"),
    ]
    ask(folder, "north.db", more)
    same("find", run(folder, ["find", "north.db", "6"]), "5 done\n")
    kept = ASKED + more[1:3]
    listed = "".join(f"{place} {line} {reply}\n" for place, (line, reply) in enumerate(kept))
    same("list", run(folder, ["list", "north.db", "gala"]), listed)
    message = run(folder, ["export", "north.db", "1"])
    same("import beside", run(folder, ["import", "south.db"], message), "joined\n")
    ask(folder, "south.db", [("sell 1 gala 40", "done")])
    back = run(folder, ["export", "south.db", "0"])
    same("import", run(folder, ["import", "north.db"], back), "joined\n")
    same("import again", run(folder, ["import", "north.db"], back), "nothing-new\n")
    same("init again", call(folder, ["init", "north.db", "0", "2", "1000"]), (1, "already-there\n", ""))
    with opened(folder, "north.db") as db:
        intact("integrity", db)
        same("the view", db.execute("SELECT * FROM sold").fetchall(), [("gala", 5)])
        count = db.execute("SELECT count(*) FROM entries INDEXED BY report WHERE event = 'gala'").fetchone()
        same("the index", count, (len(kept),))
        same("the table", db.execute("SELECT count(*) FROM notes").fetchone(), (1,))
    change(folder, "north.db", ["VACUUM"])
    ask(folder, "north.db", [("refund 7 6", "done"), ("left gala", "left 57")])


def too_short(folder: str) -> None:
    refused(folder, "a missing file", all_commands("missing"), "not-ours")
    for name, content in [("empty", b""), ("one", b"x")]:
        with open(os.path.join(folder, name), "wb") as file:
            file.write(content)
        refused(folder, f"a file of {len(content)} bytes", all_commands(name), "not-ours")
    make(folder, "empty")
    ask(folder, "empty", ASKED)


def link_to_nothing(folder: str) -> None:
    os.symlink("nowhere.db", os.path.join(folder, "link.db"))
    refused(folder, "a link to no file", all_commands("link.db"), "not-ours")
    refused(folder, "a link to no file", [["init", "link.db", "0", "2", "1000"]], "disk")


def paths_as_they_stand(folder: str) -> None:
    for name in [":memory:", "file:x", "file:x?mode=memory"]:
        refused(folder, name, all_commands(name), "not-ours")
        make(folder, name)
        ask(folder, name, ASKED)
        same(f"{name}: find", run(folder, ["find", name, "4"]), "3 done\n")
        same(f"{name}: its file", os.path.isfile(os.path.join(folder, name)), True)
    make(folder, os.path.join(folder, "whole.db"))
    os.mkdir(os.path.join(folder, "inner"))
    make(os.path.join(folder, "inner"), "../beside.db")
    same(
        "their files", [os.path.isfile(os.path.join(folder, name)) for name in ["whole.db", "beside.db"]], [True, True]
    )


def no_database(folder: str) -> None:
    texts = [("notes.txt", b"what to do tonight\n" * 400), ("short.txt", b"notes\n"), ("zeros", bytes(4096))]
    for name, content in texts:
        with open(os.path.join(folder, name), "wb") as file:
            file.write(content)
        refused(folder, name, all_commands(name) + [["init", name, "0", "2", "1000"]], "not-ours")
    change(folder, "other.db", ["CREATE TABLE seats (number INTEGER)", "INSERT INTO seats VALUES (7)"])
    before = tree(folder)
    for words in all_commands("other.db"):
        same(f"a database of others: {words}", call(folder, words, "quit\n"), (3, "", "not-ours\n"))
        after = tree(folder)
        log = after.pop("other.db-wal")
        same(f"the folder after {words}, but for a log that holds nothing", (after, len(log)), (before, EMPTY_LOG))


def damaged(folder: str) -> None:
    make(folder, "site.db")
    ask(folder, "site.db", ASKED)
    with opened(folder, "site.db") as db:
        (size,) = db.execute("PRAGMA page_size").fetchone()
        roots = db.execute("SELECT rootpage FROM sqlite_schema WHERE rootpage > 0 ORDER BY rootpage").fetchall()
    path = os.path.join(folder, "site.db")
    with open(path, "rb") as file:
        whole = file.read()
    all_words = commands("site.db") + [["init", "site.db", "0", "2", "1000"]]
    for (root,) in roots:
        for rot in [bytes(size), b"\xff" * size]:
            with open(path, "r+b") as file:
                file.seek((root - 1) * size)
                file.write(rot)
            for words in all_words:
                same(f"page {root} damaged: {words}", call(folder, words, "quit\n"), (3, "", "disk\n"))
            with open(path, "r+b") as file:
                same(
                    f"page {root} damaged: the file",
                    file.read(),
                    whole[: (root - 1) * size] + rot + whole[root * size :],
                )
                file.seek(0)
                file.write(whole)
    same("mended", run(folder, ["find", "site.db", "4"]), "3 done\n")


def other_records(folder: str) -> None:
    changes = [
        ("newer", ["UPDATE meta SET version = 7"], "other-schema 7"),
        ("wider", ["ALTER TABLE meta ADD COLUMN zone TEXT", "UPDATE meta SET version = 3"], "other-schema 3"),
        ("hole", ["DELETE FROM entries WHERE pos = 1"], "damaged 1"),
        ("forged", ["UPDATE entries SET amount = 4 WHERE pos = 3"], "damaged 3"),
        ("without", ["DROP TABLE meta"], "not-ours"),
        ("kind", ["UPDATE meta SET kind = 'seats'"], "not-ours"),
        ("sites", ["UPDATE meta SET me = 2"], "not-ours"),
    ]
    for name, statements, word in changes:
        make(folder, name)
        ask(folder, name, ASKED)
        change(folder, name, statements)
        before = tree(folder)[name]
        for words in commands(name):
            same(f"{name}: {words}", call(folder, words, "quit\n"), (3, "", word + "\n"))
        same(f"{name}: the file", tree(folder)[name], before)
        with opened(folder, name) as db:
            intact(f"{name}: integrity", db)


def locked_out(folder: str) -> None:
    """What cannot be read beside our tables locks a site out until it is dropped again, and no entry is lost."""
    changes = [
        ("partial", ["CREATE INDEX report ON entries(event) WHERE verb = 'sell'"], ["DROP INDEX report"]),
        ("expression", ["CREATE INDEX report ON entries(event || verb)"], ["DROP INDEX report"]),
        ("trigger", ["CREATE TRIGGER seen AFTER INSERT ON entries BEGIN SELECT 1; END"], ["DROP TRIGGER seen"]),
        ("window", ["CREATE VIEW sold AS SELECT sum(amount) OVER (ORDER BY pos) FROM entries"], ["DROP VIEW sold"]),
        (
            "refers",
            ["CREATE TABLE a (n INTEGER PRIMARY KEY)", "CREATE TABLE b (n INTEGER REFERENCES a(n))"],
            ["DROP TABLE b"],
        ),
        (
            "added",
            ["CREATE TABLE a (n INTEGER)", "INSERT INTO a VALUES (1)", "ALTER TABLE a ADD COLUMN m INTEGER DEFAULT 7"],
            ["DROP TABLE a"],
        ),
    ]
    if ("ENABLE_FTS5",) in sqlite3.connect(":memory:").execute("PRAGMA compile_options").fetchall():
        changes.append(("virtual", ["CREATE VIRTUAL TABLE words USING fts5(text)"], ["DROP TABLE words"]))
    for name, made, dropped in changes:
        make(folder, name)
        ask(folder, name, ASKED)
        change(folder, name, made)
        for words in commands(name):
            same(f"{name}: {words}", call(folder, words, "quit\n"), (3, "", "not-ours\n"))
        change(folder, name, dropped)
        ask(folder, name, [("sell 5 gala 2", "done"), ("left gala", "left 55")])
    make(folder, "vacuumed")
    ask(folder, "vacuumed", ASKED)
    change(folder, "vacuumed", ["PRAGMA auto_vacuum = 1", "VACUUM"])
    for words in commands("vacuumed"):
        same(f"vacuumed: {words}", call(folder, words, "quit\n"), (3, "", "disk\n"))
    with opened(folder, "vacuumed") as db:
        db.execute("PRAGMA auto_vacuum = 0")
        db.execute("VACUUM")
    ask(folder, "vacuumed", [("sell 5 gala 2", "done"), ("left gala", "left 55")])


def made_anew(folder: str) -> None:
    """Our tables, made anew by hand, are ours only by the same texts, in the same order, with no table before them."""
    make(folder, "site.db")
    ask(folder, "site.db", ASKED)
    with opened(folder, "site.db") as db:
        meta, entries = (
            text for (text,) in db.execute("SELECT sql FROM sqlite_schema WHERE type = 'table' ORDER BY rootpage")
        )
        rows = {name: db.execute(f"SELECT * FROM {name}").fetchall() for name in ["meta", "entries"]}
    checked = meta.replace("sites INTEGER NOT NULL", "sites INTEGER NOT NULL CHECK (sites > 0)")
    changes = [
        ("same", [meta, entries], True),
        ("turned", [entries, meta], False),
        ("checked", [checked, entries], False),
        ("letters", [meta.replace("meta", "Meta"), entries], False),
        ("behind", ["CREATE TABLE notes (text TEXT)", meta, entries], False),
    ]
    for name, made, is_ours in changes:
        make(folder, name)
        change(folder, name, ["DROP TABLE meta", "DROP TABLE entries", *made])
        with opened(folder, name) as db:
            for table, values in rows.items():
                db.executemany(f"INSERT INTO {table} VALUES ({', '.join('?' * len(values[0]))})", values)
        if is_ours:
            ask(folder, name, [("sell 5 gala 2", "done"), ("left gala", "left 55")])
        else:
            for words in commands(name):
                same(f"{name}: {words}", call(folder, words, "quit\n"), (3, "", "not-ours\n"))


def in_use(folder: str) -> None:
    make(folder, "site.db")
    with opened(folder, "site.db") as db:
        db.execute("BEGIN EXCLUSIVE")
        for words in commands("site.db"):
            same(f"in use: {words}", call(folder, words, "quit\n"), (3, "", "disk\n"))
    ask(folder, "site.db", ASKED)


def not_plain_files(folder: str) -> None:
    """A folder, and a file of two names, are told as `disk`, and so is a file whose journal C SQLite has to play back
    first."""
    os.mkdir(os.path.join(folder, "folder.db"))
    for words in all_commands("folder.db") + [["init", "folder.db", "0", "2", "1000"]]:
        same(f"a folder: {words}", call(folder, words, "quit\n"), (3, "", "disk\n"))
    same(
        "made beside or in a folder",
        (os.listdir(folder), os.listdir(os.path.join(folder, "folder.db"))),
        (["folder.db"], []),
    )
    shutil.rmtree(os.path.join(folder, "folder.db"))
    make(folder, "site.db")
    ask(folder, "site.db", ASKED)
    os.link(os.path.join(folder, "site.db"), os.path.join(folder, "again.db"))
    for name in ["site.db", "again.db"]:
        refused(folder, "a second name", all_commands(name), "disk")
    os.remove(os.path.join(folder, "again.db"))
    with opened(folder, "site.db") as db:
        db.execute("PRAGMA journal_mode = DELETE")
        db.execute("CREATE TABLE notes (text TEXT)")
        db.execute("PRAGMA cache_size = 1")
        db.execute("BEGIN")
        db.executemany("INSERT INTO notes VALUES (?)", [("the gala is on the first night" * 40,)] * 400)
        for name in ["site.db", "site.db-journal"]:
            shutil.copyfile(os.path.join(folder, name), os.path.join(folder, "stopped" + name))
        db.execute("ROLLBACK")
    refused(folder, "a journal to play back", all_commands("stoppedsite.db"), "disk")
    with opened(folder, "stoppedsite.db") as db:
        intact("played back", db)
        same("played back: the notes", db.execute("SELECT count(*) FROM notes").fetchone(), (0,))
    same("played back: its journal", os.path.exists(os.path.join(folder, "stoppedsite.db-journal")), False)
    for name in ["site.db", "stoppedsite.db"]:
        ask(folder, name, [("sell 5 gala 2", "done"), ("left gala", "left 55")])


def input_still_open(folder: str) -> None:
    """A command whose records are refused ends though its input does not."""
    make(folder, "site.db")
    change(folder, "site.db", ["UPDATE meta SET version = 7"])
    for words in [["ask", "site.db"], ["import", "site.db"]]:
        with begun(folder, words, stdin=subprocess.PIPE) as program:
            assert program.stdout and program.stderr
            try:
                status = program.wait(SECONDS)
            except subprocess.TimeoutExpired:
                program.kill()
                status = None
            told = status, program.stdout.read(), program.stderr.read()
            same(f"{words}, its input open", told, (3, b"", b"other-schema 7\n"))


def words_not_understood(folder: str) -> None:
    bad: list[list[str | bytes]] = [
        ["find", b"\xff.db", "1"],
        ["init", b"\xff.db", "0", "2", "1000"],
        ["list", "site.db", b"gal\xe4"],
        [b"\xff"],
    ]
    for words in bad:
        status, out, err = call(folder, words)
        same(f"{words}: status and standard output", (status, out), (2, ""))
        same(f"{words}: a text", err.strip() != "", True)
    same("made by words that are not understood", os.listdir(folder), [])


TRIALS = [
    tended,
    too_short,
    link_to_nothing,
    paths_as_they_stand,
    no_database,
    damaged,
    other_records,
    locked_out,
    made_anew,
    in_use,
    not_plain_files,
    input_still_open,
    words_not_understood,
]

sys.exit(try_each(TRIALS, "the files bear what operators do"))
