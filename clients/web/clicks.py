"""What the gateway keeps in `clicks.db`: who may log in, who is logged in, and what each click came to.

A click is a row before it is asked, synced. Its `state` is one of

    asking      no reply is known yet; its number is the one that the till's journal has open, or is about to have
    done        accepted, and for good
    held        a sale that is given back by itself at `until`
    refused     a reply that is a refusal
    released    a hold that was given back

Never restore this file, or a till's journal, from a backup: it would ask an old number for a new click.
"""

from __future__ import annotations

import hashlib
import os
import secrets
import sqlite3
import threading
import time
from typing import Any

SCHEMA = """
PRAGMA journal_mode = WAL;
PRAGMA synchronous = FULL;
CREATE TABLE IF NOT EXISTS users (name TEXT PRIMARY KEY, role TEXT NOT NULL, first INTEGER, last INTEGER,
    salt BLOB NOT NULL, hash BLOB NOT NULL);
CREATE TABLE IF NOT EXISTS logins (token BLOB PRIMARY KEY, name TEXT NOT NULL, until REAL NOT NULL);
CREATE TABLE IF NOT EXISTS clicks (click TEXT PRIMARY KEY, till TEXT NOT NULL, number INTEGER NOT NULL,
    verb TEXT NOT NULL, event TEXT, seats INTEGER, sale INTEGER, at REAL NOT NULL, until REAL, state TEXT NOT NULL,
    reply TEXT, UNIQUE (till, number));
CREATE INDEX IF NOT EXISTS clicks_open ON clicks (state, until);
CREATE INDEX IF NOT EXISTS clicks_sale ON clicks (sale);
"""
ROLES = ("clerk", "manager")
NIGHT = 14 * 3600.0  # For how many seconds a login is good.
SALES_SHOWN = 40


def hashed(password: str, salt: bytes) -> bytes:
    return hashlib.scrypt(password.encode(), salt=salt, n=2**14, r=8, p=1)


def token_hash(token: str) -> bytes:
    return hashlib.sha256(token.encode()).digest()


class Clicks:
    """The database of a gateway. Threads share it; each statement is committed at once."""

    def __init__(self, path: str) -> None:
        self._lock = threading.RLock()
        self._db = sqlite3.connect(path, check_same_thread=False, isolation_level=None)
        self._db.row_factory = sqlite3.Row
        self._db.executescript(SCHEMA)
        os.chmod(path, 0o600)

    def rows(self, sql: str, *values: object) -> list[sqlite3.Row]:
        with self._lock:
            return self._db.execute(sql, values).fetchall()

    def row(self, sql: str, *values: object) -> sqlite3.Row | None:
        found = self.rows(sql, *values)
        return found[0] if found else None

    # Who may log in.

    def add_user(self, name: str, role: str, first: int | None, last: int | None) -> str:
        """Adds a clerk with a range of numbers, or a manager, and gives the password, which is not kept."""
        salt, password = secrets.token_bytes(16), secrets.token_urlsafe(9)
        self.rows("INSERT INTO users VALUES (?, ?, ?, ?, ?, ?)", name, role, first, last, salt, hashed(password, salt))
        return password

    def clerks(self) -> list[sqlite3.Row]:
        return self.rows("SELECT * FROM users WHERE role = 'clerk' ORDER BY first")

    def user_of_password(self, name: str, password: str) -> sqlite3.Row | None:
        """The user, if the password is right. It takes as long where there is none of that name."""
        user = self.row("SELECT * FROM users WHERE name = ?", name)
        wanted = user["hash"] if user else bytes(64)
        is_right = secrets.compare_digest(hashed(password, user["salt"] if user else bytes(16)), wanted)
        return user if is_right else None

    def log_in(self, name: str) -> str:
        token = secrets.token_urlsafe(32)
        self.rows("INSERT INTO logins VALUES (?, ?, ?)", token_hash(token), name, time.time() + NIGHT)
        return token

    def log_out(self, token: str) -> None:
        self.rows("DELETE FROM logins WHERE token = ?", token_hash(token))

    def user_of_token(self, token: str) -> sqlite3.Row | None:
        sql = "SELECT users.* FROM logins JOIN users USING (name) WHERE token = ? AND until > ?"
        return self.row(sql, token_hash(token), time.time())

    # Clicks.

    def click(self, click: str) -> sqlite3.Row | None:
        return self.row("SELECT * FROM clicks WHERE click = ?", click)

    def begin(self, click: str, till: str, number: int, what: "dict[str, Any]") -> None:
        """A click that is about to be asked under this number."""
        values = (
            click,
            till,
            number,
            what["verb"],
            what["event"],
            what["seats"],
            what["sale"],
            time.time(),
            what["until"],
        )
        self.rows("INSERT INTO clicks VALUES (?, ?, ?, ?, ?, ?, ?, ?, ?, 'asking', NULL)", *values)

    def drop(self, click: str) -> None:
        """The click was never asked."""
        self.rows("DELETE FROM clicks WHERE click = ?", click)

    def keep(self, click: str, reply: str) -> None:
        """What a click came to. By `low` nothing is kept of it, and its number is free for another."""
        if reply.startswith("low "):
            sql = "UPDATE clicks SET reply = ?, state = 'refused', number = -rowid WHERE click = ?"
            self.rows(sql, reply, click)
            return
        state = "CASE WHEN ? <> 'done' THEN 'refused' WHEN until IS NULL THEN 'done' ELSE 'held' END"
        self.rows(f"UPDATE clicks SET reply = ?, state = {state} WHERE click = ?", reply, reply, click)

    def asking(self, till: str) -> list[sqlite3.Row]:
        return self.rows("SELECT * FROM clicks WHERE till = ? AND state = 'asking' ORDER BY number", till)

    # Holds.

    def due(self) -> list[sqlite3.Row]:
        """The holds whose time is up."""
        return self.rows("SELECT * FROM clicks WHERE state = 'held' AND until <= ?", time.time())

    def pay(self, till: str, sale: int) -> str:
        """The state of a hold that is paid for: `done`, unless its time was up."""
        is_held = "till = ? AND number = ? AND state = 'held' AND until > ?"
        sql = f"UPDATE clicks SET state = 'done', until = NULL WHERE {is_held}"
        self.rows(sql, till, sale, time.time())
        found = self.row("SELECT state FROM clicks WHERE till = ? AND number = ?", till, sale)
        return str(found["state"]) if found else "unknown"

    def end_hold(self, till: str, sale: int) -> None:
        """The time of a hold, or of a sale whose reply is not known yet, is up now."""
        is_open = "till = ? AND number = ? AND verb = 'sell' AND state IN ('held', 'asking')"
        sql = f"UPDATE clicks SET until = ? WHERE {is_open}"
        self.rows(sql, time.time(), till, sale)

    def released(self, click: str) -> None:
        self.rows("UPDATE clicks SET state = 'released' WHERE click = ? AND state = 'held'", click)

    # What a till's page shows.

    def sales(self, till: str) -> list[dict[str, Any]]:
        """The last sales of a till, the newest first, each with how many of its seats were given back."""
        back = "SELECT sum(coalesce(r.seats, c.seats)) FROM clicks r WHERE r.sale = c.number AND r.reply = 'done'"
        sql = f"""SELECT number, event, seats, at, until, state, min(coalesce(({back}), 0), seats) AS back FROM clicks c
            WHERE till = ? AND verb = 'sell' AND state <> 'refused' ORDER BY number DESC LIMIT {SALES_SHOWN}"""
        return [dict(row) for row in self.rows(sql, till)]

    def holds(self, till: str) -> list[dict[str, Any]]:
        sql = "SELECT number, event, seats, until FROM clicks WHERE till = ? AND state = 'held' ORDER BY until"
        return [dict(row) for row in self.rows(sql, till)]
