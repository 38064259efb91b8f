"""The gateway beside an office: it looks at the office, gives back holds whose time is up, and tells the pages what
changed."""

from __future__ import annotations

import configparser
import contextlib
import os
import re
import sqlite3
import threading
import time
from typing import Any, Iterator

import boxoffice
import looks
from clicks import ROLES, Clicks
from counter import Counter, NotAsked, Unknown

LOOK_EACH, RELEASE_EACH = 0.7, 0.5  # Seconds between two looks at the office, and at the holds.
POINTS, MOVES = 1200, 8  # So many points, and last cessions, of each event are kept for the board.


class ConfigError(Exception):
    """`gateway.ini` lacks something, or has something that it cannot mean."""


class Config:
    """What `gateway.ini` says."""

    def __init__(self, folder: str) -> None:
        ini = configparser.ConfigParser(inline_comment_prefixes=("#",))
        path = os.path.join(folder, "gateway.ini")
        if not ini.read(path) or "gateway" not in ini:
            raise ConfigError(f"{path}: there is no section [gateway]")
        it = ini["gateway"]
        try:
            self.port, self.seconds = int(it["office"]), float(it.get("seconds", "4"))
            self.first, self.count = (int(word) for word in it.get("range", "1000001 1000000").split())
        except (KeyError, ValueError) as error:
            raise ConfigError(f"{path}: {error}") from error
        self.listen = it.get("listen", "127.0.0.1:8080")
        self.public, self.socket = it.get("public", "http://" + self.listen), it.get("socket")
        self.events = it.get("events", "").split()
        if not self.events or any(not re.fullmatch("[a-z0-9-]{1,32}", event) for event in self.events):
            raise ConfigError(f"{path}: events = names of events, at least one")
        if not self.listen.startswith("127.0.0.1:"):
            raise ConfigError(f"{path}: listen = 127.0.0.1:PORT; nginx or caddy serves other machines")


class Gateway:
    """What the pages share. `folder` has `gateway.ini`, and gets `clicks.db` and the journals."""

    def __init__(self, folder: str) -> None:
        self.folder, self.config = folder, Config(folder)
        self.clicks = Clicks(os.path.join(folder, "clicks.db"))
        self.counters: dict[str, Counter] = {}
        self._changed, self._version = threading.Condition(), 0
        self.seen: dict[str, Any] = {"office": "starting", "events": {}, "history": None, "silent": [], "heard": None}
        self.points: dict[str, list[dict[str, Any]]] = {}
        self.shares: dict[str, list[looks.Share]] = {}
        # The last cessions of each event: when they were seen, and what each site has more or fewer.
        self.moves: dict[str, list[dict[str, Any]]] = {}

    def add(self, name: str, role: str) -> str:
        """Adds a till or a manager, and gives the password."""
        if not re.fullmatch("[a-z0-9-]{1,30}", name) or role not in ROLES:
            raise ConfigError("a name has up to 30 small letters, digits and -; a role is clerk or manager")
        if self.clicks.row("SELECT 1 FROM users WHERE name = ?", name):
            raise ConfigError(f"there is a {name!r} already")
        if role == "manager":
            return self.clicks.add_user(name, role, None, None)
        first = self.config.first + len(self.clicks.clerks()) * self.config.count
        return self.clicks.add_user(name, role, first, first + self.config.count - 1)

    def start(self) -> None:
        config = self.config
        for user in self.clicks.clerks():
            self.counters[user["name"]] = Counter(user, self.folder, config.port, config.seconds, self.clicks)
        for work in (self._look_on, self._release_on):
            threading.Thread(target=work, daemon=True).start()

    def is_there(self) -> bool:
        return looks.is_there(self.config.port, self.config.events)

    def change(self) -> None:
        """Something that a page shows is other than before."""
        with self._changed:
            self._version += 1
            self._changed.notify_all()

    def changes(self) -> Iterator[None]:
        """Once at first, and then after each change, or each five seconds."""
        seen: int | None = None
        while True:
            with self._changed:
                if self._version == seen:
                    self._changed.wait(5.0)
                seen = self._version
            yield

    def _look_on(self) -> None:
        while True:
            try:
                found: dict[str, Any] = {
                    **looks.look(self.config.port, self.config.events, self.config.socket),
                    "heard": time.time(),
                }
            except OSError:
                found = {**self.seen, "office": "closed"}
            is_other = any(found[key] != self.seen[key] for key in ("office", "events", "silent"))
            self.seen = found
            if is_other:
                self._note(found)
                self.change()
            time.sleep(LOOK_EACH)

    def _note(self, found: dict[str, Any]) -> None:
        """One more point of each event for the board, and what was ceded since the last one."""
        for event, sums in found["events"].items():
            if sums and found["office"] == "open":
                points = self.points.setdefault(event, [])
                points.append(
                    {
                        "t": round(time.time(), 1),
                        "sold": sums["sold"] - sums["refunded"],
                        "left": sums["left"],
                        "released": sums["released"],
                        "lefts": [share[0] for share in sums["shares"] or []],
                    }
                )
                if len(points) > POINTS:
                    del points[1 : -POINTS // 2 : 2]  # Older ones are twice as far apart.
                self._note_moves(event, sums["shares"])

    def _note_moves(self, event: str, shares: list[looks.Share] | None) -> None:
        if shares:
            change = looks.moved(self.shares.get(event, shares), shares)
            self.shares[event] = shares
            if change:
                moves = self.moves.get(event, [])
                self.moves[event] = [*moves, {"t": round(time.time(), 1), "change": change}][-MOVES:]

    def _release_on(self) -> None:
        while True:
            time.sleep(RELEASE_EACH)
            # (a full disk, or a program that has the clicks' file locked: the next turn tries again)
            with contextlib.suppress(sqlite3.Error):
                self.release_due()

    def release_due(self) -> None:
        """Gives back the holds whose time is up, and asks again what a kill or a closed office left open."""
        for row in self.clicks.due():
            with contextlib.suppress(NotAsked, Unknown, OSError, boxoffice.TillError):
                if self.counters[row["till"]].give_back(row, self.is_there):
                    self.change()
        for counter in self.counters.values():
            if self.clicks.asking(counter.name) and counter.lock.acquire(blocking=False):
                try:
                    with contextlib.suppress(Unknown, OSError, boxoffice.TillError):
                        counter.settle()
                        self.change()
                finally:
                    counter.lock.release()
