"""A till of the gateway: a range of numbers, a journal, and what the clicks of its page came to.

A click counts once. The page sends the same click again until it is answered. The gateway writes it down with its
number, synced, before the client's `Till` writes its own journal and asks. After a kill each click without a reply is
settled from the journal: what is open there is asked again; the journal's last result is the click's; and a number
that was not used yet was never asked. """

from __future__ import annotations

import os
import sqlite3
import threading
from typing import Any, Callable

import boxoffice
from clicks import Clicks


class NotAsked(Exception):
    """The office is not there, and nothing was asked."""


class Unknown(Exception):
    """No reply yet: it is asked again under the same number, `number`."""

    def __init__(self, number: int | None, why: object) -> None:
        super().__init__(str(why))
        self.number = number


def reply_of(result: boxoffice.Result) -> str:
    """The reply that a result was read from."""
    match result:
        case boxoffice.Done():
            return "done"
        case boxoffice.Short(_, left):
            return f"short {left}"
        case boxoffice.Low(left):
            return f"low {left}"
        case boxoffice.Refused(_, word, left):
            return word if left is None else f"{word} {left}"
    raise TypeError(result)


class Counter:
    """One till. Its pages share it, and ask one click at a time."""

    def __init__(self, user: sqlite3.Row, folder: str, port: int, seconds: float, clicks: Clicks) -> None:
        self.name, self.first, self.last = str(user["name"]), int(user["first"]), int(user["last"])
        self.journal, self.port, self.seconds, self.clicks = (
            os.path.join(folder, f"{self.name}.journal"),
            port,
            seconds,
            clicks,
        )
        self.lock = threading.Lock()
        self._till: boxoffice.Till | None = None
        self.waiting: int | None = None  # The number that is asked again.

    def close(self) -> None:
        if self._till:
            self._till.close()

    def _opened(self) -> boxoffice.Till:
        if self._till is None:
            try:
                self._till = boxoffice.Till(self.port, self.journal, self.first, self.last, self.seconds)
            except boxoffice.Unanswered as silence:
                open_click = self.clicks.asking(self.name)
                raise Unknown(open_click[0]["number"] if open_click else None, silence) from silence
        return self._till

    def settle(self) -> None:
        """Gives each click that has no reply the one that its number got, or drops it if its number was never asked."""
        till = self._opened()
        for row in self.clicks.asking(self.name):
            self.waiting = int(row["number"])
            if till.journal.open and till.journal.next == row["number"]:
                self.clicks.keep(row["click"], reply_of(self._resumed(till)))
            elif (last := till.journal.last) and getattr(last[1], "number", None) == row["number"]:
                self.clicks.keep(row["click"], reply_of(last[1]))
            elif row["number"] == till.journal.next or self._is_left_out(till, row["number"]):
                self.clicks.drop(row["click"])
            else:
                raise boxoffice.JournalError(
                    f"{self.journal!r} has not the number {row['number']} of clicks.db at its end"
                )
        self.waiting = None

    @staticmethod
    def _is_left_out(till: boxoffice.Till, number: int) -> bool:
        """Whether nothing was kept under a number that the journal has passed."""
        return number < till.journal.next and not till.find(number)

    def _resumed(self, till: boxoffice.Till) -> boxoffice.Result:
        try:
            resumed = till.resume()
        except boxoffice.Unanswered as silence:
            raise Unknown(self.waiting, silence) from silence
        assert resumed is not None
        return resumed[1]

    def perform(self, click: str, what: dict[str, Any], is_there: Callable[[], bool]) -> sqlite3.Row:
        """What a click came to; the same click again gets the same."""
        with self.lock:
            found = self.clicks.click(click)
            if found and found["till"] != self.name:
                raise ValueError("that click is another till's")
            if found and found["reply"]:
                return found
            self.settle()
            if not self.clicks.click(click):
                if not is_there():
                    raise NotAsked
                self._ask(click, what)
            answered = self.clicks.click(click)
            assert answered is not None
            return answered

    def _ask(self, click: str, what: dict[str, Any]) -> None:
        till = self._opened()
        self.waiting = till.journal.next
        self.clicks.begin(click, self.name, till.journal.next, what)
        try:
            sells = what["verb"] == "sell"
            result = till.sell(what["event"], what["seats"]) if sells else till.refund(what["sale"], what["seats"])
        except boxoffice.Unanswered as silence:
            raise Unknown(self.waiting, silence) from silence
        except (boxoffice.RangeUsedUp, boxoffice.BadLine):
            self.clicks.drop(click)
            raise
        self.clicks.keep(click, reply_of(result))
        self.waiting = None

    def give_back(self, row: sqlite3.Row, is_there: Callable[[], bool]) -> bool:
        """Whether a hold is given back. Its click has the number of the sale in its name, so it counts once."""
        what = {"verb": "refund", "event": None, "seats": None, "sale": row["number"], "until": None}
        reply = str(self.perform(f"release-{self.name}-{row['number']}", what, is_there)["reply"])
        if reply in ("done", "refunded"):
            self.clicks.released(row["click"])
        return reply in ("done", "refunded")

    def shown(self) -> dict[str, Any]:
        """What the page of this till shows."""
        return {"sales": self.clicks.sales(self.name), "holds": self.clicks.holds(self.name), "waiting": self.waiting}
