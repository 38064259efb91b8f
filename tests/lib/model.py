"""The model: what a site and a world of sites are and answer, in plain Python, by docs/FORMAT.md.

A `Site` is its history: rows as its file has them. It knows what the deltas of all rows join to. `ask` answers a line
of a session, `take` a message, `message` is what is due to another site; `grow`, `find` and `listed` are the commands
of that name. `audit` sums up a world.
"""

from __future__ import annotations

import re
from collections.abc import Iterable, Sequence
from typing import Any

from .program import text_of
from .sites import reply_of

MOST = 10**12
KINDS = ("gave", "used", "back")
NUMBER, NAME = re.compile("0|[1-9][0-9]*"), re.compile("[a-z0-9-]{1,32}")
# What stands behind each verb: E an event, N a number, A an amount, S a site.
VERBS = {"announce": ["NE"], "release": ["NEA"], "sell": ["NEA"], "refund": ["NN", "NNA"], "cede": ["NEAS"]}
LOOKS = {"left": ["E"], "totals": ["E"]}

# The event, the kind, the site whose row it is, and of `gave` the site that has the rights.
Cell = tuple[Any, ...]
Row = tuple[Any, ...]


class Fault(Exception):
    """A text is no message, or a line none, for this reason."""


def number(word: str, least: int, most: int) -> int:
    if NUMBER.fullmatch(word) and len(word) <= 13 and least <= int(word) <= most:
        return int(word)
    raise ValueError(word)


def name(word: str) -> str:
    if NAME.fullmatch(word):
        return word
    raise ValueError(word)


def words_of(line: str) -> list[Any]:
    """The verb of a request or a look, and what stands behind it."""
    verb, *words = line.split(" ")
    for form in {**VERBS, **LOOKS}.get(verb, []):
        if len(form) == len(words):
            read = {"E": name, "N": lambda it: number(it, 1, MOST), "A": lambda it: number(it, 1, MOST)}
            read["S"] = lambda it: number(it, 0, 63)
            return [verb, *(read[kind](word) for kind, word in zip(form, words))]
    raise ValueError(line)


def cell_of(line: str) -> tuple[Cell, int]:
    """The cell and the value that an item spells."""
    kind, event, *words = line.split(" ")
    place = KINDS.index(kind)
    if len(words) != (3 if place == 0 else 2):
        raise ValueError(line)
    return (name(event), place, *(number(word, 0, 63) for word in words[:-1])), number(words[-1], 1, MOST)


def item_of(cell: Cell, value: int) -> str:
    event, kind, *sites = cell
    return " ".join([KINDS[kind], event, *map(str, sites), str(value)])


def header_of(line: str) -> tuple[str, int, int, int]:
    kind, by, to, upto = line.split(" ")
    if kind not in ("delta", "ack"):
        raise ValueError(line)
    return kind, number(by, 0, 63), number(to, 0, 63), number(upto, 1, 1_000_000)


class Message:
    """What a text says; `Fault` where it is none, with the first fault from the top."""

    def __init__(self, text: bytes) -> None:
        self.names: list[str] = []
        self.cells: list[tuple[Cell, int]] = []
        # (each byte is one letter, so that any text is read)
        rest, at = text.decode("latin-1"), 0
        header: tuple[str, int, int, int] | None = None
        while True:
            at += 1
            line, feed, rest = rest.partition("\n")
            if not feed:
                raise Fault("truncated")
            if header and line == "end":
                break
            try:
                if header is None:
                    header = header_of(line)
                else:
                    self.add(header[0], line, at)
            except ValueError:
                raise Fault(f"bad-line {at}") from None
        if rest:
            raise Fault("trailing")
        assert header
        self.kind, self.by, self.to, self.upto = header

    def add(self, kind: str, line: str, at: int) -> None:
        if kind == "ack":
            raise ValueError(line)
        if line.startswith("name "):
            event = name(line[5:])
            if self.cells or self.names and self.names[-1] >= event:
                raise Fault(f"out-of-order {at}")
            self.names.append(event)
            return
        cell, value = cell_of(line)
        if self.cells and self.cells[-1][0] >= cell:
            raise Fault(f"out-of-order {at}")
        self.cells.append((cell, value))

    def items(self) -> str:
        return text_of([*(f"name {event}" for event in self.names), *(item_of(*one) for one in self.cells)])


class Site:
    """A site: its numbers, its rows, and what they join to."""

    def __init__(self, me: int, sites: int, limit: int = 1_000_000, rows: Iterable[Row] = ()) -> None:
        self.me, self.sites, self.limit = me, sites, limit
        self.rows: list[Row] = []
        self.by_number: dict[int, Row] = {}
        self.names: set[str] = set()
        self.cells: dict[Cell, int] = {}
        self.cells_of: dict[str, dict[Cell, int]] = {}
        # What each peer has acknowledged to the office that is open.
        self.acked: dict[int, int] = {}
        self.count = sites
        # How the office that is open spares its history.
        self.low, self.reserve = False, 0
        # By sales how many seats were given back, and whether all that was left.
        self.back: dict[int, tuple[int, bool]] = {}
        for row in rows:
            self.add(row)

    def copy(self, rows: Sequence[Row] | None = None) -> Site:
        return Site(self.me, self.sites, self.limit, self.rows if rows is None else rows)

    def add(self, row: Row) -> None:
        self.rows.append(row)
        if row[2] is not None:
            self.by_number[row[2]] = row
        if row[3] == "grow":
            # How many sites it recognises.
            self.count = max(self.count, row[6])
        if row[3] == "refund" and row[7] == "done":
            given, is_all = self.back.get(row[6], (0, False))
            self.back[row[6]] = given + (row[5] or 0), is_all or row[5] is None
        for item in row[9].splitlines():
            if item.startswith("name "):
                self.names.add(item[5:])
            else:
                self.join(*cell_of(item))

    def join(self, cell: Cell, value: int) -> None:
        self.cells[cell] = max(value, self.cells.get(cell, 0))
        self.cells_of.setdefault(cell[0], {})[cell] = self.cells[cell]

    def enter(self, *columns: int | str | None) -> None:
        self.add((len(self.rows), *columns))

    def cell(self, event: str, kind: int, *sites: int) -> int:
        return self.cells.get((event, kind, *sites), 0)

    # Requests and looks.

    def ask(self, line: str, spares: bool = True) -> str:
        """The reply to a line, by an office that spares its history or as it is kept."""
        try:
            verb, *words = words_of(line)
        except ValueError:
            return "bad-line"
        if verb in LOOKS:
            return self.look(verb, words[0])
        key = self.columns(verb, words)
        if (row := self.by_number.get(words[0])) is not None:
            return reply_of(row) if row[2:7] == key else "reused"
        reply, rest, delta = self.decided(*key)
        is_reserved = self.reserve and verb not in ("refund", "cede") and len(self.rows) + self.reserve >= self.limit
        if spares and is_reserved:
            return "history-full"
        if spares and self.low and reply == "short":
            return f"low {rest}"
        if len(self.rows) >= self.limit:
            return "history-full"
        self.enter(None, *key, reply, rest, delta)
        return reply_of(self.rows[-1])

    @staticmethod
    def columns(verb: str, words: list[Any]) -> Row:
        """The columns from `number` to `target`."""
        if verb == "refund":
            return words[0], verb, None, words[2] if len(words) > 2 else None, words[1]
        more = [*words[2:], None, None]
        return words[0], verb, words[1], more[0], more[1]

    def decided(self, number: int, verb: str, event: Any, amount: Any, target: Any) -> tuple[str, int | None, str]:
        """The reply to a new request, the number in it, and what it adds."""
        me = self.me
        if verb == "announce":
            return ("known", None, "") if event in self.names else ("done", None, f"name {event}\n")
        if verb == "refund":
            return self.refunded(amount, target)
        if event not in self.names:
            return "unknown", None, ""
        if verb == "cede" and (target == me or target >= self.count):
            return "to-self" if target == me else "no-site", None, ""
        if verb in ("sell", "cede") and self.left(event) < amount:
            return "short", self.left(event), ""
        cell = (event, 1, me) if verb == "sell" else (event, 0, me, target if verb == "cede" else me)
        return self.raised(cell, amount)

    def refunded(self, amount: int | None, target: int) -> tuple[str, int | None, str]:
        sale = self.by_number.get(target)
        if sale is None or (sale[3], sale[7]) != ("sell", "done"):
            return "no-sale", None, ""
        given, is_all = self.back.get(target, (0, False))
        rest = 0 if is_all else sale[5] - given
        if rest <= 0:
            return "refunded", None, ""
        if amount is not None and amount > rest:
            return "too-many", rest, ""
        return self.raised((sale[4], 2, self.me), rest if amount is None else amount)

    def raised(self, cell: Cell, amount: int) -> tuple[str, int | None, str]:
        value = self.cells.get(cell, 0) + amount
        return ("full-cell", None, "") if value > MOST else ("done", None, item_of(cell, value) + "\n")

    def look(self, verb: str, event: str) -> str:
        if event not in self.names:
            return "unknown"
        if verb == "left":
            return f"left {self.left(event)}"
        released, sold, back = self.sums(event)
        sites = {site for cell in self.cells_of.get(event, {}) for site in cell[2:]}
        is_possible = all(self.rights(event, site) >= 0 for site in sites)
        seats = released + back - sold if is_possible else "none"
        return f"totals released {released} sold {sold} refunded {back} open {seats}"

    def left(self, event: str) -> int:
        return self.rights(event, self.me)

    def rights(self, event: str, site: int) -> int:
        """Released, given and taken back, less given away and sold."""
        rights = 0
        for (_, kind, *sites), value in self.cells_of.get(event, {}).items():
            if kind == 0 and sites[1] == site:
                rights += value
            elif kind == 0 and sites[0] == site:
                rights -= value
            elif sites[0] == site:
                rights += value if kind == 2 else -value
        return rights

    def sums(self, event: str) -> tuple[int, int, int]:
        """What was released, sold and given back by what the site knows."""
        sums = [0, 0, 0]
        for (_, kind, by, *to), value in self.cells_of.get(event, {}).items():
            if kind > 0 or to == [by]:
                sums[kind] += value
        return sums[0], sums[1], sums[2]

    def own(self) -> dict[Cell, int]:
        return {cell: value for cell, value in self.cells.items() if cell[2] == self.me}

    def session(self, lines: Iterable[str]) -> str:
        return text_of(self.ask(line) for line in lines)

    # Messages.

    def take(self, text: bytes | str) -> tuple[str, str]:
        """The word that answers a message, and the acknowledgement."""
        try:
            message = Message(text.encode() if isinstance(text, str) else text)
        except Fault as fault:
            return str(fault), ""
        if word := self.refused(message):
            return word, ""
        if message.kind == "ack":
            self.acked[message.by] = max(self.acked.get(message.by, 0), message.upto)
            return "acked", ""
        answer = f"ack {self.me} {message.by} {message.upto}\nend\n"
        is_known = all(value <= self.cells.get(cell, 0) for cell, value in message.cells)
        if is_known and set(message.names) <= self.names:
            return "nothing-new", answer
        if len(self.rows) >= self.limit:
            return "history-full", ""
        self.enter(message.by, *[None] * 7, message.items())
        return "joined", answer

    def refused(self, message: Message) -> str:
        """Why a site takes no part of a message."""
        if message.to != self.me or message.by == self.me:
            return "not-for-me"
        count = self.count
        if message.by >= count:
            return "unknown-site"
        if message.kind == "ack":
            return f"stray-ack {len(self.rows)}" if message.upto > len(self.rows) else ""
        if any(site >= count for cell, _ in message.cells for site in cell[2:]):
            return "unknown-site"
        if any(cell[2] == self.me and value > self.cells.get(cell, 0) for cell, value in message.cells):
            return "foreign-row"
        return ""

    def message(self, to: int, after: int = 0) -> str:
        """What is due to a site that acknowledged so many entries; the word where there is nothing."""
        if to == self.me or to >= self.count:
            return "no-site"
        if len(self.rows) <= after:
            return "nothing"
        part = Site(self.me, self.sites, self.limit, self.rows[after:])
        items = [f"name {event}" for event in sorted(part.names)]
        items += [item_of(*one) for one in sorted(part.cells.items())]
        return text_of([f"delta {self.me} {to} {len(self.rows)}", *items, "end"])

    # Commands.

    def grow(self, count: int) -> str:
        if count <= self.count:
            return "not-more"
        if len(self.rows) >= self.limit:
            return "history-full"
        self.enter(None, None, "grow", None, None, count, None, None, "")
        return "grown"

    def find(self, request: int) -> str:
        row = self.by_number.get(request)
        return "none" if row is None else f"{row[0]} {reply_of(row)}"

    def listed(self, event: str) -> list[str]:
        return [f"{row[0]} {line_of(row)} {reply_of(row)}" for row in self.rows if row[4] == event]

    def status(self) -> str:
        return f"site {self.me} sites {self.count} entries {len(self.rows)} limit {self.limit}"


def line_of(row: Row) -> str:
    """The line of a session that a row is of."""
    if row[3] == "refund":
        return " ".join(str(column) for column in (row[3], row[2], row[6], row[5]) if column is not None)
    return " ".join(str(column) for column in (row[3], row[2], *row[4:7]) if column is not None)


def follow(site: Site, row: Row) -> str:
    """Has the model do what an entry says. What is wrong with it, where the model makes another at that place; else
    nothing."""
    if row[3] == "grow":
        site.grow(row[6])
    elif row[1] is not None:
        head = f"delta {row[1]} {site.me} 1\n"
        word, _ = site.take(head + row[9] + "end\n")
        if word != "joined":
            return f"place {row[0]}: a message that is {word}"
    else:
        site.ask(line_of(row), spares=False)
    if site.rows[-1:] != [tuple(row)]:
        return f"place {row[0]}: {tuple(row)!r}, where the model has {site.rows[-1:]!r}"
    return ""


def replayed(me: int, sites: int, limit: int, rows: Iterable[Row]) -> str:
    """What is wrong with a history: each entry has to be the one that the model makes at its place. Else nothing."""
    site = Site(me, sites, limit)
    return next((wrong for row in rows if (wrong := follow(site, row))), "")


def audit(sites: Sequence[Site]) -> tuple[int, str]:
    """The status and the lines of an audit, or the site that shows more of another's row than that one has."""
    for viewer in sites:
        for owner in sites:
            for cell, value in viewer.cells.items():
                if cell[2] == owner.me and value > owner.cells.get(cell, 0):
                    return 1, f"ahead {viewer.me} {owner.me}\n"
    lines = []
    for event in sorted(set().union(*(site.names for site in sites))):
        released = sum(site.cell(event, 0, site.me, site.me) for site in sites)
        sold, back = (sum(site.cell(event, kind, site.me) for site in sites) for kind in (1, 2))
        lines.append(f"{event} released {released} sold {sold} refunded {back} outstanding {sold - back}")
    return 0, text_of(lines)
