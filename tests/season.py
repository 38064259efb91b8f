#!/usr/bin/env python3
"""Plays a season of one house from one seed: nights that sell out in a rush at three sites, callers who keep asking for
what is sold out, refunds, exchange, and two successions by exchange/succeed, each in the middle of a rush.

usage: season.py [PROGRAM] [season] [figures] [--nights=N] [--seats=N] [--seed=S] [--model-nights=N] [--before]

season     N nights (12) of so many seats (40) over the built program. Each request has to have a reply, kept or `low`;
           each entry of each file has to be the one that the model (lib/model.py) makes at its place; and the sums of
           `audit` have to be those of the model and of the tills' replies, with no more out than was released. With
           --before the offices are opened without --low, and messages are sent each time that a script looks.
figures    Prints how many entries a night uses with and without what spares a history, and for how many nights a LIMIT
           of 1,000,000 lasts: nights (10) of 300 and of 2,000 seats by the model alone, as it is slow to play them in
           all ways. That the entries of the program are those of the model is what `season` looks at.

A night: the house announces an event, releases its seats, and cedes 30 and 20 in a hundred to two agencies. For ten
minutes 1.3 times the seats are wanted, 1 to 4 at a time. Then at each site eight callers ask 20 times each, at the same
moment, for what is sold out; in the midst of it one sale is given back to them. In two hours more one sale in twenty
is given back and sold again, and two of the night before are given back. Of all that was answered some is asked again.

A season has a clock of its own, which goes from one moment at which something happens to the next: so a night takes
seconds. Hence the scripts of exchange/ do not run, but for the last night's: what a script does when it looks, every
two seconds, is done here by the functions that it calls (office.export, office.take, and office.Sparing, by this
clock), over the sockets of the offices. The last night is exchanged by exchange/folder/boxoffice-exchange itself, with
--sparing 1.

A succession comes where nine tenths of LIMIT - R are used, or less than three nights' entries are left. LIMIT is chosen
so that this is so after a quarter of the nights, at the house's first site and again at its second; the third has room
for all that comes. An old site's office is then kept for refunds, for three nights.
"""

from __future__ import annotations

import collections
import contextlib
import os
import random
import subprocess
import sys
import tempfile
import time
from collections.abc import Callable, Iterator, Sequence
from dataclasses import dataclass
from typing import Any, Protocol
from unittest import mock

from lib import CHECKS, OPTIONS, PROGRAM, ROWS, SECONDS, TOP, Caller, Office, call, copied, free_port, make_site
from lib import opened, rows_kept, try_each
from lib.exchanges import FOLDER, comes, running, said
from lib.model import Site, audit, follow, line_of, words_of

sys.path.insert(0, os.path.join(TOP, "exchange"))
import office as scripts  # noqa: E402

NIGHTS, SEATS, MODEL_NIGHTS = OPTIONS.count("nights", 12), OPTIONS.count("seats", 40), OPTIONS.count("model-nights", 10)
IS_BEFORE = OPTIONS.flag("before")
SEED = OPTIONS.seed()
SUCCEED = os.path.join(TOP, "exchange", "succeed")
SINCE = f"SELECT * FROM ({ROWS}) WHERE pos >= ?"

# What of an event each site is to sell; where its buyers come; how many seats they want, and how often.
SHARES, WEIGHTS = (0.5, 0.3, 0.2), (5, 3, 2)
SIZES, OFTEN = (1, 2, 3, 4), (40, 40, 10, 10)
MEAN = sum(size * often for size, often in zip(SIZES, OFTEN)) / sum(OFTEN)
# Seconds of a night's clock: from one to the next, the rush, and what is sold after it; and between a script's looks.
DAY, RUSH, EVENING, EVERY = 86400.0, 600.0, 7200.0, 2.0
# Callers who keep asking at a site, and how often; of all that is wanted, against the seats.
CALLERS, ROUNDS, WANTED = 8, 20, 1.3
# The first number of a succession; for how many nights an old site gives back; replies that are asked again in a night.
FIRST, KEPT, AGAIN = 900_000_001, 3, 3
# Replies that keep nothing, of which `low` alone is an answer.
UNANSWERED = {"", "history-full", "memory", "store", "closed", "bad-line", "full", "idle"}
# Of the nights whose entries are counted by the model alone.
HOUSES = (300, 2000)


@dataclass(frozen=True)
class Way:
    """How offices are opened, and how often a message is sent for which no one waits."""

    name: str
    low: bool
    sparing: float


BEFORE = Way("before: `open`, `--sparing 0`", False, 0)
AFTER = Way("after: `--low`, `--sparing 30`", True, 30)
WAYS = [BEFORE, Way("`--low`, `--sparing 0`", True, 0), AFTER, Way("`--low`, `--sparing 300`", True, 300)]


class Differs(Exception):
    """Something is not as the model has it. What comes after it would be of another history."""


def must(what: str, found: object, wanted: object) -> None:
    if not CHECKS.same(what, found, wanted):
        raise Differs(f"{what} (the seed is {SEED})")


class Clock:
    """The season's clock, in the place of `time` in what the scripts of exchange/ call."""

    def __init__(self) -> None:
        self.now = DAY

    def monotonic(self) -> float:
        return self.now

    def __getattr__(self, name: str) -> Any:
        return getattr(time, name)


class Desk(Protocol):
    """A site as tills and scripts see it."""

    def ask(self, line: str) -> str: ...

    def at_once(self, lines: Sequence[str]) -> list[str]: ...

    def export(self, to: int) -> bytes: ...

    def take(self, message: bytes) -> tuple[str, bytes]: ...


class Modelled:
    """A site that is its model alone. Who asks at one moment is answered in turn."""

    def __init__(self, model: Site) -> None:
        self.model = model

    def ask(self, line: str) -> str:
        return self.model.ask(line)

    def at_once(self, lines: Sequence[str]) -> list[str]:
        return [self.model.ask(line) for line in lines]

    def export(self, to: int) -> bytes:
        text = self.model.message(to, self.model.acked.get(to, 0))
        return text.encode() if text.startswith("delta ") else b""

    def take(self, message: bytes) -> tuple[str, bytes]:
        word, acknowledgement = self.model.take(message)
        return word, acknowledgement.encode()


class Opened:
    """The office of a site, with a clerk and callers who stay."""

    def __init__(self, folder: str, file: str, words: Sequence[str]) -> None:
        self.office = Office(folder, file, free_port(), 600, words=words)
        self.callers = [Caller(self.office.port) for _ in range(CALLERS + 1)]

    def ask(self, line: str) -> str:
        return self.callers[-1].ask(line)

    def at_once(self, lines: Sequence[str]) -> list[str]:
        for caller, line in zip(self.callers, lines):
            caller.send(line)
        return [caller.reply() for caller, _ in zip(self.callers, lines)]

    def export(self, to: int) -> bytes:
        return scripts.export(self.office.path, to)[0]

    def take(self, message: bytes) -> tuple[str, bytes]:
        return scripts.take(self.office.path, message)

    def hang_up(self) -> None:
        for caller in self.callers:
            caller.go_away()

    def close(self) -> None:
        self.hang_up()
        self.office.close()


class Place:
    """A site: its file and its office, or none; what it has to be by the model; and what was asked there."""

    def __init__(self, folder: str, me: int, sites: int, limit: int, reserve: int, way: Way) -> None:
        self.folder, self.me, self.file, self.way = folder, me, f"{me}.db", way
        self.model = Site(me, sites, limit)
        self.model.low, self.model.reserve = way.low, reserve
        # What was asked since the file was read last; the replies that are kept; what was left of an event since then.
        self.asked: list[tuple[str, str]] = []
        self.kept: dict[int, tuple[str, str]] = {}
        self.numbers: list[int] = []
        self.lefts: dict[str, set[int]] = collections.defaultdict(set)
        self.number = 0
        self.desk: Desk = Modelled(self.model)
        self.opened: Opened | None = None

    def open(self) -> None:
        if self.folder:
            words = [*(["--low"] if self.way.low else []), "--reserve", str(self.model.reserve)]
            self.desk = self.opened = Opened(self.folder, self.file, words)

    def close(self) -> None:
        if self.opened:
            self.opened.close()
            self.opened = None

    def open_again(self) -> None:
        """After another closed the office."""
        if self.opened:
            self.opened.hang_up()
            self.opened.office.has_ended()
        self.open()

    def path(self) -> str:
        return os.path.join(self.folder, f"{self.file}-sock") if self.folder else str(self.me)

    def line(self, verb: str, *words: object) -> str:
        """A request under a new number."""
        self.number += 1
        return " ".join(map(str, (verb, self.number, *words)))

    def ask(self, line: str) -> str:
        reply = self.desk.ask(line)
        self.asked.append((line, reply))
        return reply

    def entries(self) -> int:
        """How many there are, by the office."""
        return int(scripts.answer_of(self.path(), b"status\n").split(b" ")[5])

    def follow(self) -> None:
        """Has the model do what the file has since the last time, and holds against it what was answered."""
        for event in {str(words_of(line)[2]) for line, _ in self.asked if line.startswith("sell ")}:
            self.lefts[event].add(self.model.left(event))
        if self.folder:
            with tempfile.TemporaryDirectory() as copy:
                with opened(copied(self.folder, [self.file], copy), self.file) as db:
                    rows = db.execute(SINCE, (len(self.model.rows),)).fetchall()
            for row in rows:
                must(f"site {self.me}: an entry", follow(self.model, row), "")
                for event in self.lefts:
                    self.lefts[event].add(self.model.left(event))
        for line, reply in self.asked:
            if self.folder:
                self.hold(line, reply)
            if not reply.startswith("low ") and (number := int(line.split(" ")[1])) not in self.kept:
                self.kept[number] = line, reply
                self.numbers.append(number)
        self.asked = []
        self.lefts.clear()

    def hold(self, line: str, reply: str) -> None:
        """A reply has to be kept under its number, or be `low`, of what was left at some moment."""
        must(f"site {self.me}: {line} is answered, with {reply!r}", reply not in UNANSWERED, True)
        if reply.startswith("low "):
            left, (_, _, event, amount, *_) = int(reply[4:]), words_of(line)
            is_left = left < amount and left in self.lefts[event]
            must(f"site {self.me}: {line} is {reply} by an office of such", (self.way.low, is_left), (True, True))
            return
        number = int(line.split(" ")[1])
        row = self.model.by_number.get(number)
        found = (line_of(row), self.model.find(number).split(" ", 1)[1]) if row else None
        must(f"site {self.me}: what is kept under {number}", found, (line, reply))


Pair = tuple[int, int]


class Mail:
    """What the scripts of exchange/ do, when they look. `news` are pairs of sites of which the first may have something
    for the second; `waiting` those for which a message is spared, and until when."""

    def __init__(self, clock: Clock, sparing: float) -> None:
        self.clock, self.seconds = clock, sparing
        self.places: dict[int, Place] = {}
        self.sparing: dict[Pair, scripts.Sparing] = {}
        self.news: set[Pair] = set()
        self.waiting: dict[Pair, float] = {}
        self.acks: dict[Pair, bytes] = {}
        self.joined = 0

    def add(self, place: Place) -> None:
        """A site, whose office was opened: it has forgotten what was acknowledged."""
        for peer in {*self.places} - {place.me}:
            for one, other in ((place.me, peer), (peer, place.me)):
                path = place.path() if one == place.me else self.places[one].path()
                self.sparing.setdefault((one, other), scripts.Sparing(other, self.seconds, path))
                self.news.add((one, other))
        self.places[place.me] = place
        for (me, peer), ack in self.acks.items():
            if me == place.me and peer in self.places:
                place.desk.take(ack)

    def remove(self, me: int) -> None:
        del self.places[me]
        self.news = {pair for pair in self.news if me not in pair}
        self.waiting = {pair: at for pair, at in self.waiting.items() if me not in pair}

    def has_news(self, me: int) -> None:
        self.news |= {(me, peer) for peer in self.places if peer != me}

    def exchange(self, me: int, peer: int) -> None:
        place, sparing = self.places[me], self.sparing[me, peer]
        self.news.discard((me, peer))
        self.waiting.pop((me, peer), None)
        due = place.desk.export(peer)
        if not due:
            return
        if not sparing.is_worth(due):
            self.waiting[me, peer] = sparing.at + self.seconds
            return
        sparing.sent(due)
        word, ack = self.places[peer].desk.take(due)
        must(f"a message of site {me} at site {peer}: {word}", word in ("joined", "nothing-new"), True)
        if word == "joined":
            self.joined += 1
            self.has_news(peer)
        must(f"its acknowledgement {ack!r}", place.desk.take(ack)[0], "acked")
        self.acks[me, peer] = ack

    def go(self, moment: float) -> None:
        """Looks at each moment before this one at which a look may find something."""
        while self.news or self.waiting:
            first = self.clock.now if self.news else max(self.clock.now, min(self.waiting.values()))
            look = (first // EVERY + 1) * EVERY
            if look >= moment:
                break
            self.clock.now = look
            for pair in sorted(self.news | {pair for pair, at in self.waiting.items() if at <= look}):
                self.exchange(*pair)
        self.clock.now = moment if moment < float("inf") else self.clock.now


class Season:
    """A house and two agencies, over a program or by their models alone (where there is no folder)."""

    def __init__(self, folder: str, way: Way, seats: int, limit: int = 1_000_000, reserve: int = 0) -> None:
        self.folder, self.way, self.seats, self.chance = folder, way, seats, random.Random(SEED)
        self.reserve, self.each = reserve, 0
        self.clock = Clock()
        self.mail = Mail(self.clock, way.sparing)
        self.places = [self.made(me, 3, 1_000_000 if me else limit) for me in range(3)]
        for place in self.places:
            if folder:
                make_site(folder, place.file, place.me, 3, place.model.limit)
            place.open()
            self.mail.add(place)
        self.tills = [*self.places]  # The house's site, and those of the agencies.
        self.sales: list[tuple[int, int, int]] = []  # Of the event that is on sale: site, number, seats.
        self.before: list[tuple[int, int, int]] = []
        self.successions: list[float] = []  # How many seconds it took until a till sold at the new site.
        self.lows = 0
        self.ends: list[tuple[int, Place]] = []  # After which night an old site's office is closed.

    def made(self, me: int, sites: int, limit: int) -> Place:
        return Place(self.folder, me, sites, limit, self.reserve, self.way)

    def ask(self, place: Place, verb: str, *words: object) -> str:
        """What answers a request under a new number."""
        line = place.line(verb, *words)
        reply = place.ask(line)
        self.heard(place, line, reply)
        return reply

    def heard(self, place: Place, line: str, reply: str) -> None:
        if reply.startswith("low "):
            self.lows += 1
        else:
            self.mail.has_news(place.me)
        if line.startswith("sell ") and reply == "done":
            number, _, amount = line.split(" ")[1:]
            self.sales.append((place.me, int(number), int(amount)))

    # A night.

    def night(self, at: int, is_near: bool = False) -> None:
        event, begin = f"night-{at}", DAY * (at + 1)
        self.mail.go(begin)
        self.before, self.sales = self.sales, []
        house = self.tills[0]
        must("the house announces", self.ask(house, "announce", event), "done")
        must("and releases", self.ask(house, "release", event, self.seats), "done")
        for place, share in zip(self.tills[1:], SHARES[1:]):
            must("and cedes", self.ask(house, "cede", event, int(self.seats * share), place.me), "done")
        moments = [*self.rush(event, begin + 60), *self.evening(event, begin + 60 + RUSH)]
        if is_near:
            moments.append((begin + 60 + RUSH / 4, lambda: self.succeed(at, event)))
        for moment, act in sorted(moments, key=lambda one: one[0]):
            self.mail.go(moment)
            act()
        self.mail.go(float("inf"))
        self.check(event)

    def rush(self, event: str, begin: float) -> Iterator[tuple[float, Callable[[], object]]]:
        for _ in range(int(WANTED * self.seats / MEAN)):
            (till,), (size,) = self.chance.choices(range(3), WEIGHTS), self.chance.choices(SIZES, OFTEN)
            yield begin + self.chance.uniform(0, RUSH), self.sale(till, event, size)
        for till in range(3):
            yield begin + RUSH + 10, self.storm(till, event)

    def sale(self, till: int, event: str, size: int) -> Callable[[], object]:
        return lambda: self.ask(self.tills[till], "sell", event, size)

    def storm(self, till: int, event: str) -> Callable[[], object]:
        return lambda: self.keep_asking(self.tills[till], event)

    def evening(self, event: str, begin: float) -> Iterator[tuple[float, Callable[[], object]]]:
        for _ in range(max(1, int(self.seats / MEAN / 20))):
            moment, till = begin + self.chance.uniform(60, EVENING), self.chance.randrange(3)
            yield moment, lambda: self.give_back(self.sales, event)
            yield moment + 60, self.sale(till, event, 1)
        for _ in range(2):
            yield begin + self.chance.uniform(60, EVENING), lambda: self.give_back(self.before, event)
        for _ in range(AGAIN):
            yield begin + self.chance.uniform(60, EVENING), self.ask_again

    def keep_asking(self, place: Place, event: str) -> None:
        """Callers who ask at the same moment for what is sold out, again and again: a number that got `low` is taken
        again. Once seats are given back to them."""
        lines = [""] * CALLERS
        for turn in range(ROUNDS):
            for at, line in enumerate(lines):
                lines[at] = line or place.line("sell", event, *self.chance.choices(SIZES, OFTEN))
            mine = [number for site, number, _ in self.sales if site == place.me]
            refund = [place.line("refund", self.chance.choice(mine))] if turn == ROUNDS // 2 and mine else []
            replies = place.desk.at_once([*lines, *refund])
            for at, (line, reply) in enumerate(zip([*lines, *refund], replies)):
                place.asked.append((line, reply))
                self.heard(place, line, reply)
                if at < CALLERS and not reply.startswith("low "):
                    lines[at] = ""

    def give_back(self, sales: list[tuple[int, int, int]], event: str) -> None:
        """Gives a sale back, or a part of it, where it was made. An old site cedes that to the house."""
        sales = [sale for sale in sales if sale[0] in self.mail.places]
        if not sales:
            return
        site, number, amount = self.chance.choice(sales)
        place = self.mail.places[site]
        self.ask(place, "refund", number, *([1] if amount > 1 and self.chance.random() < 0.5 else []))
        left = int(place.desk.ask(f"left {event}").split(" ")[1])
        if place not in self.tills and left:
            self.ask(place, "cede", event, left, self.tills[0].me)

    def ask_again(self) -> None:
        """A number that has a reply gives the same again; and none to another request."""
        place = self.chance.choice([*self.mail.places.values()])
        if place.numbers:
            line, reply = place.kept[self.chance.choice(place.numbers)]
            must(f"site {place.me}: {line}, again", place.desk.ask(line), reply)
            other = " ".join(["sell", line.split(" ")[1], "gala", "7"])
            must(f"site {place.me}: {other}", place.desk.ask(other), "reused")

    def check(self, event: str) -> None:
        """Each site's file against its model; then all show the same totals, which are those of the model."""
        for place in self.mail.places.values():
            place.follow()
        look = f"totals {event}"
        found = {place.desk.ask(look) for place in self.mail.places.values()}
        must("all sites show the same", (len(found), found), (1, {self.tills[0].model.ask(look)}))

    # A succession.

    def is_near(self) -> bool:
        """Whether the house's site is near the end of its history."""
        used, room = self.tills[0].entries(), self.tills[0].model.limit - self.reserve
        return 10 * used >= 9 * room or used + 3 * self.each >= room

    def succeed(self, at: int, event: str) -> None:
        """A new site takes the house's place, while a till goes on at the old one and then at the new one. (If the
        event is nearly sold out, that is left to the next night.)"""
        old, me, began = self.tills[0], len(self.places), time.monotonic()
        if int(old.desk.ask(f"left {event}").split(" ")[1]) < 5:
            return
        limit = 1_000_000 if self.successions else old.model.limit
        self.run_succeed(old, me, limit, event)
        new = self.made(me, me + 1, limit)
        new.follow()
        new.open()
        self.places.append(new)
        self.tills[0] = new
        must("a till sells at the new site", self.ask(new, "sell", event, 1), "done")
        self.successions.append(time.monotonic() - began)
        self.ends.append((at + KEPT, old))
        for place in self.mail.places.values():
            if place is not old:
                place.close()
                grown = call(self.folder, ["grow", place.file, str(me + 1)])
                must(f"site {place.me} grows", grown, (0, "grown\n", ""))
                place.open()
        for place in [*self.mail.places.values(), new]:
            self.mail.add(place)

    def run_succeed(self, old: Place, me: int, limit: int, event: str) -> None:
        """Runs exchange/succeed, which has the office closed and opened; a till buys two seats meanwhile, and asks
        again what got no reply."""
        start, line, sold, opened_again = os.path.join(self.folder, "start"), "", 0, 0
        words = [sys.executable, SUCCEED, old.file, f"{me}.db", str(FIRST), "--limit", str(limit), "--program", PROGRAM]
        words += ["--stop", f"'{PROGRAM}' close {old.file}", "--start", "touch start"]
        pipe = subprocess.PIPE
        with subprocess.Popen(words, cwd=self.folder, stdout=pipe, stderr=pipe, text=True) as script:
            try:
                while script.poll() is None:
                    if os.path.exists(start):
                        os.remove(start)
                        old.open_again()
                        opened_again += 1
                    if sold < 2:
                        line = line or old.line("sell", event, 1)
                        if (reply := old.desk.ask(line)) and reply != "closed":
                            old.asked.append((line, reply))
                            self.heard(old, line, reply)
                            line, sold = "", sold + (reply == "done")
                    time.sleep(0.05)
                out, err = script.communicate(timeout=SECONDS)
            finally:
                script.kill()
        must("succeed ends well", (script.returncode, err, f"{me}.db. Open it" in out), (0, "", True))
        must("it had the office closed and opened", opened_again, 1)
        if line:
            self.heard(old, line, old.ask(line))

    def retire(self, at: int) -> None:
        """An old site's office is closed once the events that it sold are over."""
        for last, place in self.ends:
            if last == at:
                place.close()
                self.mail.remove(place.me)

    # The last night, and the end.

    def scripted(self, event: str) -> None:
        """A night that goes by the clock on the wall, exchanged by scripts of exchange/."""
        house, open_places, sites = self.tills[0], [*self.mail.places.values()], str(len(self.places))
        os.mkdir(os.path.join(self.folder, "shared"))
        how = ["shared", "--every", "0.1", "--sparing", "1"]
        looks = [[FOLDER, str(place.me), sites, place.file, *how] for place in open_places]
        self.before, self.sales = self.sales, []
        with running(self.folder, looks):
            self.ask(house, "announce", event)
            self.ask(house, "release", event, self.seats)
            for place, share in zip(self.tills[1:], SHARES[1:]):
                seats = int(self.seats * share)
                self.ask(house, "cede", event, seats, place.me)
                comes(f"site {place.me} has what was ceded", lambda: place.desk.ask(f"left {event}"), f"left {seats}")
            moments = [*self.rush(event, 0), *self.evening(event, RUSH)]
            for _, act in sorted(moments, key=lambda one: one[0]):
                act()
            views = lambda: len({place.desk.ask(f"totals {event}") for place in open_places})  # noqa: E731
            comes("by scripts: all sites show the same", views, 1)
        lines = [line for at in range(len(looks)) for line in said(self.folder, at).splitlines() if " from " in line]
        words = {line.rsplit(": ", 1)[1] for line in lines}
        must("what scripts say of messages", words <= {*scripts.TAKEN}, True)

    def end(self, nights: int) -> None:
        """All files against the models, and the sums of `audit` against those of the replies."""
        for place in self.mail.places.values():
            place.close()
            place.follow()
        for place in self.places:
            must(f"site {place.me}: its rows", rows_kept(self.folder, place.file), place.model.rows)
        found = call(self.folder, ["audit", *(place.file for place in self.places)], seconds=600)
        status, text = audit([place.model for place in self.places])
        must("the audit", found, (status, text, ""))
        sums = {line.split(" ")[0]: [int(word) for word in line.split(" ")[2::2]] for line in text.splitlines()}
        must("the events", sorted(sums), sorted(f"night-{at}" for at in range(nights)))
        sold = self.told()
        for event, (released, used, back, out) in sums.items():
            must(f"{event}: released, sold, given back", (released, used, back), (self.seats, *sold[event]))
            must(f"{event}: no more is out than was released", out <= released, True)

    def told(self) -> dict[str, list[int]]:
        """What was sold of each event and given back, by what the tills were answered."""
        sums: dict[str, list[int]] = collections.defaultdict(lambda: [0, 0])
        for place in self.places:
            back: dict[int, int] = collections.Counter()
            for line, reply in place.kept.values():
                verb, *words = words_of(line)
                if (verb, reply) == ("sell", "done"):
                    sums[words[1]][0] += words[2]
                elif (verb, reply) == ("refund", "done"):
                    _, _, event, amount = words_of(place.kept[words[1]][0])
                    seats = words[2] if len(words) > 2 else amount - back[words[1]]
                    back[words[1]] += seats
                    sums[event][1] += seats
        return sums

    def used(self) -> list[collections.Counter[str]]:
        """The entries of the house's sites together, and of each agency: messages, refusals, other requests."""
        counts = []
        for places in ([place for place in self.places if place.me not in (1, 2)], [self.places[1]], [self.places[2]]):
            rows = [row for place in places for row in place.model.rows]
            counts.append(collections.Counter(kind_of(row) for row in rows))
        return counts


def kind_of(row: Sequence[Any]) -> str:
    return "messages" if row[1] is not None else "refused" if row[7] == "short" else "requests"


HEAD = "| Seats | Office, exchange | Requests | Refusals | Messages | All | Nights |\n" + "|---" * 7 + "|"


def shown(nights: int, season: Season) -> float:
    """Prints a row of the table, of the site that uses most entries, and how many nights 1,000,000 of them last; gives
    how many it uses a night."""
    most = max(season.used(), key=lambda count: count.total())
    each = [most[kind] / nights for kind in ("requests", "refused", "messages")]
    cells = [f"{season.seats:,}", season.way.name, *(f"{one:,.0f}" for one in [*each, sum(each)])]
    print("| " + " | ".join([*cells, f"{1_000_000 / sum(each):,.0f}"]) + " |", flush=True)
    return sum(each)


@contextlib.contextmanager
def clocked(season: Season) -> Iterator[Season]:
    """The scripts' functions go by the season's clock; by models alone they look there for what is left."""

    def left_of(path: str, events: Sequence[bytes]) -> dict[bytes, int]:
        model = season.places[int(path)].model
        return {event: model.left(event.decode()) for event in events if event.decode() in model.names}

    with mock.patch.object(scripts, "time", season.clock), contextlib.ExitStack() as stack:
        if not season.folder:
            stack.enter_context(mock.patch.object(scripts, "left_of", left_of))
        yield season


def modelled(way: Way, seats: int, nights: int) -> Season:
    passed = CHECKS.passed
    with clocked(Season("", way, seats)) as season:
        for at in range(nights):
            season.night(at)
    CHECKS.passed = passed  # (That the model agrees with itself is no check.)
    return season


def season(folder: str) -> None:
    way = BEFORE if IS_BEFORE else AFTER
    # (of which the house's site is chosen so that it is full twice)
    each = modelled(way, SEATS, 4).used()[0].total() // 4
    reserve = 60 + NIGHTS + KEPT * each
    # (so that each of the two conditions of `is_near` holds after a quarter of the nights, or later)
    began, limit = time.monotonic(), reserve + max(int(NIGHTS * each / 3.6), NIGHTS * each // 4 + 3 * each)
    print(f"{NIGHTS} nights of {SEATS} seats, {way.name}: LIMIT {limit} and R {reserve} at the house", flush=True)
    with clocked(Season(folder, way, SEATS, limit, reserve)) as found:
        found.each = each
        for at in range(NIGHTS - 1):
            found.night(at, found.is_near())
            found.retire(at)
            if (at + 1) % max(1, NIGHTS // 20) == 0:
                entries = " ".join(f"{place.me}:{len(place.model.rows)}" for place in found.places)
                print(f"night {at + 1}, {time.monotonic() - began:.0f} s, entries by sites {entries}", flush=True)
    found.scripted(f"night-{NIGHTS - 1}")
    found.end(NIGHTS)
    must("successions", len(found.successions), 2)
    # (What is not proved is slow to open a file.)
    minutes = 1 if is_proved() else 10
    must("a till sells at the new site within a minute", max(found.successions) < 60 * minutes, True)
    print(f"successions: a till sold at the new site after {', '.join(f'{one:.1f}' for one in found.successions)} s")
    kept = sum(len(place.kept) for place in found.places)
    print(f"{kept} replies were kept, and {found.lows} were low; {found.mail.joined} messages joined by the clock")
    print(f"by the program, and by the model without successions:\n{HEAD}")
    model = modelled(way, SEATS, NIGHTS)
    for played in (found, model):
        shown(NIGHTS, played)
    # (Those who ask at one moment are answered in any order, and the last night goes by another clock.)
    used, wanted = (sum(site.total() for site in played.used()[1:]) for played in (found, model))
    CHECKS.within("entries of the agencies, as the model has them", used / wanted, 0.8, 1.2)


def is_proved() -> bool:
    return "unproved" not in call("/", ["version"])[1]


def figures(_: str) -> None:
    """What a night uses, by the model, which need not be quick."""
    print(f"{MODEL_NIGHTS} nights by the model\n{HEAD}", flush=True)
    for seats in HOUSES:
        used = {way: shown(MODEL_NIGHTS, modelled(way, seats, MODEL_NIGHTS)) for way in WAYS}
        CHECKS.same(f"{seats} seats: a third is spared at the least", used[AFTER] * 3 <= used[BEFORE] * 2, True)


def main() -> int:
    status = try_each([season, figures], "a season ends whole", seconds=max(1500.0, 60.0 * NIGHTS))
    if status:
        print(f"again: tests/season.py --seed={SEED} --nights={NIGHTS} --seats={SEATS}{' --before' * IS_BEFORE}")
    return status


if __name__ == "__main__":
    sys.exit(main())
