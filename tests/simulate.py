#!/usr/bin/env python3
"""Simulates nights of several offices from one seed: callers sell, give back and cede over ports; messages between the
sites are lost, doubled, late and reordered; offices are killed (SIGKILL) and closed, lines cut, forged bytes sent,
sites added. Each answer has to be that of one model (tests/lib/model.py), and so has each file in the end, as C SQLite
reads it.

Usage: tests/simulate.py [PROGRAM] [--seconds=N] [--seed=N] [--worlds=N] [--steps=N] [--said] [--shrink=N] [--planted=K]
       (PROGRAM: crates/boxoffice/out/boxoffice; 60 seconds; each world of 2 to 4 sites takes so many STEPS: 400)

No time passes but what the programs take. Each world has a seed of its own, the first that of the run. A world that
fails is given up at its first difference. Some are found at its end alone, so the first world that fails is run again
with fewer steps, by halves and for 300 seconds at the most (--shrink), and the words that run its shortest prefix that
still fails are printed. By --said each step is printed before it is made. By --planted after the K-th step a request is
forgotten, which is found at the end.
"""

from __future__ import annotations

import collections
import os
import random
import signal
import socket
import subprocess
import sys
import tempfile
import threading
import time
from collections.abc import Callable

from lib import CHECKS, OPTIONS, PROGRAM, Caller, Office, Operator, call, free_port, rows_kept
from lib.model import Site, audit, replayed
from lib.trials import end_children, gives_up

SECONDS, STEPS = OPTIONS.number("seconds", 60), OPTIONS.count("steps", 400)
WORLDS, IS_SAID = OPTIONS.count("worlds", 1_000_000), OPTIONS.flag("said")
SHRINK, PLANTED = OPTIONS.number("shrink", 300), OPTIONS.count("planted", 0)
SEED = OPTIONS.seed()
EVENTS = ["gala", "expo", "late-show"]
# Of messages under way the most; callers of an office at once.
MOST_UNDER_WAY, MOST_AT_ONCE = 40, 6
# When no further world is begun; one that was begun has so many steps at the least.
END, LEAST = time.monotonic() + SECONDS, 40
# How long a world may take beyond what is wanted, as on a busy machine.
PATIENCE = 900


# What is printed of a world that is given up.
DIFFERS = "differs at step"


class Differs(Exception):
    """An answer is not that of the model. What comes after it would be of another history."""


class Place:
    """A site: its file, its office, and what it has to be by the model."""

    def __init__(self, folder: str, me: int, sites: int, limit: int, chance: random.Random) -> None:
        self.folder, self.me, self.file, self.chance = folder, me, f"{me}.db", chance
        self.model = Site(me, sites, limit)
        # The requests that were answered, with their replies.
        self.journal: dict[int, tuple[str, str]] = {}
        self.callers: list[Caller] = []
        words = ["init", self.file, str(me), str(sites), str(limit)]
        must(f"init of {me}", call(folder, words), (0, "done\n", ""))
        self.open()

    def open(self) -> None:
        low, reserve = self.chance.random() < 0.5, self.chance.choice([0, 0, 10, 60])
        words = [*(["--low"] if low else []), *(["--reserve", str(reserve)] if reserve else [])]
        self.model.low, self.model.reserve = low, reserve
        self.office = Office(self.folder, self.file, free_port(), 300, words=words)
        self.operator = Operator(self.office.path)
        # An office that is opened has forgotten what was acknowledged.
        self.model.acked, self.callers = {}, []

    def caller(self, chance: random.Random) -> Caller:
        """A connection, mostly one that is there."""
        if len(self.callers) < 3 and (not self.callers or chance.random() < 0.2):
            self.callers.append(Caller(self.office.port))
        return chance.choice(self.callers)

    def hang_up(self) -> None:
        for caller in [*self.callers, self.operator]:
            caller.go_away()
        self.callers = []

    def answered(self, line: str, reply: str) -> None:
        self.journal[int(line.split(" ")[1])] = line, reply

    def ask(self, chance: random.Random, line: str) -> str:
        caller, wanted = self.caller(chance), self.model.ask(line)
        reply = caller.ask(line)
        if reply == "bad-line":
            # (an office may drop a caller of whom it has read nothing else)
            self.callers.remove(caller)
            caller.go_away()
        must(f"site {self.me}: {line}", reply, wanted)
        if line.split(" ")[0] not in ("left", "totals") and not is_unkept(reply):
            self.answered(line, reply)
        return reply


def is_unkept(reply: str) -> bool:
    """Whether a reply to a request is one that keeps nothing."""
    return reply in ("bad-line", "reused", "history-full") or reply.startswith("low ")


def must(what: str, found: object, wanted: object) -> None:
    if not CHECKS.same(what, found, wanted):
        raise Differs(what)


class World:
    """Sites, what is under way between them, and the steps that may come."""

    def __init__(self, folder: str, seed: int) -> None:
        self.folder, self.chance, self.number = folder, random.Random(seed), 0
        self.done: collections.Counter[str] = collections.Counter()
        sites = self.chance.choice([2, 2, 3, 3, 4])
        self.limit = self.chance.choice([1_000_000, 1_000_000, 1_000_000, 150])
        self.places = [Place(folder, me, sites, self.limit, self.chance) for me in range(sites)]
        # Messages that were made and not dropped: to whom, and the text.
        self.under_way: list[tuple[int, str]] = []
        self.steps: list[tuple[int, Callable[[Place], None]]] = [
            (40, self.requests), (10, self.looks), (6, self.asks_again), (8, self.looks_up), (16, self.sends),
            (22, self.delivers), (4, self.loses), (8, self.many_at_once), (4, self.dies_at_work), (2, self.is_killed),
            (1, self.is_closed), (4, self.cuts), (3, self.is_sent_bytes), (1, self.grows),
        ]  # fmt: skip

    def step(self, at: int) -> None:
        (step,) = self.chance.choices([step for _, step in self.steps], [weight for weight, _ in self.steps])
        place = self.chance.choice(self.places)
        if IS_SAID:
            print(f"step {at}: {step.__name__} of site {place.me}", flush=True)
        self.done[step.__name__] += 1
        step(place)
        if at + 1 == PLANTED:
            next(place for place in self.places if place.journal).journal.popitem()

    # What callers do.

    def line(self, place: Place) -> str:
        """A request under a new number."""
        chance, event = self.chance, self.chance.choice(EVENTS[:2] + EVENTS)
        self.number += 1
        number = self.number
        sales = [row[2] for row in place.model.rows if row[3] == "sell"] or [7]
        kinds = [
            (6, f"announce {number} {event}"),
            (8, f"release {number} {event} {chance.randrange(1, 60)}"),
            (40, f"sell {number} {event} {chance.randrange(1, 9)}"),
            (10, f"refund {number} {chance.choice(sales)} {chance.randrange(1, 5)}"),
            (6, f"refund {number} {chance.choice(sales)}"),
            (12, f"cede {number} {event} {chance.randrange(1, 20)} {chance.randrange(len(self.places) + 1)}"),
            (1, f"release {number} {event} 999999999990"),
        ]
        return chance.choices([line for _, line in kinds], [weight for weight, _ in kinds])[0]

    def requests(self, place: Place) -> None:
        for _ in range(self.chance.randrange(1, 6)):
            place.ask(self.chance, self.line(place))

    def looks(self, place: Place) -> None:
        event = self.chance.choice([*EVENTS, "none"])
        for verb in ("left", "totals"):
            place.ask(self.chance, f"{verb} {event}")

    def asks_again(self, place: Place) -> None:
        """The same under its number gets the same, and another is `reused`."""
        if place.journal:
            line, _ = place.journal[self.chance.choice(sorted(place.journal))]
            place.ask(self.chance, line)
            place.ask(self.chance, " ".join([*line.split(" ")[:2], "gala", "3"]).replace("refund", "sell"))

    def looks_up(self, place: Place) -> None:
        number, event = self.chance.randrange(1, self.number + 2), self.chance.choice([*EVENTS, "none"])
        must(f"site {place.me}: find {number}", place.operator.ask(f"find {number}"), place.model.find(number))
        lines = place.model.listed(event)
        wanted = [*lines, "end"] if lines else ["none"]
        place.operator.send(f"list {event}")
        must(f"site {place.me}: list {event}", [place.operator.reply() for _ in wanted], wanted)
        status = place.operator.ask("status")
        must(f"site {place.me}: status {status}", status.startswith(place.model.status() + " "), True)

    # What goes between sites.

    def sends(self, place: Place) -> None:
        to = self.chance.randrange(len(self.places) + 1)
        text = place.operator.export(to)
        must(f"site {place.me}: export {to}", text, place.model.message(to, place.model.acked.get(to, 0)))
        if text.startswith("delta ") and len(self.under_way) < MOST_UNDER_WAY:
            self.under_way.append((to, text))

    def delivers(self, _: Place) -> None:
        """Any of those under way, so that they come late and after newer ones; some of them come again. Seldom to
        another site."""
        if not self.under_way:
            return
        at = self.chance.randrange(len(self.under_way))
        to, text = self.under_way[at] if self.chance.random() < 0.3 else self.under_way.pop(at)
        to = self.chance.randrange(len(self.places)) if self.chance.random() < 0.03 else to
        if to < len(self.places):
            self.take(self.places[to], text)

    def take(self, place: Place, text: str) -> None:
        found, wanted = place.operator.take(text), place.model.take(text)
        must(f"site {place.me}: import of {text.splitlines()[0]}", found, wanted)
        if found[1]:
            self.under_way.append((int(found[1].split(" ")[2]), found[1]))

    def loses(self, _: Place) -> None:
        if self.under_way:
            self.under_way.pop(self.chance.randrange(len(self.under_way)))

    # What breaks.

    def many_at_once(self, place: Place, is_killed: bool = False) -> None:
        """Several callers ask at once, and a message comes; perhaps the office is killed meanwhile. The order is that
        of the file."""
        lines = [self.line(place) for _ in range(self.chance.randrange(2, MOST_AT_ONCE))]
        callers = [Caller(place.office.port) for _ in lines]
        mine = [text for to, text in self.under_way if to == place.me and text.startswith("delta")]
        message = self.chance.choice(mine) if mine and self.chance.random() < 0.5 else ""
        for caller, line in zip(callers, lines):
            caller.send(line)
        word: list[tuple[str, str]] = []
        taking = threading.Thread(target=lambda: word.append(place.operator.take(message)), daemon=True)
        if message:
            taking.start()
        if is_killed:
            time.sleep(self.chance.uniform(0, 0.01))
            place.office.kill()
        replies = [caller.reply() for caller in callers]
        if message:
            taking.join(PATIENCE)
        for caller in callers:
            caller.go_away()
        if is_killed:
            place.hang_up()
            place.open()
        told = {line: reply for line, reply in zip(lines, replies) if reply}
        self.settle(place, lines, told, message, word[0][0] if word else "")

    def settle(self, place: Place, lines: list[str], told: dict[str, str], message: str, word: str) -> None:
        """Has the model do what the file has, in the order of the file; then what is not there is asked again."""
        found = {line: place.operator.ask(f"find {line.split(' ')[1]}") for line in lines}
        at = {int(kept.split(" ")[0]): line for line, kept in found.items() if kept != "none"}
        count = int(place.operator.ask("status").split(" ")[5])
        is_joined = False
        while len(place.model.rows) < count:
            line = at.get(len(place.model.rows), "")
            if line:
                # (those who ask at one moment may each find an entry that is free)
                reply = place.model.ask(line, spares=False)
                must(f"site {place.me}: {line}, as it is kept", found[line].split(" ", 1)[1], reply)
                if line in told:
                    must(f"site {place.me}: {line}, as it was answered", told[line], reply)
                place.answered(line, reply)
                continue
            must(f"site {place.me}: what is at {len(place.model.rows)}", (message != "", is_joined), (True, False))
            is_joined = True
            answered, back = place.model.take(message)
            must(f"site {place.me}: the message at {len(place.model.rows) - 1}", answered, "joined")
            self.under_way += [(int(back.split(" ")[2]), back)] if word else []
        if word and not is_joined:
            must(f"site {place.me}: the message", word, place.model.take(message)[0])
        if word and is_joined:
            must(f"site {place.me}: the message", word, "joined")
        for line in lines:
            if found[line] == "none":
                must(f"site {place.me}: {line} was not kept", is_unkept(told.get(line, "history-full")), True)
                place.ask(self.chance, line)

    def dies_at_work(self, place: Place) -> None:
        self.many_at_once(place, is_killed=True)

    def is_killed(self, place: Place) -> None:
        place.office.kill()
        place.hang_up()
        place.open()

    def is_closed(self, place: Place) -> None:
        place.hang_up()
        place.office.close()
        place.open()

    def cuts(self, place: Place) -> None:
        """A half line is not asked. A line whose caller goes away is asked or not, and once in all."""
        line = self.line(place)
        for text in (line, line + "\n"):
            caller = Caller(place.office.port)
            caller.stream.sendall(text.encode())
            if text == line:
                caller.stream.shutdown(socket.SHUT_WR)
                must(f"site {place.me}: half a line", caller.reply(), "")
            caller.go_away()
        place.ask(self.chance, line)

    def is_sent_bytes(self, place: Place) -> None:
        """Whatever comes to the port that is no line is `bad-line`, or the end of its connection, and enters
        nothing."""
        caller = Caller(place.office.port)
        lines = [b"x" + self.chance.randbytes(self.chance.randrange(0, 120)).replace(b"\n", b"") for _ in range(9)]
        lines += [b"x" * self.chance.choice([200, 201, 5000])] * (self.chance.random() < 0.5)
        try:
            caller.stream.sendall(b"\n".join(lines) + b"\n")
            caller.stream.shutdown(socket.SHUT_WR)
        except OSError:
            pass
        replies = iter(caller.reply, "")
        must(f"site {place.me}: forged bytes", {*replies} - {"bad-line"}, set())
        caller.go_away()

    def grows(self, place: Place) -> None:
        """A site recognises one more; and perhaps that one is there from then on."""
        if place.model.count > 6:
            return
        count = place.model.count + 1
        place.hang_up()
        place.office.close()
        word = place.model.grow(count)
        status = 0 if word == "grown" else 1
        must(f"site {place.me}: grow", call(self.folder, ["grow", place.file, str(count)]), (status, word + "\n", ""))
        place.open()
        if word == "grown" and count > len(self.places):
            self.places.append(Place(self.folder, len(self.places), count, self.limit, self.chance))

    # The end.

    def end(self) -> None:
        """All files against the model, the audit, and, where they heard of all, one view."""
        is_whole = self.evens()
        for place in self.places:
            place.hang_up()
            place.office.close()
            rows = rows_kept(self.folder, place.file)
            must(f"site {place.me}: its rows", rows, place.model.rows)
            model = place.model
            must(f"site {place.me}: its history", replayed(model.me, model.sites, model.limit, rows), "")
            kept = {row[2]: model.find(row[2]).split(" ", 1)[1] for row in rows if row[2] is not None}
            wanted = {number: reply for number, (_, reply) in place.journal.items()}
            must(f"site {place.me}: its journal", wanted, kept)
        files = [place.file for place in self.places]
        status, text = audit([place.model for place in self.places])
        if all(place.model.count == len(files) for place in self.places):
            must("the audit", call(self.folder, ["audit", *files], "", 600), (status, text, ""))
        self.done["worlds that agreed" if is_whole else "worlds that did not"] += 1

    def evens(self) -> bool:
        """Whether all sites show the same in the end, once each has taken all that is due to it. (A full history takes
        nothing.)"""
        for _ in range(2 * len(self.places)):
            for place in self.places:
                for to in range(len(self.places)):
                    text = place.model.message(to, 0)
                    if to != place.me and text.startswith("delta "):
                        self.take(self.places[to], text)
        views = {event: [place.model.ask(f"totals {event}") for place in self.places] for event in EVENTS}
        for place in self.places:
            for event in EVENTS:
                place.ask(self.chance, f"totals {event}")
        is_whole = all(len(place.model.rows) < place.model.limit for place in self.places)
        is_whole &= all(place.model.count == len(self.places) for place in self.places)
        if is_whole:
            for event, found in views.items():
                must(f"one view of {event}", len(set(found)), 1)
        return is_whole


def night(seed: int, done: collections.Counter[str]) -> int | None:
    """A world. After how many steps something was not as the model has it; None if all was."""
    world: World | None = None
    with tempfile.TemporaryDirectory(ignore_cleanup_errors=True) as folder:
        watch = threading.Timer(PATIENCE, gives_up, (f"the world of seed {seed}", PATIENCE, folder))
        watch.daemon = True
        watch.start()
        at = -1
        try:
            world = World(folder, seed)
            for at in range(STEPS):
                if at >= LEAST and time.monotonic() > END:
                    at -= 1
                    break
                world.step(at)
            world.end()
            return None
        except (Differs, OSError, AssertionError, ValueError, IndexError) as fault:
            if not isinstance(fault, Differs):
                CHECKS.differs(f"{fault!r}")
            print(f"it {DIFFERS} {at} of the world of seed {seed}", flush=True)
            return at + 1
        finally:
            watch.cancel()
            end_children()
            if world:
                done += world.done


def words_of(seed: int, steps: int) -> list[str]:
    """What runs a world of so many steps."""
    planted = [f"--planted={PLANTED}"] if PLANTED else []
    return [f"--seed={seed}", "--worlds=1", f"--steps={steps}", "--seconds=1000000", *planted]


def fails(seed: int, steps: int, end: float) -> bool | None:
    """Whether a world of so many steps differs; None if that is not known before time is up."""
    words = [sys.executable, "-B", os.path.abspath(__file__), f"--program={PROGRAM}", *words_of(seed, steps)]
    with subprocess.Popen([*words, "--shrink=0"], stdout=subprocess.PIPE, text=True) as run:
        try:
            out = run.communicate(timeout=max(0.1, end - time.monotonic()))[0]
        except subprocess.TimeoutExpired:
            run.terminate()
            return None
    return DIFFERS in out


def shrink(seed: int, most: int) -> None:
    """Looks by halves for the shortest prefix of a world that differs, and prints how it is run."""
    end, least, found = time.monotonic() + SHRINK, 0, most
    is_again = fails(seed, most, end)
    while is_again and found - least > 1:
        middle = (least + found) // 2
        differs = fails(seed, middle, end)
        if differs is None:
            break
        least, found = (least, middle) if differs else (middle, found)
    if not is_again:
        why = "time was up" if is_again is None else "it did not differ again: it depends on when programs run"
        print(f"the prefix was not made shorter, as {why}")
    short = "the shortest prefix that differs" if found - least <= 1 else "a prefix that differs"
    words = " ".join(["tests/simulate.py", *words_of(seed, found)])
    print(f"{short if is_again else 'the prefix'} has {found} steps: {words}")


def main() -> int:
    OPTIONS.check()
    # A run that is told to end leaves no office.
    signal.signal(signal.SIGTERM, lambda *_: sys.exit(1))
    done, count, is_shrunk = collections.Counter[str](), 0, SHRINK <= 0
    while count < WORLDS and (time.monotonic() < END or not count) and CHECKS.failed < 5:
        steps = night(SEED + count, done)
        if steps is not None and not is_shrunk:
            shrink(SEED + count, steps)
            is_shrunk = True
        count += 1
    kills = done["is_killed"] + done["dies_at_work"]
    print(f"{count} worlds, {sum(done.values())} steps, {kills} kills, {done['grows']} growths")
    print(", ".join(f"{name} {often}" for name, often in sorted(done.items())))
    return CHECKS.end("simulated: 0 differ", "simulated: {} differ")


if __name__ == "__main__":
    sys.exit(main())
