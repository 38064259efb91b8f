#!/usr/bin/env python3
"""Tills sell at three sites, two at each, while lines are cut and slowed, messages come late, twice and after newer
ones, and offices, brokers and scripts are killed (SIGKILL), in rounds of some seconds. By a folder, and by brokers in
network namespaces.

Usage: tests/partition.py [PROGRAM] [folder|brokers ..] [--rounds=N] [--within=SECONDS] [--pause=SECONDS] [--seed=N]
       [--longest=SECONDS]
       (PROGRAM: crates/boxoffice/out/boxoffice; 3 rounds of each; within 30 seconds; tills pause up to 0.03 seconds;
       each of both may take so many SECONDS: 300, and 60 for each round)

At each look no site knows of more seats sold than released, and neither do the tills' journals. When all is whole
again, all sites have to agree within so many SECONDS. Then each reply that a till read has to be in its site's file
once, under its number, and no request beside them; and by C SQLite's sums each seat is sold or left somewhere.

The seed, printed first, gives what happens, though not at which moment of a request. Says what differs and ends with
status 1 where anything does, also where it does not end in time. Without mosquitto, or the right to make network
namespaces (root and iproute2), brokers are not tried; without netem in the kernel, no packet is lost, repeated or
reordered, and only a relay delays what a site publishes. It says so and passes.
"""

from __future__ import annotations

import collections
import contextlib
import ctypes
import itertools
import os
import random
import re
import shutil
import signal
import socket
import sqlite3
import subprocess
import sys
import threading
import time
from collections.abc import Callable, Iterator, Sequence
from typing import Any

from lib import call, intact, Office, opened, Operator, OPTIONS, same, SECONDS, try_each
from lib.exchanges import CITIES, FOLDER, NEEDED, OFTEN, Brokers, free_port
from lib.trials import AT_END

import boxoffice
from boxoffice import Done, Result, Till

SEED = OPTIONS.seed()
ROUNDS, WITHIN, PAUSE = OPTIONS.count("rounds", 3), OPTIONS.number("within", 30), OPTIONS.number("pause", 0.03)
LONGEST = OPTIONS.number("longest", 300 + 60 * ROUNDS)
SITES, TILLS, FIRST_RELEASE, RELEASE = range(3), range(2), 300, 40
PORT = 8883
# What a site's line does to its packets, where the kernel can.
NETEM = "netem delay 80ms 60ms reorder 25% 50% duplicate 10% loss 5%".split()
TOTALS = re.compile("totals released ([0-9]+) sold ([0-9]+) refunded ([0-9]+) open ([0-9]+|none)")


# What breaks at a site until the end of a `with`, which has what it is.
Fault = Callable[[int], contextlib.AbstractContextManager[str]]
# The words that run a site's script, and what its environment has more.
Script = tuple[list[str], dict[str, str]]
LIBC = ctypes.CDLL(None, use_errno=True)


class Space:
    """A network namespace of a site's own, with a line to a switch."""

    def __init__(self, me: int) -> None:
        self.name, self.line = f"box-{os.getpid()}-{me}", f"line{me}"
        self.words = ["ip", "netns", "exec", self.name]

    def make(self, hub: str, address: str) -> None:
        ip("netns", "add", self.name)
        ip("link", "add", "line", "netns", self.name, "type", "veth", "peer", "name", self.line, "netns", hub)
        ip("-n", hub, "link", "set", self.line, "master", "switch", "up")
        ip("-n", self.name, "address", "add", address + "/24", "dev", "line")
        ip("-n", self.name, "link", "set", "lo", "up")
        ip("-n", self.name, "link", "set", "line", "up")

    def enter(self) -> None:
        """This thread's sockets belong to the namespace from here on."""
        handle = os.open(f"/run/netns/{self.name}", os.O_RDONLY)
        failed = LIBC.setns(handle, 0x40000000)
        os.close(handle)
        if failed:
            raise OSError(ctypes.get_errno(), "setns")


def ip(*words: str, program: str = "ip") -> None:
    subprocess.run([program, *words], check=True, capture_output=True, timeout=SECONDS)


class Relay(threading.Thread):
    """Passes on the connections of a site to one broker, and delays each piece by up to `delay` seconds."""

    def __init__(self, space: Space, target: tuple[str, int]) -> None:
        super().__init__(daemon=True)
        self.space, self.target, self.delay, self.is_ready = space, target, 0.0, threading.Event()
        self.port = 0
        self.start()
        self.is_ready.wait(SECONDS)

    def run(self) -> None:
        self.space.enter()
        listener = socket.create_server(("127.0.0.1", 0))
        self.port = listener.getsockname()[1]
        self.is_ready.set()
        while True:
            threading.Thread(target=self.serve, args=(listener.accept()[0],), daemon=True).start()

    def serve(self, near: socket.socket) -> None:
        self.space.enter()
        with near, contextlib.suppress(OSError), socket.create_connection(self.target, 20) as far:
            far.settimeout(None)
            back = threading.Thread(target=self.pump, args=(far, near), daemon=True)
            back.start()
            self.pump(near, far)
            back.join(20)

    def pump(self, source: socket.socket, sink: socket.socket) -> None:
        with contextlib.suppress(OSError):
            while piece := source.recv(4096):
                time.sleep(random.uniform(0, self.delay))
                sink.sendall(piece)
        with contextlib.suppress(OSError):
            sink.shutdown(socket.SHUT_WR)


def contents(path: str) -> bytes:
    """Those of a file; none where it is not there."""
    with contextlib.suppress(FileNotFoundError), open(path, "rb") as file:
        return file.read()
    return b""


class ByFolder:
    """Each site has a folder of its own. What a site wrote is copied to the others, unless either is cut off. To a site
    whose line is slow each text comes twice, up to a second late: so it comes again, and after a newer one."""

    def __init__(self, folder: str, chance: random.Random) -> None:
        self.folder, self.chance, self.is_over = folder, chance, threading.Event()
        self.came: collections.Counter[str] = collections.Counter()
        # Sites that are cut off; to which nothing comes; whose line is slow; and what was in their folders some rounds
        # ago.
        self.cut: set[int] = set()
        self.held: set[int] = set()
        self.slow: set[int] = set()
        self.late: dict[str, bytes] = {}
        # What is under way to sites whose lines are slow. By paths: what was sent, how often that changed, and which
        # came last.
        self.under_way: list[tuple[float, int, int, str, bytes, int]] = []
        self.sent: dict[str, bytes] = {}
        self.changes: collections.Counter[str] = collections.Counter()
        self.last: dict[str, int] = {}
        for me in SITES:
            os.mkdir(self.place(me))
        self.thread = threading.Thread(target=self.run, daemon=True)
        self.thread.start()

    def place(self, me: int) -> str:
        return os.path.join(self.folder, f"shared-{me}")

    def enter(self, me: int) -> None:
        """What a thread or a program of a site does first."""

    def port(self, me: int) -> int:
        return free_port()

    def script(self, me: int) -> Script:
        return [FOLDER, str(me), str(len(SITES)), f"{CITIES[me]}.db", self.place(me), *OFTEN], {}

    def run(self) -> None:
        while not self.is_over.wait(0.05):
            for me, peer in itertools.permutations(SITES, 2):
                for name in os.listdir(self.place(me)) if self.is_open(me, peer) else ():
                    if name.startswith(f"{me}-"):
                        self.send(
                            me, peer, contents(os.path.join(self.place(me), name)), os.path.join(self.place(peer), name)
                        )
            self.deliver()

    def send(self, me: int, peer: int, text: bytes, path: str) -> None:
        is_new = text != self.sent.get(path)
        self.sent[path] = text
        self.changes[path] += is_new
        if peer not in self.slow:
            self.put(path, text, self.changes[path])
        elif is_new:
            late = [time.monotonic() + random.uniform(0, 1) for _ in range(2)]
            self.under_way += [(at, me, peer, path, text, self.changes[path]) for at in late]

    def is_open(self, me: int, peer: int) -> bool:
        return not {me, peer} & self.cut and peer not in self.held

    def deliver(self) -> None:
        """What was slow arrives, in the order of its delays."""
        for piece in sorted(self.under_way):
            at, me, peer, path, text, change = piece
            if at <= time.monotonic() and self.is_open(me, peer):
                last = self.last.get(path, 0)
                self.came["late" if change > last else "twice" if change == last else "after a newer one"] += 1
                self.put(path, text, change)
                self.under_way.remove(piece)

    def put(self, path: str, text: bytes, change: int) -> None:
        self.last[path] = change
        if contents(path) != text:
            with open(path, "wb") as file:
                file.write(text)

    def faults(self) -> list[Fault]:
        return [self.is_cut, self.is_slow, self.is_torn, self.comes_late]

    @contextlib.contextmanager
    def is_cut(self, me: int) -> Iterator[str]:
        self.cut.add(me)
        yield f"{CITIES[me]} is cut off"
        self.cut.discard(me)

    @contextlib.contextmanager
    def is_slow(self, me: int) -> Iterator[str]:
        self.slow.add(me)
        yield f"what comes to {CITIES[me]} comes late, twice, and after newer ones"
        self.slow.discard(me)

    def hold(self, me: int) -> list[str]:
        """The files of others in the folder of a site, to which nothing comes from here on."""
        self.held.add(me)
        time.sleep(0.1)
        return [os.path.join(self.place(me), name) for name in os.listdir(self.place(me)) if name[0] not in f"{me}."]

    @contextlib.contextmanager
    def is_torn(self, me: int) -> Iterator[str]:
        for path in self.hold(me):
            os.truncate(path, os.path.getsize(path) // 2)
        yield f"what came to {CITIES[me]} is torn"
        self.held.discard(me)

    @contextlib.contextmanager
    def comes_late(self, me: int) -> Iterator[str]:
        """What others wrote some rounds ago takes the place of what they wrote last."""
        for path in self.hold(me):
            now = contents(path)
            earlier = self.late.setdefault(path, now)
            self.came["after a newer one" if earlier != now else "twice"] += 1
            with open(path, "wb") as file:
                file.write(earlier)
            if self.chance.random() < 0.5:
                self.late[path] = now
        yield f"older messages come to {CITIES[me]}"
        self.held.discard(me)

    def end(self) -> None:
        self.is_over.set()
        self.thread.join(SECONDS)


class ByBrokers:
    """Each site has a network namespace, with a broker, and a relay to each other broker."""

    def __init__(self, folder: str, chance: random.Random, has_netem: bool) -> None:
        self.folder, self.chance, self.has_netem = folder, chance, has_netem
        self.old: dict[str, bytes] = {}
        self.came: collections.Counter[str] = collections.Counter()
        self.brokers: Brokers | None = None
        self.hub, self.spaces = f"box-{os.getpid()}-hub", [Space(me) for me in SITES]
        try:
            self.make()
        except BaseException:
            self.end()
            raise

    def make(self) -> None:
        ip("netns", "add", self.hub)
        ip("-n", self.hub, "link", "add", "switch", "type", "bridge")
        ip("-n", self.hub, "link", "set", "switch", "up")
        hosts = [(f"10.79.0.{me + 1}", PORT) for me in SITES]
        for me, space in enumerate(self.spaces):
            space.make(self.hub, hosts[me][0])
        self.brokers = Brokers(self.folder, hosts, [space.words for space in self.spaces])
        self.relays = {(me, peer): Relay(self.spaces[me], hosts[peer]) for me, peer in itertools.permutations(SITES, 2)}

    def enter(self, me: int) -> None:
        self.spaces[me].enter()

    def port(self, me: int) -> int:
        return 7000

    def script(self, me: int) -> Script:
        assert self.brokers
        words, place = self.brokers.script(me, f"{CITIES[me]}.db")
        peers = [f"{peer}=127.0.0.1:{self.relays[me, peer].port}" for peer in SITES if peer != me]
        return [*words[: -len(peers)], *peers], place

    def faults(self) -> list[Fault]:
        noisy: list[Fault] = [self.is_noisy] if self.has_netem else []
        return [self.is_cut, self.is_slow, self.is_killed, self.comes_late, *noisy]

    def set_line(self, me: int, state: str) -> None:
        ip("-n", self.hub, "link", "set", self.spaces[me].line, state)

    @contextlib.contextmanager
    def is_cut(self, me: int) -> Iterator[str]:
        self.set_line(me, "down")
        yield f"{CITIES[me]} is cut off"
        self.set_line(me, "up")

    @contextlib.contextmanager
    def is_slow(self, me: int) -> Iterator[str]:
        relays = [relay for pair, relay in self.relays.items() if me in pair]
        for relay in relays:
            relay.delay = 0.6
        yield f"the lines of {CITIES[me]} are slow"
        for relay in relays:
            relay.delay = 0.0

    @contextlib.contextmanager
    def is_noisy(self, me: int) -> Iterator[str]:
        ends = [(self.spaces[me].name, "line"), (self.hub, self.spaces[me].line)]
        for space, line in ends:
            ip("-n", space, "qdisc", "replace", "dev", line, "root", *NETEM, program="tc")
        yield f"the line of {CITIES[me]} loses, repeats and reorders packets"
        for space, line in ends:
            ip("-n", space, "qdisc", "del", "dev", line, "root", program="tc")

    @contextlib.contextmanager
    def is_killed(self, me: int) -> Iterator[str]:
        assert self.brokers
        self.brokers.kill(me)
        yield f"the broker of {CITIES[me]} is killed"
        self.brokers.start(me)

    @contextlib.contextmanager
    def comes_late(self, me: int) -> Iterator[str]:
        """What a site had published, at first or some rounds ago, comes to the others again after what it published
        last."""
        topics = [(peer, f"sites/{peer}/{me}/{kind}") for peer in SITES if peer != me for kind in ("delta", "ack")]
        for peer, topic in topics:
            self.old[topic] = self.old.get(topic) or self.retained(peer, topic)
        yield f"older messages of {CITIES[me]} come to the others"
        for peer, topic in topics:
            earlier, now = self.old[topic], self.retained(peer, topic)
            if earlier:
                words = ["mosquitto_pub", "-k", "5", "-q", "1", "-r", "-h", f"10.79.0.{peer + 1}", "-p", str(PORT)]
                self.mosquitto(me, [*words, "-t", topic, "-s"], earlier)
                self.came["after a newer one" if earlier != now else "twice"] += 1
            if self.chance.random() < 0.5:
                self.old[topic] = now

    def retained(self, me: int, topic: str) -> bytes:
        """What a site's own broker holds for it; nothing where that is away."""
        return self.mosquitto(me, ["mosquitto_sub", "-k", "5", "-C", "1", "-W", "1", "-N", "-t", topic])

    def mosquitto(self, me: int, words: list[str], given: bytes = b"") -> bytes:
        """What a client of a site prints, unless it takes long."""
        place = {**os.environ, "XDG_CONFIG_HOME": os.path.join(self.folder, str(me))}
        with contextlib.suppress(subprocess.TimeoutExpired):
            words = [*self.spaces[me].words, *words]
            return subprocess.run(words, input=given, env=place, timeout=2, capture_output=True, check=False).stdout
        return b""

    def end(self) -> None:
        if self.brokers:
            self.brokers.end()
        for name in [self.hub, *(space.name for space in self.spaces)]:
            subprocess.run(["ip", "netns", "del", name], check=False, capture_output=True, timeout=SECONDS)


# How the sites reach each other, as it is made in a folder.
Line = Callable[[str, random.Random], "ByFolder | ByBrokers"]


class Seller(threading.Thread):
    """A till of a site. It sells and gives back for as long as it may, and ends with no request open."""

    def __init__(self, world: World, me: int, first: int) -> None:
        super().__init__(daemon=True)
        self.world, self.me, self.first, self.chance = world, me, first, random.Random(SEED + first)
        self.path = os.path.join(world.folder, f"till-{first}.journal")
        self.sales: list[int] = []
        self.failed: Exception | None = None

    def run(self) -> None:
        try:
            self.world.line.enter(self.me)
            with self.world.till(self.me, self.path, self.first) as till:
                while not self.world.is_over.is_set():
                    self.once(till)
                    time.sleep(self.chance.uniform(0, PAUSE))
        except Exception as error:
            self.failed = error

    def once(self, till: Till) -> None:
        if self.sales and self.chance.random() < 0.25:
            self.world.asked(till, till.refund, self.sales.pop(self.chance.randrange(len(self.sales))), 1)
            return
        seats = self.chance.randrange(1, 4)
        result = self.world.asked(till, till.sell, "gala", seats)
        if isinstance(result, Done):
            self.sales.append(result.number)
        else:
            time.sleep(0.1)


class World:
    """Three sites with their offices, scripts and tills."""

    def __init__(self, folder: str, kind: Line) -> None:
        self.folder, self.chance, self.is_over = folder, random.Random(SEED), threading.Event()
        self.line, self.looked = kind(folder, self.chance), 0
        self.offices: dict[int, Office] = {}
        self.scripts: dict[int, subprocess.Popen[bytes]] = {}
        self.released, self.ports = FIRST_RELEASE, [self.line.port(me) for me in SITES]
        self.deck: list[Fault] = []

    def till(self, me: int, path: str, first: int, seconds: float = SECONDS) -> Till:
        return Till(self.ports[me], path, first, first + 999_999, seconds)

    def asked(self, till: Till | Clerk, ask: Callable[..., Result], *words: str | int) -> Result:
        """The result, however long the office is away."""
        end = time.monotonic() + 6 * SECONDS
        while True:
            try:
                resumed = till.resume() if till.journal.open else None
                return resumed[1] if resumed else ask(*words)
            except boxoffice.Unanswered:
                if time.monotonic() > end:
                    raise

    def open(self, me: int) -> None:
        # (A program that checks itself, as one unproved does, takes up a long history slowly.)
        place: dict[str, Any] = {"seconds": 5 * SECONDS, "preexec_fn": lambda: self.line.enter(me)}
        self.offices[me] = Office(self.folder, f"{CITIES[me]}.db", self.ports[me], **place)

    def start(self, me: int) -> None:
        words, place = self.line.script(me)
        with open(os.path.join(self.folder, f"{me}.said"), "ab") as said:
            more: dict[str, Any] = {
                "env": {**os.environ, **place},
                "stderr": said,
                "preexec_fn": lambda: self.line.enter(me),
            }
            self.scripts[me] = subprocess.Popen(
                [sys.executable, *words], cwd=self.folder, start_new_session=True, **more
            )

    def stop(self, me: int) -> None:
        """Kills the script of a site with what it had started."""
        os.killpg(self.scripts[me].pid, signal.SIGKILL)
        self.scripts[me].wait(SECONDS)

    @contextlib.contextmanager
    def office_killed(self, me: int) -> Iterator[str]:
        self.offices[me].kill()
        yield f"the office of {CITIES[me]} is killed"
        self.open(me)

    @contextlib.contextmanager
    def script_killed(self, me: int) -> Iterator[str]:
        self.stop(me)
        yield f"the script of {CITIES[me]} is killed"
        self.start(me)

    def draw(self, count: int) -> list[Fault]:
        """So many kinds of fault, each in its turn."""
        if len(self.deck) < count:
            rest = [
                fault
                for fault in [*self.line.faults(), self.office_killed, self.script_killed]
                if fault not in self.deck
            ]
            self.deck += self.chance.sample(rest, len(rest))
        drawn, self.deck = self.deck[:count], self.deck[count:]
        return drawn

    def ask(self, me: int, line: str) -> str:
        """The reply of a site at its socket; nothing where its office is away."""
        with contextlib.suppress(OSError):
            operator = Operator(self.offices[me].path)
            with contextlib.ExitStack() as stack:
                stack.callback(operator.go_away)
                return operator.ask(line)
        return ""

    def look(self) -> None:
        """No site knows of more sold than released, and neither do the tills."""
        for me in SITES:
            if found := TOTALS.fullmatch(self.ask(me, "totals gala")):
                released, sold, back = (int(found[k]) for k in (1, 2, 3))
                enough = sold - back <= released <= self.released and found[4] != "none"
                same(f"{CITIES[me]}: sold at most released: {found[0]}", enough, True)
                self.looked += 1
        sold, back = self.sold()
        same("the tills sold at most what was released", sold - back <= self.released, True)

    def journals(self) -> dict[int, list[tuple[str, str]]]:
        """By sites the requests of the journals with their replies; an open one has none."""
        asked: dict[int, list[tuple[str, str]]] = {me: [] for me in SITES}
        for name in os.listdir(self.folder):
            if name.startswith("till-"):
                with open(os.path.join(self.folder, name), encoding="ascii") as file:
                    asked[int(name[5]) - 1] += re.findall("ask (.*)\n(?:reply [0-9]+ (.*)\n)?", file.read())
        return asked

    def taken(self) -> collections.Counter[str]:
        """What became of how many messages, as the scripts said it."""
        words: collections.Counter[str] = collections.Counter()
        for me in SITES:
            with open(os.path.join(self.folder, f"{me}.said"), encoding="utf-8") as said:
                words.update(re.findall("(?:delta|ack) from [0-9]: ([a-z-]+)", said.read()))
        return words

    def sold(self) -> list[int]:
        """How many seats the tills sold, by what they read, and how many they gave back. (What is open may have been
        given back, and sold again to a till that has read of it. So sales are counted first.)"""
        found = []
        for verb, replies in [("sell", ["done"]), ("refund", ["done", ""])]:
            lines = [line.split() for asked in self.journals().values() for line, reply in asked if reply in replies]
            found.append(sum(int(words[3]) for words in lines if words[0] == verb))
        return found


def clerks_move(world: World, clerks: Sequence[Clerk]) -> None:
    """More seats are released, and some are ceded from site to site."""
    world.released += RELEASE
    same("a release", type(world.asked(clerks[0], clerks[0].release, "gala", RELEASE)), Done)
    me = world.chance.choice(SITES)
    left = world.ask(me, "left gala").split()
    if left[:1] == ["left"] and int(left[1]) > 1:
        peer = world.chance.choice([peer for peer in SITES if peer != me])
        world.asked(clerks[me], clerks[me].cede, "gala", int(left[1]) // 2 or 1, peer)


def one_round(world: World, clerks: Sequence[Clerk], at: int, is_said: bool) -> None:
    """Two or three things break, for a second or two; meanwhile clerks go on at the sites that are there."""
    faults = world.draw(world.chance.choice([2, 3]))
    with contextlib.ExitStack() as stack:
        told = [stack.enter_context(fault(world.chance.choice(SITES))) for fault in faults]
        if is_said:
            print(f"    round {at}: {'; '.join(told)}", flush=True)
        end = time.monotonic() + world.chance.uniform(1, 2.5)
        while time.monotonic() < end:
            world.look()
            time.sleep(0.2)
    clerks_move(world, clerks)
    world.look()


def agreed(world: World, begin: float) -> tuple[float, int, int]:
    """How long after the last fault all sites agree on what the tills sold."""
    sold, back = world.sold()
    wanted = f"totals released {world.released} sold {sold} refunded {back} open {world.released - sold + back}"
    while (found := [world.ask(me, "totals gala") for me in SITES]) != [
        wanted
    ] * 3 and time.monotonic() < begin + SECONDS:
        time.sleep(0.05)
    took = time.monotonic() - begin
    same("all sites agree", found, [wanted] * 3)
    same(f"they agree after {took:.1f} s, within {WITHIN:.0f}", took <= WITHIN, True)
    return took, sold, back


def in_file(db: sqlite3.Connection) -> list[Any]:
    """The requests of a file with their replies, by C SQLite."""
    names = "CASE verb WHEN 'announce' THEN event WHEN 'refund' THEN target || ' ' || amount"
    names += " WHEN 'cede' THEN event || ' ' || amount || ' ' || target ELSE event || ' ' || amount END"
    columns = f"verb || ' ' || number || ' ' || {names}, reply || coalesce(' ' || rest, '')"
    return db.execute(f"SELECT {columns} FROM entries WHERE number IS NOT NULL").fetchall()


def summed(world: World, left: Sequence[int], sold: int, back: int) -> int:
    """Files against journals; and each seat is sold or left somewhere."""
    journals = world.journals()
    sums: dict[str, int] = {}
    for me in SITES:
        with opened(world.folder, f"{CITIES[me]}.db") as db:
            intact(CITIES[me], db)
            found = in_file(db)
            same(f"{CITIES[me]}: each reply that was read is in the file once", sorted(found), sorted(journals[me]))
            same(f"{CITIES[me]}: no number twice", len({line.split()[1] for line, _ in found}), len(found))
            query = "SELECT verb, sum(amount) FROM entries WHERE reply = 'done' AND amount IS NOT NULL GROUP BY verb"
            for verb, amount in db.execute(query):
                sums[verb] = sums.get(verb, 0) + amount
    found = [sums.get(verb, 0) for verb in ("release", "sell", "refund")]
    same("released, sold and refunded by the sums of the files", found, [world.released, sold, back])
    same("each seat is sold or left", sold - back + sum(left), world.released)
    text = f"gala released {world.released} sold {sold} refunded {back} outstanding {sold - back}\n"
    # (A program that checks itself, as one unproved does, sums up slowly.)
    same(
        "the audit", call(world.folder, ["audit", *(f"{city}.db" for city in CITIES)], "", 20 * SECONDS), (0, text, "")
    )
    return sum(len(asked) for asked in journals.values())


def begun(world: World) -> list[Clerk]:
    """Offices, scripts, and for each site a clerk's till, with the seats given out."""
    for me in SITES:
        same("init", call(world.folder, ["init", f"{CITIES[me]}.db", str(me), "3", "1000000"]), (0, "done\n", ""))
        world.open(me)
        world.start(me)
    clerks, seats = [Clerk(world, me) for me in SITES], FIRST_RELEASE // 3
    same("announced", type(clerks[0].announce("gala")), Done)
    same("released", type(clerks[0].release("gala", FIRST_RELEASE)), Done)
    same("ceded", [type(clerks[0].cede("gala", seats, peer)) for peer in (1, 2)], [Done] * 2)
    return clerks


class Clerk:
    """A till that the main thread, which is in no namespace, asks in the namespace of its site."""

    def __init__(self, world: World, me: int) -> None:
        self.world, self.me, self.path = world, me, os.path.join(world.folder, f"till-{me + 1}000000.journal")
        self.till: Till = self.inside(lambda: world.till(me, self.path, (me + 1) * 1_000_000))
        self.journal = self.till.journal

    def inside(self, ask: Callable[[], Any]) -> Any:
        """What a call gives, in a thread that is in the namespace."""
        found: list[tuple[Any, boxoffice.TillError | None]] = []

        def run() -> None:
            self.world.line.enter(self.me)
            try:
                found.append((ask(), None))
            except boxoffice.TillError as error:
                found.append((None, error))

        thread = threading.Thread(target=run, daemon=True)
        thread.start()
        thread.join(5 * SECONDS)
        given, error = found[0]
        if error:
            raise error
        return given

    def __getattr__(self, verb: str) -> Callable[..., Any]:
        return lambda *words: self.inside(lambda: getattr(self.till, verb)(*words))


def tried(folder: str, kind: Line, is_said: bool) -> None:
    world: World | None = None
    clerks: list[Clerk] = []
    begin = time.monotonic()
    AT_END[:] = [lambda: ended(world)]
    try:
        world = World(folder, kind)
        clerks = begun(world)
        sellers = [Seller(world, me, (me + 1) * 1_000_000 + (till + 1) * 100_000) for me in SITES for till in TILLS]
        for seller in sellers:
            seller.start()
        for at in range(ROUNDS):
            one_round(world, clerks, at, is_said)
        healed = time.monotonic()
        world.is_over.set()
        for seller in sellers:
            seller.join(8 * SECONDS)
            same(f"how till {seller.first} ended", (seller.is_alive(), seller.failed), (False, None))
        took, sold, back = agreed(world, healed)
        left = settled(world, sold, back)
        for clerk in clerks:
            clerk.close()
        for me in SITES:
            world.stop(me)
            world.offices[me].close()
        count = summed(world, left, sold, back)
        print(
            f"{ROUNDS} rounds in {time.monotonic() - begin:.0f} s: {count} requests, "
            f"{sold} seats sold, {back} given back, "
            f"{world.released} released; {world.looked} looks; all agreed after {took:.1f} s"
        )
        for what, counts in [("messages", world.taken()), ("made to come", world.line.came)]:
            print(f"{what}:", ", ".join(f"{word} {count}" for word, count in counts.most_common()))
    finally:
        ended(world)


def settled(world: World, sold: int, back: int) -> list[int]:
    """What is left at each site once nothing is under way."""
    end = time.monotonic() + SECONDS
    while True:
        left = [int(world.ask(me, "left gala").removeprefix("left ") or 0) for me in SITES]
        if sum(left) + sold - back == world.released or time.monotonic() > end:
            return left
        time.sleep(0.1)


def ended(world: World | None) -> None:
    """Nothing that was started stays, whatever becomes of the rest."""
    if world:
        world.is_over.set()
        with contextlib.ExitStack() as stack:
            stack.callback(world.line.end)
            for me in world.offices:
                stack.callback(world.offices[me].program.kill)
            for me in world.scripts:
                if world.scripts[me].poll() is None:
                    stack.callback(world.stop, me)


def probed() -> tuple[list[str], bool]:
    """What this machine lacks for brokers to be tried, and whether its kernel has netem."""
    if lacks := [name for name in (*NEEDED, "ip") if not shutil.which(name)]:
        return lacks, False
    probe = f"box-{os.getpid()}-probe"
    try:
        ip("netns", "add", probe)
        ip("-n", probe, "link", "add", "switch", "type", "bridge")
        ip("-n", probe, "link", "add", "line", "type", "veth", "peer", "name", "end")
        ip("netns", "exec", probe, "true")
        with contextlib.suppress(FileNotFoundError, subprocess.CalledProcessError):
            ip("-n", probe, "qdisc", "add", "dev", "line", "root", *NETEM, program="tc")
            return [], True
        return [], False
    except subprocess.CalledProcessError:
        return ["the right, or the kernel, to make network namespaces with a bridge"], False
    finally:
        subprocess.run(["ip", "netns", "del", probe], check=False, capture_output=True, timeout=SECONDS)


def folder_trial(folder: str) -> None:
    print("by a folder:", flush=True)
    tried(folder, ByFolder, ROUNDS > 3)


def broker_trial(folder: str) -> None:
    lacks, has_netem = probed()
    if lacks:
        print(f"by brokers: not tried, without {', '.join(lacks)}")
        return
    print(
        "by brokers:" if has_netem else "by brokers (without netem: no packet is lost, repeated or reordered):",
        flush=True,
    )
    tried(folder, lambda folder, chance: ByBrokers(folder, chance, has_netem), ROUNDS > 3)


TRIALS = {"folder": folder_trial, "brokers": broker_trial}
sys.exit(try_each(TRIALS, "partition: 0 differ", "partition: {} differ", LONGEST))
