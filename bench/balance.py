#!/usr/bin/env python3
"""A model of nights at several offices, to compare policies by which rights move. Plain Python: no office is asked.

usage: balance.py [NIGHTS] [SEED] [--only POLICY,..]     (20 nights of each kind and load, from seed 1)

In a night some seats are released and ceded in equal shares. Requests of 1 to 4 seats come at random; at which site
follows weights that change. Each site sends the others what it knows when it has news, and acknowledges what comes at
once; a message takes some seconds, and none comes out of a cut or into one. A policy sees what one site knows, and
gives that site's own rights away, or asks another for some. To try another policy write it beside those below, and name
it in POLICIES.

A request is refused while open if seats enough were open somewhere. That is what a policy can mend, and it is printed
in percent of all requests, with the part of it where the seats were cut off; then how many cessions and joined messages
a night had at all sites, and how many seats stayed unsold where more are wanted than there are. With each request it
is looked at that no site has less than no right, and in the end that not more is sold than was released.
"""

from __future__ import annotations

import argparse
import os
import random
import sys
from collections import Counter, defaultdict
from collections.abc import Callable, Iterable, Iterator
from dataclasses import dataclass, replace

sys.path.insert(0, os.path.join(os.path.dirname(os.path.abspath(__file__)), "..", "exchange"))
import sharing  # noqa: E402

SIZES, OFTEN = (1, 2, 3, 4), (40, 40, 10, 10)
MEAN = sum(size * often for size, often in zip(SIZES, OFTEN)) / sum(OFTEN)


@dataclass(frozen=True)
class Kind:
    """A kind of nights: how many seats, sites and seconds; how messages go; and where requests come, drawn at random or
    by these weights in turn."""

    name: str
    sites: int = 4
    seats: int = 1000
    seconds: int = 1200
    loads: tuple[float, ...] = (0.8, 1.0, 1.3)
    way: tuple[int, int] = (1, 3)
    every: int = 2
    look: int = 2
    cuts: int = 0
    turns: tuple[tuple[int, ...], ...] = ()
    sparing: int = 0


TURN, MOSTLY = ((8, 1, 1), (1, 8, 1), (1, 1, 8)), ((8, 1, 1), (5, 4, 1), (8, 1, 1))
HOT = Kind("", sites=3, seats=900, loads=(1.3,), every=1, look=1)
KINDS = [
    Kind("quick messages"),
    Kind("news of sales every 30 s", sparing=30),
    Kind("two cuts of 1 to 7 min", cuts=2),
    Kind("slow messages (30 to 90 s)", way=(30, 90), every=30, look=5),
    replace(HOT, name="60 s, each site in turn", seconds=60, turns=TURN),
    replace(HOT, name="60 s, mostly one site", seconds=60, turns=MOSTLY),
    replace(HOT, name="150 s, each site in turn", seconds=150, turns=TURN),
    replace(HOT, name="150 s, mostly one site", seconds=150, turns=MOSTLY),
]


@dataclass(frozen=True)
class Row:
    """What a site did: so many changes, seats sold, and seats given to each site."""

    version: int
    sold: int
    gave: tuple[int, ...]


class Site:
    """A site: what it knows of each, and what policies keep."""

    def __init__(self, me: int, rows: list[Row]) -> None:
        sites = len(rows)
        self.me, self.rows = me, rows
        self.acked, self.sent = [0] * sites, [(-1,) * sites] * sites
        self.sent_at, self.sent_sold, self.sent_gave = [0] * sites, [0] * sites, [0] * sites
        self.asks: list[tuple[int, int]] = []
        self.missing, self.asked_at = 0, -99
        self.demand, self.messages = sharing.Demand(sites), sharing.Messages()
        self.ceded: dict[int, tuple[int, int]] = {}

    def left(self) -> list[int]:
        """What each site may sell, as far as this one knows. (Site 0 gave itself what was released.)"""
        came = [sum(row.gave[at] for row in self.rows) for at in range(len(self.rows))]
        return [seats - self.given(at) - self.rows[at].sold for at, seats in enumerate(came)]

    def given(self, at: int) -> int:
        return sum(seats for to, seats in enumerate(self.rows[at].gave) if to != at)

    def change(self, sold: int = 0, to: int = 0, seats: int = 0) -> None:
        row = self.rows[self.me]
        gave = tuple(count + seats * (at == to) for at, count in enumerate(row.gave))
        self.rows[self.me] = Row(row.version + 1, row.sold + sold, gave)


# What a policy does: rights for a site, or, with a word for it, an ask of a site for so many.
Act = tuple[str, int, int]
Policy = Callable[[Site, int], Iterable[Act]]


class Night:
    def __init__(self, kind: Kind, load: float, seed: int, policy: Policy) -> None:
        self.kind, self.policy, self.chance = kind, policy, random.Random(seed)
        self.requests = self.drawn(load)
        self.cuts = [
            (self.chance.randrange(kind.sites), begin, begin + self.chance.randrange(60, 400))
            for begin in (self.chance.randrange(kind.seconds) for _ in range(kind.cuts))
        ]
        share = [kind.seats // kind.sites] * kind.sites
        first = Row(0, 0, (kind.seats, *share[1:]))
        none = Row(0, 0, (0,) * kind.sites)
        self.sites = [Site(me, [first] + [none] * (kind.sites - 1)) for me in range(kind.sites)]
        for site in self.sites:
            site.sent = [(0,) * kind.sites] * kind.sites
            site.sent_gave = [site.rows[site.me].gave[to] for to in range(kind.sites)]
        self.mail: dict[int, list[tuple[int, int, list[Row]]]] = defaultdict(list)
        self.asks: dict[int, list[tuple[int, int, int]]] = defaultdict(list)
        self.acks: dict[int, list[tuple[int, int, int]]] = defaultdict(list)
        self.count: Counter[str] = Counter()

    def drawn(self, load: float) -> list[list[tuple[int, int]]]:
        """The requests of each second, as site and seats."""
        kind, chance = self.kind, self.chance
        changes = {chance.randrange(kind.seconds) for _ in range(chance.choice([1, 2, 3]))}
        requests: list[list[tuple[int, int]]] = [[] for _ in range(kind.seconds)]
        weights: list[float] = []
        at, mean = 0.0, load * kind.seats / MEAN / kind.seconds
        moments = []
        while (at := at + chance.expovariate(mean)) < kind.seconds:
            moments.append(int(at))
        for second in range(kind.seconds):
            if kind.turns:
                weights = [*kind.turns[3 * second // kind.seconds]]
            elif not weights or second in changes:
                weights = [chance.gammavariate(0.6, 1) + 1e-6 for _ in range(kind.sites)]
            for _ in range(moments.count(second)):
                requests[second].append(
                    (chance.choices(range(kind.sites), weights)[0], chance.choices(SIZES, OFTEN)[0])
                )
        return requests

    def is_cut(self, site: int, now: int) -> bool:
        return any(cut == site and begin <= now < end for cut, begin, end in self.cuts)

    def run(self) -> Counter[str]:
        for now in range(self.kind.seconds):
            cut = [self.is_cut(site.me, now) for site in self.sites]
            self.arrive(now, cut)
            for me, seats in self.requests[now]:
                self.request(me, seats, cut)
            self.send(now, cut)
            for site in self.sites:
                if (now + site.me) % self.kind.look == 0:
                    self.act(site, now)
        sold = sum(site.rows[site.me].sold for site in self.sites)
        assert sold == self.count["sold"] <= self.kind.seats
        self.count["unsold"] = self.kind.seats - sold
        return self.count

    def arrive(self, now: int, cut: list[bool]) -> None:
        for source, to, rows in self.mail.pop(now, []):
            site = self.sites[to]
            if cut[source] or cut[to]:
                self.sites[source].sent[to] = ()  # The transport brings the newest again.
                continue
            site.acked[source] = max(site.acked[source], rows[to].version)
            self.acks[now + self.chance.randint(*self.kind.way)].append((to, source, rows[source].version))
            newer = [at for at, row in enumerate(rows) if row.version > site.rows[at].version]
            for at in newer:
                site.rows[at] = rows[at]
            self.count["joined"] += bool(newer)
        for source, to, version in self.acks.pop(now, []):
            if not (cut[source] or cut[to]):
                self.sites[to].acked[source] = max(self.sites[to].acked[source], version)
        for source, to, seats in self.asks.pop(now, []):
            if not (cut[source] or cut[to]):
                self.sites[to].asks.append((source, seats))

    def request(self, me: int, seats: int, cut: list[bool]) -> None:
        site = self.sites[me]
        left = site.left()[me]
        assert left >= 0
        self.count["asked"] += 1
        if left >= seats:
            site.change(sold=seats)
            self.count["sold"] += seats
            return
        site.missing += seats
        if self.kind.seats - self.count["sold"] >= seats:
            self.count["open"] += 1
            near = left if cut[me] else sum(one.left()[one.me] for one in self.sites if not cut[one.me])
            self.count["behind a cut"] += near < seats

    def send(self, now: int, cut: list[bool]) -> None:
        """Each site sends what is new to those it reaches: rights at once, and sales once in so many seconds, or once
        it has no more left than it sold since."""
        for site in self.sites:
            if now % self.kind.every or cut[site.me]:
                continue
            stamp, left = tuple(row.version for row in site.rows), site.left()[site.me]
            for to in range(self.kind.sites):
                if to == site.me or cut[to] or site.sent[to] == stamp:
                    continue
                gave, sold = site.rows[site.me].gave[to], site.rows[site.me].sold
                is_low = left <= sold - site.sent_sold[to] > 0
                is_news = gave > site.sent_gave[to] or is_low or not site.sent[to]
                if is_news or now >= site.sent_at[to] + self.kind.sparing:
                    site.sent[to], site.sent_at[to], site.sent_sold[to], site.sent_gave[to] = stamp, now, sold, gave
                    self.mail[now + self.chance.randint(*self.kind.way)].append((site.me, to, list(site.rows)))

    def act(self, site: Site, now: int) -> None:
        for word, to, seats in self.policy(site, now):
            left = site.left()[site.me]
            if word == "ask":
                self.asks[now + self.chance.randint(*self.kind.way)].append((site.me, to, seats))
            elif (given := min(seats, left)) > 0:
                site.change(to=to, seats=given)
                self.count["cessions"] += 1


def none(site: Site, now: int) -> Iterator[Act]:
    yield from ()


def half(site: Site, now: int) -> Iterator[Act]:
    """Who has most gives half the difference to each that has less than a quarter of the mean."""
    left = site.left()
    low = max(4, 0.25 * sum(left) / len(left))
    if left.index(max(left)) == site.me:
        for to, has in enumerate(left):
            if has < low and (left[site.me] - has) // 2 >= 2:
                seats = (left[site.me] - has) // 2
                left[site.me] -= seats
                yield "give", to, seats


def half_is_asked(site: Site, now: int) -> Iterator[Act]:
    """Who is low asks the one that has most, and that one gives half the difference."""
    left = site.left()
    for source, _ in site.asks:
        yield "give", source, (left[site.me] - max(0, left[source])) // 2
    site.asks = []
    most = max((at for at in range(len(left)) if at != site.me), key=lambda at: left[at])
    low = min(left[most] - 1, max(4, 0.25 * sum(left) / len(left)))
    if left[site.me] < low and now >= site.asked_at + 10:
        site.asked_at = now
        yield "ask", most, 0


def missing_is_asked(site: Site, now: int) -> Iterator[Act]:
    """After a refusal the seats that were missing are asked of those that have most."""
    left = site.left()
    for source, seats in site.asks:
        yield "give", source, min(seats, left[site.me])
    site.asks = []
    for at in sorted((at for at in range(len(left)) if at != site.me), key=lambda at: -left[at]):
        if (seats := min(site.missing, left[at])) > 0:
            site.missing -= seats
            yield "ask", at, seats
    site.missing = 0


def by_demand(site: Site, now: int, store: float = 0.0, is_measured: bool = True) -> Iterator[Act]:
    """What `balance` does: exchange/sharing.py. Unless its time is measured, a message is taken to need the first's."""
    left, sold = site.left(), [row.sold for row in site.rows]
    for to, (version, since) in [*site.ceded.items()]:
        if site.acked[to] >= version:
            site.messages.took(now - since if is_measured else sharing.FIRST)
            del site.ceded[to]
    back, near, fill = sharing.times(site.messages.seconds, site.demand.window(now, sold))
    rate = site.demand.look(now, left, sold, back)
    keep = site.demand.sold_lately(now, site.me, sold[site.me], near)
    for gift in sharing.plan(site.me, left, rate, keep, near, max(fill, store)):
        if gift.site not in site.ceded:
            site.ceded[gift.site] = site.rows[site.me].version + 1, now
            yield "give", gift.site, gift.seats


POLICIES: dict[str, Policy] = {
    "none": none,
    "half": half,
    "half is asked": half_is_asked,
    "missing is asked": missing_is_asked,
    "by demand": by_demand,
    "by demand, not measured": lambda site, now: by_demand(site, now, is_measured=False),
    "by demand and a minute": lambda site, now: by_demand(site, now, 60.0),
}


def main() -> None:
    reader = argparse.ArgumentParser(usage=(__doc__ or "").split("usage: ")[1].split("  ")[0])
    reader.add_argument("nights", type=int, nargs="?", default=20)
    reader.add_argument("seed", type=int, nargs="?", default=1)
    reader.add_argument("--only")
    given = reader.parse_args()
    names = given.only.split(",") if given.only else [*POLICIES]
    for kind in KINDS:
        print(f"\n{kind.name}: {kind.sites} sites, {kind.seats} seats, {given.nights} nights of each load")
        print(f"{'':30}{'open, %':>9}{'cut off':>9}{'cessions':>10}{'joined':>8}{'unsold':>8}")
        for name in names:
            total: Counter[str] = Counter()
            unsold = 0
            for load in kind.loads:
                for night in range(given.nights):
                    found = Night(kind, load, given.seed * 1_000_003 + night, POLICIES[name]).run()
                    total += found
                    unsold += found["unsold"] if load == kind.loads[-1] else 0
            nights, asked = given.nights * len(kind.loads), total["asked"] / 100
            print(
                f"{name:30}{total['open'] / asked:9.2f}{total['behind a cut'] / asked:9.2f}"
                f"{total['cessions'] / nights:10.1f}{total['joined'] / nights:8.0f}{unsold / given.nights:8.1f}",
                flush=True,
            )


if __name__ == "__main__":
    main()
