"""Which rights a site cedes by itself, and to whom: the policy of `balance`, over what one site knows. It reads no
clock and asks no office, so bench/balance.py tries the same policy over a model.

What each site sold lately says what share of the open seats it needs. A site that has more than its need gives to those
that run low. All sites that have the same view work out the same shares, and each gives its own part: none has to
agree with another. What a site gives is its own, so whatever is decided here, no seat is sold twice.

How far it looks back and ahead follows how long messages take, from a cession to its acknowledgement: with slow
messages a short look would chase what is past.
"""

from __future__ import annotations

import math
from collections import deque
from collections.abc import Sequence
from dataclasses import dataclass
from statistics import median

# A message's time until one is measured, and the most that counts: seconds.
FIRST, MOST = 4.0, 180.0
# So many times a message's time: the time that an average is of, the time for which what a site has is little, and the
# time for which it is given some. And the same of the time in which SAMPLE seats are sold at all sites: a shorter look
# would see chance alone.
BY_MESSAGE, BY_SAMPLE, SAMPLE = (1.0, 1.5, 3.0), (1.0, 0.5, 1.0), 40
# The part of the mean demand that each site is taken to have beside its own, and the part of its need from which on it
# has enough.
FLOOR, ENOUGH = 0.1, 0.7
# Who has fewer seats than GAP is low, whatever it sells: a group may come. Who has fewer than FEW sells little since
# it has nothing, and its demand is forgotten SLOWLY.
GAP, FEW, SLOWLY = 6, 4, 4.0


class Messages:
    """How long messages take, by those of the last cessions that were acknowledged."""

    def __init__(self, first: float = FIRST) -> None:
        self.last: deque[float] = deque([first], maxlen=5)

    def took(self, seconds: float) -> None:
        self.last.append(min(seconds, MOST))

    @property
    def seconds(self) -> float:
        return median(self.last)


class Demand:
    """What each site sells a second of an event, lately. News of a site may come seldom, so its figure is that of the
    time between two, and fades if none comes."""

    def __init__(self, sites: int) -> None:
        self.rate = [0.0] * sites
        self.sold: list[int] = []
        self.at = [0.0] * sites  # when news of a site came last
        self.gap = [0.0] * sites  # and how long after the news before
        # What the site itself and all had sold, at the looks that count.
        self.own: deque[tuple[float, int]] = deque()
        self.all: deque[tuple[float, int]] = deque()

    def look(self, now: float, left: Sequence[int], sold: Sequence[int], back: float) -> list[float]:
        """The figures of now, from what each site has left and sold in all, with an average of the last `back`
        seconds."""
        if not self.sold:
            self.sold, self.at = list(sold), [now] * len(sold)
        for site, count in enumerate(sold):
            news, passed = count - self.sold[site], now - self.at[site]
            if news and passed > 0:
                part = 1 - math.exp(-passed / back)
                self.rate[site] += part * (news / passed - self.rate[site])
                self.sold[site], self.at[site], self.gap[site] = count, now, passed
        found = []
        for site, rate in enumerate(self.rate):
            silent = max(0.0, now - self.at[site] - self.gap[site])
            found.append(rate * math.exp(-silent / (SLOWLY * back if left[site] < FEW else back)))
        return found

    def window(self, now: float, sold: Sequence[int]) -> float:
        """In how many seconds the last SAMPLE seats were sold at all sites."""
        self.all.append((now, sum(sold)))
        while len(self.all) > 1 and self.all[1][1] <= sum(sold) - SAMPLE:
            self.all.popleft()
        return min(now - self.all[0][0], MOST)

    def sold_lately(self, now: float, me: int, sold: int, seconds: float) -> int:
        """What the site itself sold in the last seconds, up to now."""
        self.own.append((now, sold))
        while len(self.own) > 1 and self.own[1][0] <= now - seconds:
            self.own.popleft()
        return sold - self.own[0][1]


def times(message: float, window: float) -> tuple[float, float, float]:
    """How far a site looks back, and the near and the fill of its plan, by how long messages take and SAMPLE seats."""
    back, near, fill = (max(a * message, b * window) for a, b in zip(BY_MESSAGE, BY_SAMPLE))
    return back, near, fill


@dataclass(frozen=True)
class Gift:
    """Rights for a site, and why."""

    site: int
    seats: int
    left: int
    rate: float


def plan(
    me: int, left: Sequence[int], rate: Sequence[float], keep: int, near: float, fill: float, gap: int = GAP
) -> list[Gift]:
    """What a site cedes: to each that has less than `near` seconds of its demand left, up to `fill` seconds of it, and
    never so that it has less than `keep` itself."""
    total = sum(left)
    base = FLOOR * sum(rate) / len(rate) + 1e-4
    weight = [one + base for one in rate]
    need = [total * one / sum(weight) for one in weight]
    spare = [max(0.0, has - wants) for has, wants in zip(left, need)]
    own, gifts = min(left[me] - keep, math.ceil(spare[me])), []
    for site, has in enumerate(left):
        lack = min(need[site], max(gap, fill * weight[site])) - has
        is_low = has < max(gap, near * weight[site]) and has < ENOUGH * need[site]
        if site == me or lack < 1 or not is_low or own < 1:
            continue
        seats = lack * spare[me] / sum(spare)
        if seats < 2:
            # The last seats are not split into crumbs: who can spare most gives.
            seats = lack if spare[me] == max(spare) and spare.index(max(spare)) == me else 0
        if seats := min(round(seats), own):
            gifts.append(Gift(site, seats, has, rate[site]))
            own -= seats
    return gifts
