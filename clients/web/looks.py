"""Looks at an open office: what may be sold, what was sold, and, by its socket, how full its history is, and what each
site may sell."""

from __future__ import annotations

import re
import socket
from collections.abc import Sequence
from typing import Any, TextIO

SECONDS = 2.0  # How long an office may take to answer a line.
TOTALS = re.compile("totals released ([0-9]+) sold ([0-9]+) refunded ([0-9]+) open ([0-9]+|none)")
STATUS = re.compile(
    "site ([0-9]+) sites ([0-9]+) entries ([0-9]+) limit ([0-9]+) callers ([0-9]+).*?(?: reserve ([0-9]+))?"
)
SHARE = re.compile("([0-9]+) left ([0-9]+|none) sold ([0-9]+) back ([0-9]+)")
MAX_LINE, MAX_SITES = 400, 64
# What a site may sell (None if the view is not possible), what it sold in all, and what it took back.
Share = tuple[int | None, int, int]


def asked(address: int | str, lines: list[str]) -> list[str]:
    """The reply of an office to each line: at a port of this machine, or at a socket. OSError if one has none."""
    replies = []
    with socket.socket(socket.AF_UNIX if isinstance(address, str) else socket.AF_INET) as stream:
        stream.settimeout(SECONDS)
        stream.connect(address if isinstance(address, str) else ("127.0.0.1", address))
        with stream.makefile("r", encoding="ascii", errors="replace") as answers:
            for line in lines:
                stream.sendall(line.encode() + b"\n")
                replies.append(reply_to(line, answers))
            stream.sendall(b"quit\n")
    return replies


def reply_to(line: str, answers: TextIO) -> str:
    """What answers a line; before the last word of `shares` there is a row for each site."""
    rows: list[str] = []
    while not rows or line.startswith("shares ") and SHARE.fullmatch(rows[-1]) and len(rows) <= MAX_SITES:
        reply = answers.readline(MAX_LINE)
        if not reply.endswith("\n"):
            raise OSError(f"the office did not answer {line!r}")
        rows.append(reply.rstrip("\n"))
    return "\n".join(rows)


def event_of(left: str, totals: str) -> dict[str, Any] | None:
    """What an office knows of an event; None if it does not know it."""
    can_sell, sums = re.fullmatch("left ([0-9]+)", left), TOTALS.fullmatch(totals)
    if not can_sell or not sums:
        return None
    released, sold, refunded = map(int, sums.groups()[:3])
    is_possible = sums[4] != "none"
    seats_open = int(sums[4]) if is_possible else None
    return {"left": int(can_sell[1]), "released": released, "sold": sold, "refunded": refunded, "open": seats_open}


def shares_of(answer: str) -> list[Share] | None:
    """What each site has of an event, from site 0; None if the office does not say."""
    *rows, last = answer.split("\n")
    found = [SHARE.fullmatch(row) for row in rows]
    if last != "end" or not rows:
        return None
    return [(None if row[2] == "none" else int(row[2]), int(row[3]), int(row[4])) for row in found if row]


def moved(before: Sequence[Share], now: Sequence[Share]) -> list[int] | None:
    """By how many seats the rights of each site are more or fewer than before; None if no site ceded any. Nothing but a
    cession leaves a site fewer. (One that released as many between the same two looks is not seen to have ceded.)"""
    new: list[Share] = [(0, 0, 0)] * (len(now) - len(before))
    change = []
    for then, share in zip([*before, *new], now):
        if then[0] is None or share[0] is None:
            return None
        change.append(share[0] + share[1] - share[2] - (then[0] + then[1] - then[2]))
    return change if min(change, default=0) < 0 else None


def silent(path: str) -> list[dict[str, int]]:
    """The sites that are silent, by the file that the exchange script writes beside the office's: each with the moments
    since when something is due to it, and when it was last heard of (0: never), in seconds since 1970."""
    try:
        with open(path.removesuffix("-sock") + "-peers", encoding="ascii") as text:
            rows = [[int(word) for word in line.split(" ")] for line in text]
    except (OSError, ValueError):
        return []
    return [{"site": row[0], "due": row[1], "heard": row[2]} for row in rows if len(row) == 4 and row[3]]


def at_socket(path: str, events: list[str]) -> tuple[dict[str, int] | None, list[list[Share] | None]]:
    """How full the history is, and what each site has of each event, if the office says."""
    try:
        answer, *shares = asked(path, ["status", *(f"shares {event}" for event in events)])
    except OSError:
        # (if all places are taken there is one for `status` alone)
        answer, shares = asked(path, ["status"])[0], []
    status = STATUS.fullmatch(answer)
    names = ("site", "sites", "entries", "limit", "callers", "reserve")
    history = dict(zip(names, map(int, status.groups("0")))) if status else None
    return history, [shares_of(share) for share in shares] or [None] * len(events)


def look(port: int, events: list[str], path: str | None) -> dict[str, Any]:
    """All of it, as the pages show it."""
    replies = asked(port, [f"{verb} {event}" for event in events for verb in ("left", "totals")])
    history, shares = at_socket(path, events) if path else (None, [None] * len(events))
    sums = [event_of(*replies[2 * at : 2 * at + 2]) for at in range(len(events))]
    return {
        "office": "open",
        "events": {event: it and {**it, "shares": rows} for event, it, rows in zip(events, sums, shares)},
        "history": history,
        "silent": silent(path) if path else [],
    }


def is_there(port: int, events: list[str]) -> bool:
    """Whether an office listens at the port."""
    try:
        return asked(port, [f"left {events[0]}"])[0].startswith(("left ", "unknown"))
    except OSError:
        return False
