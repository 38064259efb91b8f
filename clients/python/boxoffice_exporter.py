#!/usr/bin/python3
"""Figures of open offices for Prometheus, over HTTP at a port of this machine.

usage: boxoffice_exporter.py PORT NAME=OFFICE[:FILE] .. [--events EVENT ..] [--seconds SECONDS]

Prometheus asks http://127.0.0.1:PORT/metrics; README.md beside this script has the figures. OFFICE is the port of an
open office, which looks at each EVENT there. With FILE, the path of its file, there are also what its socket says
(entries, limit, callers, the share of each site), and what a script of exchange/ wrote beside it of the other sites;
that needs the rights of the socket's owner. Without --events it looks at all events that an office knows, and each
office needs its FILE. NAME is its name in the figures. An office that has not answered after SECONDS (2) counts as
away: `boxoffice_up` is 0, and its other figures are left out. It needs Debian's python3-prometheus-client, and
boxoffice.py beside it.

It lacks: whether an exchange script runs, which systemd says; and one moment for all figures of an office: a sale may
come between two of its looks.
"""

from __future__ import annotations

import argparse
import http.server
import os
import re
import socket
import stat
import sys
import threading
import time
from collections.abc import Iterator
from concurrent.futures import Future, ThreadPoolExecutor
from dataclasses import dataclass, field
from typing import Any

from boxoffice import MAX_REPLY, MAX_SITE, TOTALS

try:
    from prometheus_client import CollectorRegistry, MetricsHandler
    from prometheus_client.core import GaugeMetricFamily
    from prometheus_client.registry import Collector
except ModuleNotFoundError as missing:
    print(f"{missing.name}: install python3-prometheus-client", file=sys.stderr)
    sys.exit(3)

STATUS = (
    "site ([0-9]+) sites ([0-9]+) entries ([0-9]+) limit ([0-9]+) callers ([0-9]+)"
    " asking ([0-9]+) waiting ([0-9]+)(?: .*)?"
)
# Whoever asks again within so many seconds gets the same figures, so that the offices are not asked more often.
FRESH = 1.0
# How long a request to this program may take, and the most bytes of a file of the exchange scripts.
PATIENCE, MOST_BYTES = 10.0, 1 << 16
# The most bytes of an answer of many lines.
MOST_ROWS = 1 << 22
ONE, EVENT, PEER, SHARE = ["office"], ["office", "event"], ["office", "peer"], ["office", "event", "site"]
FIGURES = {
    "up": (ONE, "1 if the office answered all looks at its port, else 0"),
    "look_seconds": (ONE, "how long the looks at the port took, or until they were given up"),
    "socket_up": (ONE, "1 if the office answered at its socket, else 0"),
    "site": (ONE, "the number of the office's site"),
    "sites": (ONE, "how many sites it recognises"),
    "entries": (ONE, "entries of its history"),
    "entries_limit": (ONE, "the most entries that its history may ever have"),
    "callers": (ONE, "callers that it serves"),
    "asking": (ONE, "callers whose requests are being stored"),
    "waiting": (ONE, "callers who wait for the next store"),
    "event_known": (EVENT, "1 if the site knows the event, else 0"),
    "left": (EVENT, "seats that this site may sell"),
    "released": (EVENT, "seats released at all sites, as far as this one knows"),
    "sold": (EVENT, "seats sold at all sites, as far as this one knows"),
    "refunded": (EVENT, "sold seats given back at all sites, as far as this one knows"),
    "open": (EVENT, "seats that all sites may sell, as far as this one knows; left out if its view is impossible"),
    "view_impossible": (EVENT, "1 if the office says `open none`: run boxoffice audit; else 0"),
    "share_left": (SHARE, "seats that a site may sell, as far as this one knows; left out if that is impossible"),
    "share_sold": (SHARE, "seats that a site sold, as far as this one knows"),
    "share_back": (SHARE, "sold seats that a site was given back, as far as this one knows"),
    "peer_heard_seconds": (PEER, "seconds since the exchange script last heard of the other site; left out if never"),
    "peer_due_seconds": (PEER, "for how many seconds something has been due to the other site; 0 if nothing is"),
    "peer_silent": (PEER, "1 if the exchange script said that the other site is silent, else 0"),
}


class NotUnderstood(OSError):
    """What answers is no office, or one that does not serve this caller."""


@dataclass(frozen=True)
class Office:
    """Where an office is."""

    name: str
    port: int
    file: str | None


@dataclass
class Seen:
    """What was seen of an office: values by the name of the figure and the labels after its name."""

    office: Office
    values: dict[tuple[str, tuple[str, ...]], float] = field(default_factory=dict)
    events: list[str] = field(default_factory=list)

    def put(self, figure: str, value: float, *labels: str) -> None:
        self.values[figure, labels] = value


def numbers(text: str, pattern: str) -> list[str]:
    """What a reply has where the pattern has groups."""
    if not (found := re.fullmatch(pattern, text)):
        raise NotUnderstood(f"{text[:MAX_REPLY]!r} is no answer of an office")
    return [str(group) for group in found.groups()]


def said(stream: socket.socket, line: str, end: float) -> str:
    """The reply to a line; OSError if it has not come at this moment."""
    reply = b""
    stream.settimeout(max(0.001, end - time.monotonic()))
    stream.sendall(line.encode() + b"\n")
    while not reply.endswith(b"\n"):
        if (left := end - time.monotonic()) <= 0:
            raise TimeoutError("timed out")
        stream.settimeout(left)
        if not (piece := stream.recv(MAX_REPLY)):
            raise ConnectionError("the connection ended")
        reply += piece
        if len(reply) > MAX_REPLY or b"\n" in reply[:-1]:
            raise NotUnderstood("what answers is no office")
    return reply[:-1].decode("ascii", "replace")


def asked(address: str | tuple[str, int], lines: list[str], end: float) -> list[str]:
    """The replies to these lines at a port or a socket; OSError if they have not all come at this moment."""
    with socket.socket(socket.AF_UNIX if isinstance(address, str) else socket.AF_INET) as stream:
        stream.settimeout(max(0.001, end - time.monotonic()))
        stream.connect(address)
        # If no one listens at a port that the system gives out for connections, one may be connected to itself.
        if stream.getsockname() == stream.getpeername():
            raise ConnectionError("no one listens at the port")
        replies = [said(stream, line, end) for line in lines]
        stream.sendall(b"quit\n")
    return replies


def look_at_port(seen: Seen, events: list[str], end: float) -> None:
    """What an office says at its port of itself and of each event."""
    lines = ["site", *(f"{verb} {event}" for event in events for verb in ("left", "totals"))]
    site, *replies = asked(("127.0.0.1", seen.office.port), lines, end)
    number, count = numbers(site, "site ([0-9]+) of ([0-9]+)")
    seen.put("site", int(number))
    seen.put("sites", int(count))
    for at, event in enumerate(events):
        left, totals = replies[2 * at : 2 * at + 2]
        is_known = left != "unknown"
        seen.put("event_known", is_known, event)
        if is_known:
            seen.put("left", int(numbers(left, "left ([0-9]+)")[0]), event)
            sums = dict(zip(("released", "sold", "refunded", "open"), numbers(totals, TOTALS)))
            seen.put("view_impossible", sums["open"] == "none", event)
            for figure, value in sums.items():
                if value != "none":
                    seen.put(figure, int(value), event)


def rows(stream: socket.socket, line: str, end: float) -> list[str]:
    """The lines of an answer before `end`; none if it is one word."""
    answer = b""
    stream.settimeout(max(0.001, end - time.monotonic()))
    stream.sendall(line.encode() + b"\n")
    while not (answer == b"end\n" or answer.endswith(b"\nend\n") or re.fullmatch(rb"[a-z]+\n", answer)):
        if (left := end - time.monotonic()) <= 0:
            raise TimeoutError("timed out")
        stream.settimeout(left)
        if not (piece := stream.recv(MOST_BYTES)):
            raise ConnectionError("the connection ended")
        answer += piece
        if len(answer) > MOST_ROWS:
            raise NotUnderstood("what answers is no office")
    return answer.decode("ascii", "replace").splitlines()[:-1]


def look_at_socket(seen: Seen, events: list[str], end: float) -> None:
    """What an office says at its socket of itself, and of the share of each site of each event."""
    with socket.socket(socket.AF_UNIX) as stream:
        stream.settimeout(max(0.001, end - time.monotonic()))
        stream.connect(f"{seen.office.file}-sock")
        status = said(stream, "status", end)
        names = ("site", "sites", "entries", "entries_limit", "callers", "asking", "waiting")
        for figure, value in zip(names, numbers(status, STATUS)):
            seen.put(figure, int(value))
        seen.events = events or [numbers(row, "event ([a-z0-9-]{1,32})")[0] for row in rows(stream, "events", end)]
        for event in seen.events:
            for row in rows(stream, f"shares {event}", end):
                site, left, sold, back = numbers(row, "([0-9]+) left ([0-9]+|none) sold ([0-9]+) back ([0-9]+)")
                if left != "none":
                    seen.put("share_left", int(left), event, site)
                seen.put("share_sold", int(sold), event, site)
                seen.put("share_back", int(back), event, site)
        stream.sendall(b"quit\n")


def look_at_peers(seen: Seen, file: str) -> None:
    """What the exchange script knows of other sites: lines of a peer, since when something is due to it, when it was
    last heard of (seconds since 1970, or 0), and whether it is silent."""
    handle = os.open(file + "-peers", os.O_RDONLY | os.O_NONBLOCK)
    with open(handle, "rb") as peers:
        text = peers.read(MOST_BYTES) if stat.S_ISREG(os.fstat(handle).st_mode) else b"none"
    if not re.fullmatch(b"([0-9]{1,2} [0-9]{1,12} [0-9]{1,12} [01]\n)*", text):
        raise NotUnderstood("FILE-peers is not what an exchange script writes")
    now = time.time()
    for peer, due, heard, silent in (map(int, line.split(b" ")) for line in text.splitlines()):
        if peer <= MAX_SITE:
            seen.put("peer_due_seconds", max(0.0, now - due) if due else 0.0, str(peer))
            seen.put("peer_silent", bool(silent), str(peer))
            if heard:
                seen.put("peer_heard_seconds", max(0.0, now - heard), str(peer))


class Figures(Collector):
    """What Prometheus collects. The offices are looked at at once, and by one who asks at a time."""

    def __init__(self, offices: list[Office], events: list[str], seconds: float) -> None:
        self.offices, self.events, self.seconds = offices, events, seconds
        self.lock, self.at, self.seen = threading.Lock(), -FRESH, list[Seen]()
        self.saying, self.words = threading.Lock(), dict[str, str]()

    def say(self, where: str, word: str) -> None:
        """Says on standard error why something is not `well`, once, and once that it is well again."""
        with self.saying:
            if (self.words.get(where, "well") == "well") != (word == "well"):
                line = "".join(char if char.isprintable() else "?" for char in f"{where}: {word}")
                sys.stderr.write(line + "\n")
                sys.stderr.flush()
            self.words[where] = word

    def tried(self, seen: Seen, what: str, look: Any, *more: object) -> bool:
        """Whether a look came to its end. One that did not leaves nothing that it saw."""
        part = Seen(seen.office)
        try:
            look(part, *more)
        except (OSError, ValueError) as error:
            if what == "exchange" and isinstance(error, FileNotFoundError):
                return False  # There may be no script.
            self.say(f"{seen.office.name}: {what}", getattr(error, "strerror", None) or str(error))
            return False
        self.say(f"{seen.office.name}: {what}", "well")
        seen.values |= part.values
        seen.events += part.events
        return True

    def look(self, office: Office, beside: Future[Seen]) -> Seen:
        """What an office says at its port, of the events that its socket names unless they are given."""
        events = self.events or beside.result().events
        seen, begin = Seen(office), time.monotonic()
        seen.put("up", self.tried(seen, "port", look_at_port, events, begin + self.seconds))
        seen.put("look_seconds", time.monotonic() - begin)
        return seen

    def look_beside(self, office: Office) -> Seen:
        """What stands beside the file of an office: its socket, and what the exchange script wrote."""
        seen = Seen(office)
        if office.file:
            end = time.monotonic() + self.seconds
            seen.put("socket_up", self.tried(seen, "socket", look_at_socket, self.events, end))
            self.tried(seen, "exchange", look_at_peers, office.file)
        return seen

    def looked(self) -> list[Seen]:
        with ThreadPoolExecutor(2 * len(self.offices)) as pool:
            besides = [pool.submit(self.look_beside, office) for office in self.offices]
            found = [*pool.map(self.look, self.offices, besides)]
        for seen, beside in zip(found, (future.result() for future in besides)):
            here, there = (one.values.get(("site", ())) for one in (seen, beside))
            is_one = None in (here, there) or here == there
            where = f"{seen.office.name}: port and FILE"
            self.say(where, "well" if is_one else f"of site {here:.0f} and of site {there:.0f}")
            if is_one:
                seen.values |= beside.values
            else:
                # (two offices under one name: no figure of them means anything)
                seen.values = {("up", ()): 0, ("socket_up", ()): 0}
        return found

    def collect(self) -> Iterator[GaugeMetricFamily]:
        with self.lock:
            if time.monotonic() >= self.at + FRESH:
                self.seen, self.at = self.looked(), time.monotonic()
            every = self.seen
        for figure, (labels, text) in FIGURES.items():
            family = GaugeMetricFamily(f"boxoffice_{figure}", text, labels=labels)
            for seen in every:
                for (name, more), value in seen.values.items():
                    if name == figure:
                        family.add_metric([seen.office.name, *more], float(value))
            yield family


class Server(http.server.ThreadingHTTPServer):
    def handle_error(self, request: Any, client_address: Any) -> None:
        """Of one who goes away nothing is said."""
        if not isinstance(sys.exc_info()[1], OSError):
            super().handle_error(request, client_address)


def server_of(port: int, figures: Figures) -> Server:
    registry = CollectorRegistry()

    class Handler(MetricsHandler):  # type: ignore[misc]
        timeout = PATIENCE

        def do_GET(self) -> None:
            if self.headers.get("Host", "").rpartition(":")[0] not in ("127.0.0.1", "localhost"):
                self.send_error(421)  # A page of another name that points here.
            elif self.path.partition("?")[0] not in ("/", "/metrics"):
                self.send_error(404)
            else:
                super().do_GET()

        def log_message(self, format: str, *args: object) -> None:
            pass

    server = Server(("127.0.0.1", port), Handler)
    registry.register(figures)
    Handler.registry = registry
    return server


def port_of(word: str) -> int:
    if not re.fullmatch("[0-9]{1,5}", word) or not 0 < int(word) < 65536:
        raise argparse.ArgumentTypeError(f"no port: {word!r}")
    return int(word)


def office_of(word: str) -> Office:
    found = re.fullmatch("([a-z0-9-]{1,32})=([0-9]{1,5})(?::(.+))?", word)
    if not found:
        raise argparse.ArgumentTypeError(f"{word!r} is not NAME=OFFICE or NAME=OFFICE:FILE")
    return Office(found[1], port_of(found[2]), found[3])


def event_of(word: str) -> str:
    if not re.fullmatch("[a-z0-9-]{1,32}", word):
        raise argparse.ArgumentTypeError(f"no name of an event: {word!r}")
    return word


def main() -> int:
    text = (__doc__ or "").split("\n\n")
    reader = argparse.ArgumentParser(usage=text[1].removeprefix("usage: "), description=text[2], allow_abbrev=False)
    reader.add_argument("port", metavar="PORT", type=port_of)
    reader.add_argument("offices", metavar="NAME=OFFICE[:FILE]", type=office_of, nargs="+")
    reader.add_argument("--events", metavar="EVENT", type=event_of, nargs="+", default=[])
    reader.add_argument("--seconds", type=float, default=2.0)
    given = reader.parse_args()
    if len({office.name for office in given.offices}) < len(given.offices):
        reader.error("two offices have one name")
    if not given.events and not all(office.file for office in given.offices):
        reader.error("without --events each office needs its FILE")
    if not 0 < given.seconds <= 60:
        reader.error("--seconds is above 0, and at most 60")
    try:
        server = server_of(given.port, Figures(given.offices, [*dict.fromkeys(given.events)], given.seconds))
    except OSError as error:
        print(f"port {given.port}: {error.strerror}", file=sys.stderr)
        return 3
    print(f"listening on 127.0.0.1:{given.port}", flush=True)
    server.serve_forever()
    return 0


if __name__ == "__main__":
    sys.exit(main())
