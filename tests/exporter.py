#!/usr/bin/env python3
"""Tries the figures for Prometheus (clients/python/boxoffice_exporter.py) over open offices, and the rules of alerts.

usage: exporter.py [PROGRAM] [TRIAL ..]

The figures are compared with what the offices say. Offices are closed, killed and stopped (SIGSTOP), others answer
what no office does, and requests are garbage. It needs Debian's python3-prometheus-client, and for the last trials
prometheus with its promtool; what this machine lacks is passed over with a word. """

from __future__ import annotations

import contextlib
import json
import os
import re
import shutil
import signal
import socket
import subprocess
import sys
import threading
import time
import urllib.error
import urllib.parse
import urllib.request
from collections.abc import Callable, Iterator

from lib import SECONDS, TOP, Caller, Office, Operator, among, free_port, make_site, same, try_each, within
from lib.exchanges import FOLDER, comes, python, running

EXPORTER = os.path.join(TOP, "clients", "python", "boxoffice_exporter.py")
RULES = os.path.join(TOP, "examples", "alerts.yml")
PYTHON = "/usr/bin/python3"  # Debian's, which has Debian's packages.
# How long the exporter waits for an office here, and what a look may take beyond it on a busy machine.
PATIENCE, BUSY = 1.0, 20.0
EVENTS = ["gala", "expo", "none"]
Figures = dict[str, float]


def has_library() -> bool:
    words = [PYTHON, "-c", "import prometheus_client"]
    return os.path.exists(PYTHON) and subprocess.run(words, capture_output=True, check=False).returncode == 0


class Exporter:
    """An exporter that runs until the end of a `with`."""

    def __init__(self, folder: str, *offices: str, seconds: float = PATIENCE, names_events: bool = True) -> None:
        self.port, self.log = free_port(), os.path.join(folder, "exporter.said")
        words = [PYTHON, "-B", EXPORTER, str(self.port), *offices, "--seconds", str(seconds)]
        words += ["--events", *EVENTS] if names_events else []
        with open(self.log, "w", encoding="utf-8") as log:
            self.program = subprocess.Popen(words, cwd=folder, stdout=subprocess.PIPE, stderr=log, text=True)
        assert self.program.stdout
        same("it listens", self.program.stdout.readline(), f"listening on 127.0.0.1:{self.port}\n")

    def __enter__(self) -> Exporter:
        return self

    def __exit__(self, *_: object) -> None:
        self.program.kill()
        self.program.wait()

    def said(self) -> list[str]:
        with open(self.log, encoding="utf-8") as log:
            return log.read().splitlines()

    def get(self, path: str = "/metrics", **heads: str) -> tuple[int, str]:
        request = urllib.request.Request(f"http://127.0.0.1:{self.port}{path}", headers=heads)
        try:
            with urllib.request.urlopen(request, timeout=SECONDS) as reply:
                return reply.status, reply.read().decode()
        except urllib.error.HTTPError as error:
            with error:
                return error.code, ""

    def figures(self) -> Figures:
        """The figures of a look that is made now; their names have the labels."""
        time.sleep(1.1)  # What is a second old is not given again.
        status, text = self.get()
        same("the figures come", status, 200)
        lines = [line.rpartition(" ") for line in text.splitlines() if not line.startswith("#")]
        return {name: float(value) for name, _, value in lines}


def of_office(found: Figures, name: str) -> Figures:
    """The figures of one office, without its name; those of time are left out."""
    figures = {}
    for whole, value in found.items():
        figure, labels = re.fullmatch(r"boxoffice_(\w+)\{(.*)\}", whole).groups()  # type: ignore[union-attr]
        rest = [label for label in labels.split(",") if label != f'office="{name}"']
        if f'office="{name}"' in labels and not figure.endswith("_seconds"):
            figures[" ".join([figure, *(label.split('"')[1] for label in rest)])] = value
    return figures


def wanted_of(office: Office) -> Figures:
    """What the figures of an office have to be, by its own words."""
    caller, operator = Caller(office.port), Operator(office.path)
    site, sites, entries, limit, *_ = map(int, re.findall("[0-9]+", operator.ask("status")))
    wanted: Figures = {"up": 1, "socket_up": 1, "site": site, "sites": sites}
    wanted |= {"entries": entries, "entries_limit": limit}
    for event in EVENTS:
        left, totals = caller.ask(f"left {event}"), caller.ask(f"totals {event}")
        wanted[f"event_known {event}"] = left != "unknown"
        if left == "unknown":
            continue
        wanted[f"left {event}"] = int(left.split()[1])
        words = totals.split()[1:]
        wanted[f"view_impossible {event}"] = words[-1] == "none"
        wanted |= {f"{name} {event}": int(count) for name, count in zip(words[::2], words[1::2]) if count != "none"}
        for row in operator.message(operator.ask(f"shares {event}")).splitlines()[:-1]:
            share, *counts = row.split()
            for name, count in zip(counts[::2], counts[1::2]):
                wanted |= {f"share_{name} {event} {share}": int(count)} if count != "none" else {}
    caller.go_away()
    operator.go_away()
    return wanted


@contextlib.contextmanager
def offices(folder: str, *names: str) -> Iterator[list[Office]]:
    """Open offices of as many sites; they are killed in the end."""
    found: list[Office] = []
    try:
        for me, name in enumerate(names):
            make_site(folder, name + ".db", me, len(names), 200)
            found.append(Office(folder, name + ".db", free_port()))
        yield found
    finally:
        for office in found:
            office.program.kill()
            office.program.wait()


def place(office: Office) -> str:
    return f"{office.file.removesuffix('.db')}={office.port}:{office.file}"


def asked(office: Office, *lines: str) -> list[str]:
    caller = Caller(office.port)
    replies = [caller.ask(line) for line in lines]
    caller.go_away()
    return replies


def agrees(exporter: Exporter, office: Office, what: str) -> None:
    found, wanted = of_office(exporter.figures(), office.file.removesuffix(".db")), wanted_of(office)
    callers, asking = found.pop("callers", 0), found.pop("asking", -1) + found.pop("waiting", -1)
    within(f"{what}: callers", callers, 1, 8)
    within(f"{what}: callers who ask", asking, 0, 8)
    same(f"{what}: the figures are what the office says", found, wanted)


def figures_agree(folder: str) -> None:
    opening = ["announce 1 gala", "release 2 gala 100", "cede 3 gala 40 1", "announce 4 expo"]
    with offices(folder, "north", "south") as (north, south):
        with Exporter(folder, place(north), place(south)) as exporter:
            agrees(exporter, north, "before the first event")
            same("the opening", asked(north, *opening), ["done"] * 4)
            agrees(exporter, north, "after the opening")
            same("it sells", asked(north, "sell 5 gala 7", "refund 6 5 2"), ["done"] * 2)
            agrees(exporter, north, "after a sale")
            operator = Operator(south.path)
            same("south joins it", operator.take(Operator(north.path).export(1))[0], "joined")
            same("south sells", asked(south, "sell 1 gala 40", "sell 2 gala 1"), ["done", "short 0"])
            agrees(exporter, south, "at the other site")
            # A message that no site sent: south would have sold what it never had.
            forged = "delta 1 0 1\nused gala 1 90\nend\n"
            same("a forged message", Operator(north.path).take(forged)[0], "joined")
            same("its view", asked(north, "totals gala")[0].split()[-1], "none")
            agrees(exporter, north, "after a forged message")
            found = exporter.figures()
            same("`open none`", found['boxoffice_view_impossible{event="gala",office="north"}'], 1.0)
            same("it has no figure of what is open", 'boxoffice_open{event="gala",office="north"}' in found, False)
            within("a look takes", found['boxoffice_look_seconds{office="north"}'], 1e-6, PATIENCE)
            same("a healthy run says nothing", exporter.said(), [])


def events_by_themselves(folder: str) -> None:
    """Without --events each event that an office knows has figures, from its announcement on."""
    with offices(folder, "north") as (north,), Exporter(folder, place(north), names_events=False) as exporter:
        same("no event", [name for name in of_office(exporter.figures(), "north") if " " in name], [])
        same("two events", asked(north, "announce 1 end", "announce 2 gala", "release 3 gala 9"), ["done"] * 3)
        found = of_office(exporter.figures(), "north")
        same("what it may sell", [found["left end"], found["left gala"], found["share_left gala 0"]], [0, 9, 9])
        same("a healthy run says nothing", exporter.said(), [])


def port_alone(folder: str) -> None:
    """Without FILE there is what the port says, and no more."""
    with offices(folder, "north") as (north,), Exporter(folder, f"n={north.port}", f"m={north.port}") as exporter:
        same("it sells", asked(north, "announce 1 gala", "release 2 gala 9"), ["done"] * 2)
        beside = ("socket", "entries", "share")
        wanted = {name: value for name, value in wanted_of(north).items() if not name.startswith(beside)}
        found = exporter.figures()
        same("the figures of the port", [of_office(found, "n"), of_office(found, "m")], [wanted, wanted])


def mixed_up(folder: str) -> None:
    """FILE of one site and the port of another: no figure of them is given."""
    with offices(folder, "north", "south") as (north, south):
        with Exporter(folder, f"n={north.port}:south.db", f"s={south.port}:none.db") as exporter:
            found = exporter.figures()
            same("no figure", of_office(found, "n"), {"up": 0.0, "socket_up": 0.0})
            same("no file", of_office(found, "s")["socket_up"], 0.0)
            said = ["n: port and FILE: of site 0 and of site 1", "s: socket: No such file or directory"]
            same("it is said", sorted(exporter.said()), said)


def away_and_back(folder: str) -> None:
    """An office that is closed, killed or stopped holds up no other."""
    with offices(folder, "north", "south", "east") as (north, south, east):
        same("it sells", asked(north, "announce 1 gala"), ["done"])
        with Exporter(folder, place(north), place(south), place(east)) as exporter:
            gone, names = ["up", "socket_up"], ("north", "south", "east")
            ups = [f'boxoffice_{up}{{office="{name}"}}' for name in names for up in gone]
            found = exporter.figures()
            same("all are there", [found[up] for up in ups], [1.0] * 6)
            south.close()
            east.program.send_signal(signal.SIGSTOP)
            begin = time.monotonic()
            found = exporter.figures()
            within("a look with one that hangs takes", time.monotonic() - begin, PATIENCE, PATIENCE + BUSY)
            same("one is closed, one hangs", [found[up] for up in ups], [1.0, 1.0, 0.0, 0.0, 0.0, 0.0])
            rest = [sorted(of_office(found, name)) for name in names[1:]]
            same("no old figure is given", rest, [sorted(gone)] * 2)
            within("until it was given up", found['boxoffice_look_seconds{office="east"}'], PATIENCE, PATIENCE + BUSY)
            east.program.send_signal(signal.SIGCONT)
            north.kill()
            comes("it goes on", lambda: [exporter.figures()[up] for up in ups], [0.0] * 4 + [1.0] * 2)
            same("a killed one", asked_of(folder, north, exporter, ups), [1.0, 1.0])
            words = {line.split(": ", 1)[1].split(":")[0] for line in exporter.said()}
            same("what is said", words, {"port", "socket"})
            said = [line for line in exporter.said() if line.startswith("east: port: ")]
            same("it is said once, and once that it is over", said, ["east: port: timed out", "east: port: well"])


def asked_of(folder: str, office: Office, exporter: Exporter, ups: list[str]) -> list[float]:
    """Whether an office that is opened again is seen."""
    again = Office(folder, office.file, office.port)
    try:
        found = exporter.figures()
        return [found[up] for up in ups[:2]]
    finally:
        again.program.kill()
        again.program.wait()


# What no office answers: so many pieces, and the seconds between two.
ANSWERS = {
    "ends": (b"", 1, 0.0),
    "garbage": (b"\xff\x00HTTP/1.1 400 Bad Request\r\n\r\n", 1, 0.0),
    "other": (b"site 0 of 2\nleft many\ntotals\n", 20, 0.0),
    "words": (b"full\n", 1, 0.0),
    "endless": (b"x" * 4096, 100_000, 0.0),
    "trickles": (b"s", 200, 0.3),
    "half": (b"", 0, 0.0),
}
# What "half" answers, a line for each: an office up to the third.
HALF = [b"site 0 of 2\n", b"left 5\n", b"totals many\n", *[b"left 5\n", b"unknown\n"] * 2]


def answers_so(listener: socket.socket, piece: bytes, count: int, pause: float) -> None:
    """Answers each caller so, until the listener is closed."""
    with contextlib.suppress(OSError):
        while True:
            caller = listener.accept()[0]
            with caller, contextlib.suppress(OSError):
                caller.recv(100)
                for _ in range(count):
                    caller.sendall(piece)
                    time.sleep(pause)
                for line in [] if count else HALF:
                    caller.sendall(line)
                    caller.recv(100)


def is_no_office(folder: str) -> None:
    with contextlib.ExitStack() as stack:
        words = []
        for name, answer in ANSWERS.items():
            listeners = [stack.enter_context(socket.socket(kind)) for kind in (socket.AF_INET, socket.AF_UNIX)]
            listeners[0].bind(("127.0.0.1", 0))
            listeners[1].bind(os.path.join(folder, f"{name}.db-sock"))
            for listener in listeners:
                listener.listen()
                threading.Thread(target=answers_so, args=(listener, *answer), daemon=True).start()
            words.append(f"{name}={listeners[0].getsockname()[1]}:{name}.db")
        with open(os.path.join(folder, "ends.db-peers"), "wb") as peers:
            peers.write(b"1 2 3\n\xff\n")
        os.mkfifo(os.path.join(folder, "words.db-peers"))
        with Exporter(folder, *words, seconds=2 * PATIENCE) as exporter:
            for _ in range(2):
                begin = time.monotonic()
                found = exporter.figures()
                within("a look at what is no office takes", time.monotonic() - begin, 0, 2 * PATIENCE + BUSY)
                wanted = {"up": 0.0, "socket_up": 0.0}
                same("nothing of them", [of_office(found, name) for name in ANSWERS], [wanted] * len(ANSWERS))
            wanted_words = sorted(f"{name}: {what}" for name in ANSWERS for what in ("port", "socket"))
            wanted_words = sorted([*wanted_words, "ends: exchange", "words: exchange"])
            found_words = sorted(line.rsplit(": ", 1)[0] for line in exporter.said())
            same("it is said once of each", found_words, wanted_words)
            why = [line for line in exporter.said() if line.startswith(("endless: port", "half: port"))]
            wanted_why = ["what answers is no office", "'totals many' is no answer of an office"]
            same("why", [line.split(": ", 2)[2] for line in sorted(why)], wanted_why)


def garbage_is_sent(folder: str) -> None:
    """Whatever comes to the exporter, it goes on."""
    with offices(folder, "north") as (north,), Exporter(folder, place(north)) as exporter:
        same("it sells", asked(north, "announce 1 gala"), ["done"])
        paths, hosts = ("/metric", "/../etc", "/metrics?x=%ff"), ("evil.example", "127.0.0.1.evil:80", "localhost:1")
        same("another path", [exporter.get(path)[0] for path in paths], [404, 404, 200])
        same("another name", [exporter.get(Host=host)[0] for host in hosts], [421, 421, 200])
        texts = [b"", b"\n", b"\xff" * 100, b"GET /metrics\r\n", b"GET " + b"a" * 70_000, b"GET / HTTP/9.9\r\n\r\n"]
        texts += [b"POST /metrics HTTP/1.1\r\nHost: localhost\r\nContent-Length: 9\r\n\r\nsell 1 ga"]
        texts += [b"GET /metrics HTTP/1.1\r\n" + b"A: b\r\n" * 200 + b"\r\n", b"sell 1 gala 1\n", os.urandom(5000)]
        held = []
        for text in texts:
            stream = socket.create_connection(("127.0.0.1", exporter.port), timeout=SECONDS)
            held.append(stream)
            with contextlib.suppress(OSError):
                stream.sendall(text)
                stream.shutdown(socket.SHUT_WR)
                among(f"{text[:20]!r}", b"boxoffice_up" in stream.recv(1 << 16), [False])
        # Those who send nothing, half a request, or read nothing hold up no one else.
        for text in (b"", b"GET /metr", b"GET /metrics HTTP/1.1\r\nHost: localhost\r\n\r\n") * 20:
            stream = socket.create_connection(("127.0.0.1", exporter.port), timeout=SECONDS)
            stream.sendall(text)
            held.append(stream)
        agrees(exporter, north, "meanwhile")
        same("who sends nothing is hung up on", held[len(texts)].recv(100), b"")
        for stream in held:
            stream.close()
        agrees(exporter, north, "after garbage")
        same("it says nothing of it", exporter.said(), [])


def peers_are_shown(folder: str) -> None:
    """What the exchange script knows of a site that is silent, and of one that is heard of."""
    words = ["2", "north.db", "shared", "--every", "0.2", "--quiet", "1", "--sparing", "0"]
    os.mkdir(os.path.join(folder, "shared"))
    names = ("silent", "due_seconds", "heard_seconds")
    silent, due, heard = (f'boxoffice_peer_{name}{{office="north",peer="1"}}' for name in names)
    with offices(folder, "north", "south") as (north, south), Exporter(folder, place(north)) as exporter:
        same("no script, no figure", [name for name in exporter.figures() if "peer" in name], [])
        with running(folder, [[FOLDER, "0", *words]]):
            same("something is due", asked(north, "announce 1 gala"), ["done"])
            comes("south is silent", lambda: exporter.figures().get(silent), 1.0)
            found = exporter.figures()
            same("it was never heard of", (found[due] >= 1, heard in found), (True, False))
            same("south looks", python(folder, [FOLDER, "1", "2", "south.db", "shared", "--once"])[0], 0)
            comes("south is heard of", lambda: exporter.figures().get(silent), 0.0)
            found = exporter.figures()
            same("nothing is due", found[due], 0.0)
            begin = time.time()
            first, again = found[heard], exporter.figures()[heard]
            within("seconds since it was heard of", again - first, 1.0, 2 + time.time() - begin)


def words_and_library(folder: str) -> None:
    """What it says of wrong words, of a port that is taken, and of a library that is missing."""
    every: list[list[str]] = [
        [],
        ["9797", "north=7000"],
        ["0", "n=7000", "--events", "gala"],
        ["9797", "n=70000", "--events", "gala"],
        ["9797", "n=7000", "n=7001", "--events", "gala"],
        ["9797", "n=7000", "--events", "Gala"],
        ["9797", "n=7000", "--events", "gala", "--seconds", "0"],
    ]
    for words in every:
        done = subprocess.run([PYTHON, "-B", EXPORTER, *words], capture_output=True, text=True, check=False)
        same(f"wrong words {words}", (done.returncode, done.stdout, done.stderr.split(":")[0]), (2, "", "usage"))
    with socket.socket() as taken:
        taken.bind(("127.0.0.1", 0))
        taken.listen()
        port = str(taken.getsockname()[1])
        words = [PYTHON, "-B", EXPORTER, port, "n=7000", "--events", "gala"]
        done = subprocess.run(words, capture_output=True, text=True, check=False, timeout=SECONDS)
        found = done.returncode, done.stdout, done.stderr
        same("a port that is taken", found, (3, "", f"port {port}: Address already in use\n"))


def without_library(folder: str) -> None:
    with open(os.path.join(folder, "prometheus_client.py"), "w", encoding="ascii") as module:
        module.write("raise ModuleNotFoundError(name='prometheus_client')\n")
    words = [PYTHON, "-B", EXPORTER, "9797", "n=7000", "--events", "gala"]
    env = {**os.environ, "PYTHONPATH": folder}
    done = subprocess.run(words, capture_output=True, text=True, check=False, env=env)
    wanted = (3, "", "prometheus_client: install python3-prometheus-client\n")
    same("without its library", (done.returncode, done.stdout, done.stderr), wanted)


# What has to fire, and when: series of each minute, and then alerts by their labels.
CASES = """rule_files: [{rules}]
evaluation_interval: 1m
tests:
  - interval: 1m
    input_series:
      - {{series: 'boxoffice_up{{office="gone"}}', values: '1 0 0 0'}}
      - {{series: 'boxoffice_up{{office="blink"}}', values: '1 0 1 1'}}
      - {{series: 'boxoffice_entries{{office="full"}}', values: '1799 1800 1800 1800'}}
      - {{series: 'boxoffice_entries_limit{{office="full"}}', values: '2000 2000 2000 2000'}}
      - {{series: 'boxoffice_entries{{office="half"}}', values: '1000 1000 1000 1000'}}
      - {{series: 'boxoffice_entries_limit{{office="half"}}', values: '2000 2000 2000 2000'}}
      - {{series: 'boxoffice_peer_silent{{office="north", peer="1"}}', values: '0 0 1 1'}}
      - {{series: 'boxoffice_peer_silent{{office="north", peer="2"}}', values: '0 0 0 0'}}
    alert_rule_test:
{cases}"""
FIRE: dict[tuple[str, int], list[tuple[str, str, str]]] = {
    ("BoxofficeGone", 1): [],
    ("BoxofficeGone", 3): [("gone", "", "gone: the office does not answer at its port")],
    ("BoxofficeHistoryNearlyFull", 0): [],
    ("BoxofficeHistoryNearlyFull", 1): [
        ("full", "", "full: nine tenths of LIMIT are used, which is for life: open a new site number")
    ],
    ("BoxofficeSiteNotHeardOf", 1): [],
    ("BoxofficeSiteNotHeardOf", 2): [("north", "1", "north: something is due to site 1, which is not heard of")],
}


def rules_fire(folder: str) -> None:
    same("promtool reads the rules", promtool(folder, "check", "rules", RULES)[0], 0)
    cases = ""
    for (alert, minute), alerts in FIRE.items():
        cases += f"      - eval_time: {minute}m\n        alertname: {alert}\n        exp_alerts:"
        cases += "\n" if alerts else " []\n"
        for office, peer, summary in alerts:
            labels = f"office: {office}" + (f', peer: "{peer}"' if peer else "")
            cases += f"          - exp_labels: {{{labels}}}\n            exp_annotations: {{summary: '{summary}'}}\n"
    shutil.copy(RULES, folder)
    for name, text in (("well", cases), ("planted", cases.replace("office: full", "office: half"))):
        with open(os.path.join(folder, name + ".yml"), "w", encoding="ascii") as file:
            file.write(CASES.format(rules="alerts.yml", cases=text))
    status, said = promtool(folder, "test", "rules", "well.yml")
    same(f"each alert fires when it should: {said[-1500:] if status else ''}", status, 0)
    same("a planted fault is seen", promtool(folder, "test", "rules", "planted.yml")[0] != 0, True)


def promtool(folder: str, *words: str) -> tuple[int, str]:
    done = subprocess.run(
        ["promtool", *words], cwd=folder, capture_output=True, text=True, check=False, timeout=SECONDS
    )
    return done.returncode, done.stdout + done.stderr


CONFIGURATION = """global: {{scrape_interval: 1s, scrape_timeout: 1s, evaluation_interval: 1s}}
rule_files: [alerts.yml]
scrape_configs:
  - job_name: boxoffice
    static_configs: [{{targets: ["127.0.0.1:{port}"]}}]
"""


def by_prometheus(folder: str) -> None:
    """Debian's prometheus collects the figures, and its alerts come and go."""
    shutil.copy(RULES, folder)
    port = free_port()
    with offices(folder, "north", "south") as (north, south):
        same("it sells", asked(north, "announce 1 gala", "release 2 gala 50", "sell 3 gala 8"), ["done"] * 3)
        with Exporter(folder, place(north), place(south), seconds=0.5) as exporter:
            with open(os.path.join(folder, "prometheus.yml"), "w", encoding="ascii") as file:
                file.write(CONFIGURATION.format(port=exporter.port))
            listen = f"--web.listen-address=127.0.0.1:{port}"
            with open(os.path.join(folder, "prometheus.said"), "wb") as log:
                program = subprocess.Popen(
                    ["prometheus", "--config.file=prometheus.yml", "--storage.tsdb.path=data", listen],
                    cwd=folder, stdout=log, stderr=log,
                )  # fmt: skip
            try:
                prometheus_sees(port, north)
            finally:
                program.kill()
                program.wait()


def prometheus_sees(port: int, north: Office) -> None:
    def queried(query: str) -> list[str]:
        url = f"http://127.0.0.1:{port}/api/v1/query?" + urllib.parse.urlencode({"query": query})
        with contextlib.suppress(OSError, ValueError):
            with urllib.request.urlopen(url, timeout=30) as reply:
                return [one["value"][1] for one in json.load(reply)["data"]["result"]]
        return []

    comes("what is left", lambda: queried('boxoffice_left{office="north",event="gala"}'), ["42"])
    comes("both are up", lambda: queried("boxoffice_up"), ["1", "1"])
    full = 'ALERTS{alertname="BoxofficeHistoryNearlyFull",alertstate="firing"}'
    same("no history is nearly full", queried(full), [])
    same("177 more", asked(north, *(f"announce {number} gala" for number in range(10, 186))), ["known"] * 176)
    comes("entries", lambda: queried('boxoffice_entries{office="north"}'), ["179"])
    same("not yet", queried(full), [])
    same("one more", asked(north, "announce 186 gala"), ["known"])
    comes("nine tenths of its limit", lambda: queried(full), ["1"])
    north.kill()
    gone = 'ALERTS{alertname="BoxofficeGone",office="north"}'
    comes("the office is gone", lambda: queried(gone), ["1"])
    same("the other is not", queried('ALERTS{alertname="BoxofficeGone",office="south"}'), [])


TRIALS = [figures_agree, events_by_themselves, port_alone, mixed_up, away_and_back, is_no_office, garbage_is_sent]
TRIALS += [peers_are_shown, words_and_library]


def main() -> int:
    trials: list[Callable[[str], None]] = [without_library] if os.path.exists(PYTHON) else []
    if has_library():
        trials += TRIALS
        if shutil.which("prometheus"):
            trials.append(by_prometheus)
        else:
            print("passed over, for want of prometheus: by_prometheus")
    else:
        print("passed over, for want of python3-prometheus-client: all trials but those of the rules")
    if shutil.which("promtool"):
        trials.append(rules_fire)
    else:
        print("passed over, for want of promtool (Debian's prometheus): rules_fire")
    if not trials:
        same("nothing was tried", len(trials), 0)
    return try_each(trials, "exporter: 0 differ", "exporter: {} differ")


sys.exit(main())
