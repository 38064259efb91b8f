#!/usr/bin/env python3
"""Tries the till and the board in the browser (clients/web) over an open office, by HTTP and in headless Chromium.

usage: web.py [PROGRAM]

What a page says is compared with what the office has (`boxoffice list`). It needs Debian's python3-flask and
python3-waitress, for the trials in a browser chromium, chromium-driver and python3-selenium, and for those by TLS nginx
or caddy, curl and openssl; what this machine lacks is passed over, and counted so. Screenshots are kept in the folder
that WEB_SHOTS names. """

from __future__ import annotations

import contextlib
import json
import os
import signal
import subprocess
import sys
import threading
import time
import urllib.error
import urllib.request
import uuid
from typing import Any, Callable, TypeVar

from lib import CHECKS, HERE, PROGRAM, SECONDS, TOP, free_port, same, try_each, within
from lib.proxies import Proxy, is_here

WEB = os.path.join(TOP, "clients", "web")
sys.path.insert(0, WEB)
import looks  # noqa: E402

PYTHON = "/usr/bin/python3"  # Debian's, which has Debian's packages.
LIMIT = 100  # Entries of the office's history.
NO_BROWSER = 77  # With what lib/web_pages.py ends where no browser starts.


def has(*modules: str) -> bool:
    words = [PYTHON, "-c", "import " + ", ".join(modules)]
    return os.path.exists(PYTHON) and subprocess.run(words, capture_output=True, check=False).returncode == 0


Shown = TypeVar("Shown")


def until(what: str, holds: Callable[[], Shown | None], seconds: float = SECONDS) -> Shown | None:
    """What `holds` gives once it is true; counted as different if it never is."""
    end = time.monotonic() + seconds
    while time.monotonic() < end:
        with contextlib.suppress(OSError, IndexError, ValueError, KeyError):
            if found := holds():
                return found
        time.sleep(0.05)
    same(f"{what}, within {seconds:.0f} s", False, True)
    return None


class Scene:
    """An office with 200 seats of gala, 40 of them another site's, and a gateway beside it with two tills and a
    manager."""

    def __init__(self, folder: str) -> None:
        self.folder, self.port, self.web_port = folder, free_port(), free_port()
        self.url = f"http://127.0.0.1:{self.web_port}"
        self.call("init", "north.db", "0", "2", str(LIMIT))
        self.open()
        lines = ["announce 1 gala", "release 2 gala 200", "cede 3 gala 40 1", "announce 4 opera", "release 5 opera 25"]
        subprocess.run(
            [PROGRAM, "ask", "north.db"],
            input="".join(line + "\n" for line in lines),
            text=True,
            cwd=folder,
            check=True,
            stdout=subprocess.DEVNULL,
        )
        os.mkdir(os.path.join(folder, "web"))
        with open(os.path.join(folder, "web", "gateway.ini"), "w", encoding="ascii") as ini:
            ini.write(f"[gateway]\noffice = {self.port}\nlisten = 127.0.0.1:{self.web_port}\nevents = gala opera\n")
            ini.write(f"socket = {folder}/north.db-sock\nseconds = 2\n")
        users = (("till-1", "clerk"), ("till-2", "clerk"), ("anna", "manager"))
        self.passwords = {name: self.add(name, role) for name, role in users}
        self.start()

    def call(self, *words: str, given: str = "") -> str:
        return subprocess.run(
            [PROGRAM, *words],
            cwd=self.folder,
            text=True,
            input=given,
            capture_output=True,
            timeout=SECONDS,
            check=False,
        ).stdout

    def open(self) -> None:
        words = [PROGRAM, "open", str(self.port), "north.db"]
        self.office = subprocess.Popen(
            words, cwd=self.folder, text=True, stdout=subprocess.PIPE, stdin=subprocess.DEVNULL
        )
        assert self.office.stdout
        same("the office opens", self.office.stdout.readline().startswith("open"), True)

    def kill_office(self) -> None:
        self.office.kill()
        self.office.wait()

    def add(self, name: str, role: str) -> str:
        words = [PYTHON, os.path.join(WEB, "boxoffice-web"), "add", os.path.join(self.folder, "web"), name, role]
        return subprocess.run(words, text=True, capture_output=True, check=True).stdout.strip()

    def start(self, die_at: str = "", is_public: bool = False) -> None:
        """Starts the gateway; it kills itself at a step that is named, of the first sale that it asks."""
        env = {**os.environ, "PYTHONDONTWRITEBYTECODE": "1"}
        words = [PYTHON, os.path.join(WEB, "boxoffice-web"), os.path.join(self.folder, "web")]
        if die_at:
            words = [PYTHON, "-c", DYING, die_at, os.path.join(self.folder, "web"), WEB]
        with open(os.path.join(self.folder, "web.log"), "ab") as log:
            self.gateway = subprocess.Popen(words, env=env, stdout=log, stderr=log)
        # (behind another name it answers none but that)
        until("the gateway answers", lambda: self.get("/login")[0] == (421 if is_public else 200))

    def kill_gateway(self) -> None:
        self.gateway.kill()
        self.gateway.wait()

    def end(self) -> None:
        every: tuple[subprocess.Popen[bytes] | subprocess.Popen[str], ...] = (self.gateway, self.office)
        for process in every:
            with contextlib.suppress(ProcessLookupError):
                process.send_signal(signal.SIGCONT)
            process.kill()
            process.wait()

    def left(self, event: str) -> str:
        return subprocess.run(
            [PROGRAM, "ask", "north.db"],
            input=f"left {event}\n",
            text=True,
            cwd=self.folder,
            timeout=SECONDS,
            capture_output=True,
            check=False,
        ).stdout.strip()

    def sales(self, event: str = "gala") -> list[str]:
        """The sales of an event that were done, as the office has them."""
        return [
            line
            for line in self.call("list", "north.db", event).splitlines()
            if " sell " in line and line.endswith(" done")
        ]

    def get(self, path: str, **heads: str) -> tuple[int, str]:
        return self.send(urllib.request.Request(self.url + path, headers=heads))

    def post(self, path: str, body: object, cookie: str = "", **heads: str) -> tuple[int, str]:
        heads = {
            "Content-Type": "application/json",
            "Origin": self.url,
            **({"Cookie": cookie} if cookie else {}),
            **heads,
        }
        return self.send(
            urllib.request.Request(self.url + path, data=json.dumps(body).encode(), headers=heads, method="POST")
        )

    def send(self, request: urllib.request.Request) -> tuple[int, str]:
        class Stays(urllib.request.HTTPRedirectHandler):
            def redirect_request(self, *_: object) -> None:
                return None

        try:
            with urllib.request.build_opener(Stays).open(request, timeout=30) as reply:
                self.cookie = (reply.headers.get("Set-Cookie") or "").split(";")[0]
                return reply.status, reply.read().decode()
        except urllib.error.HTTPError as error:
            with error:
                return error.code, error.read().decode()

    def log_in(self, name: str) -> str:
        same(f"{name} logs in", self.post("/login", {"name": name, "password": self.passwords[name]})[0], 200)
        return self.cookie

    def click(self, cookie: str, verb: str, click: str = "", **what: object) -> dict[str, Any]:
        """What a click came to; it is sent again until it is answered, as the page does."""
        body: dict[str, object] = {"click": click or str(uuid.uuid4()), **what}

        def answered() -> dict[str, Any] | None:
            status, text = self.post("/ask/" + verb, body, cookie)
            return None if status == 202 else {"status": status, **json.loads(text)}

        return until(f"{verb} {what} is answered", answered) or {}


# The gateway with a client that ends the process at a step of the first request.
DYING = """
import os, signal, sys
at, folder, web = sys.argv[1:]
sys.path[:0] = [web, os.path.join(web, "..", "python")]
import boxoffice, counter, clicks
add, keep = boxoffice.Journal.add, clicks.Clicks.keep
def dying_add(self, line):
    is_ask, is_reply = line.startswith("ask sell"), line.startswith("reply")
    if at == "written" and is_ask or at == "replied" and is_reply: os._exit(9)
    add(self, line)
    if at == "journalled" and is_ask or at == "settled" and is_reply: os._exit(9)
def dying_keep(self, click, reply):
    keep(self, click, reply)
    if at == "kept": os._exit(9)
boxoffice.Journal.add, clicks.Clicks.keep = dying_add, dying_keep
import importlib.machinery, importlib.util
loader = importlib.machinery.SourceFileLoader("web", os.path.join(web, "boxoffice-web"))
module = importlib.util.module_from_spec(importlib.util.spec_from_loader("web", loader))
loader.exec_module(module)
sys.argv = ["boxoffice-web", folder]
sys.exit(module.main())
"""


def sells_and_refunds(scene: Scene) -> None:
    me = scene.log_in("till-1")
    sold = scene.click(me, "sell", event="gala", seats=3)
    same("a sale", (sold.get("reply"), len(scene.sales()), scene.left("gala")), ("done", 1, "left 157"))
    part = scene.click(me, "refund", sale=sold["number"], seats=1)
    same("a part is given back", (part.get("reply"), scene.left("gala")), ("done", "left 158"))
    same("too many", scene.click(me, "refund", sale=sold["number"], seats=3).get("reply"), "too-many 2")
    same(
        "the rest",
        (scene.click(me, "refund", sale=sold["number"]).get("reply"), scene.left("gala")),
        ("done", "left 160"),
    )
    same("more than is left", scene.click(me, "sell", event="gala", seats=161).get("reply"), "short 160")


def same_click_counts_once(scene: Scene) -> None:
    me, click, before = scene.log_in("till-1"), str(uuid.uuid4()), len(scene.sales())
    found: list[dict[str, Any]] = []
    threads = [
        threading.Thread(target=lambda: found.append(scene.click(me, "sell", click, event="gala", seats=2)))
        for _ in range(5)
    ]
    for thread in threads:
        thread.start()
    for thread in threads:
        thread.join()
    numbers = {answer.get("number") for answer in found}
    same("five at once: one number, one sale", (len(numbers), len(found), len(scene.sales()) - before), (1, 5, 1))
    other = scene.log_in("till-2")
    same("another till's click", scene.click(other, "sell", click, event="gala", seats=2).get("status"), 400)


def killed_at_each_step(scene: Scene) -> None:
    me = scene.log_in("till-1")
    for step in ("written", "journalled", "replied", "settled", "kept"):
        before, click = len(scene.sales()), str(uuid.uuid4())
        scene.kill_gateway()
        scene.start(step)
        with contextlib.suppress(OSError):
            scene.post("/ask/sell", {"click": click, "event": "gala", "seats": 1}, me)
        scene.gateway.wait(SECONDS)
        scene.start()
        answer = scene.click(me, "sell", click, event="gala", seats=1)
        same(f"killed when {step}: counts once", (answer.get("reply"), len(scene.sales()) - before), ("done", 1))


def office_goes_away(scene: Scene) -> None:
    me, before = scene.log_in("till-1"), len(scene.sales())
    scene.kill_office()
    same("no office: nothing is asked", scene.click(me, "sell", event="gala", seats=1).get("state"), "not-asked")
    scene.open()
    scene.office.send_signal(signal.SIGSTOP)
    click = str(uuid.uuid4())
    asking = threading.Thread(target=lambda: scene.post("/ask/sell", {"click": click, "event": "gala", "seats": 1}, me))
    asking.start()
    time.sleep(0.5)
    scene.office.send_signal(signal.SIGCONT)
    asking.join()
    answer = scene.click(me, "sell", click, event="gala", seats=1)
    wanted = 1 if answer.get("reply") == "done" else 0
    same("an office that was stopped: as it says", len(scene.sales()) - before, wanted)


def holds_end(scene: Scene) -> None:
    me, before = scene.log_in("till-1"), scene.left("gala")
    held = scene.click(me, "sell", event="gala", seats=4, minutes=0.15)
    same("a hold is sold", (held.get("reply"), scene.left("gala") == before), ("done", False))
    until("its time is up: it is given back", lambda: scene.left("gala") == before)
    same("paid too late", json.loads(scene.post("/paid", {"sale": held["number"]}, me)[1]), {"state": "released"})
    paid = scene.click(me, "sell", event="gala", seats=4, minutes=1)
    same("paid in time", json.loads(scene.post("/paid", {"sale": paid["number"]}, me)[1]), {"state": "done"})
    over = scene.click(me, "sell", event="gala", seats=5, minutes=0.05)
    same("a hold before the gateway is killed", over.get("reply"), "done")
    scene.kill_gateway()
    time.sleep(4)
    scene.start()
    left = int(before.split()[1]) - 4
    until("given back once it runs again", lambda: scene.left("gala") == f"left {left}")
    now = scene.click(me, "sell", event="gala", seats=2, minutes=10)
    scene.post("/release", {"sale": now["number"]}, me)
    until("released at once", lambda: scene.left("gala") == f"left {left}")


def strangers_are_refused(scene: Scene) -> None:
    me, boss, before = scene.log_in("till-1"), scene.log_in("anna"), len(scene.sales())
    body = {"click": str(uuid.uuid4()), "event": "gala", "seats": 1}
    same("no login", (scene.get("/")[0], scene.post("/ask/sell", body)[0]), (302, 401))
    same("another origin", scene.post("/ask/sell", body, me, Origin="http://evil.example")[0], 403)
    form = {"Content-Type": "application/x-www-form-urlencoded"}
    same("a form", scene.post("/ask/sell", body, me, **form)[0], 403)
    same("another host", scene.get("/", Host="evil.example", Cookie=me)[0], 421)
    same("a clerk at the board", (scene.get("/board", Cookie=me)[0], scene.get("/points", Cookie=me)[0]), (403, 403))
    same("a manager sells", scene.post("/ask/sell", body, boss)[0], 403)
    same("a path", scene.get("/static/..%2fclicks.py", Cookie=me)[0], 404)
    wrongs: list[dict[str, object]] = [
        {"event": "x\nclose"},
        {"seats": -1},
        {"seats": 1.5},
        {"click": "1"},
        {"minutes": 1e9},
        {"seats": True},
    ]
    for wrong in wrongs:
        same(f"{wrong}", scene.post("/ask/sell", {**body, **wrong}, me)[0], 400)
    tries = [scene.post("/login", {"name": "till-2", "password": "x"})[0] for _ in range(6)]
    same("wrong passwords", tries, [403] * 5 + [429])
    same("nothing was sold", len(scene.sales()), before)


def opened(shown: dict[str, Any]) -> dict[str, Any] | None:
    return shown if shown.get("office") == "open" else None


def shown(scene: Scene, cookie: str, what: str, holds: Callable[[dict[str, Any]], object]) -> dict[str, Any]:
    """What a page is shown, once this holds."""
    request = urllib.request.Request(scene.url + "/stream", headers={"Cookie": cookie})
    with urllib.request.urlopen(request, timeout=30) as stream:

        def next_one() -> dict[str, Any] | None:
            found = opened(json.loads(stream.readline()[6:] or b"{}"))
            return found if found and holds(found) else None

        return until(what, next_one) or {}


def shows_what_is(scene: Scene) -> None:
    boss = scene.log_in("anna")
    seen = shown(scene, boss, "the office is seen", lambda _: True)
    history = seen["history"]
    same("its history", [history[name] for name in ("site", "sites", "entries", "limit")], [0, 2, 5, LIMIT])
    same("what each site has", seen["events"]["gala"]["shares"], [[160, 0, 0], [40, 0, 0]])
    same("no cession is seen yet", (seen["moves"], seen["silent"]), ({}, []))
    scene.call("ask", "north.db", given="sell 6 gala 3\nrefund 7 6 1\ncede 8 gala 7 1\n")
    seen = shown(scene, boss, "a cession is seen", lambda seen: seen["moves"])
    same("what each site has then", seen["events"]["gala"]["shares"], [[151, 3, 1], [47, 0, 0]])
    same("the cession", [move["change"] for move in seen["moves"]["gala"]], [[-7, 7]])
    with open(os.path.join(scene.folder, "north.db-peers"), "w", encoding="ascii") as peers:
        peers.write("1 1700000100 1700000000 1\n2 1700000100 0 0\n")
    seen = shown(scene, boss, "a site is silent", lambda seen: seen["silent"])
    same("the one that is", seen["silent"], [{"site": 1, "due": 1700000100, "heard": 1700000000}])
    same("points of the board", scene.get("/points", Cookie=boss)[0], 200)
    points = json.loads(scene.get("/points", Cookie=boss)[1])["gala"]
    same("the first and the last point", [points[at]["lefts"] for at in (0, -1)], [[160, 40], [151, 47]])
    same("a clerk is shown no cessions", "moves" in shown(scene, scene.log_in("till-1"), "a till", bool), False)


def reads_shares(scene: Scene) -> None:
    """What is read of an office's words, and who ceded between two looks."""
    rows = "0 left 5 sold 2 back 1\n1 left none sold 0 back 0\n"
    same("two sites", looks.shares_of(rows + "end"), [(5, 2, 1), (None, 0, 0)])
    same("none", [looks.shares_of(text) for text in ("unknown", "full", rows + "store", "end")], [None] * 4)
    before: list[looks.Share] = [(10, 0, 0), (5, 4, 1), (0, 0, 0)]
    wanted: dict[str, tuple[list[looks.Share], list[int] | None]] = {
        "nothing": (before, None),
        "sales and refunds": ([(8, 2, 0), (6, 4, 2), (0, 0, 0)], None),
        "a release": ([(30, 0, 0), *before[1:]], None),
        "a cession": ([(4, 0, 0), (5, 4, 1), (6, 0, 0)], [-6, 0, 6]),
        "two, and sales": ([(4, 2, 0), (0, 4, 1), (9, 0, 0)], [-4, -5, 9]),
        "to a new site": ([(7, 0, 0), *before[1:], (3, 0, 0)], [-3, 0, 0, 3]),
        "a view that is not possible": ([(None, 0, 0), *before[1:]], None),
    }
    for what, (now, change) in wanted.items():
        same(what, looks.moved(before, now), change)


def behind(scene: Scene, server: str) -> None:
    """The pages by TLS, through a server of examples/."""
    proxy = Proxy(scene.folder)
    scene.kill_gateway()
    with open(os.path.join(scene.folder, "web", "gateway.ini"), "a", encoding="ascii") as ini:
        ini.write(f"public = {proxy.url}\n")
    scene.start(is_public=True)
    with proxy.runs(server, scene.web_port):
        status, said = proxy.post("/login", {"name": "till-1", "password": scene.passwords["till-1"]})
        same("a login", (status, "Secure" in said, "HttpOnly" in said), (200, True, True))
        stream = proxy.stream()
        first = next(one for one in stream if one["office"] == "open")
        same("the stream comes", first["name"], "till-1")
        click = {"click": str(uuid.uuid4()), "event": "gala", "seats": 2}
        status, said = proxy.post("/ask/sell", click)
        same("a sale", (status, '"reply":"done"' in said.replace(" ", ""), len(scene.sales())), (200, True, 1))
        begin = time.monotonic()
        shown = next(one for one in stream if one["events"]["gala"]["left"] == 158)
        within("the stream brings it, as it comes, after", time.monotonic() - begin, 0, 30)
        same("the sale is shown", shown["office"], "open")
        same("the same click", (proxy.post("/ask/sell", click)[0], len(scene.sales())), (200, 1))
        same("by HTTP/1.1", proxy.curl("/", "--http1.1")[0], 200)
        same("another origin", proxy.post("/ask/sell", click, "-H", "Origin: https://evil.example")[0], 403)
        pages = [proxy.curl("/login"), proxy.curl("/login", "-H", f"Host: evil.example:{proxy.port}")]
        pages += [proxy.curl("/login", url=proxy.url.replace("https", "http"))]
        same("no page by another name, or without TLS", ["password" in page[1] for page in pages], [True, False, False])
        same("without a login", proxy.curl("/stream", cookies="none")[0], 401)


def behind_nginx(scene: Scene) -> None:
    behind(scene, "nginx")


def behind_caddy(scene: Scene) -> None:
    behind(scene, "caddy")


def in_chromium(scene: Scene) -> None:
    words = [PYTHON, os.path.join(HERE, "lib", "web_pages.py"), scene.url, json.dumps(scene.passwords)]
    words += [str(scene.port), str(LIMIT)]
    done = subprocess.run(words, text=True, capture_output=True, timeout=4 * SECONDS, check=False)
    if done.returncode == NO_BROWSER:
        print(f"passed over, as no browser starts here: {done.stderr.strip()[-300:]}")
        return
    said = done.stdout[-3000:] + done.stderr[-3000:] if done.returncode else ""
    if not same("the pages in Chromium", (done.returncode, said), (0, "")):
        return
    same("what the pages sold", len(scene.sales()), int(done.stdout))
    within("sales of the pages", len(scene.sales()), 9, 10)


def at_a_scene(trial: Callable[[Scene], None]) -> Callable[[str], None]:
    """The trial with a scene of its own; what the gateway said is printed if something differs."""

    def tried(folder: str) -> None:
        scene, before = Scene(folder), CHECKS.failed
        try:
            trial(scene)
        finally:
            scene.end()
            if CHECKS.failed > before:
                with open(os.path.join(folder, "web.log"), encoding="utf-8", errors="replace") as log:
                    print(log.read()[-3000:])

    return tried


BY_HTTP = [
    sells_and_refunds,
    same_click_counts_once,
    killed_at_each_step,
    office_goes_away,
    holds_end,
    strangers_are_refused,
    shows_what_is,
    reads_shares,
]


def main() -> int:
    trials: dict[str, Callable[[Scene], None]] = {}
    if has("flask", "waitress"):
        trials |= {trial.__name__: trial for trial in BY_HTTP}
        for server, trial in (("nginx", behind_nginx), ("caddy", behind_caddy)):
            if is_here(server):
                trials[trial.__name__] = trial
            else:
                print(f"passed over, for want of {server}, curl or openssl: {trial.__name__}")
        if has("selenium") and os.path.exists("/usr/bin/chromedriver"):
            trials["in_chromium"] = in_chromium
        else:
            print("passed over, for want of chromium-driver or python3-selenium: in_chromium")
    else:
        print("passed over, for want of python3-flask or python3-waitress: all trials")
        same("nothing was tried", len(trials), 0)
    return try_each({name: at_a_scene(trial) for name, trial in trials.items()}, "each click counts once")


sys.exit(main())
