"""Offices that exchange messages by the scripts of exchange/: sites, brokers, and programs that run beside."""

from __future__ import annotations

import contextlib
import os
import shutil
import subprocess
import sys
import time
from collections.abc import Callable, Iterable, Iterator, Mapping, Sequence
from typing import Any

from .checks import same
from .office import Caller, Office, Operator, connected
from .options import TOP
from .program import SECONDS, Found, call, free_port

OFFICE, FOLDER, MQTT, SSH = (
    os.path.join(TOP, "exchange", name) for name in ("office.py", "folder/boxoffice-exchange", "mqtt", "ssh")
)
CITIES, NEEDED = ["north", "south", "east"], ("mosquitto", "mosquitto_pub", "mosquitto_sub", "openssl")
# How often a script looks, and by how many seconds what is due is published again; it spares no message.
EVERY = "0.2"
OFTEN = ["--every", EVERY, "--sparing", "0"]


class Site(Office):
    """The office of one of several sites, with a clerk."""

    def __init__(self, folder: str, me: int, sites: int = 2, port: int | None = None) -> None:
        self.me, self.file, self.sites = me, CITIES[me] + ".db", sites
        if not os.path.exists(os.path.join(folder, self.file)):
            same(
                f"init {self.file}", call(folder, ["init", self.file, str(me), str(sites), "100000"]), (0, "done\n", "")
            )
        super().__init__(folder, self.file, port or free_port())
        self.clerk = Caller(self.port)

    def close(self) -> None:
        same(f"close of {self.file}", Operator(self.path).ask("close"), "closing")
        self.has_ended()

    def ask(self, *lines: str) -> list[str]:
        return [self.clerk.ask(line) for line in lines]

    def export(self, to: int) -> Found:
        return python(self.folder, [OFFICE, "export", self.file + "-sock", str(to)])

    def due(self) -> list[Found]:
        return [self.export(peer) for peer in range(self.sites) if peer != self.me]


def run(folder: str, words: list[str], given: str = "", **more: Any) -> Found:
    done = subprocess.run(
        words, input=given, capture_output=True, text=True, cwd=folder, timeout=SECONDS, check=False, **more
    )
    return done.returncode, done.stdout, done.stderr


def python(folder: str, words: list[str], given: str = "", **more: Any) -> Found:
    return run(folder, [sys.executable, *words], given, **more)


@contextlib.contextmanager
def opened_sites(folder: str, sites: int) -> Iterator[list[Site]]:
    """Offices that are killed at the end of a `with`, unless they were closed. One that is opened again takes its place
    there."""
    offices: list[Site] = []
    try:
        for me in range(sites):
            offices.append(Site(folder, me, sites))
        yield offices
    finally:
        for office in offices:
            office.program.kill()


def comes(what: str, look: Callable[[], object], wanted: object, seconds: float = SECONDS) -> float:
    """Looks until it is as wanted, or time is up; gives how many seconds it took."""
    begin = time.monotonic()
    while (found := look()) != wanted and time.monotonic() < begin + seconds:
        time.sleep(0.05)
    same(what, found, wanted)
    return time.monotonic() - begin


@contextlib.contextmanager
def running(
    folder: str, scripts: Iterable[Sequence[str]], environments: Sequence[Mapping[str, str]] | None = None
) -> Iterator[None]:
    """Scripts that run until the end of a `with`; what they say is in the files 0.said, 1.said and so on."""
    with contextlib.ExitStack() as stack:
        for k, words in enumerate(scripts):
            file = stack.enter_context(open(os.path.join(folder, f"{k}.said"), "a", encoding="utf-8"))
            more = environments[k] if environments else {}
            program = subprocess.Popen([sys.executable, *words], cwd=folder, stderr=file, env={**os.environ, **more})
            stack.callback(program.wait, SECONDS)
            stack.callback(program.terminate)
        yield


def said(folder: str, me: int) -> str:
    with open(os.path.join(folder, f"{me}.said"), encoding="utf-8") as file:
        return file.read()


class Brokers:
    """A broker for each site, as `configure` has it."""

    def __init__(self, folder: str, hosts: Sequence[tuple[str, int]], before: Sequence[Sequence[str]] = ()) -> None:
        """`before` are for each broker the words that start a program elsewhere, as in a network namespace."""
        self.folder, self.hosts, self.before = folder, hosts, before
        self.programs: dict[int, subprocess.Popen[bytes]] = {}
        pairs = [f"{me}={host}" for me, (host, _) in enumerate(hosts)]
        same("certificates", run(folder, [os.path.join(MQTT, "certificates"), *pairs]), (0, "", ""))
        for me, (_, port) in enumerate(hosts):
            os.mkdir(place := os.path.join(folder, str(me)))
            for file in ["ca.crt", f"{me}.crt", f"{me}.key"]:
                shutil.copy(os.path.join(folder, file), place)
            same("configure", run(place, [os.path.join(MQTT, "configure"), str(me), str(port)]), (0, "", ""))
            self.start(me)

    def start(self, me: int) -> None:
        """Starts a broker, and returns once it listens (in a namespace of its own that cannot be seen from here)."""
        configuration = os.path.join(self.folder, str(me), "broker.conf")
        words = [*(self.before[me] if self.before else ()), "mosquitto", "-c", configuration]
        self.programs[me] = subprocess.Popen(words, stdout=subprocess.DEVNULL, stderr=subprocess.DEVNULL)
        if not self.before:
            connected(self.hosts[me][1]).close()

    def kill(self, me: int) -> None:
        self.programs[me].kill()
        self.programs[me].wait(SECONDS)

    @contextlib.contextmanager
    def killed(self, me: int) -> Iterator[None]:
        """The broker of a site is not there until a moment after the end of a `with`."""
        self.kill(me)
        yield
        time.sleep(1)
        self.start(me)

    def end(self) -> None:
        for me in range(len(self.hosts)):
            self.kill(me)

    def script(self, me: int, file: str) -> tuple[list[str], dict[str, str]]:
        """The words that run a site's script, without those that start it elsewhere, and its environment."""
        peers = [f"{peer}={host}:{port}" for peer, (host, port) in enumerate(self.hosts) if peer != me]
        words = [os.path.join(MQTT, "boxoffice-exchange"), str(me), file, *OFTEN, *peers]
        return words, {"XDG_CONFIG_HOME": os.path.join(self.folder, str(me))}

    def publish(self, me: int, at: int, topic: str, message: str) -> str:
        """What a broker answers a site that publishes this."""
        words = ["mosquitto_pub", "-V", "mqttv5", "-k", "5", "-q", "1", "-r", "-t", topic, "-m", message]
        place = {**os.environ, "XDG_CONFIG_HOME": os.path.join(self.folder, str(me))}
        return run(self.folder, [*words, "-h", self.hosts[at][0], "-p", str(self.hosts[at][1])], env=place)[2].strip()

    def holds(self, me: int, topic: str, part: str) -> bool:
        """Whether the retained message of a topic at a site's own broker has this."""
        place = {**os.environ, "XDG_CONFIG_HOME": os.path.join(self.folder, str(me))}
        return part in run(self.folder, ["mosquitto_sub", "-k", "5", "-C", "1", "-W", "2", "-t", topic], env=place)[1]

    def dies(self, me: int, at: int, topic: str, message: str) -> None:
        """A site leaves this behind at a broker as its last will, and its connection ends."""
        place = {**os.environ, "XDG_CONFIG_HOME": os.path.join(self.folder, str(me))}
        host, port = self.hosts[at]
        words = ["mosquitto_sub", "-h", host, "-p", str(port), "-t", f"sites/{me}/#", "--will-qos", "1"]
        will = ["--will-retain", "--will-topic", topic, "--will-payload", message]
        with subprocess.Popen(
            [*words, *will], env=place, stdout=subprocess.DEVNULL, stderr=subprocess.DEVNULL
        ) as program:
            time.sleep(1)
            program.kill()
