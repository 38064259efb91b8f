#!/usr/bin/env python3
"""Runs the commands that README, MANUAL and the pages on copies and on the clients in Python show, and compares what
they print with what the page says.

usage: documents.py [PROGRAM]

A block of a page whose first line begins with `$ ` is run as it stands, in one folder for the page, from its top to
its end. What follows a command is what it prints. After `nc` or `boxoffice ask` it is a session in two columns: what
is typed, and the reply behind two spaces or more; `quit` has none. A command that ends in `&` goes on until the end
of the page. Ports of the page are replaced by free ones, and the path of what is built by the program. A block that
begins with `from boxoffice` is run by Python, and prints what the page says after "It prints". A command that this
machine has not (nc, sqlite3, curl, the library for Prometheus) is passed over, and counted so. """

from __future__ import annotations

import os
import re
import shutil
import subprocess
import sys
import time
from typing import Iterator

from lib import CHECKS, PROGRAM, TOP, free_port, same, try_each

SECONDS = 240.0  # How long a command may take.
PORTS = ("7000", "7001", "9797")  # Of the pages; the last is that of the figures for Prometheus.
SKIPPED: list[str] = []


def blocks(name: str) -> Iterator[tuple[int, list[str]]]:
    """The indented blocks of a page, each with the number of its first line."""
    with open(os.path.join(TOP, name), encoding="utf-8") as page:
        lines = page.read().split("\n")
    block: list[str] = []
    for at, line in enumerate([*lines, ""], 1):
        if line.startswith("    ") or (block and not line and lines[at : at + 1] and lines[at].startswith("    ")):
            block.append(line[4:])
        elif block:
            yield at - len(block), block
            block = []


def has_figures() -> bool:
    words = ["/usr/bin/python3", "-c", "import prometheus_client"]
    return os.path.exists(words[0]) and subprocess.run(words, capture_output=True, check=False).returncode == 0


class Page:
    """A page that is run: its folder, its ports, and the offices that it opened."""

    def __init__(self, name: str, folder: str) -> None:
        self.name, self.folder, self.offices = name, folder, list[subprocess.Popen[str]]()
        os.mkdir(os.path.join(folder, "bin"))
        os.symlink(PROGRAM, os.path.join(folder, "bin", "boxoffice"))
        for part in ("examples", "clients"):
            os.symlink(os.path.join(TOP, part), os.path.join(folder, part))
        path = os.path.join(folder, "bin") + os.pathsep + os.environ["PATH"]
        self.env = {
            **os.environ,
            "PATH": path,
            "PYTHONPATH": os.path.join(TOP, "clients", "python"),
            "PYTHONDONTWRITEBYTECODE": "1",
        }
        self.ports = {port: str(free_port()) for port in PORTS}

    def real(self, text: str) -> str:
        """The text with the ports that are used here."""
        return re.sub(rf"\b({'|'.join(PORTS)})\b", lambda port: self.ports[port.group()], text)

    def run(self, where: str, command: str, shown: list[str]) -> None:
        if command.startswith("cp "):  # The program is on the path already.
            return
        needs = [tool for tool in ("nc", "sqlite3", "curl") if re.search(rf"(?:^|\| ){tool} ", command)]
        is_figures = self.ports["9797"] in command
        if any(shutil.which(tool) is None for tool in needs) or is_figures and not has_figures():
            SKIPPED.append(f"{where}: {command}")
            return
        if command.endswith("&"):
            office = subprocess.Popen(
                ["sh", "-c", "exec " + command.rstrip("& ")],
                cwd=self.folder,
                env=self.env,
                text=True,
                stdin=subprocess.DEVNULL,
                stdout=subprocess.PIPE,
            )
            self.offices.append(office)
            assert office.stdout is not None
            same(where, [office.stdout.readline().rstrip("\n")], shown)
            return
        is_session = command.startswith(("nc ", "boxoffice ask "))
        typed = [re.split(" {2,}", line, maxsplit=1) for line in shown] if is_session else []
        given = "".join(words[0] + "\n" for words in typed)
        wanted = [words[1] for words in typed if len(words) > 1] if is_session else shown
        done = subprocess.run(
            ["sh", "-c", command],
            cwd=self.folder,
            env=self.env,
            text=True,
            input=given,
            capture_output=True,
            timeout=SECONDS,
            check=False,
        )
        same(where, (done.stdout.splitlines(), done.stderr, done.returncode), (wanted, "", 0))

    def run_python(self, where: str, text: str, wanted: str) -> None:
        done = subprocess.run(
            [sys.executable, "-c", text],
            cwd=self.folder,
            env=self.env,
            text=True,
            capture_output=True,
            timeout=SECONDS,
            check=False,
        )
        same(where, (done.stdout.strip(), done.stderr, done.returncode), (wanted, "", 0))

    def end(self) -> None:
        for office in self.offices:
            if office.poll() is None:
                time.sleep(0.1)
                office.kill()
            office.wait()


def run_page(name: str, folder: str) -> None:
    with open(os.path.join(TOP, name), encoding="utf-8") as text:
        says = re.findall(r"It prints `([^`]*)`", text.read())
    page, before = Page(name, folder), CHECKS.passed
    try:
        for at, block in blocks(name):
            if block[0].startswith("$ "):
                starts = [index for index, line in enumerate(block) if line.startswith("$ ")] + [len(block)]
                for begin, end in zip(starts, starts[1:]):
                    command = page.real(re.sub(r" {2,}#.*", "", block[begin][2:]).rstrip())
                    page.run(f"{name}:{at + begin}", command, [page.real(line) for line in block[begin + 1 : end]])
            elif block[0].startswith("from boxoffice"):
                page.run_python(f"{name}:{at}", page.real("\n".join(block)), says.pop(0) if says else "")
    finally:
        page.end()
    same(f"{name}: commands were found", CHECKS.passed > before, True)


def readme(folder: str) -> None:
    run_page("README.md", folder)


def manual(folder: str) -> None:
    run_page("docs/MANUAL.md", folder)


def copies(folder: str) -> None:
    run_page("docs/COPIES.md", folder)


def python_clients(folder: str) -> None:
    run_page("clients/python/README.md", folder)


status = try_each([readme, manual, copies, python_clients], "each command that is shown prints what the page says")
for skipped in SKIPPED:
    print(f"passed over, for want of its program: {skipped}")
sys.exit(status)
