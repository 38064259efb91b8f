#!/usr/bin/env python3
"""Sells by the built `serve` at as many sites, and to as many callers, as there may be; and cedes while it serves.

Usage: tests/sites_at_once.py [PROGRAM]     (PROGRAM: crates/boxoffice/out/boxoffice)

A seat that is ceded in a session is there for a session at the other site, again and again, while both go on. Each of
1,024 callers comes to the site whose number is its own modulo the count of sites. A connection that cannot be accepted
ends the command. Prints what differs, and ends with status 1 where anything does.
"""

import contextlib
import resource
import socket
import sys
import time

from lib import call, Caller, connected, ended, free_port, make_sites, opened, same, SECONDS, started, try_each

MOST_SITES, MOST_CALLERS, MOST_ROUNDS = 16, 1024, 1_000_000
# More messages over each link than it has room for, many times over.
CESSIONS = 80
SEATS = 5
# How long a ceded seat may be on its way.
SOON = 120
# What makes the message to the site that takes none a long one, so that the rounds do not end before the sessions.
EVENTS = 300
# So many files may be open where not all connections can be accepted.
FEW_FILES = 16


def asked(folder: str, file: str, lines: list[str]) -> None:
    told = call(folder, ["ask", file], "".join(line + "\n" for line in lines))
    same(f"ask {file}", told, (0, "done\n" * len(lines), ""))


def three_sites(folder: str) -> list[str]:
    """Two sites that cede to one another, and one whose full history takes no message, which stays due to it."""
    files = ["north.db", "south.db", "full.db"]
    for site, limit in enumerate([100_000, 100_000, 1]):
        same(f"init {files[site]}", call(folder, ["init", files[site], str(site), "3", str(limit)]), (0, "done\n", ""))
    asked(folder, files[2], ["announce 1 expo"])
    asked(folder, files[0], [f"announce {number} event-{number}" for number in range(10, 10 + EVENTS)])
    asked(folder, files[0], ["announce 1 gala", f"release 2 gala {SEATS}"])
    return files


def comes(caller: Caller, wanted: int) -> bool:
    """Whether the site has so many seats soon."""
    end = time.monotonic() + SOON
    while time.monotonic() < end:
        if caller.ask("left gala") == f"left {wanted}":
            return True
    return False


def cede_to_and_fro(north: Caller, south: Caller) -> int:
    """Cedes a seat to the other site and back; how often it came."""
    for k in range(CESSIONS):
        number = 1000 + k
        same(f"cession {k}", north.ask(f"cede {number} gala 1 1"), "done")
        if not comes(south, 1):
            return k
        same(f"cession {k} back", south.ask(f"cede {number} gala 1 0"), "done")
        if not comes(north, SEATS):
            return k
    return CESSIONS


def cessions(folder: str) -> None:
    """The rounds go on while the sessions do, and a cession of a session goes out with one of them."""
    files = three_sites(folder)
    port = free_port()
    serving = started(folder, port, 3, MOST_ROUNDS, files)
    try:
        callers = [Caller(port) for _ in files]
        for caller in callers:
            caller.stream.settimeout(SOON)
        same("cessions that came while sessions went on", cede_to_and_fro(*callers[:2]), CESSIONS)
        same("it serves still", serving.poll(), None)
    except TimeoutError:
        same("sessions are answered while rounds go on", False, True)
    finally:
        serving.kill()
        serving.communicate(timeout=SECONDS)
    out = call(folder, ["audit", *files])
    same(
        "the audit behind it",
        (out[0], out[1].splitlines()[-1]),
        (0, f"gala released {SEATS} sold 0 refunded 0 outstanding 0"),
    )


def callers_that_fit() -> int:
    """As many as there may be, or as this process may have open."""
    _, hard = resource.getrlimit(resource.RLIMIT_NOFILE)
    most = MOST_CALLERS + 200 if hard == resource.RLIM_INFINITY else min(MOST_CALLERS + 200, hard)
    resource.setrlimit(resource.RLIMIT_NOFILE, (most, hard))
    return min(MOST_CALLERS, most - 200)


def numbers_kept(folder: str, file: str) -> set[int]:
    with opened(folder, file) as records:
        return {number for (number,) in records.execute("SELECT number FROM entries WHERE number IS NOT NULL")}


def many_callers(folder: str) -> None:
    count = callers_that_fit()
    if count < MOST_CALLERS:
        print(f"sites at once: {count} callers, since no more files may be open here")
    files = [f"{site}.db" for site in range(MOST_SITES)]
    make_sites(folder, files)
    port = free_port()
    serving = started(folder, port, count, 3, files)
    callers = [Caller(port)]
    with contextlib.suppress(OSError):
        while len(callers) < count:
            callers.append(Caller(port, SOON))
    same("connections that are taken", len(callers), count)
    replies = [caller.ask(f"announce {number} event-{number}") for number, caller in enumerate(callers, 1)]
    same("each caller is answered", replies, ["done"] * count)
    same("each caller is let go", [caller.quit() for caller in callers], [True] * count)
    events = sorted(f"event-{number}" for number in range(1, count + 1))
    lines = "".join(f"{event} released 0 sold 0 refunded 0 outstanding 0\n" for event in events)
    same("the end of many callers", ended(serving), (0, lines, ""))
    for site, file in enumerate(files):
        same(f"who came to site {site}", numbers_kept(folder, file), set(range(site + 1, count + 1, MOST_SITES)))


def few_files() -> None:
    resource.setrlimit(resource.RLIMIT_NOFILE, (FEW_FILES, FEW_FILES))


def accepting_fails(folder: str) -> None:
    make_sites(folder, ["only.db"])
    port = free_port()
    serving = started(folder, port, 2 * FEW_FILES, 0, ["only.db"], preexec_fn=few_files)
    with contextlib.ExitStack() as streams:
        streams.enter_context(connected(port))
        for _ in range(2 * FEW_FILES - 1):
            with contextlib.suppress(OSError):
                streams.enter_context(socket.create_connection(("127.0.0.1", port), timeout=SECONDS))
        same("more connections than may be open", ended(serving), (3, "", "accept\n"))
    asked(folder, "only.db", ["announce 1 gala"])


sys.exit(try_each([cessions, many_callers, accepting_fails], "sites at once: 0 differ", "sites at once: {} differ"))
