#!/usr/bin/env python3
"""Kills the built program (SIGKILL) at random moments of `ask`, `import`, `init`, `migrate`, `grow` and `serve`. What
it had answered has to be in the files as C SQLite reads them, with little more, and asked again it has to answer the
same.

Usage: tests/kill.py [PROGRAM] [--full] [--seed=N]     (PROGRAM: crates/boxoffice/out/boxoffice)

With `--full` it kills many times as often. The moments come from the seed, which is printed first.
Says what differs, with the trial and its step, and ends with status 1 where anything does.
"""

import concurrent.futures
import contextlib
import itertools
import os
import random
import shutil
import socket
import sqlite3
import subprocess
import sys
import tempfile
import threading
import time
from collections.abc import Iterable, Mapping, Sequence

from lib import (
    begun,
    call,
    change,
    CHECKS,
    Checks,
    connected,
    copied_inside,
    free_port,
    MEMORY,
    opened,
    OPTIONS,
    reply_of,
    rows_kept,
    SECONDS,
    text_of,
)
from lib.model import Row

FULL = OPTIONS.flag("full")
PROCESSES = 2
# How many trials there are of each kind, and how often each kills. On average half of the kills of `ask` fall as it
# answers.
TRIALS = (
    {"ask": (70, 10), "import": (30, 3), "init": (30, 3), "migrate": (30, 3), "grow": (30, 3), "serve": (30, 1)}
    if FULL
    else {"ask": (6, 10), "import": (6, 2), "init": (10, 2), "migrate": (6, 2), "grow": (6, 2), "serve": (6, 1)}
)
LINES_A_KILL = 60
EVENTS = 2000 if FULL else 400
CALLERS = 8
SALES = 2000


def put_down(trial: Checks, program: subprocess.Popen[bytes], kind: str) -> list[str]:
    """Kills it, unless it has ended, and gives the lines that it had printed whole."""
    assert program.stdout and program.stderr
    program.kill()
    printed = program.stdout.read().decode()
    err = program.stderr.read().decode()
    status = program.wait()
    for stream in [program.stdout, program.stderr]:
        stream.close()
    if status == -9:
        trial.told[kind] += 1
    else:
        trial.same(f"the end of {kind}, which was not killed", (status, err), (0, ""))
    return printed.split("\n")[:-1]


# Sessions.


def requests(chance: random.Random, count: int) -> list[str]:
    """Requests of each kind under numbers of their own, most of them sales that are made."""
    numbers = chance.sample(range(1, 10**12), count)
    lines = [f"announce {numbers[0]} gala", f"release {numbers[1]} gala 1000000"]
    for place in range(2, count):
        number, seats, earlier = numbers[place], chance.randint(1, 9), numbers[chance.randrange(place)]
        event = chance.choice(["gala", "gala", "gala", "expo"])
        kinds = [
            (60, f"sell {number} {event} {seats}"),
            (10, f"refund {number} {earlier}"),
            (10, f"cede {number} gala {seats} {chance.randrange(3)}"),
            (5, f"sell {number} gala 999999999999"),
            (5, f"release {number} {event} {seats}"),
            (5, f"announce {number} {event}"),
        ]
        lines.append(chance.choices([line for _, line in kinds], [weight for weight, _ in kinds])[0])
    return lines


class Twin:
    """What the same requests come to where nothing is killed, and how long that takes."""

    def __init__(self, trial: Checks, folder: str, lines: list[str]) -> None:
        trial.same("init", call(folder, ["init", "twin.db", "0", "2", "1000000"]), (0, "done\n", ""))
        shutil.copy(os.path.join(folder, "twin.db"), os.path.join(folder, "site.db"))
        program = begun(folder, ["ask", "twin.db"], stdin=subprocess.PIPE)
        assert program.stdin and program.stdout
        moments = [time.monotonic()]
        self.replies: list[str] = []
        for some in [lines[:1], lines[1:]]:
            program.stdin.write(text_of(some).encode())
            program.stdin.flush()
            self.replies += [program.stdout.readline().decode().rstrip("\n") for _ in some]
            moments.append(time.monotonic())
        trial.same("the end of the twin", (*program.communicate(timeout=SECONDS), program.returncode), (b"", b"", 0))
        moments.append(time.monotonic())
        self.opening, answering, self.closing = (end - begin for begin, end in itertools.pairwise(moments))
        self.a_line = answering / len(lines)
        self.rows = rows_kept(folder, "twin.db", trial)


def replies_until_killed(trial: Checks, folder: str, lines: list[str], twin: Twin, chance: random.Random) -> list[str]:
    """The replies to these lines until the session was killed: as it opened, as it answered, or as it closed."""
    moment = chance.choice(["as it opened", "as it answered", "as it answered", "as it closed"])
    lines = lines[: chance.randint(1, 20)] if moment == "as it closed" else lines
    program = begun(folder, ["ask", "site.db"], stdin=subprocess.PIPE)
    assert program.stdin and program.stdout
    watch = threading.Timer(SECONDS, program.kill)
    watch.start()
    waited = {"as it opened": 0, "as it answered": chance.randint(0, LINES_A_KILL), "as it closed": len(lines)}[moment]
    with contextlib.suppress(BrokenPipeError):
        program.stdin.write(text_of(lines).encode())
        program.stdin.flush()
        if moment == "as it closed":
            program.stdin.close()
    first = [program.stdout.readline().decode().rstrip("\n") for _ in range(min(waited, len(lines)))]
    longest = {
        "as it opened": 1.5 * twin.opening,
        "as it answered": 3 * twin.a_line,
        "as it closed": 1.2 * twin.closing,
    }
    time.sleep(chance.uniform(0, longest[moment]))
    replies = first + put_down(trial, program, f"ask {moment}")
    watch.cancel()
    with contextlib.suppress(BrokenPipeError):
        program.stdin.close()
    trial.within("the replies that were waited for", len(replies), len(first), len(lines))
    return replies


def ask_again(trial: Checks, folder: str, chance: random.Random, twin: Twin, lines: list[str]) -> bool:
    """Asks what is in the file once more, of the file itself or of a copy, so that kills follow on kills too."""
    at = folder if chance.random() < 0.5 else copied_inside(folder, ["site.db"], "again")
    wanted = (0, text_of(twin.replies[: len(lines)]), "")
    found = call(at, ["ask", "site.db"], text_of(lines))
    trial.same("asked again", found, wanted)
    return found == wanted


def kill_asking(trial: Checks, folder: str, chance: random.Random, kills: int) -> None:
    lines = requests(chance, kills * LINES_A_KILL + 100)
    twin = Twin(trial, folder, lines)
    answered, opens = 0, True
    while opens and trial.told.total() < kills and trial.step < 5 * kills:
        trial.step += 1
        begin = max(answered - chance.randint(0, 5), 0)
        replies = replies_until_killed(trial, folder, lines[begin : answered + 2 * LINES_A_KILL], twin, chance)
        trial.same("the replies", replies, twin.replies[begin : begin + len(replies)])
        answered = max(answered, begin + len(replies))
        rows = rows_kept(folder, "site.db", trial)
        trial.within(f"the entries, of {answered} answered", len(rows), answered, answered + 1)
        trial.same("the entries", rows, twin.rows[: len(rows)])
        trial.same("the replies kept", [reply_of(row) for row in rows], twin.replies[: len(rows)])
        opens = ask_again(trial, folder, chance, twin, lines[: len(rows)])
    trial.same("all in the end", call(folder, ["ask", "site.db"], text_of(lines)), (0, text_of(twin.replies), ""))
    trial.same("all entries", rows_kept(folder, "site.db", trial), twin.rows)


# A message.


def make_message(trial: Checks, folder: str) -> tuple[str, list[Row]]:
    """A site that hears of many events from another, with what it comes to once it has."""
    for me, file in enumerate(["site.db", "peer.db"]):
        trial.same("init", call(folder, ["init", file, str(me), "2", "10000"]), (0, "done\n", ""))
    asked = ["announce 1 gala", "release 2 gala 10", "sell 3 gala 4"]
    trial.same("ask", call(folder, ["ask", "site.db"], text_of(asked)), (0, "done\n" * len(asked), ""))
    told = [
        line
        for k in range(EVENTS)
        for line in [f"announce {3 * k + 1} e{k}", f"release {3 * k + 2} e{k} 9999", f"cede {3 * k + 3} e{k} {k + 1} 0"]
    ]
    status, out, err = call(folder, ["ask", "peer.db"], text_of(told))
    trial.same("the peer", (status, out.count("\n"), err), (0, len(told), ""))
    status, message, err = call(folder, ["export", "peer.db", "0"])
    trial.same("export", (status, err), (0, ""))
    with open(os.path.join(folder, "message"), "w", encoding="ascii") as text:
        text.write(message)
    return message, rows_kept(folder, "site.db", trial)


def kill_importing(trial: Checks, folder: str, chance: random.Random, kills: int) -> None:
    message, before = make_message(trial, folder)
    twin = copied_inside(folder, ["site.db"], "twin")
    began = time.monotonic()
    trial.same("the twin", call(twin, ["import", "site.db"], message), (0, "joined\n", ""))
    taken = time.monotonic() - began
    behind = rows_kept(twin, "site.db", trial)
    trial.same("what the twin holds", behind[:-1], before)
    held = False
    while trial.told.total() < kills and trial.step < 5 * kills:
        trial.step += 1
        with open(os.path.join(folder, "message"), "rb") as source:
            program = begun(folder, ["import", "site.db"], stdin=source)
        time.sleep(chance.uniform(0, 1.2 * taken))
        told = put_down(trial, program, "import")
        trial.same(f"told {told}", told in ([], ["nothing-new" if held else "joined"]), True)
        rows = rows_kept(folder, "site.db", trial)
        trial.same("the entries", rows, behind if held or told or len(rows) > len(before) else before)
        held = rows == behind
    word = "nothing-new\n" if held else "joined\n"
    trial.same("imported again", call(folder, ["import", "site.db"], message), (0, word, ""))
    trial.same("the entries in the end", rows_kept(folder, "site.db", trial), behind)
    asked = ["sell 3 gala 4", "left gala", f"left e{EVENTS - 1}", f"sell 4 e{EVENTS - 1} {EVENTS}", "sell 5 e0 2"]
    wanted = f"done\nleft 6\nleft {EVENTS}\ndone\nshort 1\n"
    trial.same("asked behind it", call(folder, ["ask", "site.db"], text_of(asked)), (0, wanted, ""))


# New records.


def is_made(trial: Checks, folder: str) -> bool:
    """Whether C SQLite finds new records, whole; a file that is half made it need not open."""
    if not os.path.exists(os.path.join(folder, "site.db")):
        return False
    try:
        with opened(copied_inside(folder, ["site.db"], "read"), "site.db") as db:
            tables = db.execute("SELECT name FROM sqlite_schema WHERE type = 'table' ORDER BY name").fetchall()
            if not tables:
                return False
            trial.same("the tables", tables, [("entries",), ("meta",)])
            trial.same(
                "the numbers", db.execute("SELECT * FROM meta").fetchall(), [(1, "ticket-escrow", 2, 0, 2, 1000)]
            )
            trial.same("in C SQLite", db.execute("PRAGMA integrity_check").fetchall(), [("ok",)])
            return True
    except sqlite3.DatabaseError:
        return False


def kill_making(trial: Checks, folder: str, chance: random.Random, kills: int) -> None:
    words = ["init", "site.db", "0", "2", "1000"]
    began = time.monotonic()
    trial.same("another", call(folder, ["init", "other.db", "0", "2", "1000"]), (0, "done\n", ""))
    taken = time.monotonic() - began
    made = False
    while trial.told.total() < kills and trial.step < 5 * kills and not made:
        trial.step += 1
        program = begun(folder, words, stdin=subprocess.DEVNULL)
        time.sleep(chance.uniform(0, 1.2 * taken))
        told = put_down(trial, program, "init")
        made = is_made(trial, folder)
        trial.same("told", told, ["done"] if told else [])
        trial.same(f"made, where {told} was told", made, True if told else made)
    found = call(copied_inside(folder, ["site.db"], "found"), ["find", "site.db", "1"])
    trial.same("find", found, (1, "none\n", "") if made else (3, "", "not-ours\n"))
    trial.same("init again", call(folder, words), (1, "already-there\n", "") if made else (0, "done\n", ""))
    asked = ["announce 1 gala", "release 2 gala 10", "sell 3 gala 4"]
    trial.same("asked behind it", call(folder, ["ask", "site.db"], text_of(asked)), (0, "done\n" * len(asked), ""))
    trial.same("the entries", len(rows_kept(folder, "site.db", trial)), len(asked))


# Records of the first schema.


def version_kept(folder: str) -> int:
    """The version that C SQLite finds in a copy."""
    with opened(copied_inside(folder, ["site.db"], "read"), "site.db") as db:
        return db.execute("SELECT version FROM meta").fetchone()[0]


def kill_migrating(trial: Checks, folder: str, chance: random.Random, kills: int) -> None:
    lines = requests(chance, EVENTS)
    trial.same("init", call(folder, ["init", "site.db", "0", "2", "1000000"]), (0, "done\n", ""))
    asked = call(folder, ["ask", "site.db"], text_of(lines))
    trial.same("ask", (asked[0], asked[2]), (0, ""))
    # No refund here is of a part, so these are a history of the first schema too.
    to_first = ["UPDATE meta SET version = 1"]
    change(folder, "site.db", to_first)
    rows = rows_kept(folder, "site.db", trial)
    twin = copied_inside(folder, ["site.db"], "twin")
    began = time.monotonic()
    trial.same("the twin", call(twin, ["migrate", "site.db"]), (0, "migrated\n", ""))
    taken = time.monotonic() - began
    while trial.told.total() < kills and trial.step < 5 * kills:
        trial.step += 1
        program = begun(folder, ["migrate", "site.db"], stdin=subprocess.DEVNULL)
        time.sleep(chance.uniform(chance.choice([0, 0.7]), 1.1) * taken)
        told = put_down(trial, program, "migrate")
        version = version_kept(folder)
        trial.same("told", told, ["migrated"] if told else [])
        trial.same(f"version {version}, where {told} was told", version in ([2] if told else [1, 2]), True)
        trial.same("the entries", rows_kept(folder, "site.db", trial), rows)
        if version == 2:
            change(folder, "site.db", to_first)
    trial.same("migrated in the end", call(folder, ["migrate", "site.db"]), (0, "migrated\n", ""))
    trial.same("asked again", call(folder, ["ask", "site.db"], text_of(lines)), asked)


# More sites.


def kill_growing(trial: Checks, folder: str, chance: random.Random, kills: int) -> None:
    trial.same("init", call(folder, ["init", "site.db", "0", "2", "1000000"]), (0, "done\n", ""))
    asked = call(folder, ["ask", "site.db"], text_of(requests(chance, EVENTS)))
    trial.same("ask", (asked[0], asked[2]), (0, ""))
    rows, count = rows_kept(folder, "site.db", trial), 2
    began = time.monotonic()
    trial.same(
        "the twin", call(copied_inside(folder, ["site.db"], "twin"), ["grow", "site.db", "3"]), (0, "grown\n", "")
    )
    taken = time.monotonic() - began
    while trial.told.total() < kills and trial.step < 5 * kills:
        trial.step += 1
        program = begun(folder, ["grow", "site.db", str(count + 1)], stdin=subprocess.DEVNULL)
        time.sleep(chance.uniform(chance.choice([0, 0.7]), 1.1) * taken)
        told = put_down(trial, program, "grow")
        kept = rows_kept(folder, "site.db", trial)
        grown = [*rows, (len(rows), None, None, "grow", None, None, count + 1, None, None, "")]
        trial.same("told", told, ["grown"] if told else [])
        trial.same("the entries", kept, grown if told or len(kept) > len(rows) else rows)
        if kept == grown:
            rows, count = grown, count + 1
    trial.same("grown in the end", call(folder, ["grow", "site.db", str(count + 1)]), (0, "grown\n", ""))
    trial.same("no more", call(folder, ["grow", "site.db", str(count + 1)]), (1, "not-more\n", ""))


# Two sites and eight callers.


def call_at(stream: socket.socket, lines: list[str], replies: dict[str, str]) -> None:
    """Sends each line once the reply to the one before was read, until the connection ends."""
    with contextlib.suppress(OSError), stream, stream.makefile("r") as source:
        for line in lines:
            stream.sendall(line.encode() + b"\n")
            reply = source.readline()
            if not reply.endswith("\n"):
                return
            replies[line] = reply.rstrip("\n")
        stream.sendall(b"quit\n")
        source.read()


def asked_by(caller: int, chance: random.Random) -> list[str]:
    """The requests of a caller, whose site is the one of its number modulo the count of sites."""
    lines = []
    for k in range(chance.choice([20, SALES])):
        number = caller * 10 * SALES + k + 10
        kinds = [f"sell {number} gala 1"] * 6 + [
            f"refund {number} {number - 1}",
            f"cede {number} gala 1 {1 - caller % 2}",
        ]
        lines.append(chance.choice(kinds))
    return lines


def serve_until_killed(
    trial: Checks, folder: str, chance: random.Random, asked: Sequence[list[str]]
) -> list[dict[str, str]]:
    """What was answered to each line until the program was killed, site by site."""
    port, rounds = free_port(), chance.choice([0, 1000, 1000000])
    words = ["serve", str(port), str(CALLERS), str(rounds), "north.db", "south.db"]
    program = begun(folder, words, stdin=subprocess.DEVNULL)
    streams = [connected(port, SECONDS, program) for _ in range(CALLERS)]
    replies: list[dict[str, str]] = [{} for _ in asked]
    callers = [threading.Thread(target=call_at, args=three) for three in zip(streams, asked, replies)]
    for caller in callers:
        caller.start()
    time.sleep(chance.uniform(0, 0.25))
    put_down(trial, program, "serve")
    for caller in callers:
        caller.join()
    return [{line: reply for told in replies[site::2] for line, reply in told.items()} for site in [0, 1]]


def sums(rows_of_all: Iterable[Iterable[Row]]) -> str:
    """The line of an audit of the one event, by the requests in all files."""
    done = [row for rows in rows_of_all for row in rows if row[1] is None and row[7] == "done"]
    of_verb = {verb: sum(row[5] for row in done if row[3] == verb) for verb in ["release", "sell"]}
    refunded = sum(1 for row in done if row[3] == "refund")
    return (
        f"gala released {of_verb['release']} sold {of_verb['sell']} refunded {refunded}"
        f" outstanding {of_verb['sell'] - refunded}\n"
    )


def what_site_kept(trial: Checks, folder: str, file: str, answered: Mapping[str, str]) -> list[Row]:
    """Each answered request is in the file, and of each other caller there is at most one more."""
    rows = rows_kept(folder, file, trial)
    kept = {row[2]: reply_of(row) for row in rows if row[1] is None}
    wanted = {int(line.split(" ")[1]): reply for line, reply in answered.items()}
    trial.same(f"{file}: places", [row[0] for row in rows], list(range(len(rows))))
    trial.same(f"{file}: replies kept", {n: reply for n, reply in kept.items() if n in wanted}, wanted)
    more = [number for number in kept if number not in wanted and number >= 10]
    trial.within(f"{file}: requests more than answered", len(more), 0, CALLERS // 2)
    return rows


def kill_serving(trial: Checks, folder: str, chance: random.Random, _kills: int) -> None:
    files = ["north.db", "south.db"]
    for me, file in enumerate(files):
        trial.same(f"init {file}", call(folder, ["init", file, str(me), "2", "1000000"]), (0, "done\n", ""))
    begin = ["announce 1 gala", "release 2 gala 5000", "cede 3 gala 2000 1"]
    trial.same("ask north.db", call(folder, ["ask", "north.db"], text_of(begin)), (0, "done\n" * len(begin), ""))
    asked = [asked_by(caller, chance) for caller in range(CALLERS)]
    answered = serve_until_killed(trial, folder, chance, asked)
    rows = [what_site_kept(trial, folder, file, told) for file, told in zip(files, answered)]
    trial.same("the audit", call(folder, ["audit", *files]), (0, sums(rows), ""))
    for file, told in zip(files, answered):
        found = call(folder, ["ask", file], text_of(told))
        trial.same(f"{file} asked again", found, (0, text_of(told.values()), ""))


KINDS = {
    "ask": kill_asking,
    "import": kill_importing,
    "init": kill_making,
    "migrate": kill_migrating,
    "grow": kill_growing,
    "serve": kill_serving,
}


def tried(seed: int, kind: str, number: int, kills: int) -> Checks:
    """A trial in a folder of its own, whose moments depend on the seed and its name alone."""
    trial = Checks(f"seed {seed}, {kind} {number}", quiet=True)
    with tempfile.TemporaryDirectory(dir=MEMORY) as folder:
        try:
            KINDS[kind](trial, folder, random.Random(f"{seed} {kind} {number}"), kills)
        except Exception as fault:
            trial.differs(f"{fault!r}")
    return trial


def main() -> int:
    seed, chosen = OPTIONS.seed(), OPTIONS.chosen or [*TRIALS]
    OPTIONS.check()
    with concurrent.futures.ProcessPoolExecutor(PROCESSES) as pool:
        names = [(kind, number, TRIALS[kind][1]) for kind in chosen for number in range(TRIALS[kind][0])]
        for trial in pool.map(tried, [seed] * len(names), *zip(*names)):
            CHECKS.add(trial)
    print("killed: " + ", ".join(f"{kind} {count}" for kind, count in sorted(CHECKS.told.items())))
    return CHECKS.end()


if __name__ == "__main__":
    sys.exit(main())
