#!/usr/bin/env python3
"""Runs each command over files with one request for memory refused, and looks at what it answers and leaves.

Usage: tests/memory_refused.py [PROGRAM] [--full]     (PROGRAM: crates/boxoffice/out/boxoffice)

A command ends as it does with ample memory, or with status 3, `memory` or `store`, and nothing printed that is not so.
Given again it ends well. Each of the last requests of a command is refused, and some of those before, most of which are
made while its files are opened; by `--full` each of all. An office, which several callers ask at once, goes on or ends
so too, or says `closed 1` or `not-started`; of its requests those before its line `open` are refused too, which its
threads make; it is not asked to close. Prints what differs, and ends with status 1 where anything does.
"""

import concurrent.futures
import contextlib
import os
import select
import shutil
import sys
import threading
from collections.abc import Iterator, Sequence

from lib.refuser import begun, chosen, count, ended, make_refuser
from lib import call, Caller, free_port, HERE, OPTIONS, PROGRAM, SECONDS, same, try_each
from lib.program import Found

SPREAD, LAST = (1_000_000, 0) if OPTIONS.flag("full") else (25, 60)
# Of an office also so many before its line `open`.
BEFORE = 12
ASKED = "announce 1 gala\nrelease 2 gala 50\nsell 3 gala 8\nsell 4 gala 100\n"
# No reply depends on another.
LINES = "sell 5 gala 2\nsell 6 gala 3\nrefund 7 99\nsell 3 gala 8\nsell 3 gala 9\n"
REPLIES = ["done", "done", "no-sale", "done", "reused"]
# Messages that take memory while they are read: as they come, and line by line.
LONG = 10_000 * ("x" * 199 + "\n")
NEWS = "delta 0 1 9\nname expo\n" + "".join(f"gave e{k} 0 1 {k}\n" for k in range(100, 400)) + "end\n"
LISTED = "0 announce 1 gala done\n1 release 2 gala 50 done\n2 sell 3 gala 8 done\n3 sell 4 gala 100 short 42\n"
SENT = "delta 1 0 4\nname gala\ngave gala 1 1 50\nused gala 1 8\nend\n"
SUMS = "gala released 50 sold 8 refunded 0 outstanding 8\n"
# The status and the answer of a command.
Told = tuple[int, str]
# The words, the input, the status and the answer; those of a second time where they are others.
COMMANDS: list[tuple[list[str], str, Told, Told | None]] = [
    (["import", "one.db"], LONG, (1, "bad-line 1\n"), None),
    (["import", "one.db"], NEWS, (0, "joined\n"), (0, "nothing-new\n")),
    (["import", "one.db"], "ack 0 1 4\nend\n", (0, "acked\n"), None),
    (["export", "one.db", "0"], "", (0, SENT), None),
    (["find", "one.db", "4"], "", (0, "3 short 42\n"), None),
    (["list", "one.db", "gala"], "", (0, LISTED), None),
    (["events", "one.db"], "", (0, "event gala\n"), None),
    (["shares", "one.db", "gala"], "", (0, "0 left 0 sold 0 back 0\n1 left 42 sold 8 back 0\n"), None),
    (["audit", "zero.db", "one.db"], "", (0, SUMS), None),
    (["grow", "one.db", "3"], "", (0, "grown\n"), (1, "not-more\n")),
    (["migrate", "old.db"], "", (0, "migrated\n"), (1, "nothing\n")),
    (["init", "new.db", "0", "2", "1000"], "", (0, "done\n"), (1, "already-there\n")),
]
# An office closes where an entry cannot be stored, or a thread cannot be started.
# (One that ends by itself may be killed as it does.)
# (`bind` says too that no socket can be made, as where memory is refused for one)
OFFICE_ENDS = [(-9, "open\n", ""), (3, "", "memory\n"), (3, "", "bind\n")]
OFFICE_ENDS += [(status, "open\n", f"{word}\n") for word in ("memory", "closed 1", "not-started") for status in (3, -9)]
# `store`: what could not be stored is an entry.
STORING = ("import", "grow")


def make(folder: str) -> None:
    for site, file in enumerate(["zero.db", "one.db"]):
        same(f"init {file}", call(folder, ["init", file, str(site), "2", "1000"]), (0, "done\n", ""))
    same("ask", call(folder, ["ask", "one.db"], ASKED), (0, "done\ndone\ndone\nshort 42\n", ""))
    shutil.copyfile(os.path.join(HERE, "schema-1.db"), os.path.join(folder, "old.db"))


class Refusals:
    """Runs with one request refused, over files that are each time as they were."""

    def __init__(self, top: str) -> None:
        self.kept, self.work = os.path.join(top, "kept"), os.path.join(top, "work")
        for folder in [self.kept, self.work]:
            os.mkdir(folder)
        make(self.kept)
        self.refuser = make_refuser(top)

    def run(self, words: list[str], given: str, number: int) -> tuple[bool, int, str, str]:
        """Whether that request was refused, and the status, standard output and standard error."""
        shutil.rmtree(self.work)
        shutil.copytree(self.kept, self.work)
        was_refused, (status, out, err) = ended(
            *begun(self.refuser, number, [PROGRAM, *words], self.work), given.encode()
        )
        return was_refused, status, out.decode(), err.decode()

    def again(self, words: list[str], given: str) -> Found:
        return call(self.work, words, given)

    def each(self, words: list[str], given: str) -> Iterator[tuple[str, int, str, str]]:
        """The requests of these words that are tried: their numbers, each with what came of it."""
        total = count(lambda number: self.run(words, given, number)[0])
        numbers = chosen(total, SPREAD, LAST)
        print(f"{' '.join(words)}: {len(numbers)} of {total} requests are refused", flush=True)
        for number in numbers:
            was_refused, status, out, err = self.run(words, given, number)
            same(f"{words}: request {number} came", was_refused, True)
            yield f"{words}: request {number}", status, out, err


def try_command(refusals: Refusals, words: list[str], given: str, first: Told, second: Told | None) -> None:
    may_tell = ["memory\n", "store\n"] if words[0] in STORING else ["memory\n"]
    for which, status, out, err in refusals.each(words, given):
        if status == 3:
            same(f"{which}: {out!r} {err!r}", (first[1].startswith(out), err in may_tell), (True, True))
        else:
            same(which, (status, out, err), (*first, ""))
        wanted = [second or first] if out else [first, second or first]
        told = refusals.again(words, given)
        same(f"{which}: again {told!r}", told in [(*one, "") for one in wanted], True)


def are_fit(replies: Sequence[str]) -> bool:
    """Each reply is the right one or `memory`, and behind a failed store all are `closed`."""
    if "store" in replies:
        place = replies.index("store")
        return are_fit(replies[:place]) and all(reply == "closed" for reply in replies[place + 1 :])
    return all(reply in (wanted, "memory") for reply, wanted in zip(replies, REPLIES))


def try_session(refusals: Refusals) -> None:
    words = ["ask", "one.db"]
    for which, status, out, err in refusals.each(words, LINES):
        replies = out.splitlines()
        same(f"{which}: {replies}", are_fit(replies), True)
        wanted = (3, "memory\n", len(replies)) if status == 3 else (0, "", len(REPLIES))
        same(f"{which}: the end", (status, err, len(replies)), wanted)
        same(f"{which}: again", refusals.again(words, LINES), (0, "\n".join(REPLIES) + "\n", ""))


def asked_alone(port: int, line: str) -> str:
    """What a caller who asks this alone is answered, or nothing where the office has ended or takes no caller more."""
    with contextlib.suppress(OSError):
        return Caller(port, 1).ask(line)
    return ""


# Whether the request came before the line `open`, and whether it came; the replies of five callers, and the end.
OfficeRun = tuple[bool, bool, list[str], Found]


def office_run(refusals: Refusals, number: int) -> OfficeRun:
    """An office in which that request is refused."""
    shutil.rmtree(refusals.work)
    shutil.copytree(refusals.kept, refusals.work)
    port = free_port()
    replies: list[str] = []
    office, told = begun(refusals.refuser, number, [PROGRAM, "open", str(port), "one.db"], refusals.work)
    # (one that neither opens nor ends is killed, and differs by how it ends)
    watch = threading.Timer(SECONDS, office.kill)
    watch.start()
    assert office.stdout
    first = office.stdout.readline()
    watch.cancel()
    came_before = bool(select.select([told], [], [], 0)[0])
    if first:
        with concurrent.futures.ThreadPoolExecutor(len(REPLIES)) as pool:
            replies = list(pool.map(lambda line: asked_alone(port, line), LINES.splitlines()))
        # It is killed, since the request that is refused may be one that closing needs.
        office.kill()
    was_refused, (status, out, err) = ended(office, told)
    printed = (first + out).decode().replace(f"open {port} one.db\n", "open\n")
    return came_before, was_refused, replies, (status, printed, err.decode())


def try_office(refusals: Refusals) -> None:
    before = count(lambda number: office_run(refusals, number)[0])
    total = count(lambda number: office_run(refusals, number)[1])
    numbers = sorted({*chosen(before, 1, BEFORE), *chosen(total, SPREAD, LAST)})
    print(f"open one.db: {len(numbers)} of {total} requests are refused", flush=True)
    for number in numbers:
        _, _, replies, end = office_run(refusals, number)
        which = f"open: request {number}: {replies}"
        may_be = ["memory", "store", "closed", ""]
        same(which, all(reply in (wanted, *may_be) for reply, wanted in zip(replies, REPLIES)), True)
        same(f"{which}: the end {end}", end in OFFICE_ENDS, True)
        same(f"{which}: again", refusals.again(["ask", "one.db"], LINES), (0, "\n".join(REPLIES) + "\n", ""))


def all_commands(folder: str) -> None:
    refusals = Refusals(folder)
    for command in COMMANDS:
        try_command(refusals, *command)
    try_session(refusals)
    try_office(refusals)


sys.exit(try_each([all_commands], "no answer stands in the place of a refusal"))
