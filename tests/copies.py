#!/usr/bin/env python3
"""Keeps a site in two files with the built program: each command on one of two alone is refused and changes nothing, a
stop at each call of `pair`, `alone` and of bringing up leaves nothing that opens alone beside another, and each printed
reply is in both files when one of them is lost or cannot be written.

Usage: tests/copies.py [TRIAL..] [PROGRAM] [--full] [--seed=N]     (PROGRAM: crates/boxoffice/out/boxoffice)

With `--full` each call is stopped at, else a spread of them. Says what differs and ends with status 1 where anything
does.
"""

import contextlib
import hashlib
import os
import random
import shutil
import subprocess
import sys
import tempfile
import threading
from collections.abc import Iterator, Sequence

from lib import (
    among,
    begun,
    call,
    Caller,
    ended,
    free_port,
    make_site,
    make_sites,
    OPTIONS,
    Operator,
    reply_of,
    rows_kept,
    same,
    SECONDS,
    started,
    text_of,
    try_each,
    within,
)
from lib.failing import failing
from lib.killer import killed_at, killer
from lib.sites import change

FULL = OPTIONS.flag("full")
SEED = OPTIONS.count("seed", 1)
FILE, COPY = "site.db", "copy.db"
BOTH = [FILE, COPY]
ONE_OF_TWO = (3, "", "one-of-two\n")
BEGUN = ["announce 1 gala", "release 2 gala 100000", "sell 3 gala 2"]
# Each command that opens a file, with what it is given.
ALONE = [
    ["ask", FILE],
    ["find", FILE, "3"],
    ["list", FILE, "gala"],
    ["events", FILE],
    ["shares", FILE, "gala"],
    ["export", FILE, "1"],
    ["import", FILE],
    ["status", FILE],
    ["grow", FILE, "9"],
    ["migrate", FILE],
    ["audit", FILE],
    ["pair", FILE, "third.db"],
]
WORDS = ["world", "init", "serve", "open", "close", "alone", "backup", "version", *(words[0] for words in ALONE)]
CALLERS, SALES = (64, 6) if FULL else (8, 6)
# A small disk, in pages.
PAGE, PAGES = 4096, 105


def held_in(folder: str, files: Sequence[str]) -> list[str]:
    """What the files hold, but for their logs, which each open begins again."""
    found = []
    for file in files:
        with open(os.path.join(folder, file), "rb") as stream:
            found.append(hashlib.sha256(stream.read()).hexdigest())
    return found


def paired(folder: str, lines: Sequence[str] = BEGUN) -> None:
    """A site with two copies that hold what these requests made."""
    make_site(folder, FILE)
    same("ask", call(folder, ["ask", FILE], text_of(lines)), (0, "done\n" * len(lines), ""))
    among("pair", call(folder, ["pair", FILE, COPY]), [(0, "paired\n", ""), (0, "paired\n", "same-device\n")])


class Pair:
    """An office over two copies."""

    def __init__(self, folder: str, file: str = FILE, copy: str = COPY, env: dict[str, str] | None = None) -> None:
        self.folder, self.port = folder, free_port()
        self.path = os.path.join(folder, file + "-sock")
        self.program = begun(folder, ["open", str(self.port), file, "--copy", copy], env=env)
        assert self.program.stdout
        same("open", self.program.stdout.readline(), f"open {self.port} {file}\n".encode())

    def end(self) -> tuple[int, bytes, bytes]:
        out, err = self.program.communicate(timeout=SECONDS)
        return self.program.returncode, out, err


# Words.


def alone_is_refused(folder: str) -> None:
    """No command takes one of two alone, whichever it is, and none changes it."""
    paired(folder)
    before = held_in(folder, BOTH)
    for words in ALONE:
        for file in BOTH:
            these = [file if word == FILE else word for word in words]
            same(" ".join(these), call(folder, these, "sell 9 gala 1\n"), ONE_OF_TWO)
    program = begun(folder, ["open", str(free_port()), FILE])
    same("open", (*program.communicate(timeout=SECONDS), program.returncode), (b"", b"one-of-two\n", 3))
    program = begun(folder, ["serve", str(free_port()), "1", "1", FILE])
    same("serve", (*program.communicate(timeout=SECONDS), program.returncode), (b"", b"one-of-two\n", 3))
    same("nothing is changed", held_in(folder, BOTH), before)
    same("nothing is made", os.path.exists(os.path.join(folder, "third.db")), False)


def other_words(folder: str) -> None:
    """Files that are no pair are told, with status 1, and are as they were."""
    paired(folder)
    make_sites(folder, ["zero.db", "one.db"])
    same("a file that is no copy", call(folder, ["status", FILE, "--copy", "zero.db"]), (1, "not-paired\n", ""))
    same("no pair", call(folder, ["status", "zero.db", "--copy", "one.db"]), (1, "not-paired\n", ""))
    same("no mark", call(folder, ["alone", "zero.db"]), (1, "not-paired\n", ""))
    same("the same file", call(folder, ["status", FILE, "--copy", "./" + FILE]), (1, "same-file\n", ""))
    same("a copy of itself", call(folder, ["pair", "zero.db", "./zero.db"]), (1, "same-file\n", ""))
    same("a copy that is there", call(folder, ["pair", "zero.db", "one.db"]), (1, "already-there\n", ""))
    same("no copy", call(folder, ["status", FILE, "--copy", "none.db"]), (3, "", "not-ours\n"))
    same("pair", call(folder, ["pair", "one.db", "one-copy.db"])[:2], (0, "paired\n"))
    before = held_in(folder, [*BOTH, "one.db"])
    same("of another pairing", call(folder, ["status", FILE, "--copy", "one-copy.db"]), (1, "not-paired\n", ""))
    same("nothing is changed", held_in(folder, [*BOTH, "one.db"]), before)
    for file in (FILE, "one.db"):
        change(folder, file, ["UPDATE one_of_two SET file = 'x', copy = 'y'"])
    same("another site", call(folder, ["status", FILE, "--copy", "one.db"]), (1, "other-site\n", ""))
    same("no copy is taken", call(folder, ["close", FILE, "--copy", COPY])[0], 2)
    same("one copy is taken", call(folder, ["ask", FILE, "--copy", COPY, "--copy", COPY])[0], 2)
    takes = {word for word in WORDS if "--copy <COPY>" in call(folder, ["help", word])[2]}
    same("what takes a copy", takes, {"open", "serve", *(words[0] for words in ALONE)} - {"migrate", "pair"})


def reads_over_both(folder: str) -> None:
    """What only reads goes over both, whichever is named first."""
    paired(folder)
    for file, copy in (BOTH, BOTH[::-1]):
        words = ["--copy", copy]
        same("status", call(folder, ["status", file, *words])[:2], (0, "site 0 sites 2 entries 3 limit 1000000\n"))
        same("find", call(folder, ["find", file, "3", *words])[:2], (0, "2 done\n"))
        same("events", call(folder, ["events", file, *words])[:2], (0, "event gala\n"))
        same("export", call(folder, ["export", file, "1", *words])[1].splitlines()[0], "delta 0 1 3")


def serves_over_both(folder: str) -> None:
    """`serve` sells at sites with two copies, and both have all. It takes a copy for each file, or none."""
    files, copies = ["zero.db", "one.db"], ["zero-copy.db", "one-copy.db"]
    make_sites(folder, files)
    for file, copy in zip(files, copies):
        same(f"pair {file}", call(folder, ["pair", file, copy])[:2], (0, "paired\n"))
    taken = [word for copy in copies for word in ("--copy", copy)]
    port = free_port()
    program = started(folder, port, 2, 3, [*files, *taken])
    callers = [Caller(port, program=program) for _ in files]
    same("replies", [callers[0].ask(line) for line in BEGUN], ["done"] * len(BEGUN))
    for caller in callers:
        caller.quit()
    status, out, _ = ended(program)
    same("serve", (status, out), (0, call(folder, ["audit", *files, *taken])[1]))
    same("so many entries", len(rows_kept(folder, files[0])), len(BEGUN))
    for file, copy in zip(files, copies):
        same(f"both of {file}", rows_kept(folder, file), rows_kept(folder, copy))
    program = started(folder, free_port(), 0, 0, [*files, "--copy", copies[0]])
    same("a copy for one of them", ended(program), (1, "not-paired\n", ""))


# What is brought up.


def laid_aside(folder: str, file: str, to: str) -> None:
    """Copies a file and its log."""
    for part in ("", "-wal"):
        with contextlib.suppress(FileNotFoundError):
            os.remove(os.path.join(folder, to + part))
        with contextlib.suppress(FileNotFoundError):
            shutil.copy(os.path.join(folder, file + part), os.path.join(folder, to + part))


def sold_over_both(folder: str, lines: Sequence[str]) -> None:
    same("ask", call(folder, ["ask", FILE, "--copy", COPY], text_of(lines))[1], "done\n" * len(lines))


def left_behind(folder: str, shorter: str) -> None:
    """One of two lacks the last twenty sales, as a copy that was away."""
    laid_aside(folder, shorter, "aside")
    sold_over_both(folder, [f"sell {n} gala 1" for n in range(10, 30)])
    laid_aside(folder, "aside", shorter)


def shorter_is_brought_up(folder: str) -> None:
    """The longer is the site, whichever it is; the shorter gets what it lacks before anything is printed."""
    for shorter in BOTH:
        with tempfile.TemporaryDirectory(dir=folder) as inside:
            paired(inside)
            left_behind(inside, shorter)
            found = call(inside, ["status", FILE, "--copy", COPY])[:2]
            same("status", found, (0, "site 0 sites 2 entries 23 limit 1000000\n"))
            same("both are whole", rows_kept(inside, FILE), rows_kept(inside, COPY))
            same("so many entries", len(rows_kept(inside, shorter)), 23)


def differing_are_refused(folder: str) -> None:
    """Copies that went apart are not opened, and stay as they are."""
    paired(folder)
    for file in BOTH:
        laid_aside(folder, file, f"aside-{file}")
    sold_over_both(folder, ["sell 10 gala 1", "sell 11 gala 1"])
    laid_aside(folder, FILE, "sold")
    for file in BOTH:
        laid_aside(folder, f"aside-{file}", file)
    sold_over_both(folder, ["sell 10 gala 2"])
    laid_aside(folder, "sold", FILE)
    before = held_in(folder, BOTH)
    same("status", call(folder, ["status", FILE, "--copy", COPY]), (1, "differs 3\n", ""))
    same("nothing is changed", held_in(folder, BOTH), before)


def other_pairings_are_refused(folder: str) -> None:
    """A copy of an earlier pairing opens with no file, also not with a later copy of the same site."""
    paired(folder)
    same("alone", call(folder, ["alone", FILE])[:2], (0, "alone\n"))
    same("sell", call(folder, ["ask", FILE], "sell 10 gala 1\n")[1], "done\n")
    same("pair", call(folder, ["pair", FILE, "later.db"])[:2], (0, "paired\n"))
    before = held_in(folder, [*BOTH, "later.db"])
    for other in (FILE, "later.db"):
        same(f"with {other}", call(folder, ["ask", COPY, "--copy", other], ""), (1, "not-paired\n", ""))
    same("nothing is changed", held_in(folder, [*BOTH, "later.db"]), before)


def damage_does_not_spread(folder: str) -> None:
    """Of a file whose history is not legal nothing comes into the other."""
    paired(folder)
    columns = "3, NULL, 99, 'sell', 'gala', 5, NULL, 'short', 7, ''"
    change(folder, FILE, [f"INSERT INTO entries VALUES ({columns})"])
    rows = rows_kept(folder, COPY)
    same("status", call(folder, ["status", FILE, "--copy", COPY]), (3, "", "damaged 3\n"))
    same("the other", rows_kept(folder, COPY), rows)
    same("alone", call(folder, ["alone", COPY])[:2], (0, "alone\n"))
    same("it goes on", call(folder, ["status", COPY]), (0, "site 0 sites 2 entries 3 limit 1000000\n", ""))


def nothing_is_overwritten(folder: str) -> None:
    """`pair` takes no name that something has, and no link."""
    make_site(folder, FILE)
    make_site(folder, "x.db-new")
    os.symlink(FILE, os.path.join(folder, "y.db-new"))
    os.symlink("nothing", os.path.join(folder, "z.db"))
    before = held_in(folder, [FILE, "x.db-new"])
    for copy in ("x.db", "y.db", "z.db"):
        same(f"pair to {copy}", call(folder, ["pair", FILE, copy]), (1, "already-there\n", ""))
    same("the file of its copy", call(folder, ["pair", "x.db-new", "x.db"]), (1, "already-there\n", ""))
    same("nothing is changed", held_in(folder, [FILE, "x.db-new"]), before)


def stale_copy_is_refused(folder: str) -> None:
    """A copy from before does not open alone, and is brought up beside the other."""
    paired(folder)
    for part in ("", "-wal"):
        with contextlib.suppress(FileNotFoundError):
            shutil.copy(os.path.join(folder, COPY + part), os.path.join(folder, "stale" + part))
    office = Pair(folder)
    caller = Caller(office.port)
    same("sell", [caller.ask(f"sell {n} gala 1") for n in range(10, 14)], ["done"] * 4)
    caller.go_away()
    same("close", call(folder, ["close", FILE]), (0, "", ""))
    same("the end", office.end(), (0, b"", b""))
    same("both have all", [len(rows_kept(folder, file)) for file in BOTH], [7, 7])
    for part in ("", "-wal"):
        with contextlib.suppress(FileNotFoundError):
            os.remove(os.path.join(folder, COPY + part))
        with contextlib.suppress(FileNotFoundError):
            os.rename(os.path.join(folder, "stale" + part), os.path.join(folder, COPY + part))
    same("a stale copy", call(folder, ["ask", COPY], "left gala\n"), ONE_OF_TWO)
    same("the other", call(folder, ["ask", FILE], "left gala\n"), ONE_OF_TWO)
    same("both", call(folder, ["find", COPY, "13", "--copy", FILE])[:2], (0, "6 done\n"))
    same("it is brought up", rows_kept(folder, COPY), rows_kept(folder, FILE))


# Stops.


def each_number(most: int) -> Iterator[int]:
    """The numbers of calls that are stopped at: all, or a spread."""
    step = 1 if FULL else max(1, most // 16)
    yield from range(1, most + 1, step)


def calls_of(library: str, words: list[str], folder: str, template: str) -> int:
    """How many calls that change files a command makes."""
    low, high = 0, 1
    while killed_in_copy(library, high, words, folder, template):
        low, high = high, 2 * high
    while high - low > 1:
        middle = (low + high) // 2
        low, high = (middle, high) if killed_in_copy(library, middle, words, folder, template) else (low, middle)
    return low


def laid_out(folder: str, template: str) -> None:
    shutil.rmtree(folder, ignore_errors=True)
    shutil.copytree(template, folder)


def killed_in_copy(library: str, number: int, words: list[str], folder: str, template: str) -> bool:
    laid_out(folder, template)
    return killed_at(library, number, words, folder)


def opens_alone(folder: str, file: str) -> bool:
    return call(folder, ["status", file])[0] == 0


def pair_is_stopped(folder: str) -> None:
    """A stop of `pair` leaves no two files that open alone, and all entries; it can be done again."""
    library, template, inside = killer(folder), os.path.join(folder, "t"), os.path.join(folder, "s")
    if not library:
        print("pair_is_stopped: no library can be loaded before the C library: not tried")
        return
    os.mkdir(template)
    make_site(template, FILE)
    same("ask", call(template, ["ask", FILE], text_of(BEGUN))[0], 0)
    words = ["pair", FILE, COPY]
    for number in each_number(calls_of(library, words, inside, template)):
        same(f"killed at {number}", killed_in_copy(library, number, words, inside, template), True)
        alone = [opens_alone(inside, file) for file in BOTH]
        same(f"the copy opens alone, stopped at {number}", alone[1], False)
        if not alone[0]:
            same("one of two", call(inside, ["status", FILE]), ONE_OF_TWO)
        if os.path.exists(os.path.join(inside, COPY)):
            found = call(inside, ["status", FILE, "--copy", COPY])[:2]
            same("both", found, (0, "site 0 sites 2 entries 3 limit 1000000\n"))
        else:
            same("pair again", call(inside, words)[:2], (0, "paired\n"))


def pair_is_said_again(folder: str) -> None:
    """A copy that was moved away, of a file that was paired again, opens with no file."""
    make_site(folder, FILE)
    same("ask", call(folder, ["ask", FILE], text_of(BEGUN))[0], 0)
    for away in ("first.db", "second.db"):
        same("pair", call(folder, ["pair", FILE, COPY])[:2], (0, "paired\n"))
        for log in ("", "-wal"):
            os.rename(os.path.join(folder, COPY + log), os.path.join(folder, away + log))
    same("the newest", call(folder, ["pair", FILE, COPY])[:2], (0, "paired\n"))
    same("both", call(folder, ["status", FILE, "--copy", COPY])[0], 0)
    for first, second in (("first.db", "second.db"), ("first.db", COPY), (FILE, "second.db")):
        same(f"{first}, {second}", call(folder, ["ask", first, "--copy", second], ""), (1, "not-paired\n", ""))


def other_path_is_another_pair(folder: str) -> None:
    """`pair` takes no mark off for a copy whose path is the beginning of the one that the mark names."""
    make_site(folder, FILE)
    spaced = f"{COPY} 1 2"
    same("pair", call(folder, ["pair", FILE, spaced])[:2], (0, "paired\n"))
    before = held_in(folder, [FILE, spaced])
    for copy in (COPY, f"{COPY} 1"):
        same(f"pair with {copy}", call(folder, ["pair", FILE, copy]), ONE_OF_TWO)
    same("nothing is changed", held_in(folder, [FILE, spaced]), before)
    same("both", call(folder, ["status", FILE, "--copy", spaced])[0], 0)


def alone_is_stopped(folder: str) -> None:
    """A stop of `alone` leaves the file with its mark or without, and its entries."""
    library, template, inside = killer(folder), os.path.join(folder, "t"), os.path.join(folder, "s")
    if not library:
        return
    os.mkdir(template)
    paired(template)
    words = ["alone", COPY]
    for number in each_number(calls_of(library, words, inside, template)):
        same(f"killed at {number}", killed_in_copy(library, number, words, inside, template), True)
        among("alone again", call(inside, words)[:2], [(0, "alone\n"), (1, "not-paired\n")])
        same("find", call(inside, ["find", COPY, "3"]), (0, "2 done\n", ""))
        same("the other", call(inside, ["status", FILE]), ONE_OF_TWO)


def bringing_up_is_stopped(folder: str) -> None:
    """A stop as the shorter is brought up leaves what it had, with some of what it lacked, and the longer whole."""
    library, template, inside = killer(folder), os.path.join(folder, "t"), os.path.join(folder, "s")
    if not library:
        return
    os.mkdir(template)
    paired(template)
    left_behind(template, COPY)
    whole = rows_kept(template, FILE)
    words = ["status", FILE, "--copy", COPY]
    for number in each_number(calls_of(library, words, inside, template)):
        same(f"killed at {number}", killed_in_copy(library, number, words, inside, template), True)
        same("the longer", rows_kept(inside, FILE), whole)
        shorter = rows_kept(inside, COPY)
        same("the shorter is a prefix", shorter, whole[: len(shorter)])
        within("entries", len(shorter), 3, 23)
        for file in BOTH:
            same("one alone", call(inside, ["status", file]), ONE_OF_TWO)
        same("again", call(inside, words)[0], 0)
        same("it is brought up", rows_kept(inside, COPY), whole)


# A disk is lost.


def sell(office: Pair, caller: int, replies: dict[int, str]) -> None:
    """The sales of a caller, as far as they are answered."""
    with contextlib.suppress(OSError):
        speaker = Caller(office.port)
        for sale in range(SALES):
            number = 1000 + SALES * caller + sale
            reply = speaker.ask(f"sell {number} gala 1")
            if reply:
                replies[number] = reply
        speaker.go_away()


def sold(office: Pair) -> tuple[dict[int, str], list[threading.Thread]]:
    replies: dict[int, str] = {}
    callers = [threading.Thread(target=sell, args=(office, caller, replies)) for caller in range(CALLERS)]
    for caller in callers:
        caller.start()
    return replies, callers


def all_answered_are_in(folder: str, file: str, replies: dict[int, str]) -> None:
    rows = {row[2]: reply_of(row) for row in rows_kept(folder, file)}
    for number, reply in replies.items():
        if reply not in ("store", "closed"):
            same(f"the reply under {number} in {file}", rows.get(number), reply)


def office_is_killed(folder: str) -> None:
    """What an office answered before it was killed is in both files; one begins with the other, and either goes on."""
    chance = random.Random(SEED)
    paired(folder)
    for turn in range(6 if FULL else 2):
        office = Pair(folder)
        replies, callers = sold(office)
        while len(replies) < chance.randint(1, CALLERS * SALES // 2) and any(caller.is_alive() for caller in callers):
            pass
        office.program.kill()
        for caller in callers:
            caller.join(SECONDS)
        office.program.communicate()
        rows = [rows_kept(folder, file) for file in BOTH]
        for file in BOTH:
            all_answered_are_in(folder, file, replies)
        shorter = min(map(len, rows))
        same("one begins with the other", rows[0][:shorter], rows[1][:shorter])
        lost = chance.choice(BOTH)
        kept = BOTH[1 - BOTH.index(lost)]
        for part in ("", "-wal", "-sock"):
            with contextlib.suppress(FileNotFoundError):
                os.remove(os.path.join(folder, lost + part))
        same("alone", call(folder, ["alone", kept])[:2], (0, "alone\n"))
        all_answered_are_in(folder, kept, replies)
        same("pair again", call(folder, ["pair", kept, lost])[:2], (0, "paired\n"))


def copy_is_lost(folder: str) -> None:
    """An office whose copy is taken away closes, and the other has each reply."""
    paired(folder)
    office = Pair(folder)
    caller = Caller(office.port)
    same("sell", [caller.ask(f"sell {n} gala 1") for n in range(10, 14)], ["done"] * 4)
    os.remove(os.path.join(folder, COPY))
    status, out, err = office.end()
    same("the end", (status, out, err), (3, b"", b"lost-file\n"))
    caller.go_away()
    same("it is one of two", call(folder, ["status", FILE]), ONE_OF_TWO)
    same("alone", call(folder, ["alone", FILE])[:2], (0, "alone\n"))
    same("find", call(folder, ["find", FILE, "13"]), (0, "6 done\n", ""))


def operators_come(folder: str) -> None:
    """Commands on the first file go to its office; those on the copy are refused."""
    paired(folder)
    office = Pair(folder)
    operator = Operator(office.path)
    same("export", operator.export(1).splitlines()[0], "delta 0 1 3")
    operator.go_away()
    same("ask", call(folder, ["ask", FILE], "sell 10 gala 1\n"), (0, "done\n", ""))
    same("the copy", call(folder, ["ask", COPY], "sell 11 gala 1\n")[0], 3)
    same("open again", call(folder, ["open", str(free_port()), FILE, "--copy", COPY]), (3, "", "already-open\n"))
    same("alone", call(folder, ["alone", FILE]), (3, "", "already-open\n"))
    same("close", call(folder, ["close", FILE]), (0, "", ""))
    same("the end", office.end(), (0, b"", b""))
    same("both", [len(rows_kept(folder, file)) for file in BOTH], [4, 4])


def copy_is_full(folder: str) -> None:
    """A copy whose disk is full: a caller gets `store`, then `closed`, and each other reply is in both files."""
    disk = os.path.join(folder, "disk")
    os.mkdir(disk)
    if not OPTIONS.flag(INSIDE):
        print("copy_is_full: no file system can be mounted here: not tried")
        return
    subprocess.run(["mount", "-t", "tmpfs", "-o", f"size={PAGES * PAGE}", "tmpfs", disk], check=True)
    try:
        small = os.path.join("disk", COPY)
        make_site(folder, FILE)
        same("ask", call(folder, ["ask", FILE], text_of(BEGUN))[0], 0)
        same("pair", call(folder, ["pair", FILE, small]), (0, "paired\n", ""))
        office = Pair(folder, copy=small)
        caller, replies = Caller(office.port), {}
        for number in range(1000, 1000 + 400):
            replies[number] = caller.ask(f"sell {number} gala 1")
            if replies[number] != "done":
                break
        same("the last reply", list(replies.values())[-1], "store")
        caller.go_away()
        status, out, err = office.end()
        same("the end", (status, out, err), (3, b"", b"closed 0\n"))
        all_answered_are_in(folder, FILE, replies)
        same("one of two", call(folder, ["status", FILE]), ONE_OF_TWO)
        same("alone", call(folder, ["alone", FILE])[:2], (0, "alone\n"))
        last = max(replies)
        among("the last sale again", call(folder, ["ask", FILE], f"sell {last} gala 1\n"), [(0, "done\n", "")])
    finally:
        subprocess.run(["umount", "--lazy", disk], check=False)


def disk_fails(folder: str) -> None:
    """Either disk refuses writes, or syncs, beside many callers: the office ends, and the other file has each reply."""
    for at, how in enumerate(["writes", "syncs"] * 2):
        with tempfile.TemporaryDirectory(dir=folder) as inside:
            one_disk_fails(inside, BOTH[at // 2], BOTH[1 - at // 2], how)


def one_disk_fails(folder: str, lost: str, other: str, how: str) -> None:
    once = os.path.join(folder, "now")
    env = failing(folder, "/" + lost, how, once)
    if not env:
        print("disk_fails: no library can be loaded before the C library: not tried")
        return
    paired(folder)
    office = Pair(folder, env=env)
    replies, callers = sold(office)
    while len(replies) < CALLERS and any(caller.is_alive() for caller in callers):
        pass
    with open(once, "w"):
        pass
    for caller in callers:
        caller.join(SECONDS)
    if set(replies.values()) == {"done"}:
        # All were answered before the disk failed.
        sell(office, CALLERS, replies)
    status, out, err = office.end()
    same(f"the end where {lost} refuses {how}", (status, out, err), (3, b"", b"closed 0\n"))
    within("replies that say so", sum(reply in ("store", "closed") for reply in replies.values()), 1, len(replies))
    same("one of two", call(folder, ["status", other]), ONE_OF_TWO)
    same("alone", call(folder, ["alone", other])[:2], (0, "alone\n"))
    all_answered_are_in(folder, other, replies)
    same("it goes on", call(folder, ["grow", other, "3"])[:2], (0, "grown\n"))


def bytes_are_turned(folder: str) -> None:
    """A file whose bytes are turned opens with no other; the other goes on alone."""
    for lost, other in (BOTH, BOTH[::-1]):
        with tempfile.TemporaryDirectory(dir=folder) as inside:
            paired(inside, [*BEGUN, *(f"sell {number} gala 1" for number in range(10, 60))])
            turned(os.path.join(inside, lost))
            before = held_in(inside, [lost])
            status, out, err = call(inside, ["status", FILE, "--copy", COPY])
            same("it is found", (status, out, err.split()[0] in ("damaged", "disk", "not-ours")), (3, "", True))
            same("nothing is changed", held_in(inside, [lost]), before)
            same("alone", call(inside, ["alone", other])[:2], (0, "alone\n"))
            same("find", call(inside, ["find", other, "59"]), (0, "52 done\n", ""))


def turned(path: str) -> None:
    """Turns the bytes of the pages of a database behind its first two."""
    with open(path, "r+b") as stream:
        whole = stream.read()
        stream.seek(2 * PAGE)
        stream.write(bytes(byte ^ 0x55 for byte in whole[2 * PAGE :]))


# So that a mount is seen by this script alone, and ends with it.
INSIDE = "inside"
WAYS = [["unshare", "--mount"], ["unshare", "--map-root-user", "--mount"]]
TRIALS = [
    alone_is_refused,
    other_words,
    reads_over_both,
    serves_over_both,
    shorter_is_brought_up,
    differing_are_refused,
    stale_copy_is_refused,
    other_pairings_are_refused,
    damage_does_not_spread,
    nothing_is_overwritten,
    pair_is_stopped,
    pair_is_said_again,
    other_path_is_another_pair,
    alone_is_stopped,
    bringing_up_is_stopped,
    office_is_killed,
    copy_is_lost,
    operators_come,
    copy_is_full,
    disk_fails,
    bytes_are_turned,
]


def way_to_mount() -> list[str] | None:
    """How a program is started that may mount; None where none may."""
    probe = ["mount", "-t", "tmpfs", "tmpfs", "/mnt"]
    for way in WAYS:
        with contextlib.suppress(OSError):
            if subprocess.run([*way, *probe], capture_output=True, check=False).returncode == 0:
                return way
    return None


def main() -> int:
    way = None if OPTIONS.flag(INSIDE) else way_to_mount()
    if way:
        words = [*way, sys.executable, sys.argv[0], *OPTIONS.words(), f"--{INSIDE}"]
        return subprocess.run(words, check=False).returncode
    return try_each(TRIALS, "a site with two copies loses nothing that was answered")


if __name__ == "__main__":
    sys.exit(main())
