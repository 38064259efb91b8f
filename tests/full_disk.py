#!/usr/bin/env python3
"""Makes records, asks, imports and looks up on a file system whose space is used up, with the built program. Nothing
that was answered may be missing in the files as C SQLite reads them, and nothing more may be there than one entry that
could not be told; once there is space again the files open and go on.

Usage: tests/full_disk.py [PROGRAM] [--full]     (PROGRAM: crates/boxoffice/out/boxoffice)

It mounts a file system in memory, in which a ballast leaves so much free; where that may not be done, it says so and
tries nothing. With `--full` it tries each count of free pages, else a spread of them.
Says what differs and ends with status 1 where anything does.
"""

import os
import shutil
import subprocess
import sys
import tempfile
from collections.abc import Sequence

from lib import asked_and_killed, call, CHECKS, Checks, MEMORY, opened, OPTIONS, ROWS, rows_kept, text_of
from lib.model import Row

FULL = OPTIONS.flag("full")
# So that a mount is seen by this script alone, and ends with it.
INSIDE = "inside"
WAYS = [["unshare", "--mount"], ["unshare", "--map-root-user", "--mount"]]
PAGE = 4096
# The whole of it has room for all that is asked; a ballast leaves some of it.
SIZE = 2048 * PAGE
FILES = 32
MOST_FREE = 220
# More than a log takes before it is copied into its file.
LONG = 1100
BEGUN = ["announce 1 gala", "release 2 gala 100000", "cede 3 gala 40 1", "sell 4 gala 3", "refund 5 4"]
IN_LOG = ["sell 6 gala 7", "announce 7 late-night-of-the-last-week-1", "sell 8 gala 999999"]
KEPT = {"closed well": BEGUN, "killed": BEGUN + IN_LOG}


# What is made before, where there is space.


def made(trial: Checks, top: str) -> None:
    """A folder with the records of two sites, as they are after a session that ended and after one that was killed."""
    for start in KEPT:
        folder = os.path.join(top, start)
        os.mkdir(folder)
        for me, file in enumerate(["site.db", "peer.db"]):
            trial.same("init", call(folder, ["init", file, str(me), "2", "100000"]), (0, "done\n", ""))
        trial.same("ask", call(folder, ["ask", "site.db"], text_of(BEGUN)), (0, "done\n" * len(BEGUN), ""))
    trial.same(
        "killed", "".join(asked_and_killed(os.path.join(top, "killed"), "site.db", IN_LOG)), "done\ndone\nshort 99953\n"
    )


def message_of_many(trial: Checks, folder: str) -> str:
    """What the peer tells of many events, in some sixty kilobytes."""
    lines = [
        line for k in range(900) for line in [f"announce {2 * k + 1} event-{k}", f"release {2 * k + 2} event-{k} 100"]
    ]
    status, out, err = call(folder, ["ask", "peer.db"], text_of(lines))
    trial.same("the peer", (status, out.count("\n"), err), (0, len(lines), ""))
    status, message, err = call(folder, ["export", "peer.db", "0"])
    trial.same("export", (status, err), (0, ""))
    return message


class Twin:
    """What the same comes to where there is space: of requests, their replies, and the entries."""

    def __init__(self, trial: Checks, top: str, start: str, asked: list[str], message: str) -> None:
        self.template = os.path.join(top, start)
        self.asked = asked
        self.message = message
        self.before = rows_kept(self.template, "site.db", trial)
        with tempfile.TemporaryDirectory(dir=MEMORY) as folder:
            shutil.copytree(self.template, folder, dirs_exist_ok=True)
            status, out, err = call(folder, ["ask", "site.db"], text_of(asked))
            trial.same("the twin", (status, err), (0, ""))
            self.replies = out.splitlines()
            self.rows = rows_kept(folder, "site.db", trial)
            self.listed = call(folder, ["list", "site.db", "gala"])[1]
        with tempfile.TemporaryDirectory(dir=MEMORY) as folder:
            shutil.copytree(self.template, folder, dirs_exist_ok=True)
            trial.same("the import", call(folder, ["import", "site.db"], message), (0, "joined\n", ""))
            self.joined = rows_kept(folder, "site.db", trial)


def evening(count: int) -> list[str]:
    """Requests that each make an entry, with new events now and then."""
    lines = []
    for number in range(101, 101 + count):
        kinds = [
            f"sell {number} gala 1",
            f"refund {number} {number - 1}",
            f"announce {number} event-of-number-{number}",
        ]
        lines.append(kinds[(0, 0, 1, 0, 0, 2, 0)[number % 7]])
    return lines + ["left gala"]


# The small file system.


class Disk:
    """A file system of which a ballast leaves so many pages free."""

    def __init__(self, folder: str) -> None:
        self.folder = folder
        self.ballast = os.path.join(folder, "ballast")

    def free(self) -> int:
        about = os.statvfs(self.folder)
        return about.f_bavail * about.f_frsize // PAGE

    def empty(self) -> None:
        for name in os.listdir(self.folder):
            os.remove(os.path.join(self.folder, name))

    def hold(self, template: str | None) -> None:
        self.empty()
        if template:
            shutil.copytree(template, self.folder, dirs_exist_ok=True)

    def fill(self, free: int) -> bool:
        """Whether so few pages are free now."""
        with open(self.ballast, "wb") as file:
            os.posix_fallocate(file.fileno(), 0, max(self.free() - free, 1) * PAGE)
        return self.free() == free

    def make_space(self) -> None:
        os.remove(self.ballast)


# While there is no space.


def ask_without_space(trial: Checks, disk: Disk, twin: Twin) -> list[Row]:
    """Replies up to one that could not be stored, and none behind it; with `store` the entry may be there."""
    status, out, err = call(disk.folder, ["ask", "site.db"], text_of(twin.asked))
    replies = out.splitlines()
    stored = next((k for k, reply in enumerate(replies) if reply == "store"), len(replies))
    trial.same("the replies", replies[:stored], twin.replies[:stored])
    closed = ["store"] + ["closed"] * (len(twin.asked) - stored - 1)
    trial.among("the replies behind", replies[stored:], [closed] if replies and stored < len(twin.asked) else [[]])
    trial.among("the end", (status, err), [(0, ""), (3, "disk\n")] if replies else [(3, "disk\n")])
    rows = rows_kept(disk.folder, "site.db", trial)
    # The last line looks, and makes no entry.
    entries = len(twin.before) + min(stored, len(twin.asked) - 1)
    more = 1 if "store" in replies else 0
    trial.among(f"entries, of {entries} answered", len(rows), [entries, entries + more])
    trial.same("the entries", rows, twin.rows[: len(rows)])
    ended = (
        f"store and {err.strip() or 'done'}" if more else "disk" if not replies else f"all and {err.strip() or 'done'}"
    )
    trial.told[f"ask: {ended}"] += 1
    return rows


def ask_with_space(trial: Checks, disk: Disk, twin: Twin, rows: Sequence[Row]) -> None:
    """What was kept is found, the rest is decided, and all of it is as if space had never been wanting."""
    last = rows[-1]
    reply = last[7] if last[8] is None else f"{last[7]} {last[8]}"
    found = call(disk.folder, ["find", "site.db", str(last[2])])
    trial.same("find", found, (0, f"{last[0]} {reply}\n", ""))
    trial.same(
        "asked again", call(disk.folder, ["ask", "site.db"], text_of(twin.asked)), (0, text_of(twin.replies), "")
    )
    trial.same("list", call(disk.folder, ["list", "site.db", "gala"]), (0, twin.listed, ""))
    with opened(disk.folder, "site.db") as db:
        trial.same("in its place", db.execute("PRAGMA integrity_check").fetchall(), [("ok",)])
        trial.same("all entries", db.execute(ROWS).fetchall(), twin.rows)


def asking(trial: Checks, disk: Disk, twin: Twin, free: int) -> None:
    disk.hold(twin.template)
    if disk.fill(free):
        rows = ask_without_space(trial, disk, twin)
        look_up(trial, disk, rows)
        disk.make_space()
        ask_with_space(trial, disk, twin, rows)


def importing(trial: Checks, disk: Disk, twin: Twin, free: int) -> None:
    disk.hold(twin.template)
    if not disk.fill(free):
        return
    status, out, err = call(disk.folder, ["import", "site.db"], twin.message)
    ends = [(0, "joined\n", ""), (3, "joined\n", "disk\n"), (3, "", "store\n"), (3, "", "disk\n")]
    trial.among("import", (status, out, err), ends)
    trial.told[f"import: {out.strip() or 'nothing'} and {err.strip() or 'done'}"] += 1
    rows = rows_kept(disk.folder, "site.db", trial)
    wanted = {"joined\n": [twin.joined]}.get(out, [twin.before, twin.joined] if err == "store\n" else [twin.before])
    trial.among("the entries", rows, wanted)
    disk.make_space()
    word = "nothing-new\n" if rows == twin.joined else "joined\n"
    trial.same("imported again", call(disk.folder, ["import", "site.db"], twin.message), (0, word, ""))
    trial.same("asked behind it", call(disk.folder, ["ask", "site.db"], "left gala\n")[::2], (0, ""))
    with opened(disk.folder, "site.db") as db:
        trial.same("in its place", db.execute("PRAGMA integrity_check").fetchall(), [("ok",)])
        trial.same("all entries", db.execute(ROWS).fetchall(), twin.joined)


def growing(trial: Checks, disk: Disk, twin: Twin, free: int) -> None:
    disk.hold(twin.template)
    if not disk.fill(free):
        return
    told = call(disk.folder, ["grow", "site.db", "64"])
    trial.among("grow", told, [(0, "grown\n", ""), (3, "grown\n", "disk\n"), (3, "", "store\n"), (3, "", "disk\n")])
    trial.told[f"grow: {told[1].strip() or 'nothing'} and {told[2].strip() or 'done'}"] += 1
    grown = [*twin.before, (len(twin.before), None, None, "grow", None, None, 64, None, None, "")]
    rows = rows_kept(disk.folder, "site.db", trial)
    wanted = {"grown\n": [grown]}.get(told[1], [twin.before, grown] if told[2] == "store\n" else [twin.before])
    trial.among("the entries", rows, wanted)
    disk.make_space()
    word = (1, "not-more\n", "") if rows == grown else (0, "grown\n", "")
    trial.same("grown again", call(disk.folder, ["grow", "site.db", "64"]), word)
    trial.same("all entries", rows_kept(disk.folder, "site.db", trial), grown)


def making(trial: Checks, disk: Disk, _twin: Twin, free: int) -> None:
    disk.hold(None)
    if not disk.fill(free):
        return
    words = ["init", "site.db", "0", "2", "100000"]
    told = call(disk.folder, words)
    trial.among("init", told, [(0, "done\n", ""), (3, "done\n", "disk\n"), (3, "", "disk\n")])
    trial.told[f"init: {told[1].strip() or 'nothing'} and {told[2].strip() or 'done'}"] += 1
    found = call(disk.folder, ["find", "site.db", "1"])
    trial.among("find", found, [(1, "none\n", ""), (3, "none\n", "disk\n"), (3, "", "disk\n"), (3, "", "not-ours\n")])
    disk.make_space()
    again = [(1, "already-there\n", "")] if told[1] else [(0, "done\n", ""), (1, "already-there\n", "")]
    trial.among("init again", call(disk.folder, words), again)
    trial.same("ask", call(disk.folder, ["ask", "site.db"], text_of(BEGUN)), (0, "done\n" * len(BEGUN), ""))
    trial.same("the entries", len(rows_kept(disk.folder, "site.db", trial)), len(BEGUN))


def look_up(trial: Checks, disk: Disk, rows: Sequence[Row]) -> None:
    """A lookup is right, or is told that the disk fails, maybe behind what it printed; no entry is changed."""
    announced = next(row for row in rows if row[3] == "announce")
    trials = [
        (["find", "site.db", str(announced[2])], f"{announced[0]} {announced[7]}\n"),
        (["find", "site.db", "99"], "none\n"),
    ]
    for words, right in trials:
        told = call(disk.folder, words)
        status = 1 if right == "none\n" else 0
        trial.among(f"{words}", told, [(status, right, ""), (3, right, "disk\n"), (3, "", "disk\n")])
        trial.told[f"find: {'answered' if told[1] else 'nothing'} and {told[2].strip() or 'done'}"] += 1
    trial.same("the entries behind lookups", rows_kept(disk.folder, "site.db", trial), rows)


def no_file_more(trial: Checks, disk: Disk, twin: Twin) -> None:
    """Where no file can be made there is no log: nothing is made and nothing changed."""
    disk.hold(twin.template)
    for name in ["site.db-wal", "peer.db-wal", "peer.db"]:
        if os.path.exists(os.path.join(disk.folder, name)):
            os.remove(os.path.join(disk.folder, name))
    fillers = 0
    while os.statvfs(disk.folder).f_favail > 0:
        fillers += 1
        with open(os.path.join(disk.folder, f"filler-{fillers}"), "wb"):
            pass
    with open(os.path.join(disk.folder, "site.db"), "rb") as file:
        before = file.read()
    names = sorted(os.listdir(disk.folder))
    for words in [
        ["ask", "site.db"],
        ["find", "site.db", "1"],
        ["import", "site.db"],
        ["grow", "site.db", "64"],
        ["init", "new.db", "0", "2", "10"],
    ]:
        trial.same(f"{words} and no file more", call(disk.folder, words, "sell 9 gala 1\n"), (3, "", "disk\n"))
        trial.same(f"the files behind {words}", sorted(os.listdir(disk.folder)), names)
    with open(os.path.join(disk.folder, "site.db"), "rb") as file:
        trial.same("its bytes", file.read(), before)
    os.remove(os.path.join(disk.folder, "filler-1"))
    trial.same("asked behind it", call(disk.folder, ["ask", "site.db"], text_of(BEGUN)), (0, "done\n" * len(BEGUN), ""))


def counts_of_pages() -> tuple[Sequence[int], Sequence[int]]:
    """How many pages are free in turn, and how many where a log grows until it is copied into its file."""
    if FULL:
        return range(MOST_FREE), range(1000, 1090, 2)
    return [*range(12), *range(12, MOST_FREE, 13)], [1009, 1024, 1039]


def try_all(trial: Checks, top: str, folder: str) -> None:
    made(trial, top)
    message = message_of_many(trial, os.path.join(top, "closed well"))
    disk = Disk(folder)
    few, many = counts_of_pages()
    for start in KEPT:
        twin = Twin(trial, top, start, evening(150), message)
        for free in few:
            for kind in [asking, importing, growing, making] if start == "killed" else [asking, importing, growing]:
                trial.name = f"{kind.__name__}, {start}, {free} pages free"
                kind(trial, disk, twin, free)
    twin = Twin(trial, top, "closed well", evening(LONG), message)
    for free in many:
        trial.name = f"a long evening, {free} pages free"
        asking(trial, disk, twin, free)
    trial.name = "no file more"
    no_file_more(trial, disk, twin)


def mount(folder: str) -> list[str]:
    return ["mount", "-t", "tmpfs", "-o", f"size={SIZE},nr_inodes={FILES}", "tmpfs", folder]


def try_inside() -> int:
    with tempfile.TemporaryDirectory(dir=MEMORY) as top:
        folder = os.path.join(top, "disk")
        os.mkdir(folder)
        subprocess.run(mount(folder), check=True)
        try:
            try_all(CHECKS, top, folder)
        finally:
            subprocess.run(["umount", "--lazy", folder], check=True)
    print("; ".join(f"{end} {count}" for end, count in sorted(CHECKS.told.items())))
    return CHECKS.end()


def way_to_mount() -> list[str] | None:
    with tempfile.TemporaryDirectory(dir=MEMORY) as folder:
        for way in WAYS:
            if (
                shutil.which(way[0])
                and subprocess.run([*way, *mount(folder)], capture_output=True, check=False).returncode == 0
            ):
                return way
    return None


def main() -> int:
    is_inside = OPTIONS.flag(INSIDE)
    OPTIONS.check()
    if is_inside:
        return try_inside()
    way = way_to_mount()
    if way is None:
        print("no file system can be mounted here, so nothing is tried")
        print("0 passed, 0 failed")
        return 0
    return subprocess.run([*way, sys.executable, sys.argv[0], *OPTIONS.words(), f"--{INSIDE}"], check=False).returncode


if __name__ == "__main__":
    sys.exit(main())
