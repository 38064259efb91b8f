#!/usr/bin/env python3
"""Turns bytes of a site's file and of its log one by one, cuts and doubles pages, and puts files of other programs in
their place. Each command of the built program has to end with a status and a word of the documents, to answer by what
was kept, to change no byte of a file that it refuses, and to keep all that was kept behind a new sale.

Usage: tests/damage.py [PROGRAM] [--full] [--strict]     (PROGRAM: crates/boxoffice/out/boxoffice)

Two kinds of damage cannot be told from a file that was never damaged, and are counted apart: a log whose end is lost is
as one that a stop cut short, so that answers are those of an older state; and where C SQLite too finds a sound file
with other rows, answers are by those rows. With `--strict` they fail as well.

With `--full` each byte of the file is turned, and each that the log holds, those behind its headers for one command in
turn, and a few of the zeros behind them; else one of eight of a spread of them and of the headers.
Says what differs and ends with status 1 where anything does.
"""

import concurrent.futures
import os
import re
import sqlite3
import subprocess
import sys
import tempfile
from collections.abc import Iterable, Iterator

from lib import asked_and_killed, call, CHECKS, Checks, EMPTY_LOG, free_port, MEMORY, opened, OPTIONS, ROWS, text_of
from lib.model import Site, audit
from lib.program import Found

FULL, STRICT = OPTIONS.flag("full"), OPTIONS.flag("strict")
PROCESSES = os.cpu_count() or 2 if FULL else 2
# How far the bytes of the spread are from one another.
SPREAD = 37
# One of so many of the spread is tried.
PART = 8
PAGE = 4096
LOG_HEADER = 32
FRAME_HEADER = 24
FRAME = FRAME_HEADER + PAGE
FILE, LOG, PEER = "site.db", "site.db-wal", "peer.db"
# So many may be put behind a log that another program wrote.
ZEROS = 9

FIRST = [
    "announce 1 gala",
    "announce 2 gala",
    "release 3 gala 100",
    "cede 4 gala 40 1",
    "sell 5 gala 61",
    "sell 6 gala 7",
]
PEERS = ["sell 1 gala 4", "cede 2 gala 9 0", "announce 3 expo", "release 4 expo 50", "cede 5 expo 20 0", "refund 6 1"]
SECOND = [
    "refund 7 6",
    "refund 8 6",
    "refund 9 5",
    "cede 10 gala 1 0",
    "cede 11 gala 1 2",
    "sell 12 late 1",
    "sell 13 expo 6",
]
IN_LOG = [
    "release 14 gala 1000000000000",
    "sell 15 gala 3",
    "announce 16 late",
    "sell 17 gala 99",
    "refund 18 13",
    "sell 19 gala 5",
]
# What the peer tells once more, in which a cession is new.
NEWS = "delta 1 0 9\nname expo\nname gala\ngave gala 1 0 11\nend\n"
SESSION = ["left gala", "sell 1000 gala 1", "left gala", "sell 6 gala 7", "sell 19 gala 5"]
RIGHT = "right"
# The words of status 3 that a command over records may end with.
WORDS = re.compile(r"(not-ours|other-schema -?\d+|damaged \d+|disk|memory|store)\n")


# Files by their names.
Parts = dict[str, bytes]
# The words of a command, with its name and its input.
Command = tuple[str, list[str], str]

# The files as they are before.


def read_by_sqlite(folder: str, file: str) -> Site | None:
    """The history that C SQLite finds, or None where it finds no sound file."""
    try:
        with opened(folder, file) as db:
            if db.execute("PRAGMA integrity_check").fetchall() != [("ok",)]:
                return None
            ((kind, version, me, sites),) = db.execute("SELECT kind, version, me, sites FROM meta").fetchall()
            if (kind, version) != ("ticket-escrow", 2):
                return None
            return Site(me, sites, rows=db.execute(ROWS).fetchall())
    except (sqlite3.Error, ValueError, TypeError, AttributeError, UnicodeDecodeError):
        return None


def log_is_empty(log: bytes | None) -> bool:
    return log is None or len(log) in (0, EMPTY_LOG)


def write(folder: str, parts: Parts) -> None:
    """Leaves these files in the folder and no others."""
    for name in os.listdir(folder):
        if name not in parts:
            os.remove(os.path.join(folder, name))
    for name, content in parts.items():
        with open(os.path.join(folder, name), "wb") as file:
            file.write(content)


def read(folder: str, names: Iterable[str]) -> Parts:
    parts = {}
    for name in names:
        if os.path.exists(os.path.join(folder, name)):
            with open(os.path.join(folder, name), "rb") as file:
                parts[name] = file.read()
    return parts


def must(words: str, told: object, wanted: object) -> None:
    if told != wanted:
        sys.exit(f"{words}: found {told!r}, wanted {wanted!r}")


def make(folder: str) -> None:
    """The files of two sites: entries of each kind, and at the first site some that stand in the log alone."""
    for me, file in enumerate([FILE, PEER]):
        must("init", call(folder, ["init", file, str(me), "2", "1000"]), (0, "done\n", ""))
    must("ask", call(folder, ["ask", FILE], text_of(FIRST))[::2], (0, ""))
    there = call(folder, ["export", FILE, "1"])[1]
    must("import", call(folder, ["import", PEER], there), (0, "joined\n", ""))
    must("ask", call(folder, ["ask", PEER], text_of(PEERS))[::2], (0, ""))
    back = call(folder, ["export", PEER, "0"])[1]
    must("import", call(folder, ["import", FILE], back), (0, "joined\n", ""))
    must("ask", call(folder, ["ask", FILE], text_of(SECOND))[::2], (0, ""))
    asked_and_killed(folder, FILE, IN_LOG)


class Variant:
    """A site's file and log, what they hold, and the least that the file alone holds."""

    def __init__(self, name: str, parts: Parts) -> None:
        self.name = name
        self.parts = {part: content for part, content in parts.items() if part in (FILE, LOG)}
        self.peer = {part: content for part, content in parts.items() if part.startswith(PEER)}
        self.history, self.peers = self.read({**self.parts, **self.peer})
        self.in_file = len(self.read({FILE: self.parts[FILE], **self.peer})[0].rows)

    def read(self, parts: Parts) -> tuple[Site, Site]:
        with tempfile.TemporaryDirectory(dir=MEMORY) as folder:
            write(folder, parts)
            history, peers = read_by_sqlite(folder, FILE), read_by_sqlite(folder, PEER)
            assert history and peers
            return history, peers


def make_variants() -> dict[str, Variant]:
    """As after a session that was killed, the same once its log is gone, and as after a session that ended."""
    with tempfile.TemporaryDirectory(dir=MEMORY) as folder:
        make(folder)
        names = [FILE, LOG, PEER, PEER + "-wal"]
        killed = read(folder, names)
        must("find", call(folder, ["find", FILE, "19"]), (0, "19 done\n", ""))
        ended = read(folder, names)
        must("the log behind it", log_is_empty(ended.get(LOG)), True)
        gone = {part: content for part, content in killed.items() if part != LOG}
        return {
            name: Variant(name, parts) for name, parts in [("killed", killed), ("log gone", gone), ("ended", ended)]
        }


VARIANTS: dict[str, Variant] = {}

# Damage.


class Damage:
    """What is done to a copy: of a variant, to a part, by a name; or what stands in its place."""

    def __init__(self, variant: str, part: str, how: str, *values: int) -> None:
        self.variant, self.part, self.how, self.values = variant, part, how, values

    def __str__(self) -> str:
        return f"{self.variant}: {self.part} {self.how} {' '.join(map(str, self.values))}"

    def done(self, parts: Parts) -> Parts:
        content = parts[self.part]
        match self.how:
            case "untouched":
                behind = content
            case "turned":
                at, mask = self.values
                behind = content[:at] + bytes([content[at] ^ mask]) + content[at + 1 :]
            case "cut":
                behind = content[: self.values[0]]
            case "doubled":
                begin, end = self.values
                behind = content[:end] + content[begin:end] + content[end:]
            case "laid over":
                begin, end = self.values
                behind = content[:end] + content[begin:end] + content[end + end - begin :]
            case "left out":
                begin, end = self.values
                behind = content[:begin] + content[end:]
        return {**parts, self.part: behind}


def frames(log: bytes) -> range:
    """Where the frames of a log begin that hold anything, and the one behind them."""
    return range(LOG_HEADER, len(log.rstrip(b"\0")) + FRAME, FRAME)


def headers(part: str, content: bytes) -> set[int]:
    """The places of the headers: of the file, of its pages and their cells, of the log and of its frames."""
    if part == FILE:
        return {*range(100), *(at + k for at in range(0, len(content), PAGE) for k in range(24))}
    return {*range(LOG_HEADER), *(at + k for at in frames(content) for k in range(FRAME_HEADER))}


def places(part: str, content: bytes) -> list[tuple[int, int]]:
    """The bytes that are turned, each with what it is turned by."""
    end = len(content)
    heads = {at for at in headers(part, content) if at < end}
    # Behind what a log holds there are zeros, of which a few will do.
    told = len(content.rstrip(b"\0")) + FRAME
    if FULL:
        every = [at for at in range(end) if at < told or at % (SPREAD * 64) == 0]
        return [(at, 0xFF) for at in every] + [(at, 1) for at in every if content[at]]
    spread = [at for at in range(0, end, SPREAD) if at < told or at % (SPREAD * 64) == 0]
    return sorted({(at, 0xFF) for at in heads} | {(at, (0xFF, 1)[k % 2]) for k, at in enumerate(spread)})


def pages(part: str, content: bytes) -> list[tuple[int, int]]:
    if part == FILE:
        return [(at, at + PAGE) for at in range(0, len(content), PAGE)]
    return [(at, at + FRAME) for at in frames(content)]


def damages(variant: Variant) -> Iterator[Damage]:
    for part, content in variant.parts.items():
        yield Damage(variant.name, part, "untouched")
        for at, mask in places(part, content):
            yield Damage(variant.name, part, "turned", at, mask)
        for begin, end in pages(part, content):
            for how in ["doubled", "laid over", "left out"]:
                yield Damage(variant.name, part, how, begin, end)
            for at in [begin, begin + 1, begin + 24, begin + 512, end - 1]:
                yield Damage(variant.name, part, "cut", at)


# Commands, and what they may tell.


def commands() -> list[Command]:
    return [
        ("ask", ["ask", FILE], text_of(SESSION)),
        ("find", ["find", FILE, "13"], ""),
        ("list", ["list", FILE, "gala"], ""),
        ("export", ["export", FILE, "1"], ""),
        ("import", ["import", FILE], NEWS),
        ("audit", ["audit", FILE, PEER], ""),
        ("serve", ["serve", str(free_port()), "0", "0", FILE, PEER], ""),
        ("grow", ["grow", FILE, "3"], ""),
        ("migrate", ["migrate", FILE], ""),
        ("init", ["init", FILE, "0", "2", "1000"], ""),
    ]


def right(name: str, history: Site, peers: Site) -> tuple[int, str, Site]:
    """The status and answer by a history, and the history behind it."""
    behind = history.copy()
    match name:
        case "ask":
            return 0, behind.session(SESSION), behind
        case "find":
            word = behind.find(13)
            return int(word == "none"), word + "\n", behind
        case "list":
            return *listed(behind), behind
        case "export":
            message = behind.message(1)
            return (1, "nothing\n", behind) if message == "nothing" else (0, message, behind)
        case "import":
            return 0, behind.take(NEWS)[0] + "\n", behind
        case "audit" | "serve":
            return *audit([behind, peers]), behind
        case "grow":
            word = behind.grow(3)
            return int(word != "grown"), word + "\n", behind
        case "migrate":
            return 1, "nothing\n", behind
        case _:
            return 1, "already-there\n", behind


def listed(history: Site) -> tuple[int, str]:
    """The status and the answer to `list` of the gala."""
    return (0, text_of(history.listed("gala"))) if history.listed("gala") else (1, "none\n")


class Judge:
    """Looks at what a command told of one damaged copy."""

    def __init__(self, folder: str, damage: Damage, finding: Checks) -> None:
        self.folder, self.damage, self.finding = folder, damage, finding
        self.variant = VARIANTS[damage.variant]
        self.parts = damage.done(self.variant.parts)
        self.seen: Site | None = None
        self.is_seen = False

    def run(self, name: str, words: list[str], given: str) -> None:
        write(self.folder, {**self.parts, **self.variant.peer})
        try:
            told = call(self.folder, words, given)
        except (subprocess.TimeoutExpired, UnicodeDecodeError) as fault:
            return self.differs(name, f"{fault!r}")
        kind, is_right = self.judged(name, *told)
        if is_right:
            self.finding.told[kind] += 1
            self.finding.passed += 1
        else:
            self.differs(name, f"{kind}: told {told!r}")

    def differs(self, name: str, text: str) -> None:
        self.finding.differs(f"{self.damage}: {name}: {text}")

    def judged(self, name: str, status: int, out: str, err: str) -> tuple[str, bool]:
        """The kind of what was told, and whether it may be."""
        is_word = WORDS.fullmatch(err) is not None
        if status not in (0, 1, 3) or is_word != (status == 3) or (err and not is_word):
            return "no status, or no word of it", False
        if status == 3 and not out:
            return self.refused(name, err)
        # A file that was cut to nothing is as a new one.
        if name == "init" and len(self.parts[FILE]) < 2 and (status, out, err) == (0, "done\n", ""):
            return "made where nothing was", True
        for kind, history in self.histories():
            if self.is_by(name, history, status, out):
                return kind + (f" and {err.strip()}" if err else ""), kind == RIGHT or not STRICT
        return "by nothing that was kept", False

    def refused(self, name: str, err: str) -> tuple[str, bool]:
        left = read(self.folder, self.parts)
        word = re.sub(r"\d+", "K", err.strip())
        log, before = left.get(LOG), self.parts.get(LOG)
        if left[FILE] != self.parts[FILE]:
            return f"{word} and another file", False
        if log == before:
            return word, True
        return f"{word} and another empty log", log_is_empty(log) and log_is_empty(before)

    def histories(self) -> Iterator[tuple[str, Site]]:
        """What answers may go by: what was kept, else what damage that nobody can tell makes of it."""
        whole = self.variant.history
        yield RIGHT, whole
        if self.damage.part == LOG:
            for count in range(self.variant.in_file, len(whole.rows)):
                yield "an older state", whole.copy(whole.rows[:count])
        if (seen := self.seen_by_sqlite()) is not None:
            yield "other rows", seen

    def seen_by_sqlite(self) -> Site | None:
        if not self.is_seen:
            with tempfile.TemporaryDirectory(dir=MEMORY) as folder:
                write(folder, self.parts)
                self.seen, self.is_seen = read_by_sqlite(folder, FILE), True
        return self.seen

    def is_by(self, name: str, history: Site, status: int, out: str) -> bool:
        wanted, answer, behind = right(name, history, self.variant.peers)
        if status != wanted and status != 3:
            return False
        if out == answer:
            return self.is_kept(history, behind)
        replies, answers = out.splitlines(), answer.splitlines()
        stored = next((k for k, reply in enumerate(replies) if reply == "store"), 0)
        if name == "ask" and stored:
            is_closed = replies[stored + 1 :] == ["closed"] * (len(SESSION) - stored - 1)
            return is_closed and replies[:stored] == answers[:stored] and self.is_kept(history, behind, history)
        return False

    def is_kept(self, history: Site, *behind: Site) -> bool:
        """Whether the files hold one of these histories, as C SQLite reads them and as the program lists them."""
        read_back = read_by_sqlite(self.folder, FILE)
        if read_back is None:
            # Where C SQLite refused them before too, the program alone can tell.
            if self.seen_by_sqlite() is not None:
                return False
        elif read_back.rows not in [one.rows for one in behind]:
            return False
        if any(history.rows == one.rows for one in behind):
            return True
        return call(self.folder, ["list", FILE, "gala"]) in [(*listed(one), "") for one in behind]


def tried(damage: Damage) -> list[Command]:
    """The commands that are tried of it. What stands behind a log's headers is told by the sums in them alone."""
    every = commands()
    if FULL and damage.part == LOG and damage.how == "turned":
        at = damage.values[0]
        if at not in headers(LOG, VARIANTS[damage.variant].parts[LOG]):
            # Another command at the same place of the next frame.
            return [every[(at + at // FRAME) % len(every)]]
    return every


def try_damages(some: Iterable[Damage]) -> Checks:
    finding = Checks(quiet=True)
    with tempfile.TemporaryDirectory(dir=MEMORY) as folder:
        for damage in some:
            judge = Judge(folder, damage, finding)
            for name, words, given in tried(damage):
                judge.run(name, words, given)
    return finding


# A history that could not stand.


def spoilt(variant: Variant) -> Parts:
    """The site's files with a seat more in its release, which stands in the log."""
    with tempfile.TemporaryDirectory(dir=MEMORY) as folder:
        write(folder, {**variant.parts, **variant.peer})
        with opened(folder, FILE) as db:
            db.execute("PRAGMA wal_autocheckpoint = 0")
            db.execute("UPDATE entries SET amount = amount + 1 WHERE pos = 2")
            return read(folder, [FILE, LOG])


def with_log(variant: Variant) -> Parts:
    """The peer's files with what it was last asked in the log alone."""
    with tempfile.TemporaryDirectory(dir=MEMORY) as folder:
        write(folder, variant.peer)
        asked_and_killed(folder, PEER, ["sell 7 gala 1"])
        return read(folder, [PEER, PEER + "-wal"])


def try_spoilt(variant: Variant) -> Checks:
    """All pages are sound, and each row is that of an entry: it is told, and neither the file nor its log is changed,
    nor those of another site that were opened before it."""
    finding = Checks(quiet=True)
    parts = {**spoilt(variant), **with_log(variant)}
    behind = [parts, {**parts, LOG: parts[LOG] + bytes(ZEROS)}]
    # The history is none of `init`'s and `migrate`'s affair.
    all_words = [one for one in commands() if one[0] not in ("init", "migrate")]
    # Behind another site's file, which is no first one: `audit` opens both before it looks.
    all_words.append(("audit behind", ["audit", PEER, FILE], ""))
    for command, words, given in all_words:
        with tempfile.TemporaryDirectory(dir=MEMORY) as folder:
            write(folder, parts)
            told = call(folder, words, given)
            left = read(folder, parts)
        if told == (3, "", "damaged 2\n") and left in behind:
            finding.told["spoilt: damaged 2"] += 1
            finding.passed += 1
        else:
            what = "as they were" if left in behind else "others"
            finding.differs(f"{variant.name}, spoilt: {command}: told {told!r}, the files are {what}")
    return finding


# Files of other programs.


def foreign_files() -> Parts:
    with tempfile.TemporaryDirectory(dir=MEMORY) as folder:
        with opened(folder, "other.db") as db:
            db.execute("CREATE TABLE seats (number INTEGER PRIMARY KEY, name TEXT)")
            db.execute("INSERT INTO seats VALUES (7, 'gala')")
        with opened(folder, "logged.db") as db:
            db.execute("PRAGMA journal_mode = WAL")
            db.execute("CREATE TABLE meta (name TEXT)")
        databases = read(folder, ["other.db", "logged.db"])
    return {
        "an empty file": b"",
        "one byte": b"\n",
        "a text": b"what to do tonight\n" * 300,
        "a short text": b"notes",
        "a picture": b"\x89PNG\r\n\x1a\n\x00\x00\x00\rIHDR" + bytes(range(256)) * 40,
        "a database of others": databases["other.db"],
        "a log of others": databases["logged.db"],
        "a file of zeros": bytes(3 * PAGE),
    }


def try_foreign(name: str, content: bytes) -> Checks:
    """Nothing of it is changed, alone and beside the log of a site, and nothing is answered from it."""
    finding = Checks(quiet=True)
    killed = VARIANTS["killed"]
    for log in [None, killed.parts[LOG]]:
        parts = {FILE: content, **({} if log is None else {LOG: log})}
        for command, words, given in commands():
            with tempfile.TemporaryDirectory(dir=MEMORY) as folder:
                write(folder, {**parts, **killed.peer})
                told = call(folder, words, given)
                left = read(folder, [FILE, LOG])
            what = f"{name}{'' if log is None else ' beside a log'}: {command}"
            judge_foreign(finding, what, command, parts, told, left)
    return finding


def judge_foreign(finding: Checks, what: str, command: str, parts: Parts, told: Found, left: Parts) -> None:
    status, out, err = told
    is_left = left[FILE] == parts[FILE] and (left.get(LOG) == parts.get(LOG) or log_is_empty(left.get(LOG)))
    if status == 3 and WORDS.fullmatch(err) and not out and is_left:
        finding.told[f"foreign: {err.strip()}"] += 1
        finding.passed += 1
    elif command == "init" and len(parts[FILE]) < 2 and told == (0, "done\n", ""):
        finding.told["foreign: made where nothing was"] += 1
        finding.passed += 1
    elif command == "init" and told == (1, "already-there\n", "") and b"CREATE TABLE meta" in parts[FILE]:
        finding.told["foreign: already-there"] += 1
        finding.passed += 1
    else:
        finding.differs(f"{what}: told {told!r}, the file is {'' if left[FILE] == parts[FILE] else 'not '}as it was")


def try_all() -> int:
    for name, content in foreign_files().items():
        CHECKS.add(try_foreign(name, content))
    for variant in VARIANTS.values():
        CHECKS.add(try_spoilt(variant))
    all_damages = [damage for variant in VARIANTS.values() for damage in damages(variant)]
    if not FULL:
        all_damages = all_damages[::PART]
    few = [all_damages[at : at + 20] for at in range(0, len(all_damages), 20)]
    with concurrent.futures.ProcessPoolExecutor(PROCESSES) as pool:
        for one in pool.map(try_damages, few):
            CHECKS.add(one)
    return len(all_damages)


def main() -> int:
    OPTIONS.check()
    VARIANTS.update(make_variants())
    count = try_all()
    print(f"{count} damaged copies; " + ", ".join(f"{what} {often}" for what, often in sorted(CHECKS.told.items())))
    return CHECKS.end()


if __name__ == "__main__":
    sys.exit(main())
