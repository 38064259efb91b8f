#!/usr/bin/env python3
"""Asks an open office at its socket, FILE-sock, for the message that is due to a site, and has it take one.

Usage: office.py export FILE-sock T     prints the message that is due to site T; status 1 and no message where nothing
is
       office.py import FILE-sock       takes the message on standard input, and prints the acknowledgement where there
       is one

Status 0: exported; or joined, nothing-new, acked. 1: nothing is due; or refused, with the word on standard error. 2:
wrong arguments. 3: no office is there, or it ended before it had answered.

What others send is read no further than it can be messages: a line of more than 200 bytes is `bad-line`, a text of more
than 64 MB or of more than 999,998 lines `too-long`, and one that takes more than a minute, and a second for each 20,000
bytes, `too-slow`.
"""

from __future__ import annotations

import contextlib
import fcntl
import os
import re
import select
import socket
import sys
import threading
import time
from collections.abc import Iterable, Sequence
from dataclasses import dataclass

# How long an office, or a text of another site, may take; for how many bytes a text may take a second more.
SECONDS, BYTES_A_SECOND = 60, 20_000
# Of a line the most bytes, of a session the most lines beside `import` and `quit`, of a text the most bytes.
MOST_BYTES, MOST_LINES, MOST_TEXT = 200, 999_998, 64 << 20
PIECE = 1 << 16
TAKEN = ("joined", "nothing-new", "acked")
# For how many seconds something may be due to a peer that is not heard of before that is said.
QUIET = 120.0
# How often a message is sent that has nothing for which its receiver waits. Each that is joined is an entry there.
SPARING = 30.0
# Where a history stands: from nine tenths of its LIMIT on, less what the office reserves, it is nearly full.
ROOM, NEARLY_FULL = "has room", "nearly full"


class Absent(Exception):
    """No office answered."""


def say(text: str) -> None:
    """Says a line on standard error; of what others may have written, no more than can be read."""
    sys.stderr.write("".join(char if char.isprintable() else "?" for char in text[:1000]) + "\n")
    sys.stderr.flush()


class Reporter:
    """Says a word of something on standard error, once for each change. The word that it has at first is not said."""

    def __init__(self, what: str, word: str = "") -> None:
        self.what, self.word, self.lock = what, word, threading.Lock()

    def say(self, word: str) -> None:
        with self.lock:
            if word != self.word:
                say(f"{self.what}: {word}")
            self.word = word


def clock(at: float) -> str:
    """A moment by the clock; with its day where that is not today's."""
    now, then = time.localtime(), time.localtime(at)
    return time.strftime("%H:%M:%S" if now[:3] == then[:3] else "%Y-%m-%d %H:%M:%S", then)


def history_of(me: int) -> Reporter:
    """Says of the history of a site that it is nearly full, from nine tenths of its LIMIT on."""
    return Reporter(f"site {me}: history", ROOM)


class Peers:
    """Since when something is due to each peer, and when each was last heard of. Of a peer to which something is due
    for long, and that is not heard of, that is said once, and once that it is heard of again. What is known stands in
    FILE-peers, for examples/board.py and for a later run: a line PEER DUE HEARD SILENT, moments in seconds since 1970,
    0 for never or for no.
    """

    def __init__(self, me: int, path: str, quiet: float = QUIET) -> None:
        self.me, self.file, self.quiet, self.lock = me, path.removesuffix("-sock") + "-peers", quiet, threading.Lock()
        self.due_since: dict[int, float] = {}
        self.heard_at: dict[int, float] = {}
        self.silent: set[int] = set()
        self.written, self.wrote_at = "", 0.0
        with contextlib.suppress(OSError, ValueError):
            for line in read_file(self.file)[0].decode("ascii").splitlines():
                peer, due, heard, is_silent = (int(word) for word in line.split(" "))
                self.due_since |= {peer: due} if due else {}
                self.heard_at |= {peer: heard} if heard else {}
                self.silent |= {peer} if is_silent else set()

    def heard(self, peer: int, at: float | None = None) -> None:
        """Something came from the peer, which wrote it now, or at this moment."""
        now = time.time()
        at = now if at is None else min(at, now)
        with self.lock:
            self.heard_at[peer] = max(at, self.heard_at.get(peer, 0))
            is_there = now - at < max(self.quiet, 1)
            if is_there and peer in self.due_since:
                # What is due to it from here on is due since now.
                self.due_since[peer] = now
            if is_there and peer in self.silent:
                self.silent.discard(peer)
                say(f"site {self.me}: site {peer}: heard of again")
            self.write()

    def due(self, peer: int, is_due: bool) -> None:
        """Something is due to the peer, or nothing."""
        now = time.time()
        with self.lock:
            if not is_due:
                self.due_since.pop(peer, None)
                if peer in self.silent:
                    self.silent.discard(peer)
                    say(f"site {self.me}: site {peer}: nothing is due any more")
            elif now - self.due_since.setdefault(peer, now) >= self.quiet and peer not in self.silent:
                self.silent.add(peer)
                heard = f"last heard of {clock(self.heard_at[peer])}" if peer in self.heard_at else "never heard of"
                say(f"site {self.me}: site {peer}: due since {clock(self.due_since[peer])}, {heard}")
            self.write()

    def write(self) -> None:
        """Writes what is known, once in so many seconds at the most; where that cannot be, nothing is missed but the
        board's line."""
        peers = sorted({*self.due_since, *self.heard_at})
        text = "".join(
            f"{one} {self.due_since.get(one, 0):.0f} {self.heard_at.get(one, 0):.0f} {int(one in self.silent)}\n"
            for one in peers
        )
        if text == self.written or self.written and time.monotonic() < self.wrote_at + 1:
            return
        with contextlib.suppress(OSError):
            with open(f"{self.file}.part", "w", encoding="ascii") as file:
                file.write(text)
            os.replace(f"{self.file}.part", self.file)
        self.written, self.wrote_at = text, time.monotonic()


class Sparing:
    """Which messages to one site are worth an entry of its history. One that names a new event, or has more rights for
    the site, is sent at once, and so is one after which half of what the sender had to sell is sold: who knows of it
    may cede. Others, of sales and releases elsewhere, are sent once in so many seconds."""

    def __init__(self, peer: int, seconds: float, path: str) -> None:
        self.peer, self.seconds, self.path = peer, seconds, path
        self.last, self.at = b"", 0.0
        self.sold: dict[bytes, int] = {}  # What the sender had sold of an event, by the last message that says so.

    def awaited(self, message: bytes) -> set[bytes]:
        """The lines of a message for which the site waits."""
        rights = re.compile(rb"gave [a-z0-9-]+ [0-9]+ %d [0-9]+" % self.peer)
        return {line for line in message.split(b"\n") if line.startswith(b"name ") or rights.fullmatch(line)}

    def sales(self, message: bytes) -> dict[bytes, int]:
        """What the sender sold in all of each event of which the message has that."""
        me = message.split(b" ", 2)[1]
        return {event: int(sold) for event, sold in re.findall(rb"(?m)^used ([a-z0-9-]+) %s ([0-9]+)$" % me, message)}

    def runs_low(self, message: bytes) -> bool:
        """Whether the sender has no more left of an event than it sold since the last message."""
        since = {event: sold - self.sold.get(event, 0) for event, sold in self.sales(message).items()}
        news = [event for event, sold in since.items() if sold > 0]
        return any(left <= since[event] for event, left in left_of(self.path, news).items())

    def is_worth(self, message: bytes) -> bool:
        """Whether the message is to be sent now. The same again is: it adds no entry."""
        is_low = bool(message) and self.seconds > 0 and message != self.last and self.runs_low(message)
        is_due = not self.last or message == self.last or is_low or time.monotonic() >= self.at + self.seconds
        return bool(message) and (is_due or not self.awaited(message) <= self.awaited(self.last))

    def sent(self, message: bytes) -> None:
        if message and message != self.last:
            self.last, self.at = message, time.monotonic()
            self.sold |= self.sales(message)


def option(words: Iterable[str], name: str, default: float) -> tuple[list[str], float]:
    """The words without this option, and its number."""
    rest = list(words)
    if name not in rest:
        return rest, default
    at = rest.index(name)
    value = float(rest[at + 1])
    if not 0 <= value < 10**6:
        raise ValueError
    return rest[:at] + rest[at + 2 :], value


class Text:
    """What comes of a text, piece by piece, as far as it can be messages. `word` says why it is not read to its end."""

    def __init__(self) -> None:
        self.pieces: list[bytes] = []
        self.bytes, self.lines, self.line, self.word = 0, 0, 0, ""

    def add(self, piece: bytes) -> bool:
        """Whether more may come."""
        *whole, rest = piece.split(b"\n")
        longest = max([self.line + len(whole[0]), *map(len, whole)] if whole else [0])
        self.line = len(rest) if whole else self.line + len(rest)
        self.pieces.append(piece)
        self.bytes += len(piece)
        self.lines += len(whole)
        if max(longest, self.line) > MOST_BYTES:
            # (what was read shows which line it is)
            return False
        # (an acknowledgement may stand before a message)
        if self.bytes > MOST_TEXT or self.lines > MOST_LINES + 10:
            self.word = "too-long"
        return not self.word

    def all(self) -> bytes:
        return b"".join(self.pieces)


def read_text(file: int) -> tuple[bytes, str]:
    """What comes from a file, up to its end or as far as it can be messages; and `too-long` or `too-slow` where that is
    why."""
    text, begin = Text(), time.monotonic()
    while True:
        left = begin + SECONDS + text.bytes / BYTES_A_SECOND - time.monotonic()
        if left <= 0 or not select.select([file], [], [], left)[0]:
            return text.all(), "too-slow"
        piece = os.read(file, PIECE)
        if not piece or not text.add(piece):
            return text.all(), text.word


def read_file(path: str) -> tuple[bytes, str]:
    """The same of a plain file; what is none, a pipe for one, is as nothing."""
    try:
        handle = os.open(path, os.O_RDONLY | os.O_NONBLOCK)
    except FileNotFoundError:
        return b"", ""
    with open(handle, "rb", buffering=0) as file:
        if not os.path.isfile(path):
            return b"", ""
        text = Text()
        while piece := file.read(PIECE):
            if not text.add(piece):
                break
        return text.all(), text.word


def answer_of(path: str, text: bytes) -> bytes:
    """All that the office answers until the session has ended."""
    pieces, count, begin = [], 0, time.monotonic()
    try:
        with socket.socket(socket.AF_UNIX) as office:
            office.settimeout(SECONDS)
            office.connect(path)
            # (one that ends the connection before it has read all has said why)
            with contextlib.suppress(BrokenPipeError, ConnectionResetError):
                office.sendall(text + b"quit\n")
            while piece := office.recv(PIECE):
                pieces.append(piece)
                count += len(piece)
                if count > 4 * MOST_TEXT or time.monotonic() > begin + 10 * SECONDS:
                    raise Absent
    except OSError as error:
        raise Absent from error
    answer = b"".join(pieces)
    if not answer.endswith(b"\nend\n" if answer.startswith((b"delta ", b"joined\n", b"nothing-new\n")) else b"\n"):
        raise Absent
    return answer


def known(path: str, me: int, peers: Iterable[int], reporter: Reporter, history: Reporter) -> set[int]:
    """The other sites that a site's office recognises; none where no office is there, or another site's. `reporter`
    says `not-open`, `site-is S` of that other, `no-site K` of the first of these peers that it does not recognise, or
    `open`; `history` says whether its history has room or is nearly full."""
    try:
        answer = answer_of(path, b"status\n").decode("ascii", "replace").strip()
    except Absent:
        answer = "not-open"
    found = re.match("site ([0-9]+) sites ([0-9]+) entries ([0-9]+) limit ([0-9]+)(?:.* reserve ([0-9]+))?", answer)
    if not found or int(found[1]) != me:
        reporter.say(f"site-is {found[1]}" if found else answer)
        return set()
    sites = set(range(int(found[2]))) - {me}
    reporter.say(next((f"no-site {peer}" for peer in peers if peer not in sites), "open"))
    room = int(found[4]) - int(found[5] or 0)
    history.say(NEARLY_FULL if 10 * int(found[3]) >= 9 * room else ROOM)
    return sites


def export(path: str, to: int) -> tuple[bytes, str]:
    """The message that is due to a site, or else the word that says why there is none."""
    answer = answer_of(path, b"export %d\n" % to)
    return (answer, "") if answer.startswith(b"delta ") else (b"", answer.decode("ascii", "replace").strip())


def left_of(path: str, events: Sequence[bytes]) -> dict[bytes, int]:
    """What the office may sell of each of these events that it knows."""
    answer = answer_of(path, b"".join(b"left %s\n" % event for event in events)) if events else b""
    found = [re.fullmatch(b"left ([0-9]+)", line) for line in answer.split(b"\n")]
    return {event: int(left[1]) for event, left in zip(events, found) if left}


@dataclass(frozen=True)
class Share:
    """What a site may sell of an event by an office's view, None where that view is not possible; and what it sold and
    took back in all."""

    left: int | None
    sold: int
    back: int


def events(path: str) -> list[str]:
    """The events that an office knows."""
    lines = answer_of(path, b"events\n").decode("ascii", "replace").splitlines()
    if lines == ["none"]:
        return []
    names = [line.removeprefix("event ") for line in lines[:-1] if line.startswith("event ")]
    if lines[-1:] != ["end"] or len(names) != len(lines) - 1:
        raise Absent
    return names


# Of so many events the shares are asked for in one session; and what answers `shares E`.
TOGETHER = 32
SHARES = re.compile(r"((?:[0-9]+ left (?:[0-9]+|none) sold [0-9]+ back [0-9]+\n)*)(?:end|unknown)\n")


def shares(path: str, names: Sequence[str]) -> dict[str, list[Share]]:
    """Of each of these events that an office knows, what each site has, from site 0."""
    found: dict[str, list[Share]] = {}
    for begin in range(0, len(names), TOGETHER):
        wanted = names[begin : begin + TOGETHER]
        answer = answer_of(path, "".join(f"shares {name}\n" for name in wanted).encode()).decode("ascii", "replace")
        parts = [*SHARES.finditer(answer)]
        if len(parts) != len(wanted) or sum(len(part[0]) for part in parts) != len(answer):
            raise Absent
        for name, part in zip(wanted, parts):
            rows = [line.split(" ")[2::2] for line in part[1].splitlines()]
            if rows:
                found[name] = [Share(None if left == "none" else int(left), int(s), int(b)) for left, s, b in rows]
    return found


def misframed(message: bytes) -> str:
    """Why the lines of a text are no message up to one `end`. What follows that would be lines to the office, like
    `close`."""
    lines = message.split(b"\n")
    long = [at for at, line in enumerate(lines, 1) if len(line) > MOST_BYTES]
    if long:
        return f"bad-line {long[0]}"
    *lines, rest = lines
    if b"end" not in lines:
        return "truncated"
    if rest or lines.index(b"end") != len(lines) - 1:
        return "trailing"
    return "too-long" if len(lines) > MOST_LINES else ""


def take(path: str, message: bytes, head: bytes = b"") -> tuple[str, bytes]:
    """The word that answers a message which begins with this head, and the acknowledgement where there is one. (A text
    that ends within the head is torn.)"""
    if word := misframed(message) if message.startswith(head) or head.startswith(message) else "misnamed":
        return word, b""
    word, _, acknowledgement = answer_of(path, b"import\n" + message).decode("ascii", "replace").partition("\n")
    ack = re.match(rb"ack ([0-9]+) [0-9]+ ([0-9]+)\n", message)
    if word == "acked" and ack:
        with contextlib.suppress(OSError):
            note_acked(path, int(ack[1]), int(ack[2]))
    return word, acknowledgement.encode()


def acked(path: str) -> dict[int, int]:
    """How many entries of this site's history each other has acknowledged, as far as scripts noted it in FILE-acked."""
    with contextlib.suppress(OSError, ValueError):
        with open(path.removesuffix("-sock") + "-acked", encoding="ascii") as file:
            fcntl.flock(file, fcntl.LOCK_SH)
            return {int(peer): int(count) for peer, count in map(str.split, file)}
    return {}


def note_acked(path: str, peer: int, count: int) -> None:
    """Notes in FILE-acked what a site acknowledged, a line for each, for `balance`."""
    before = acked(path)
    if count > before.get(peer, 0):
        with open(path.removesuffix("-sock") + "-acked", "a+", encoding="ascii") as file:
            fcntl.flock(file, fcntl.LOCK_EX)
            file.seek(0)
            counts = {int(words[0]): int(words[1]) for words in map(str.split, file) if len(words) == 2}
            counts[peer] = max(count, counts.get(peer, 0))
            file.truncate(0)
            file.writelines(f"{one} {counts[one]}\n" for one in sorted(counts))


def messages(text: bytes) -> list[bytes]:
    """The messages that follow each other in a text, each up to its line `end`; the last may be torn."""
    found, begin = [], 0
    while begin < len(text):
        end = len(text) if (at := (b"\n" + text[begin:]).find(b"\nend\n")) < 0 else begin + at + len(b"end\n")
        found.append(text[begin:end])
        begin = end
    return found


def take_each(path: str, text: bytes, me: int, peer: int, why: str = "") -> bytes:
    """Takes messages of one site that follow each other in a text, says what became of each, and gives the last
    acknowledgement. Of a text that was not read to its end `why` is said in place of its last, torn message."""
    last, every = b"", messages(text)
    for at, message in enumerate(every):
        kind = "ack" if message.startswith(b"ack ") else "delta"
        if why and at == len(every) - 1 and misframed(message) == "truncated":
            word, acknowledgement = why, b""
        else:
            word, acknowledgement = take(path, message, f"{kind} {peer} {me} ".encode())
        say(f"site {me}: {kind} from {peer}: {word}")
        last = acknowledgement or last
    return last


def main(words: list[str]) -> tuple[bytes, str, int]:
    """What goes to standard output and to standard error, and the status."""
    if words[:1] == ["export"] and len(words) == 3 and words[2].isdecimal():
        message, word = export(words[1], int(words[2]))
        return message, word.removeprefix("nothing"), 0 if message else 1
    if words[:1] == ["import"] and len(words) == 2:
        message, why = read_text(0)
        word, answer = (why, b"") if why else take(words[1], message)
        return (answer, "", 0) if word in TAKEN else (b"", word, 1)
    return b"", (__doc__ or "").split("\n\n")[1], 2


if __name__ == "__main__":
    try:
        message, text, status = main(sys.argv[1:])
    except Absent:
        message, text, status = b"", "not-open", 3
    sys.stdout.buffer.write(message)
    sys.stderr.write(text and text + "\n")
    sys.exit(status)
