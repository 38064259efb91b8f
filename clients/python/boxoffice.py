"""A client of an open office: each request of a till counts exactly once, whatever breaks.

    with Till(7000, "till-3.journal", 3000000001, 3000999999) as till:
        result = till.sell("gala", 2)       # Done(number), Short(number, left), Low(left) or Refused(number, word)

A till takes the numbers of its range in order. It writes number and request to its journal, synced, before it asks, and
then the reply. Where none comes (the line broke, the office was killed, or it answers `store`, `closed` or `memory`) it
asks the same again under the same number on a new connection, up to its deadline. Then it raises `Unanswered`, and the
request stays open in the journal: `resume` asks it again. So does the next `Till` over that journal before anything
else, also after the program or the machine was killed: `resumed` is that request with its result, and `journal.last`
the last one that has a result.

A refusal is a result, and is kept under its number: to try again, call again, which takes a new number. `Low`, of an
office that was opened with --low, keeps nothing, and its number is taken again, unless an earlier attempt at the same
request brought no reply: it may be under way. Then `Low` counts once it was the answer for ten seconds, and the number
is left out. A range belongs to one journal, and a journal to one site. Never delete a journal whose range is in use, go
on from an older copy of it, or use its range elsewhere. Threads may share a till; it asks one line at a time.
"""

from __future__ import annotations

import contextlib
import fcntl
import os
import re
import socket
import threading
import time
from dataclasses import dataclass
from typing import Callable, Literal, Union, cast, get_args

MAX_NUMBER, MAX_SITE = 1_000_000_000_000, 63
# The most bytes of a reply, and for how many seconds it is waited for on one connection.
MAX_REPLY, PATIENCE = 200, 10.0
# For how many seconds an attempt that brought no reply may be under way.
DOUBT = 10.0
TOTALS = "totals released ([0-9]+) sold ([0-9]+) refunded ([0-9]+) open ([0-9]+|none)"
# Why a request or a look is refused; the manual has what each word means.
Word = Literal[
    "known", "unknown", "full-cell", "no-sale", "refunded", "too-many", "to-self", "no-site", "history-full", "reused"
]


@dataclass(frozen=True)
class Done:
    """Accepted. The number of a sale is what `refund` takes."""

    number: int


@dataclass(frozen=True)
class Short:
    """Refused: this site has only `left` seats to sell or to cede."""

    number: int
    left: int


@dataclass(frozen=True)
class Low:
    """Not asked: this site has only `left` seats to sell or to cede. The office keeps nothing of the request."""

    left: int


@dataclass(frozen=True)
class Refused:
    """Refused by a word; after `too-many`, `left` seats of the sale can be given back. A look has no number."""

    number: int | None
    word: Word
    left: int | None = None


@dataclass(frozen=True)
class Totals:
    """What all sites did, as far as this one knows. `open` is None where its view was not possible."""

    released: int
    sold: int
    refunded: int
    open: int | None


Result = Union[Done, Short, Low, Refused]


class TillError(Exception):
    """What a till raises, beside `ValueError` for arguments that no office reads: nothing is journalled for those."""


class Unanswered(TillError):
    """No reply up to the deadline. A request stays open: `resume` asks it again."""


class RequestOpen(TillError):
    """An earlier request is open: `resume` comes first. Nothing was asked."""


class RangeUsedUp(TillError):
    """The range has no number left. Nothing was asked."""


class BadLine(TillError):
    """The office does not read this line. It keeps nothing under the number, and the journal has it as not asked."""


class NotAnOffice(TillError):
    """What answers at the port is no office. A request stays open."""


class OtherSite(TillError):
    """The office is that of another site, or does not say of which. Nothing was asked; an open request stays open."""


class JournalError(TillError):
    """The journal is in use, damaged or of another range: it is unchanged, and nothing was asked. Or it could not be
    written: this till asks nothing more. Open it again: what is open there is asked again then; what is not there was
    never asked.
    """


def result_of(line: str, reply: str) -> Result | None:
    """What a reply to a request means; None where it is none."""
    verb, number = line.split(" ")[0], int(line.split(" ")[1])
    if reply == "done":
        return Done(number)
    if (short := re.fullmatch("short ([0-9]+)", reply)) and verb in ("sell", "cede"):
        return Short(number, int(short[1]))
    if (low := re.fullmatch("low ([0-9]+)", reply)) and verb in ("sell", "cede"):
        return Low(int(low[1]))
    if (many := re.fullmatch("too-many ([0-9]+)", reply)) and verb == "refund":
        return Refused(number, "too-many", int(many[1]))
    return Refused(number, cast(Word, reply)) if reply != "too-many" and reply in get_args(Word) else None


class Journal:
    """The range of a till, and in turn `ask` and a request, and `reply` with its number and the reply, `not-asked` and
    its number, or `free` and its number, which is taken again. A line is on the disk when `add` returns. `next` is the
    number of the open request, or of the next one."""

    def __init__(self, path: str | os.PathLike[str], first: int, final: int) -> None:
        self.next, self.final, self._end, self._failed = first, final, 0, False
        self.path = os.fspath(path)
        self.open: str | None = None
        self.last: tuple[str, Result] | None = None
        self._file = open(os.open(path, os.O_RDWR | os.O_CREAT, 0o600), "r+b", buffering=0)
        folder = os.open(os.path.dirname(os.path.abspath(path)), os.O_RDONLY)
        try:
            # The lock is one of the open file, and not of the process: a second till of this process is refused too.
            fcntl.flock(self._file, fcntl.LOCK_EX | fcntl.LOCK_NB)
            self._read(f"range {first} {final}")
            os.fsync(folder)
        except BaseException as error:
            self.close()
            if isinstance(error, BlockingIOError):
                raise JournalError(f"{self.path}: another till has it") from None
            raise
        finally:
            os.close(folder)

    def close(self) -> None:
        self._failed = True
        self._file.close()

    def add(self, line: str) -> None:
        if self._failed:
            raise JournalError(f"{self.path}: an earlier line could not be written, or the till is closed")
        self._failed = True  # Until the line is taken up: whatever interrupts that, an open request is not forgotten.
        try:
            self._write(line)
        except OSError as error:
            with contextlib.suppress(OSError):
                self._file.truncate(self._end)
            raise JournalError(f"{self.path}: {line!r}: {error}") from error
        self._take(line)
        self._failed = False

    def find(self, number: int) -> tuple[str, Result | None] | None:
        """The request under a number, and its result where it has one; None where no request has the number."""
        asked: str | None = None
        with open(self.path, encoding="ascii") as lines:
            for line in lines:
                word, _, rest = line.rstrip("\n").partition(" ")
                if word == "ask" and rest.split(" ")[1] == str(number):
                    asked = rest
                elif asked and word == "reply":
                    return asked, result_of(asked, rest.partition(" ")[2])
                elif asked:
                    asked = None  # (by `free` the number may be that of a later request)
        return (asked, None) if asked else None

    def _read(self, head: str) -> None:
        *lines, torn = self._file.read().decode("ascii", "replace").split("\n")
        # A torn line lacks its end. Its sync had not returned, so it was never asked, and is cut off.
        if lines[:1] != [head] and (lines or not head.startswith(torn.rstrip("\0"))):
            raise JournalError(f"{self.path}: it does not begin with {head!r}")
        for line in lines[1:]:
            self._take(line)
        # The last line is written again: where its sync failed, it may be in memory alone, and another sync of it do
        # nothing.
        rewritten = lines.pop() if lines else head
        self._end = sum(len(line) + 1 for line in lines)
        self._write(rewritten)
        self._file.truncate(self._end)
        os.fsync(self._file)

    def _take(self, line: str) -> None:
        """Takes up a line as it is written."""
        asked = re.fullmatch("ask ((?:announce|release|sell|refund|cede) ([0-9]+) [a-z0-9 -]+)", line)
        if not self.open and asked and asked[2] == str(self.next) and self.next <= self.final:
            self.open = asked[1]
            return
        if self.open and line == f"free {self.next}":
            self.open = None
            return
        begin = f"reply {self.next} "
        result = result_of(self.open, line[len(begin) :]) if self.open and line.startswith(begin) else None
        if (not result or isinstance(result, Low)) and (not self.open or line != f"not-asked {self.next}"):
            raise JournalError(f"{self.path}: {line!r} cannot be there")
        self.last = (str(self.open), result) if result else self.last
        self.open, self.next = None, self.next + 1

    def _write(self, line: str) -> None:
        data, end = line.encode() + b"\n", self._end
        while data:
            count = os.pwrite(self._file.fileno(), data, end)
            data, end = data[count:], end + count
        os.fsync(self._file)
        self._end = end


class Till(contextlib.AbstractContextManager["Till"]):
    """A till of the office at a port of this machine, with the numbers `first` to `final`. A call may take `seconds`.
    Making a till asks the open request of the journal again, and raises what that raises, or `OSError` where it cannot
    have the file. A connection that was not used for `idle` seconds is given back. With `site` the office of another
    site is refused (`OtherSite`) before anything is asked."""

    def __init__(
        self,
        port: int,
        journal: str | os.PathLike[str],
        first: int,
        final: int,
        seconds: float = 60.0,
        *,
        idle: float = 5.0,
        site: int | None = None,
    ) -> None:
        if _number(first) > _number(final):
            raise ValueError(f"no number is in {first} to {final}")
        self.port, self.seconds, self.idle, self._lock = port, seconds, idle, threading.Lock()
        self.site = None if site is None else _number(site, 0, MAX_SITE)
        self._stream: socket.socket | None = None
        self._used, self._is_watched = 0.0, False
        self.journal = Journal(journal, first, final)
        try:
            self.resumed = self.resume()
        except BaseException:
            self.close()
            raise

    def close(self, *_: object) -> None:
        """Drops connection and journal; an open request stays in the journal."""
        stream, self._stream = self._stream, None
        if stream:
            stream.close()
        self.journal.close()

    __exit__ = close

    def find(self, number: int) -> tuple[str, Result | None] | None:
        """The request of this till under a number, by its journal, and its result, None while it is open; None where
        the till made no such request."""
        with self._lock:
            return self.journal.find(_number(number))

    def resume(self) -> tuple[str, Result] | None:
        """Asks the open request again under its number; None where there is none."""
        with self._lock:
            return self._decide(self.journal.open, in_doubt=True) if self.journal.open else None

    def announce(self, event: str) -> Result:
        return self._request("announce", _event(event))

    def release(self, event: str, seats: int) -> Result:
        return self._request("release", _event(event), _number(seats))

    def sell(self, event: str, seats: int) -> Result:
        return self._request("sell", _event(event), _number(seats))

    def refund(self, sale: int, seats: int | None = None) -> Result:
        """Gives back `seats` of the sale with this number, or all that is left of it."""
        return self._request("refund", _number(sale), *([] if seats is None else [_number(seats)]))

    def cede(self, event: str, seats: int, site: int) -> Result:
        return self._request("cede", _event(event), _number(seats), _number(site, 0, MAX_SITE))

    def left(self, event: str) -> int | Refused:
        found = self._look(f"left {_event(event)}", "left ([0-9]+)")
        return int(found[1]) if found else Refused(None, "unknown")

    def totals(self, event: str) -> Totals | Refused:
        if not (found := self._look(f"totals {_event(event)}", TOTALS)):
            return Refused(None, "unknown")
        return Totals(int(found[1]), int(found[2]), int(found[3]), None if found[4] == "none" else int(found[4]))

    def _request(self, verb: str, *words: str | int) -> Result:
        with self._lock:
            if self.journal.open:
                raise RequestOpen(self.journal.open)
            if self.journal.next > self.journal.final:
                raise RangeUsedUp(f"{self.journal.final} was the last number")
            if self.site is not None and not self._stream:
                # (where the office is away, each attempt looks whose it is)
                with contextlib.suppress(OSError):
                    self._keep(self._connected(min(self.seconds, PATIENCE)))
            line = " ".join(str(word) for word in (verb, self.journal.next, *words))
            self.journal.add(f"ask {line}")
            return self._decide(line)[1]

    def _decide(self, line: str, in_doubt: bool = False) -> tuple[str, Result]:
        """Asks the open request until it is decided, and journals the reply. It is in doubt if it was asked before."""
        reply, in_doubt = self._answer(line, lambda reply: result_of(line, reply), in_doubt)
        if reply == "bad-line":
            self.journal.add(f"not-asked {self.journal.next}")
            raise BadLine(line)
        result = cast(Result, result_of(line, reply))
        if isinstance(result, Low):
            self.journal.add(f"{'not-asked' if in_doubt else 'free'} {self.journal.next}")
        else:
            self.journal.add(f"reply {self.journal.next} {reply}")
        return line, result

    def _look(self, line: str, pattern: str) -> re.Match[str] | None:
        """What a look shows; None where the event is unknown."""
        with self._lock:
            reply, _ = self._answer(line, lambda reply: reply == "unknown" or re.fullmatch(pattern, reply))
        if reply == "bad-line":
            raise BadLine(line)
        return re.fullmatch(pattern, reply)

    def _answer(self, line: str, means: Callable[[str], object], in_doubt: bool = False) -> tuple[str, bool]:
        """The reply that decides a line, which is asked again on a new connection after each that brought none, and
        whether an earlier attempt brought none. Such a one may still be under way: `low` is asked again for a while."""
        end, pause = time.monotonic() + self.seconds, 0.02
        settled = time.monotonic() + DOUBT if in_doubt else 0.0
        while True:
            try:
                text = self._asked(line, means, max(0.001, min(end - time.monotonic(), PATIENCE)))
                if not text.startswith("low ") or time.monotonic() >= settled:
                    return text, settled > 0
                why: object = text
            except OSError as error:
                why, settled = error, time.monotonic() + DOUBT
            if time.monotonic() + pause >= end:
                raise Unanswered(f"{line!r}: {why}")
            time.sleep(pause)
            pause = min(2 * pause, 1.0)

    def _asked(self, line: str, means: Callable[[str], object], timeout: float) -> str:
        """The reply of one attempt. A connection that leaves a line undecided is never used again: its reply may come
        late."""
        stream, self._stream = self._stream or self._connected(timeout), None
        try:
            text = _said(stream, line, timeout)
            if text in ("store", "closed", "memory", "idle", "full"):
                # (by `idle` and `full` the office ends the connection: it was not asked)
                raise ConnectionError(f"the office answered {text}")
            if text != "bad-line" and not means(text):
                raise NotAnOffice(f"{line!r}: {text!r}")
        except BaseException:
            stream.close()
            raise
        self._keep(stream)
        return text

    def _connected(self, timeout: float) -> socket.socket:
        """A new connection, of an office of the site that is wanted."""
        stream = socket.create_connection(("127.0.0.1", self.port), timeout)
        try:
            # Where no one listens at a port that the system gives out for connections, one may be connected to itself.
            if stream.getsockname() == stream.getpeername():
                raise ConnectionError("no one listens at the port")
            if self.site is not None:
                text = _said(stream, "site", timeout)
                if text in ("closed", "memory", "idle", "full"):
                    raise ConnectionError(f"the office answered {text}")
                found = re.fullmatch("site ([0-9]+) of ([0-9]+)", text)
                if not found:
                    raise OtherSite(f"the office at port {self.port} does not say which site it is: {text!r}")
                if int(found[1]) != self.site:
                    raise OtherSite(f"the office at port {self.port} is that of site {found[1]}, not {self.site}")
        except BaseException:
            stream.close()
            raise
        return stream

    def _keep(self, stream: socket.socket) -> None:
        """Keeps a connection for the next line, and has it given back where none comes."""
        self._stream, self._used = stream, time.monotonic()
        if not self._is_watched:
            self._is_watched = True
            threading.Thread(target=self._watch, daemon=True).start()

    def _watch(self) -> None:
        while True:
            time.sleep(max(0.01, self._used + self.idle - time.monotonic()))
            with self._lock:
                if self._stream and time.monotonic() >= self._used + self.idle:
                    self._stream.close()
                    self._stream = None
                if not self._stream:
                    self._is_watched = False
                    return


def _said(stream: socket.socket, line: str, timeout: float) -> str:
    """What comes in answer to a line."""
    reply = b""
    stream.settimeout(timeout)
    stream.sendall(line.encode() + b"\n")
    while not reply.endswith(b"\n"):
        if not (piece := stream.recv(MAX_REPLY)):
            raise ConnectionError("the connection ended without a reply")
        reply += piece
        if len(reply) > MAX_REPLY or b"\n" in reply[:-1]:
            raise NotAnOffice(f"{line!r}: {reply[:MAX_REPLY]!r}")
    return reply[:-1].decode("ascii", "replace")


def _event(event: str) -> str:
    if not re.fullmatch("[a-z0-9-]{1,32}", event):
        raise ValueError(f"no name of an event: {event!r}")
    return event


def _number(number: int, least: int = 1, most: int = MAX_NUMBER) -> int:
    if type(number) is not int or not least <= number <= most:
        raise ValueError(f"no number from {least} to {most}: {number!r}")
    return number
