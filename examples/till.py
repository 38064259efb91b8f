#!/usr/bin/env python3
"""A till on the terminal: sells, gives back, and shows what is left, and goes on while the office is closed and opened
again.

usage: till.py PORT JOURNAL FIRST LAST

PORT is the office's port on this machine, FIRST to LAST the request numbers of this till alone, and JOURNAL the file in
which it keeps them. From standard input, one line each:

    sell EVENT [SEATS]      sells 1 seat or SEATS
    refund SALE [SEATS]     gives back the sale with this number, or SEATS of it
    left EVENT              what this office may sell
    totals EVENT            what all offices sold, as far as this one knows
    quit

Each is answered by one line on standard output; `done` and what is refused stand after the number of the request. All
else goes to standard error. Status 1: the till could not go on, and standard error says why.
"""

import contextlib
import os
import sys
from typing import Any


sys.path.insert(0, os.path.join(os.path.dirname(os.path.abspath(__file__)), "..", "clients", "python"))

import boxoffice  # noqa: E402

# How long the office may be silent before the clerk hears of it.
SECONDS = 5.0
HELP = "sell EVENT [SEATS], refund SALE [SEATS], left EVENT, totals EVENT, quit"


def hear(text: Any) -> None:
    print(text, file=sys.stderr, flush=True)


def opened(port: int, journal: Any, first: Any, last: Any) -> Any:
    """The till, once the office answers the request that was open, if there was one."""
    while True:
        try:
            return boxoffice.Till(port, journal, first, last, SECONDS)
        except boxoffice.Unanswered as silence:
            hear(f"the office does not answer, asking again: {silence}")


def until_answered(till: Any, ask: Any, *words: Any) -> Any:
    """The result of a request or a look, however long the office is away."""
    while True:
        try:
            if till.journal.open:
                return till.resume()[1]
            return ask(*words)
        except boxoffice.Unanswered as silence:
            hear(f"the office does not answer, asking again: {silence}")


def shown(result: Any) -> str:
    match result:
        case boxoffice.Done(number):
            return f"{number} done"
        case boxoffice.Short(number, left):
            return f"{number} short {left}"
        case boxoffice.Low(left):
            return f"low {left}"
        case boxoffice.Refused(number, word, left):
            return " ".join(str(part) for part in (number, word, left) if part is not None)
        case boxoffice.Totals(released, sold, refunded, still_open):
            return f"released {released} sold {sold} refunded {refunded} open {still_open}"
    return f"left {result}"


def answered(till: Any, line: str) -> Any:
    """The line that answers one of the clerk; None where it cannot be read."""
    with contextlib.suppress(ValueError):
        match line.split():
            case ["sell", event]:
                return shown(until_answered(till, till.sell, event, 1))
            case ["sell", event, seats]:
                return shown(until_answered(till, till.sell, event, int(seats)))
            case ["refund", sale]:
                return shown(until_answered(till, till.refund, int(sale)))
            case ["refund", sale, seats]:
                return shown(until_answered(till, till.refund, int(sale), int(seats)))
            case ["left", event]:
                return shown(until_answered(till, till.left, event))
            case ["totals", event]:
                return shown(until_answered(till, till.totals, event))
    return None


def serve(till: Any) -> None:
    if till.journal.last:
        line, result = till.journal.last
        hear(f"last before: {line}: {shown(result)}{', asked again just now' if till.resumed else ''}")
    while True:
        if sys.stdin.isatty():
            print("> ", end="", file=sys.stderr, flush=True)
        line = sys.stdin.readline()
        if line.split() == ["quit"] or not line:
            return
        print(answered(till, line) or f"not understood: {HELP}", flush=True)


def main() -> None:
    try:
        port, journal, first, last = sys.argv[1:]
        numbers = int(port), journal, int(first), int(last)
    except ValueError:
        sys.exit(__doc__)
    try:
        with opened(*numbers) as till:
            serve(till)
    except (boxoffice.TillError, ValueError, OSError) as error:
        sys.exit(f"{type(error).__name__}: {error}")
    except KeyboardInterrupt:
        sys.exit("interrupted; an open request is asked again when this till starts next")


main()
