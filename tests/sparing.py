#!/usr/bin/env python3
"""An office that spares its history: `open --low` tells what is left and keeps nothing, `--reserve R` keeps the last R
entries for refunds, cessions and messages, and who opened it is told when it is nearly full.

usage: sparing.py [PROGRAM] [TRIAL ..]
"""

from __future__ import annotations

import re
import sys
import threading
from collections.abc import Sequence

from lib import Caller, Office, Operator, call, ended, opened, rows_kept, same, try_each, within

TILLS, EACH = 8, 40


def site(folder: str, limit: int, lines: Sequence[str] = (), file: str = "site.db") -> None:
    same("init", call(folder, ["init", file, "0", "2", str(limit)]), (0, "done\n", ""))
    given = "".join(line + "\n" for line in lines)
    same("the lines before", call(folder, ["ask", file], given), (0, "done\n" * len(lines), ""))


def entries(folder: str, file: str = "site.db") -> int:
    return len(rows_kept(folder, file))


def said(office: Office, lines: Sequence[tuple[str, str]]) -> None:
    caller = Caller(office.port)
    for line, reply in lines:
        same(line, caller.ask(line), reply)
    caller.quit()


GALA = ["announce 1 gala", "release 2 gala 5"]


def low(folder: str) -> None:
    """What is asked for too much is told what is left; its number stays free, and what was kept is kept."""
    site(folder, 1000, [*GALA, "sell 3 gala 2"])
    same("kept before", call(folder, ["ask", "site.db"], "sell 4 gala 9\n"), (0, "short 3\n", ""))
    office = Office(folder, words=["--low"])
    said(
        office,
        [
            ("sell 5 gala 4", "low 3"),
            ("sell 4 gala 9", "short 3"),  # as it was kept
            ("sell 3 gala 9", "reused"),
            ("cede 5 gala 4 1", "low 3"),
            ("cede 5 gala 4 0", "to-self"),
            ("cede 6 gala 4 9", "no-site"),
            ("sell 7 opera 4", "unknown"),
            ("sell 8 gala 3", "done"),
            ("sell 9 gala 1", "low 0"),
            ("refund 10 8 2", "done"),
            ("sell 9 gala 2", "done"),  # the number was free
            ("sell 9 gala 2", "done"),
            ("sell 11 gala 1", "low 0"),
            ("left gala", "left 0"),
        ],
    )
    operator = Operator(office.path)
    same("at the socket too", operator.ask("sell 11 gala 1"), "low 0")
    for number in (11, 2):
        kept = operator.ask(f"find {number}")
        same(f"find {number}", kept, "none" if number == 11 else "1 done")
    same("status", operator.ask("status"), "site 0 sites 2 entries 10 limit 1000 callers 1 asking 0 waiting 0")
    operator.go_away()
    office.close()
    same("entries", entries(folder), 10)
    same("a refusal of `ask FILE` is kept", call(folder, ["ask", "site.db"], "sell 11 gala 1\n"), (0, "short 0\n", ""))
    same("and one more entry", entries(folder), 11)


def without(folder: str) -> None:
    """Without the words all is as it was."""
    site(folder, 1000, GALA)
    office = Office(folder)
    said(office, [("sell 3 gala 9", "short 5"), ("sell 3 gala 9", "short 5"), ("sell 3 gala 5", "reused")])
    office.close()
    same("entries", entries(folder), 3)


def at_once(folder: str) -> None:
    """Of callers who want the last seats each is told `done` or `low`, and only what was sold is kept."""
    site(folder, 10_000, ["announce 1 gala", "release 2 gala 100"])
    office = Office(folder, words=["--low"])
    replies: list[str] = []

    def sells(till: int) -> None:
        caller = Caller(office.port)
        replies.extend([caller.ask(f"sell {1000 * till + k} gala 1") for k in range(10, 10 + EACH)])
        caller.quit()

    tills = [threading.Thread(target=sells, args=(till,)) for till in range(1, 1 + TILLS)]
    for till in tills:
        till.start()
    for till in tills:
        till.join()
    same("done", replies.count("done"), 100)
    # (who waited while the last was sold is refused as ever, and keeps that)
    rest = [reply for reply in replies if reply != "done"]
    same("all others", {reply for reply in rest} <= {"low 0", "short 0"}, True)
    within("kept refusals, of callers who waited", rest.count("short 0"), 0, TILLS - 1)
    office.close()
    same("entries", entries(folder), 102 + rest.count("short 0"))


def reserve(folder: str) -> None:
    """The last entries are for refunds, cessions and messages, up to the limit."""
    site(folder, 9, GALA)
    office = Office(folder, words=["--reserve", "4"])
    lines = [("sell 3 gala 2", "done"), ("sell 4 gala 9", "short 3"), ("announce 5 opera", "done")]
    lines += [(line, "history-full") for line in ("sell 6 gala 1", "announce 7 ballet", "release 8 gala 1")]
    lines += [("sell 3 gala 2", "done"), ("refund 9 3 1", "done"), ("cede 10 gala 1 1", "done")]
    said(office, lines)
    operator = Operator(office.path)
    same("status", operator.ask("status"), "site 0 sites 2 entries 7 limit 9 callers 1 asking 0 waiting 0 reserve 4")
    word, _ = operator.take("delta 1 0 3\nname ballet\nend\n")
    same("a message", word, "joined")
    same("the last refund", operator.ask("refund 11 3"), "done")
    same("and then none", operator.ask("refund 12 3"), "history-full")
    same("find", operator.ask("find 6"), "none")
    operator.go_away()
    office.close()
    same("entries", entries(folder), 9)


def both(folder: str) -> None:
    """What is reserved is said first; a refusal keeps nothing where the history is full too."""
    site(folder, 6, GALA)
    office = Office(folder, words=["--low", "--reserve", "2"])
    said(
        office,
        [
            ("cede 3 gala 9 1", "low 5"),
            ("sell 3 gala 9", "low 5"),
            ("sell 3 gala 1", "done"),
            ("sell 4 gala 1", "done"),
            ("sell 5 gala 9", "history-full"),
            ("cede 5 gala 9 1", "low 3"),
            ("refund 5 3", "done"),
            ("cede 6 gala 1 1", "done"),
            ("cede 7 gala 9 1", "low 3"),
            ("cede 7 gala 1 1", "history-full"),
        ],
    )
    office.close()


def filled(folder: str) -> None:
    """At 90, 95 and 99 of a hundred entries that new requests may have a line is written, once each."""
    site(folder, 210, GALA)
    office = Office(folder, words=["--reserve", "10"])
    caller = Caller(office.port)
    for number in range(10, 208):
        same(f"sell {number}", caller.ask(f"announce {number} e{number}"), "done")
    caller.quit()
    same("close", call(folder, ["close", "site.db"]), (0, "", ""))
    status, _, err = ended(office.program)
    told = re.findall(r"filled (\d+) of 100: (\d+) of 200 entries\n", err)
    same("the marks in order", [mark for mark, _ in told], sorted({mark for mark, _ in told}, key=int))
    same("the last mark", (status, told[-1][0]), (0, "99"))
    same("none is told early", all(int(count) * 100 >= int(mark) * 200 for mark, count in told), True)
    same("nothing else", re.sub(r"filled \d+ of 100: \d+ of 200 entries\n", "", err), "")
    office = Office(folder)
    same("close", call(folder, ["close", "site.db"]), (0, "", ""))
    err = ended(office.program)[2]
    same("it is told again at once, of the limit alone", err, "filled 95 of 100: 200 of 210 entries\n")


def words(folder: str) -> None:
    """A value that does not fit is refused, and nothing is opened."""
    site(folder, 9)
    misfit = "error: R is a count of entries, 0 to 1000000\n"
    for value in ("x", "1000001", "-1", ""):
        status, out, err = call(folder, ["open", "7000", "site.db", f"--reserve={value}"])
        same(f"--reserve={value}", (status, out), (2, ""))
        same(f"what is said of {value}", err == misfit or "--reserve" in err, True)
    status, _, err = call(folder, ["open", "7000", "site.db", "--lower"])
    same("--lower", (status, "--lower" in err), (2, True))
    with opened(folder, "site.db") as db:
        same("nothing was entered", db.execute("SELECT count(*) FROM entries").fetchone(), (0,))


TRIALS = [low, without, at_once, reserve, both, filled, words]

if __name__ == "__main__":
    sys.exit(try_each(TRIALS, "an office spares its history as it is documented"))
