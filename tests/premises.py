#!/usr/bin/env python3
"""Breaks each premise of never oversold in the files of a night, and compares what `audit` says with the table of
docs/PROOFS.md.

usage: premises.py [PROGRAM]

The premises are that a message was given by the site that it names, and that a site number is one file which goes on
from its newest state. Either the files at hand show that one was broken (`ahead V W`), or PROOFS names the case as
not seen: then the audit prints the sums of what stands in these files, and the tickets that went out by the other
file are missing from them. """

from __future__ import annotations

import os
import shutil
import sys

from lib import call, same, try_each

SITES = ["north.db", "south.db", "east.db"]


def asked(folder: str, file: str, *lines: str) -> list[str]:
    """The replies of a session."""
    status, replies, errors = call(folder, ["ask", file], "".join(line + "\n" for line in lines))
    same(f"ask {file} {lines}: how it ended", (status, errors), (0, ""))
    return replies.splitlines()


def exported(folder: str, file: str, to: int) -> str:
    status, message, errors = call(folder, ["export", file, str(to)])
    same(f"export {file} {to}: how it ended", (status, errors), (0, ""))
    return message


def imported(what: str, folder: str, file: str, message: str, wanted: tuple[int, str]) -> None:
    status, answer, errors = call(folder, ["import", file], message)
    same(f"{what}: import {file}", (status, answer.rstrip("\n"), errors), (*wanted, ""))


def audited(what: str, folder: str, wanted: tuple[int, str]) -> None:
    status, sums, errors = call(folder, ["audit", *SITES])
    same(f"{what}: audit", (status, sums.rstrip("\n"), errors), (*wanted, ""))


def night(folder: str) -> None:
    """Site 0 releases 100 seats and cedes 40 to site 1, which learns of it and sells 30; site 0 sells 20."""
    for me, file in enumerate(SITES):
        same(f"init {file}", call(folder, ["init", file, str(me), str(len(SITES)), "1000"]), (0, "done\n", ""))
    same(
        "north begins",
        asked(folder, "north.db", "announce 1 gala", "release 2 gala 100", "cede 3 gala 40 1"),
        ["done"] * 3,
    )
    imported("the cession", folder, "south.db", exported(folder, "north.db", 1), (0, "joined"))
    same("south sells", asked(folder, "south.db", "sell 1 gala 30"), ["done"])
    same("north sells", asked(folder, "north.db", "sell 4 gala 20"), ["done"])


def kept(folder: str) -> None:
    """Both premises hold: the sums of the files."""
    night(folder)
    imported("back", folder, "north.db", exported(folder, "south.db", 0), (0, "joined"))
    audited("both hold", folder, (0, "gala released 100 sold 50 refunded 0 outstanding 50"))


def forged(folder: str) -> None:
    """A message says that site 0 gave site 2 seats that it never gave; site 2 sells them."""
    night(folder)
    imported(
        "forged", folder, "east.db", "delta 0 2 9\nname gala\ngave gala 0 0 100\ngave gala 0 2 70\nend\n", (0, "joined")
    )
    same("east sells", asked(folder, "east.db", "sell 1 gala 70"), ["done"])
    audited("forged", folder, (1, "ahead 2 0"))


def older_copy_heard(folder: str) -> None:
    """Site 0 goes on from a copy of before its cession, and sells what it had ceded."""
    for me, file in enumerate(SITES):
        same(f"init {file}", call(folder, ["init", file, str(me), str(len(SITES)), "1000"]), (0, "done\n", ""))
    same("north begins", asked(folder, "north.db", "announce 1 gala", "release 2 gala 100"), ["done"] * 2)
    shutil.copy(os.path.join(folder, "north.db"), os.path.join(folder, "copy"))
    same("north cedes", asked(folder, "north.db", "cede 3 gala 40 1"), ["done"])
    imported("the cession", folder, "south.db", exported(folder, "north.db", 1), (0, "joined"))
    os.replace(os.path.join(folder, "copy"), os.path.join(folder, "north.db"))
    same(
        "both sell",
        asked(folder, "north.db", "sell 5 gala 100") + asked(folder, "south.db", "sell 1 gala 40"),
        ["done"] * 2,
    )
    audited("an older copy, of which more was heard", folder, (1, "ahead 1 0"))
    imported("an older copy hears of itself", folder, "north.db", exported(folder, "south.db", 0), (1, "foreign-row"))


def older_copy_unheard(folder: str) -> None:
    """Site 0 goes on from a copy of before a sale of which no site heard: the files show no trace of it."""
    night(folder)
    shutil.copy(os.path.join(folder, "north.db"), os.path.join(folder, "copy"))
    same("a sale that the copy has not", asked(folder, "north.db", "sell 7 gala 40"), ["done"])
    os.replace(os.path.join(folder, "copy"), os.path.join(folder, "north.db"))
    same("the same seats again", asked(folder, "north.db", "sell 8 gala 40"), ["done"])
    audited(
        "an older copy, of which no more was heard", folder, (0, "gala released 100 sold 90 refunded 0 outstanding 90")
    )


def second_file(folder: str) -> None:
    """Two files of site 1 sell the same seats. Only once a peer has heard from both is the one at hand seen to lack
    something."""
    night(folder)
    same("a second file", call(folder, ["init", "other.db", "1", str(len(SITES)), "1000"]), (0, "done\n", ""))
    imported("the cession again", folder, "other.db", exported(folder, "north.db", 1), (0, "joined"))
    same("the same seats again", asked(folder, "other.db", "sell 1 gala 40"), ["done"])
    audited("a second file, left out", folder, (0, "gala released 100 sold 50 refunded 0 outstanding 50"))
    imported("its message", folder, "north.db", exported(folder, "other.db", 0), (0, "joined"))
    audited("a second file, of which a peer heard", folder, (1, "ahead 0 1"))


sys.exit(
    try_each(
        [kept, forged, older_copy_heard, older_copy_unheard, second_file], "each premise that was broken is reported"
    )
)
