#!/usr/bin/env python3
"""Runs the transcripts of tests/worked: commands of the built program, with all that each is given and prints.

Usage: tests/worked.py [PROGRAM [FILE..]] [--each]
    (PROGRAM: crates/boxoffice/out/boxoffice; FILE: only the transcripts of these files of tests/worked)

A transcript begins with `# its name` and runs in an empty folder. `$ WORDS` runs the program; `<` is a line that it is
given, `>` a line that it prints, `!` a line on standard error, `~` how standard error begins, `=` its status where that
is not 0. A backslash at the end of a line leaves out its line end. Prints what differs, with `--each` a line for each
transcript, and ends with status 1 where anything differs.
"""

import os
import shlex
import sys
from collections.abc import Iterable

from lib import call, CHECKS, HERE, OPTIONS, same, try_each
from lib.trials import Trial

EACH = OPTIONS.flag("each")
FOLDER = os.path.join(HERE, "worked")
RECORDS = "records.txt"
MESSAGE = "delta 0 1 4\nname gala\ngave gala 0 0 100\ngave gala 0 1 40\nend\n"


class Command:
    """A call of the program: its words, its input, and what it has to print, to tell and to end with."""

    def __init__(self, words: str) -> None:
        self.words = shlex.split(words)
        self.text = {"<": "", ">": "", "!": "", "~": ""}
        self.status = 0

    def add(self, mark: str, rest: str) -> None:
        if mark == "=":
            self.status = int(rest)
        elif mark == "~":
            self.text[mark] = rest
        else:
            self.text[mark] += rest[:-1] if rest.endswith("\\") else rest + "\n"

    def run(self, name: str, folder: str) -> None:
        status, out, err = call(folder, self.words, self.text["<"])
        begin = self.text["~"]
        told = err if begin and err.startswith(begin) else self.text["!"] or begin
        same(f"{name}: {shlex.join(self.words)}", (status, out, err), (self.status, self.text[">"], told))


def transcripts(path: str) -> list[tuple[str, list[Command]]]:
    """Each transcript of a file: its name and its commands."""
    found: list[tuple[str, list[Command]]] = []
    with open(path, encoding="ascii") as text:
        for line in filter(None, text.read().split("\n")):
            mark, rest = line[0], line[2:]
            if mark == "#":
                found.append((rest, []))
            elif mark == "$":
                found[-1][1].append(Command(rest))
            else:
                found[-1][1][-1].add(mark, rest)
    return found


def trial_of(name: str, commands: Iterable[Command]) -> Trial:
    def run(folder: str) -> None:
        before = CHECKS.failed
        for command in commands:
            command.run(name, folder)
        if EACH:
            print("ok    " if CHECKS.failed == before else "FAILED", name, flush=True)

    return run


def prefixes(folder: str) -> None:
    """Each proper prefix of a message is refused as one that was cut off, and the whole is taken."""
    same("prefixes: init", call(folder, ["init", "one.db", "1", "2", "1000"]), (0, "done\n", ""))
    for length in range(len(MESSAGE)):
        same(f"prefixes: {length} bytes", call(folder, ["import", "one.db"], MESSAGE[:length]), (1, "truncated\n", ""))
    same("prefixes: all bytes", call(folder, ["import", "one.db"], MESSAGE), (0, "joined\n", ""))


def main() -> int:
    files = OPTIONS.chosen or sorted(name for name in os.listdir(FOLDER) if name.endswith(".txt"))
    every = [
        (f"{file}: {name}", commands) for file in files for name, commands in transcripts(os.path.join(FOLDER, file))
    ]
    same("names of transcripts", len({name for name, _ in every}), len(every))
    trials = {name: trial_of(name, commands) for name, commands in every} | (
        {"prefixes": prefixes} if RECORDS in files else {}
    )
    return try_each(trials, f"{len(every)} transcripts are as they are written", chosen=[])


sys.exit(main())
