"""What a script was called with: the program that it tries, a seed, the trials that are chosen, and flags of its own.

    SCRIPT [PROGRAM] [TRIAL ..] [--seed=N] [--driver=D] [--FLAG[=VALUE] ..]

PROGRAM (or --program=PROGRAM) is what is tried, crates/boxoffice/out/boxoffice without it: a first word that has a
slash or is a file. TRIAL are names of the script's trials, all without them. D is the driver, which without it is
crates/site_trial/out/site_trial.
"""

from __future__ import annotations

import os
import random
import sys

HERE = os.path.dirname(os.path.dirname(os.path.abspath(__file__)))
TOP = os.path.dirname(HERE)


def made(crate: str) -> str:
    return os.path.join(TOP, "crates", crate, "out", crate)


class Options:
    """The words of a call; a flag that the script never asks for is unknown."""

    def __init__(self, words: list[str]) -> None:
        self.flags: dict[str, str] = {}
        self.asked: set[str] = set()
        given = [word for word in words if not word.startswith("--")]
        for word in words:
            if word.startswith("--"):
                name, _, value = word[2:].partition("=")
                self.flags[name] = value
        is_program = bool(given) and (os.sep in given[0] or os.path.isfile(given[0]))
        self.program = os.path.abspath(given[0] if is_program else self.text("program", made("boxoffice")))
        self.driver = os.path.abspath(self.text("driver", made("site_trial")))
        self.chosen = given[is_program:]
        self.is_said = False

    def text(self, name: str, default: str) -> str:
        self.asked.add(name)
        return self.flags.get(name) or default

    def flag(self, name: str) -> bool:
        self.asked.add(name)
        return name in self.flags

    def number(self, name: str, default: float) -> float:
        return float(self.text(name, str(default)))

    def count(self, name: str, default: int) -> int:
        return int(self.text(name, str(default)))

    def seed(self, default: int | None = None) -> int:
        """The seed, which is printed; one that is drawn where none is given."""
        drawn = random.SystemRandom().randrange(10**9) if default is None else default
        found = self.count("seed", drawn)
        print(f"the seed is {found}", flush=True)
        return found

    def words(self) -> list[str]:
        """The words that call the script again so."""
        flags = [f"--{name}={value}" if value else f"--{name}" for name, value in self.flags.items()]
        return [self.program, *self.chosen, *flags]

    def check(self) -> None:
        """Ends the script where a flag is none of its own."""
        self.asked |= {"seed", "program", "driver"}
        if unknown := sorted(set(self.flags) - self.asked):
            sys.exit(f"--{unknown[0]} is no flag")


OPTIONS = Options(sys.argv[1:])
PROGRAM, DRIVER = OPTIONS.program, OPTIONS.driver
