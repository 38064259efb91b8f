#!/usr/bin/env python3
"""Plants a fault in the simulator, and has it found with the shortest prefix of steps that shows it.

usage: shrinks.py [PROGRAM]

The fault is found at the end of a world alone (tests/simulate.py --planted), some steps after it came. Then the halving
is tried for each prefix, with worlds that are not run.
"""

from __future__ import annotations

import contextlib
import io
import os
import re
import subprocess
import sys
from collections.abc import Callable

import simulate
from lib import HERE, PROGRAM, SECONDS, same, try_each

SIMULATE = os.path.join(HERE, "simulate.py")
# After which step the fault comes, of how many, and the seed.
PLANTED, STEPS, SEED = 4, 7, 1


def simulated(*words: str) -> tuple[int, str]:
    done = subprocess.run(
        [sys.executable, "-B", SIMULATE, PROGRAM, *words],
        capture_output=True,
        text=True,
        timeout=4 * SECONDS,
        check=False,
    )
    return done.returncode, done.stdout


def shrinks(_: str) -> None:
    run = [f"--seed={SEED}", "--worlds=1", f"--steps={STEPS}", "--seconds=1000000"]
    status, said = simulated(*run, f"--planted={PLANTED}", "--shrink=3000")
    same("the fault is found", (status, f"differs at step {STEPS - 1} of the world of seed {SEED}" in said), (1, True))
    found = re.search("the shortest prefix that differs has ([0-9]+) steps: tests/simulate.py (.*)", said)
    same(f"the shortest prefix of {said[-1500:]!r}", found and int(found[1]), PLANTED)
    again = found[2].split(" ") if found else []
    wanted = [*run[:2], f"--steps={PLANTED}", "--seconds=1000000", f"--planted={PLANTED}"]
    same("the words that run it again", again, wanted)
    same("they do", simulated(*wanted, "--shrink=0")[0], 1)
    fewer = [word.replace(f"--steps={PLANTED}", f"--steps={PLANTED - 1}") for word in wanted]
    same("with a step less nothing differs", simulated(*fewer)[0], 0)
    status, said = simulated(*run, f"--planted={PLANTED}", "--shrink=0.2")
    same("no time to make it shorter", (status, f"the prefix has {STEPS} steps" in said), (1, True))


def printed(most: int, fails: Callable[[int], bool | None]) -> str:
    """What is printed of a world that differed after so many steps, if shorter runs of it differ so."""
    out, real = io.StringIO(), simulate.fails
    simulate.fails = lambda _seed, steps, _end: fails(steps)
    try:
        with contextlib.redirect_stdout(out):
            simulate.shrink(SEED, most)
    finally:
        simulate.fails = real
    return out.getvalue()


def halves(_: str) -> None:
    """The halving comes to each prefix, in as many runs as it should need."""
    for most in (1, 2, 7, 40, 400):
        for first in range(1, most + 1):
            runs: list[int] = []
            said = printed(most, lambda steps: runs.append(steps) or steps >= first)  # type: ignore[func-returns-value]
            wanted = f"the shortest prefix that differs has {first} steps: tests/simulate.py --seed={SEED} --worlds=1 "
            is_so = said == f"{wanted}--steps={first} --seconds=1000000\n" and len(runs) <= 1 + most.bit_length()
            same(f"{first} of {most}: {said!r}" if not is_so else "a prefix", is_so, True)
    said = printed(40, lambda steps: False)
    why = "the prefix was not made shorter, as {}\nthe prefix has 40 steps: tests"
    never = why.format("it did not differ again: it depends on when programs run")
    same("it did not come again", said.split("/")[0], never)
    same("no time", printed(40, lambda steps: None).split("/")[0], why.format("time was up"))
    said = printed(40, lambda steps: True if steps > 15 else None)
    same("time was up in the midst", said.split(":")[0], "a prefix that differs has 20 steps")


sys.exit(try_each([halves, shrinks], "shrinks: 0 differ", "shrinks: {} differ"))
