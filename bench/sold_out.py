#!/usr/bin/env python3
"""Times refusals: callers keep asking for seats of an event that is sold out.

usage: sold_out.py [--rounds N] [--slower MICROSECONDS,..] [--folder FOLDER] [--callers 1,64] PROGRAM

Callers (bench/callers.rs) ask over loopback at the port of an open office, each behind the reply to the request before:
of one that keeps each refusal (`short 0`), and of one with --low (`low 0`, which keeps nothing). Both are told with the
entries that a refusal takes.

Beside it, where they are installed: Redis by redis-benchmark, whose script finds that no seat is left and writes
nothing; PostgreSQL by pgbench, whose statement finds no row to take a seat from. Rates are refusals a second, the
median of the rounds, the lowest and the highest; then the microseconds of a refusal: the median, the 99th percentile
and the worst. --slower is as in together.py.
"""

import argparse
import contextlib
import functools
import os
import shutil
import sys
import tempfile
from collections.abc import Callable

from offices import FILE, Office, Timed, call, called, compiled, make_site, same, well
from postgres import ONE_STATEMENT, Postgres, installed
from together import Redis, environment, numbers, tell, timed

# (a number that was kept is not what is asked for here, so it is looked at last)
REFUSED = (
    "if tonumber(redis.call('get', 'gala')) >= 1 and redis.call('hsetnx', 'requests', ARGV[1], 1) == 1 then"
    " return redis.call('decrby', 'gala', 1) end return -1"
)
Seller = Callable[[int, int], Timed]


class Refusing(Redis):
    """A server that has no seat left."""

    def refused_rate(self, callers: int, each: int) -> Timed:
        self.run("redis-cli", "del", "requests")
        self.run("redis-cli", "set", "gala", "0")
        many = ["-r", "1000000000", "-n", str(callers * each)]
        told = self.run("redis-benchmark", "-c", str(callers), *many, "--csv", "eval", REFUSED, "0", "__rand_int__")
        if self.run("redis-cli", "hlen", "requests").strip() != "0":
            sys.exit("Redis sold what it had not")
        figures = [float(word.strip('"')) for word in told.strip().split("\n")[-1].split('","')[1:]]
        return Timed(figures[0], *(1000 * figures[at] for at in (3, 5, 6)))


def refusals(program: str, caller: str, folder: str, env: dict[str, str], low: bool, callers: int, each: int) -> Timed:
    """What so many callers come to who are refused so often each, at an office of a new file."""
    for end in ("", "-wal"):
        with contextlib.suppress(FileNotFoundError):
            os.remove(os.path.join(folder, FILE + end))
    make_site(folder, FILE, 0, 1, program=program)
    lines = "announce 1 gala\nrelease 2 gala 1\nsell 3 gala 1\n"
    same("the opening", call(folder, ["ask", FILE], lines, program=program), (0, "done\n" * 3, ""))
    office = Office(folder, FILE, program=program, words=["--low"] if low else [], env=env)
    try:
        rate = called(caller, str(office.port), callers, each, reply="low 0" if low else "short 0")
        entries = int(call(folder, ["status", FILE], program=program)[1].split()[5])
        same("the entries of a refusal", entries - 3, 0 if low else callers * each)
        office.close()
        well()
    finally:
        office.program.kill()
    return rate


def sellers(stack: contextlib.ExitStack, program: str, folder: str, slower: int) -> dict[str, Seller]:
    env, caller = environment(folder, slower), compiled(folder, "callers")
    found: dict[str, Seller] = {
        "open --low": functools.partial(refusals, program, caller, folder, env, True),
        "open": functools.partial(refusals, program, caller, folder, env, False),
    }
    if shutil.which("redis-server") and shutil.which("redis-benchmark"):
        redis = Refusing(folder, env)
        stack.callback(redis.stop)
        found["Redis"] = redis.refused_rate
    if binaries := installed():
        postgres = Postgres(binaries, folder, env)
        stack.callback(postgres.stop)
        postgres.sql("UPDATE events SET seats_left = 0")
        found["PostgreSQL"] = functools.partial(postgres.rate, ONE_STATEMENT)
    return found


def main() -> None:
    first, _, usage = (__doc__ or "").split("\n")[:3]
    parser = argparse.ArgumentParser(usage=usage.removeprefix("usage: "), description=first)
    parser.add_argument("--rounds", type=int, default=3)
    parser.add_argument("--slower", type=numbers, default=[0])
    parser.add_argument("--folder")
    parser.add_argument("--callers", type=numbers, default=[1, 64])
    parser.add_argument("program", type=str)
    given = parser.parse_args()
    print(f"refusals a second, {given.rounds} rounds; {os.cpu_count()} processors, load {os.getloadavg()[0]:.1f}")
    for slower in given.slower:
        with tempfile.TemporaryDirectory(dir=given.folder) as folder, contextlib.ExitStack() as stack:
            every = sellers(stack, os.path.abspath(given.program), folder, slower)
            for callers in given.callers:
                print(f"{callers} callers, {slower} us more a sync:", flush=True)
                tell(timed(every, given.rounds, callers), {"open --low"})


if __name__ == "__main__":
    main()
