#!/usr/bin/env python3
"""Times durable sales of one event at open offices of several programs, beside PostgreSQL and Redis.

usage: together.py [--rounds N] [--slower MICROSECONDS,..] [--folder FOLDER] [--callers 1,4,16,64] [--lines N] [--serve]
[--copies] NAME=PROGRAM ..

Each PROGRAM is a built boxoffice, and NAME what it is called in the output. Callers (bench/callers.rs, which rustc has
to be there for) sell over loopback at the port of `open`, each line behind the reply to the one before; each sale is in
the file and synced before it is answered. Then `close` ends the office, and `audit` has to find just as many sold.
--serve times `serve` of each program too, where each sale has a sync of its own, and --copies an office over two
files. With --lines 10 each caller sends ten lines at once, and the next ten behind their replies; then the offices and
Redis are timed.

Redis does the same over a local socket, called by the same program: one script, loaded before and named by its sum
(EVALSHA), keeps the request's number and takes a seat from the one counter, and the log of it is synced before the
answer. `redis-benchmark` is the same script, sent whole (EVAL) by the program of that name. PostgreSQL does it over a
local socket by pgbench with as many clients, its commits synchronous: one statement takes a seat from the one row that
all sell from, and inserts the request's number. With early release a procedure commits that without a sync, so that
the row is free at once, and then a record behind it with one. Where one of them is not installed, this is said, and the
others are timed.

All files stand in FOLDER (a temporary one without it). Each sells for some two seconds, by turns, for N rounds (five
without it). A rate is the median of the rounds, with the lowest and the highest in brackets; then the microseconds of a
sale: the median, the 99th percentile and the worst. --slower 0,2000 times all of it twice: on the disk as it is, and
with 2000 microseconds more in each fsync and fdatasync of all of them. That is done by a library that cc makes here and
that is loaded before the C library (LD_PRELOAD).
"""
import argparse
import contextlib
import functools
import os
import re
import shutil
import signal
import statistics
import subprocess
import sys
import tempfile
import time
from collections.abc import Callable, Container, Mapping, Sequence

from offices import COPY, SEATS, Timed, called, compiled, office_rate, serve_rate
from postgres import EARLY_RELEASE, ONE_STATEMENT, Postgres, installed

from lib.slower import slowed

# How long each is to sell in a round, and the most that it then sells.
SECONDS, MOST = 2, SEATS * 9 // 10
SALE = (
    "if redis.call('hsetnx', 'requests', ARGV[1], 1) == 1 and tonumber(redis.call('get', 'gala')) >= 1 then"
    " return redis.call('decrby', 'gala', 1) end return -1"
)


# Sells: so many callers make so many sales each.
Seller = Callable[[int, int], Timed]


def environment(folder: str, microseconds: int) -> dict[str, str]:
    """That of a program whose syncs take so much longer."""
    found = slowed(folder, microseconds) if microseconds else dict(os.environ)
    return found or sys.exit('syncs cannot be made slower here')


def sync_time(folder: str) -> float:
    """The microseconds of a write of 4 kB and its sync, the median of 200."""
    times = []
    with tempfile.TemporaryFile(dir=folder, buffering=0) as file:
        for _ in range(200):
            began = time.perf_counter()
            file.write(bytes(4096))
            os.fdatasync(file.fileno())
            times.append(time.perf_counter() - began)
    return statistics.median(times) * 1e6


class Redis:
    """A server of its own in a folder, reached over a local socket alone, its log synced at each write."""

    def __init__(self, folder: str, env: dict[str, str]) -> None:
        self.socket = os.path.join(folder, 'redis.sock')
        words = ['redis-server', '--port', '0', '--unixsocket', self.socket, '--dir', folder]
        words += ['--save', '', '--appendonly', 'yes', '--appendfsync', 'always']
        self.server = subprocess.Popen(words, stdout=subprocess.DEVNULL, env=env)
        while self.run('redis-cli', 'ping') != 'PONG\n':
            if self.server.poll() is not None:
                sys.exit('redis-server ended with status %d' % self.server.returncode)
            time.sleep(0.05)

    def run(self, name: str, *words: str) -> str:
        every = [name, '-s', self.socket, *words]
        return subprocess.run(every, stdout=subprocess.PIPE, stderr=subprocess.DEVNULL, text=True).stdout

    def empty(self) -> None:
        self.run('redis-cli', 'del', 'requests')
        self.run('redis-cli', 'set', 'gala', str(SEATS))

    def check(self, least: int, most: int) -> None:
        kept, left = int(self.run('redis-cli', 'hlen', 'requests')), int(self.run('redis-cli', 'get', 'gala'))
        if kept + left != SEATS or not least <= kept <= most:
            sys.exit('Redis kept %d of %d sales, and has %d seats left' % (kept, most, left))

    def rate(self, caller: str, lines: int, callers: int, each: int) -> Timed:
        """What so many callers come to who make so many sales each, so many at once."""
        self.empty()
        script = self.run('redis-cli', 'script', 'load', SALE).strip()
        rate = called(caller, '%s,%s' % (self.socket, script), callers, each, lines)
        self.check(callers * each, callers * each)
        return rate

    def told_rate(self, callers: int, each: int) -> Timed:
        """The same, as redis-benchmark asks and tells it."""
        self.empty()
        sales = callers * each
        numbers = ['-r', '1000000000', '-n', str(sales)]
        told = self.run('redis-benchmark', '-c', str(callers), *numbers, '--csv', 'eval', SALE, '0', '__rand_int__')
        # A few numbers are drawn twice.
        self.check(int(0.99 * sales), sales)
        # The test, its rate, and milliseconds: average, least, median, 95th and 99th percentile, most.
        figures = [float(word.strip('"')) for word in told.strip().split('\n')[-1].split('","')[1:]]
        return Timed(figures[0], *(1000 * figures[at] for at in (3, 5, 6)))

    def stop(self) -> None:
        self.run('redis-cli', 'shutdown', 'nosave')
        self.server.wait(60)


def started(
    stack: contextlib.ExitStack, programs: Mapping[str, str], folder: str, slower: int, given: argparse.Namespace
) -> dict[str, Seller]:
    """How each sells, by its name; what runs then ends with the stack."""
    env, caller, lines = environment(folder, slower), compiled(folder, 'callers'), given.lines
    sellers: dict[str, Seller] = {
        name: functools.partial(office_rate, program, caller, folder, env, lines, [])
        for name, program in programs.items()
    }
    if given.copies:
        sellers |= {
            name + ', two copies': functools.partial(office_rate, program, caller, folder, env, lines, ['--copy', COPY])
            for name, program in programs.items()
        }
    if given.serve:
        sellers |= {
            name + ', serve': functools.partial(serve_rate, program, caller, folder, env)
            for name, program in programs.items()
        }
    binaries = installed()
    if binaries and lines == 1:
        postgres = Postgres(binaries, folder, env)
        stack.callback(postgres.stop)
        sellers['PostgreSQL'] = functools.partial(postgres.rate, ONE_STATEMENT)
        sellers['PostgreSQL, early release'] = functools.partial(postgres.rate, EARLY_RELEASE)
    if shutil.which('redis-server') and shutil.which('redis-benchmark'):
        redis = Redis(folder, env)
        stack.callback(redis.stop)
        sellers['Redis'] = functools.partial(redis.rate, caller, lines)
        if lines == 1:
            sellers['redis-benchmark'] = redis.told_rate
    for name, rate in sellers.items():
        if rate(1, 200).rate * slower > 1e6 * lines:
            sys.exit('%s: its syncs are not slower' % name)
    return sellers


def timed(sellers: Mapping[str, Seller], rounds: int, callers: int) -> dict[str, list[Timed]]:
    """The rates of each in all rounds. What it sold before tells how many it sells; that of a first, short run is not
    kept."""
    rates = {name: [rate(callers, max(20, 200 // callers))] for name, rate in sellers.items()}
    for _ in range(rounds):
        for name, rate in sellers.items():
            sales = min(MOST, int(rates[name][-1].rate * SECONDS))
            rates[name].append(rate(callers, max(1, sales // callers)))
    return {name: found[1:] for name, found in rates.items()}


def tell(rates: Mapping[str, Sequence[Timed]], programs: Container[str]) -> None:
    """A line for each, with what a program sold for one sale of each other."""
    rate = {name: statistics.median(found.rate for found in each) for name, each in rates.items()}
    for name, each in rates.items():
        least, most = min(found.rate for found in each), max(found.rate for found in each)
        times = '%.0f / %.0f / %.0f us' % tuple(statistics.median(found[at] for found in each) for at in (1, 2, 3))
        line = '  %s: %.0f (%.0f to %.0f), %s' % (name, rate[name], least, most, times)
        ratios = [
            '%.2f times %s' % (rate[name] / rate[other], other) for other in rate if name in programs and other != name
        ]
        print(', '.join([line, *ratios]), flush=True)


def version(name: str) -> str:
    told = subprocess.run([name, '--version'], stdout=subprocess.PIPE, text=True, check=True).stdout
    found = re.search(r'\d+(\.\d+)+', told)
    return found.group(0) if found else told.strip()


def numbers(text: str) -> list[int]:
    return [int(word) for word in text.split(',')]


def named(word: str) -> tuple[str, str]:
    name, program = word.split('=', 1)
    return name, os.path.abspath(program)


def arguments() -> argparse.Namespace:
    first, _, usage = __doc__.split('\n')[:3]
    parser = argparse.ArgumentParser(usage=usage.removeprefix('usage: '), description=first)
    parser.add_argument('--rounds', type=int, default=5)
    parser.add_argument('--slower', type=numbers, default=[0])
    parser.add_argument('--folder')
    parser.add_argument('--callers', type=numbers, default=[1, 4, 16, 64])
    parser.add_argument('--lines', type=int, default=1)
    parser.add_argument('--serve', action='store_true')
    parser.add_argument('--copies', action='store_true')
    parser.add_argument('programs', metavar='NAME=PROGRAM', nargs='+', type=named)
    return parser.parse_args()


def main() -> None:
    # A run that is ended by a signal ends its servers too.
    signal.signal(signal.SIGTERM, lambda *_: sys.exit(1))
    given = arguments()
    programs = dict(given.programs)
    binaries = installed()
    postgres = 'PostgreSQL is not installed'
    if binaries:
        postgres = 'PostgreSQL ' + version(os.path.join(binaries, 'postgres'))
    redis = 'Redis ' + version('redis-server') if shutil.which('redis-server') else 'Redis is not installed'
    load = '%d processors, load %.1f' % (os.cpu_count() or 1, os.getloadavg()[0])
    print('durable sales a second, %d rounds; %s; %s; %s' % (given.rounds, load, postgres, redis))
    for slower in given.slower:
        with tempfile.TemporaryDirectory(dir=given.folder) as folder, contextlib.ExitStack() as stack:
            disk = '%g ms more a sync' % (slower / 1000) if slower else 'the disk as it is'
            print('%s (4 kB and a sync took %.0f microseconds before)' % (disk, sync_time(folder)), flush=True)
            sellers = started(stack, programs, folder, slower, given)
            for callers in given.callers:
                print('%d callers' % callers)
                tell(timed(sellers, given.rounds, callers), programs)


if __name__ == '__main__':
    main()
