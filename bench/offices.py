"""What scripts that time the built program share, over tests/lib: a site with seats to sell, offices that callers.rs
sells at, and programs that rustc makes. What is not as it should be is printed, and ends the run (`well`)."""

import os
import subprocess
import sys
import tempfile
from collections.abc import Sequence
from typing import NamedTuple

HERE = os.path.dirname(os.path.abspath(__file__))
sys.path.insert(0, os.path.join(HERE, '..', 'tests'))
from lib import CHECKS, Office, call, ended, free_port, make_site, same, started  # noqa: E402

# (trials have their files in memory; here the disk is what is timed)
tempfile.tempdir = None
SEATS = 1000000
FILE, COPY = 'site.db', 'copy.db'


class Timed(NamedTuple):
    """Sales a second, and the microseconds of a sale: the median, the 99th percentile and the worst."""

    rate: float
    median: float
    slow: float
    worst: float


def timed_by(rate: float, times: Sequence[float]) -> Timed:
    """What sales came to that took so many microseconds each, in rising order."""
    return Timed(rate, *(float(times[int((len(times) - 1) * part)]) for part in (0.5, 0.99, 1.0)))


def well() -> None:
    """Ends a run in which something was not as it should be."""
    if CHECKS.failed:
        sys.exit(1)


def fresh(path: str) -> None:
    for end in ('', '-wal', '-shm'):
        if os.path.exists(path + end):
            os.remove(path + end)


def begun(program: str, path: str, sites: int) -> None:
    """New records of the first of so many sites."""
    fresh(path)
    make_site(*os.path.split(path), 0, sites, program=program)
    well()


def released(program: str, path: str) -> None:
    begun(program, path, 1)
    lines = 'announce 1 gala\nrelease 2 gala %d\n' % SEATS
    same('the opening', call('.', ['ask', path], lines, program=program), (0, 'done\ndone\n', ''))
    well()


def compiled(folder: str, name: str, *flags: str) -> str:
    """The program of a source that stands beside this file."""
    made = os.path.join(folder, name)
    words = ['rustc', '--edition', '2021', '-O', *flags, os.path.join(HERE, name + '.rs'), '-o', made]
    subprocess.run(words, check=True)
    return made


def called(caller: str, peer: str, callers: int, each: int, lines: int = 1, reply: str = 'done') -> Timed:
    """What so many callers came to who make so many sales each at a port, or at a peer that callers.rs knows, so many
    lines at once. An office answers each so."""
    words = [caller, peer, str(callers), str(each), str(lines), reply]
    told = subprocess.run(words, stdout=subprocess.PIPE, text=True, check=True)
    taken, *times = map(float, told.stdout.split())
    return Timed(callers * each / taken * 1e6, *times)


def office_rate(
    program: str,
    caller: str,
    folder: str,
    env: dict[str, str],
    lines: int,
    copy: Sequence[str],
    callers: int,
    each: int,
) -> Timed:
    """What so many callers come to, with so many sales each, so many lines at once, at a new office. The words of copy
    name the second file of a site that has one. Its audit finds as many."""
    released(program, os.path.join(folder, FILE))
    if copy:
        fresh(os.path.join(folder, COPY))
        same('pair', call(folder, ['pair', FILE, COPY], program=program)[:2], (0, 'paired\n'))
    office = Office(folder, FILE, program=program, words=copy, env=env)
    try:
        well()
        rate = called(caller, str(office.port), callers, each, lines)
        office.close()
    finally:
        office.program.kill()
    check_sums(program, call(folder, ['audit', FILE, *copy], program=program), callers * each)
    return rate


def serve_rate(program: str, caller: str, folder: str, env: dict[str, str], callers: int, each: int) -> Timed:
    """The same through `serve`, which ends with its callers and prints what an audit does."""
    released(program, os.path.join(folder, FILE))
    port = free_port()
    serving = started(folder, port, callers, 0, [FILE], program=program, env=env)
    try:
        rate = called(caller, str(port), callers, each)
        found = ended(serving)
    finally:
        serving.kill()
    check_sums(program, found, callers * each)
    return rate


def check_sums(program: str, found: tuple[int, str, str], sales: int) -> None:
    sums = 'gala released %d sold %d refunded 0 outstanding %d\n' % (SEATS, sales, sales)
    same('what %s sold' % program, found, (0, sums, ''))
    well()
