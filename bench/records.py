#!/usr/bin/env python3
"""Times durable sales on a file, opening a file of many entries, and taking a delta of many marks.

usage: records.py PROGRAM [FOLDER]

PROGRAM is the built boxoffice, which answers sales from a session: each is an entry in the file before it is
answered. The lines come all at once, or each when the reply to the one before it was read, as a person types. It is
compared with C SQLite (Python's sqlite3), which makes the same INSERTs one by one in WAL mode with synchronous=FULL, in
the same run and FOLDER (where the files stand; a temporary one without it). Both are timed from before a file that is
there is opened until it is closed, which moves its log into it. Each rate is the median of five runs, which take turns.
The other times are the best of three.
"""
import os
import sqlite3
import statistics
import subprocess
import sys
import tempfile
import time

from memory import memory
from offices import begun, fresh, released, well

from lib import call, opened, same

TABLE = (
    'CREATE TABLE entries (pos INTEGER PRIMARY KEY, peer INTEGER, number INTEGER UNIQUE, verb TEXT, event TEXT,'
    ' amount INTEGER,'
    ' target INTEGER, reply TEXT, rest INTEGER, delta TEXT NOT NULL) STRICT'
)
INSERT = 'INSERT INTO entries VALUES (?1, ?2, ?3, ?4, ?5, ?6, ?7, ?8, ?9, ?10)'


def row(k: int, place: int) -> tuple[object, ...]:
    """The entry of the k-th sale, from 0."""
    return place, None, 3 + k, 'sell', 'gala', 1, None, 'done', None, 'used gala 0 %d\n' % (k + 1)


def piped(program: str, path: str, sales: int) -> float:
    released(program, path)
    lines = ''.join('sell %d gala 1\n' % (3 + k) for k in range(sales))
    began = time.perf_counter()
    found = call('.', ['ask', path], lines, program=program)
    took = time.perf_counter() - began
    same('the sales', found, (0, sales * 'done\n', ''))
    well()
    return took


def typed(program: str, path: str, sales: int) -> float:
    released(program, path)
    lines = [b'sell %d gala 1\n' % (3 + k) for k in range(sales)]
    with subprocess.Popen([program, 'ask', path], stdin=subprocess.PIPE, stdout=subprocess.PIPE, bufsize=0) as session:
        assert session.stdin and session.stdout
        to, of = session.stdin.fileno(), session.stdout.fileno()
        began = time.perf_counter()
        for line in lines:
            os.write(to, line)
            if os.read(of, 100) != b'done\n':
                sys.exit('a sale was not done')
        return time.perf_counter() - began


def theirs(path: str, sales: int) -> float:
    fresh(path)
    db = sqlite3.connect(path, isolation_level=None)
    db.execute('PRAGMA journal_mode=WAL')
    db.execute(TABLE)
    db.close()
    began = time.perf_counter()
    db = sqlite3.connect(path, isolation_level=None)
    db.execute('PRAGMA synchronous=FULL')
    for k in range(sales):
        db.execute(INSERT, row(k, k))
    db.close()
    return time.perf_counter() - began


def filled(program: str, path: str, sales: int) -> None:
    """A file of so many sales behind two entries, which C SQLite writes in one transaction."""
    released(program, path)
    with opened(*os.path.split(path)) as db:
        db.execute('BEGIN')
        db.executemany(INSERT, map(row, range(sales), range(2, sales + 2)))
        db.execute('COMMIT')


def taking(program: str, path: str, marks: int) -> tuple[float, float]:
    """The shortest time of three imports of a delta of so many marks, and the most memory that one took, in bytes."""
    message = path + '.message'
    with open(message, 'w') as out:
        out.write('delta 1 0 1\n' + ''.join('gave e%06d 1 1 %d\n' % (k, 1000 + k) for k in range(marks)) + 'end\n')
    words = [program, 'import', path]
    times = []
    for _ in range(3):
        begun(program, path, 2)
        began = time.perf_counter()
        with open(message) as given:
            subprocess.run(words, stdin=given, stdout=subprocess.DEVNULL, check=True)
        times.append(time.perf_counter() - began)
    begun(program, path, 2)
    return min(times), memory(words, message)


def opening(program: str, path: str) -> float:
    times = []
    for _ in range(3):
        began = time.perf_counter()
        found = call('.', ['find', path, '2'], program=program)
        times.append(time.perf_counter() - began)
        same('what is found', found, (0, '1 done\n', ''))
    well()
    return min(times)


def main(words: list[str]) -> None:
    if len(words) not in (1, 2):
        sys.exit(__doc__)
    program = os.path.abspath(words[0])
    with tempfile.TemporaryDirectory(dir=words[1] if len(words) == 2 else None) as folder:
        path, plain = os.path.join(folder, 'ours.db'), os.path.join(folder, 'theirs.db')
        sales = 5000
        runs = [(piped(program, path, sales), typed(program, path, sales), theirs(plain, sales)) for _ in range(5)]
        at_once, one_by_one, other = (statistics.median(times) for times in zip(*runs))
        for how, mine in (('all at once', at_once), ('each behind a reply', one_by_one)):
            rates = (how, sales / mine, sales / other, other / mine)
            print('durable sales, lines %s: %.0f a second, C SQLite %.0f, ratio %.2f' % rates)
        for entries in (1000, 10000, 100000, 1000000):
            filled(program, path, entries - 2)
            took = opening(program, path)
            print('opening %d entries: %.3f s, %.1f us an entry' % (entries, took, took / entries * 1e6))
        least, start = taking(program, path, 1)
        for marks in (1000, 10000, 100000):
            took, memory = taking(program, path, marks)
            took, memory = (took - least) / marks * 1e6, (memory - start) / marks
            print('taking a delta of %d marks: %.2f us a mark, %.0f bytes of memory a mark' % (marks, took, memory))


main(sys.argv[1:])
