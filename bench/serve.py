#!/usr/bin/env python3
"""Times durable sales through the built `serve` at one site, beside PostgreSQL.

usage: serve.py PROGRAM [FOLDER]

PROGRAM is the built boxoffice. 1, 4 and 16 callers (bench/callers.rs, which rustc has to be there for) sell over
loopback, each line behind the reply to the one before; each sale is in the file and synced before it is answered.
PostgreSQL does the same work in one transaction over a local socket by pgbench with as many clients, its commits
synchronous: it takes a seat where one is left, and inserts the request's number. It is timed in two forms: as a
transaction of an UPDATE and an INSERT, as a client of a database writes it, and as one statement that holds both, which
saves the ways between client and server. Where PostgreSQL's server and pgbench are not installed, this is said, and
`serve` is timed alone. The files stand in FOLDER (a temporary one without it), and each rate is the median of five
runs, which take turns.
"""
import os
import statistics
import sys
import tempfile

from offices import compiled, serve_rate
from postgres import ONE_STATEMENT, TWO_STATEMENTS, Postgres, installed

SALES = 8000
FORMS = {'a transaction of two statements': TWO_STATEMENTS, 'one statement': ONE_STATEMENT}


def main(words: list[str]) -> None:
    if len(words) not in (1, 2):
        sys.exit(__doc__)
    program = os.path.abspath(words[0])
    with tempfile.TemporaryDirectory(dir=words[1] if len(words) == 2 else None) as folder:
        caller = compiled(folder, 'callers')
        binaries = installed()
        server = Postgres(binaries, folder) if binaries else None
        if server is None:
            print('PostgreSQL is not installed here: serve alone')
        for callers in (1, 4, 16):
            rates: dict[str, list[float]] = {name: [] for name in FORMS if server}
            mine = []
            for _ in range(5):
                mine.append(serve_rate(program, caller, folder, dict(os.environ), callers, SALES // callers).rate)
                for name in rates:
                    assert server
                    rates[name].append(server.rate(FORMS[name], callers, SALES // callers).rate)
            print('%d callers: %.0f durable sales a second' % (callers, statistics.median(mine)))
            for name, theirs in rates.items():
                ratio = statistics.median(mine) / statistics.median(theirs)
                print('  PostgreSQL, %s: %.0f, ratio %.2f' % (name, statistics.median(theirs), ratio))
        if server:
            server.stop()


main(sys.argv[1:])
