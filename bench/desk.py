#!/usr/bin/env python3
"""Times sessions that sell at one desk, 1, 2, 4 and 8 at once, beside a plain program that does the same work.

usage: desk.py SITE_TRIAL

SITE_TRIAL is the built site_trial, whose desk lies over a list in memory. It is compared with bench/plain_desk.rs, an
unproved program over Rust's standard library alone with one Mutex round a HashMap and a Vec, which rustc has to be
there for; both are made for the same processor (x86-64-v2). Both read all lines, answer those of each session in a
thread of its own, hold what the sessions were given against the history, and write all replies, which have to be the
same. The cost of a sale is that of 440,000 sales less that of 40,000, so that the starts are not in it; what a sale
costs to read, to answer, to hold against the history and to write is. They run in turn, and each time is the best of
three. The second ratio is to the plain program where it copies each entry to a second list, as the list in memory does.
"""
import subprocess
import sys
import tempfile
import time

from offices import compiled

FEW, MANY = 40000, 440000


def sessions(threads: int, sales: int) -> bytes:
    """So many sales in as many sessions as there are threads."""
    each = sales // threads
    lines = [''.join('sell %d gala 1\n' % (3 + k * each + place) for place in range(each)) for k in range(threads)]
    opening = '!0 2 1000000', '?announce 1 gala\nrelease 2 gala 1000000\n'
    return '#'.join(['', *opening, '=' + '|'.join(lines)]).encode()


def timed(words: list[str], given: bytes, sales: int) -> tuple[float, bytes]:
    began = time.perf_counter()
    printed = subprocess.run(words, input=given, stdout=subprocess.PIPE, check=True).stdout
    took = time.perf_counter() - began
    if printed.count(b'done\n') != sales + 2 or not printed.endswith(b'whole\n'):
        sys.exit('%s: a sale was not done' % words)
    return took, printed


def main(words: list[str]) -> None:
    if len(words) != 1:
        sys.exit(__doc__)
    with tempfile.TemporaryDirectory() as folder:
        plain = compiled(folder, 'plain_desk', '-C', 'target-cpu=x86-64-v2')
        programs = words, [plain], [plain, 'kept']
        for threads in (1, 2, 4, 8):
            times = {}
            for sales in (FEW, MANY):
                given = sessions(threads, sales)
                runs = [[timed(program, given, sales) for program in programs] for _ in range(3)]
                if len({printed for row in runs for _, printed in row}) != 1:
                    sys.exit('%d sessions: the answers differ' % threads)
                times[sales] = [min(row[k][0] for row in runs) for k in range(3)]
            ours, theirs, kept = ((MANY - FEW) / (many - few) for few, many in zip(times[FEW], times[MANY]))
            print(
                '%d sessions: %.0f sales a second, ratio to the plain program %.2f, with a second list %.2f'
                % (threads, ours, ours / theirs, ours / kept)
            )


main(sys.argv[1:])
