#!/usr/bin/env python3
"""Times a session over a list in memory beside the same lines as a script.

usage: talk.py SITE_TRIAL BOXOFFICE

SITE_TRIAL is the built site_trial, which answers a session from memory to memory, over a list to which each entry is
copied. BOXOFFICE is the built boxoffice, whose `world` runs the same lines as a script of one site, and keeps no list.
Both start, read their input, and end; the cost of a line is that of 400,000 lines less that of 40,000. They run in
turn, and each time is the best of five.
"""
import subprocess
import sys
import time

FEW, MANY = 40000, 400000


def lines(count: int, site: str) -> bytes:
    asked = ['announce 1 gala', 'release 2 gala 1000000'] + ['sell %d gala 1' % (3 + k) for k in range(count - 2)]
    return ''.join('%s%s\n' % (site, line) for line in asked).encode()


def timed(words: list[str], given: bytes, replies: int) -> float:
    began = time.perf_counter()
    printed = subprocess.run(words, input=given, stdout=subprocess.PIPE, check=True).stdout
    took = time.perf_counter() - began
    if printed.splitlines()[:replies] != [b'done'] * replies:
        sys.exit('%s: a line was not done' % words)
    return took


def main(words: list[str]) -> None:
    if len(words) != 2:
        sys.exit(__doc__)
    times: dict[tuple[str, int], float] = {}
    for _ in range(5):
        for count in (FEW, MANY):
            for name, program, given in (
                ('session', words[:1], b'#!0 1 1000000#?' + lines(count, '')),
                ('script', [words[1], 'world'], b'sites 1\n' + lines(count, '0 ')),
            ):
                took = timed(program, given, count)
                times[name, count] = min(took, times.get((name, count), took))
    session, script = ((times[name, MANY] - times[name, FEW]) / (MANY - FEW) for name in ('session', 'script'))
    print(
        'a line: session %.0f ns, script %.0f ns, ratio of rates %.2f' % (session * 1e9, script * 1e9, script / session)
    )


main(sys.argv[1:])
