#!/usr/bin/env python3
"""Times `boxoffice world` on large scripts, beside a plain program that answers the same.

The names of events are of one length, so that scripts of few events and of many differ in nothing but their number.

usage: world.py PROGRAM

PROGRAM is the built boxoffice. It is compared with bench/plain_world.rs, an unproved program over Rust's standard
library alone, which rustc has to be there for; both are made for the same processor (x86-64-v2). Each time is the best
of three runs, and their answers have to be the same. The most memory is that of runs of their own: of the long script
of one site and one event, and of a site that joins a large delta.
"""
import os
import random
import subprocess
import sys
import tempfile
import time
from collections.abc import Callable, Collection
from typing import TextIO

from memory import memory
from offices import compiled

# What a mark and a name of a delta take, in bytes.
MARK = 48
NAME = 33
# A mark of an event: of which row it is.
Cell = tuple[str, str]


def one_site(events: int) -> Callable[[int, TextIO], None]:
    """Sales of so many events at one site, a tenth of them given back."""

    def write(lines: int, out: TextIO) -> None:
        chance = random.Random(7)
        out.write('sites 1\n')
        for event in range(events):
            out.write(
                '0 announce %d ev%04d\n0 release %d ev%04d 1000000000\n' % (2 * event + 1, event, 2 * event + 2, event)
            )
        sales: list[int] = []
        for number in range(2 * events + 1, lines):
            if sales and chance.random() < 0.1:
                out.write('0 refund %d %d\n' % (number, sales.pop()))
            else:
                out.write('0 sell %d ev%04d %d\n' % (number, chance.randrange(events), chance.randint(1, 9)))
                sales.append(number)

    return write


def sites_of(sites: int, events: int, sends: bool = True) -> Callable[[int, TextIO], None]:
    """Sales of so many events at so many sites, with a message and its acknowledgement after every fifty, or with
    none."""

    def write(sales: int, out: TextIO) -> None:
        chance = random.Random(7)
        out.write('sites %d\n' % sites)
        number, message = 1, 0
        for event in range(events):
            out.write('0 announce %d ev%04d\n0 release %d ev%04d 100000000\n' % (number, event, number + 1, event))
            number += 2
            for to in range(1, sites):
                out.write('0 cede %d ev%04d %d %d\n' % (number, event, 80000000 // sites, to))
                number += 1
        for to in range(1, sites):
            out.write('send 0 %d\ndeliver %d\ndeliver %d\n' % (to, message, message + 1))
            message += 2
        for k in range(sales):
            number += 1
            out.write('%d sell %d ev%04d 1\n' % (chance.randrange(sites), number, chance.randrange(events)))
            if sends and k % 50 == 49:
                by = chance.randrange(sites)
                to = (by + 1 + chance.randrange(sites - 1)) % sites
                out.write('send %d %d\ndeliver %d\ndeliver %d\n' % (by, to, message, message + 1))
                message += 2

    return write


def held(path: str) -> tuple[int, int]:
    """How many messages a script sends, and how many marks they hold in all, by the script alone: each is delivered at
    once, and its acknowledgement too, and every sale is done."""
    histories: dict[str, list[Collection[Cell]]] = {}
    acked: dict[tuple[str, str], int] = {}
    pending: dict[tuple[str, str], tuple[set[Cell], int]] = {}
    sent: list[tuple[str, str, frozenset[Cell] | None, int]] = []
    marks = 0
    with open(path) as script:
        for words in map(str.split, script):
            if words[0] == 'sites':
                continue
            if words[0] == 'send':
                by, to = words[1:]
                history = histories.setdefault(by, [])
                cells, upto = pending.setdefault((by, to), (set(), acked.get((by, to), 0)))
                cells.update(*history[upto:])
                pending[by, to] = cells, len(history)
                sent.append((by, to, frozenset(cells), len(history)))
                marks += len(cells)
            elif words[0] == 'deliver':
                by, to, told, upto = sent[int(words[1])]
                if told is None:
                    acked[to, by] = upto
                    pending.pop((to, by))
                else:
                    histories.setdefault(to, []).append(told)
                    sent.append((to, by, None, upto))
            else:
                site, verb, _number, event = words[:4]
                cell = {'release': 'gave 0 0', 'sell': 'used ' + site}.get(verb, 'gave ' + site + ' ' + words[-1])
                histories.setdefault(site, []).append(() if verb == 'announce' else ((event, cell),))
    return sum(1 for message in sent if message[2] is not None), marks


def best(words: list[str], path: str) -> tuple[float, bytes]:
    """The shortest time of three runs, and what the last one printed."""
    times = []
    for _ in range(3):
        with open(path, 'rb') as script:
            began = time.perf_counter()
            printed = subprocess.run(words, stdin=script, stdout=subprocess.PIPE, check=True).stdout
            times.append(time.perf_counter() - began)
    return min(times), printed


def marks_and_names(marks: int, out: TextIO) -> str:
    """A site raises so many marks, each of an event with a name of its own, and sends them with the names. Gives the
    line that delivers them."""
    out.write('sites 2\n')
    for k in range(marks):
        out.write('1 announce %d e%06d\n1 release %d e%06d 1000\n' % (2 * k + 1, k, 2 * k + 2, k))
    out.write('send 1 0\n')
    return 'deliver 0\n'


def marks_alone(marks: int, out: TextIO) -> str:
    """The same where the names were sent, joined and acknowledged before, so that the delta has none."""
    out.write('sites 2\n')
    for k in range(marks):
        out.write('1 announce %d e%06d\n' % (k + 1, k))
    out.write('send 1 0\ndeliver 0\ndeliver 1\n')
    for k in range(marks):
        out.write('1 release %d e%06d 1000\n' % (marks + k + 1, k))
    out.write('send 1 0\n')
    return 'deliver 2\n'


def taking(words: list[str], path: str, write: Callable[[int, TextIO], str], marks: int) -> float:
    """How many bytes a run in which the delta is joined takes more, for each mark, than one that ends before."""
    runs = []
    for is_joined in (False, True):
        with open(path, 'w') as out:
            last = write(marks, out)
            if is_joined:
                out.write(last)
        runs.append(memory(words, path))
    return (runs[1] - runs[0]) / marks


def main(words: list[str]) -> None:
    if len(words) != 1:
        sys.exit(__doc__)
    cases = [
        ('one site', one_site(1), 10000),
        ('one site', one_site(1), 1000000),
        ('one site, 100 events', one_site(100), 1000000),
        ('one site, 10000 events', one_site(10000), 1000000),
        ('four sites', sites_of(4, 20), 20000),
        ('four sites', sites_of(4, 20), 200000),
        ('sixteen sites, 100 events', sites_of(16, 100), 20000),
        ('sixteen sites, 1000 events', sites_of(16, 1000), 20000),
        ('four sites, 100 events, sales alone', sites_of(4, 100, False), 200000),
        ('sixty-four sites, 100 events, sales alone', sites_of(64, 100, False), 200000),
        ('sixty-four sites, 100 events', sites_of(64, 100), 20000),
        ('sixty-four sites, 100 events', sites_of(64, 100), 200000),
    ]
    with tempfile.TemporaryDirectory() as folder:
        plain = compiled(folder, 'plain_world', '-C', 'target-cpu=x86-64-v2')
        path = os.path.join(folder, 'script')
        alone = {}
        for name, write, size in cases:
            with open(path, 'w') as out:
                write(size, out)
            with open(path) as script:
                lines = sum(1 for _ in script)
            ours, answers = best([words[0], 'world'], path)
            theirs, same = best([plain], path)
            if answers != same:
                sys.exit('%s, %d lines: the answers differ' % (name, lines))
            per_line = ours / lines * 1e6
            print(
                '%s, %d lines: %.3f s, %.2f us a line, ratio to the plain program %.2f'
                % (name, lines, ours, per_line, ours / theirs)
            )
            if (name, size) == ('one site', 1000000):
                # Each line behind the first is an entry.
                most = memory([words[0], 'world'], path)
                print('    the most memory: %.0f MB in all, %.0f bytes an entry' % (most / 1e6, most / (lines - 1)))
            if name.endswith(', sales alone'):
                alone[name.removesuffix(', sales alone'), size] = ours
            elif (name, size) in alone:
                messages, marks = held(path)
                more = ours - alone[name, size]
                print(
                    '    %d messages of %.0f marks each: %.0f us a message beside the sales, %.3f us a mark'
                    % (messages, marks / messages, more / messages * 1e6, more / marks * 1e6)
                )
        marks = 100000
        for what, raised, own in (
            ('marks and names', marks_and_names, MARK + NAME),
            ('marks alone', marks_alone, MARK),
        ):
            more = taking([words[0], 'world'], path, raised, marks)
            print(
                'joining a delta of %d %s: %.0f bytes of memory each, %.1f times its own'
                % (marks, what, more, more / own)
            )


main(sys.argv[1:])
