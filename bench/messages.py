#!/usr/bin/env python3
"""Times reading and writing a message of many marks.

usage: messages.py SITE_TRIAL

SITE_TRIAL is the built site_trial, which reads a message and writes it again, from memory to memory. It is compared
with a plain Rust program that copies the same bytes line by line, from memory to memory too, which rustc has to be
there for. Both do so until they did 5,000,000 marks; the cost of that is the time of all those turns less that of one,
so that the start, reading the input and writing the last copy are not in it. Each time is the best of three runs.
"""
import subprocess
import sys
import tempfile
import time
from collections.abc import Callable

from offices import compiled


def message(marks: int) -> bytes:
    lines = ['delta 0 1 1000\n']
    for event in range(marks // 2):
        lines += ['gave e%06d 0 0 %d\n' % (event, 1000000 + event), 'used e%06d 0 %d\n' % (event, 1000 + event)]
    return ''.join([*lines, 'end\n']).encode()


def best(words: list[str], given: bytes, wanted: bytes) -> float:
    times = []
    for _ in range(3):
        began = time.perf_counter()
        printed = subprocess.run(words, input=given, stdout=subprocess.PIPE, check=True).stdout
        times.append(time.perf_counter() - began)
        if printed != wanted:
            sys.exit('%s: the message was not written again' % words)
    return min(times)


def cost(run: Callable[[int], float], turns: int) -> float:
    return (run(turns) - run(1)) / (turns - 1)


def main(words: list[str]) -> None:
    if len(words) != 1:
        sys.exit(__doc__)
    with tempfile.TemporaryDirectory() as folder:
        plain = compiled(folder, 'copy_lines', '-C', 'target-cpu=x86-64-v2')
        for marks in (1000, 10000, 100000):
            text = message(marks)
            turns = 5000000 // marks
            ours = cost(lambda count: best(words, b'#@%d\n' % count + text, text), turns)
            theirs = cost(lambda count: best([plain, str(count)], text, text), turns)
            print(
                '%d marks, %d bytes: %.0f MB a second, %.3f us a mark, ratio to copying the lines %.1f'
                % (marks, len(text), len(text) / ours / 1e6, ours / marks * 1e6, ours / theirs)
            )


main(sys.argv[1:])
