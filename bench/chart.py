#!/usr/bin/env python3
"""Draws what bench/serve.py or bench/together.py printed, from standard input, as bars in an SVG on standard output.

usage: serve.py PROGRAM > RUN; chart.py < RUN > CHART
       together.py --slower 0,2000 NAME=PROGRAM .. > bench/together.run; chart.py < bench/together.run >
       docs/together.svg
"""
import itertools
import re
import sys
from collections.abc import Iterable, Iterator, Mapping

WIDTH, HEIGHT, LEFT, BASE, TALLEST = 640, 270, 60, 250, 190
TITLE = 'Durable sales a second at one site, by callers'
INKS = {
    'boxoffice': '#1f5f99',
    'boxoffice, two copies': '#9dbfe0',
    'PostgreSQL, two statements': '#c2703d',
    'PostgreSQL, one statement': '#dfb08c',
    'PostgreSQL': '#c2703d',
    'PostgreSQL, early release': '#e9c7ad',
    'Redis': '#8a9a5b',
    'redis-benchmark': '#c5cfa3',
}
# For programs under other names.
BLUES = ('#9dbfe0', '#5c8fc0', '#143d63')


# For each count of callers the rates by their names.
Groups = list[tuple[str, dict[str, int]]]


def read(lines: Iterable[str]) -> list[tuple[str, Groups]]:
    """A chart for each disk: its title, and for each count of callers the rates by their names, as they were
    printed."""
    charts: list[tuple[str, Groups]] = []
    for line in lines:
        disk = re.match(r'(\S.+) \(4 kB and a sync ', line)
        callers = re.match(r'(\d+) callers(?:: (\d+) )?', line)
        rate = re.match(r'  (.+?): (\d+)[ ,]', line)
        if disk:
            charts.append(('%s: %s' % (TITLE, disk.group(1)), []))
        elif callers:
            charts = charts or [(TITLE, [])]
            charts[-1][1].append((callers.group(1), {'boxoffice': int(callers.group(2))} if callers.group(2) else {}))
        elif rate:
            charts[-1][1][-1][1][rate.group(1).replace('a transaction of ', '')] = int(rate.group(2))
    return charts


def step_of(most: int) -> int:
    """The least of 1, 2, 5, 10, 20 .. that reaches it in at most five steps."""
    return next(step for step in (unit * 10**k for k in itertools.count() for unit in (1, 2, 5)) if 5 * step >= most)


def chart(title: str, groups: Groups, inks: Mapping[str, str], width: int) -> Iterator[str]:
    step = step_of(max(max(rates.values()) for _, rates in groups))
    top = -(-max(max(rates.values()) for _, rates in groups) // step) * step
    yield '<text x="10" y="20">%s</text>' % title
    for rate in range(0, top + 1, step):
        y = BASE - rate / top * TALLEST
        yield '<path d="M%d %.1fH%d" stroke="#ddd"/>' % (LEFT, y, width - 20)
        yield '<text x="%d" y="%.1f" text-anchor="end">%s</text>' % (LEFT - 6, y + 4, format(rate, ','))
    room = (width - 20 - LEFT) / len(groups)
    for k, (callers, rates) in enumerate(groups):
        x = LEFT + k * room + 20
        bar = (room - 40) / len(inks)
        for name, rate in rates.items():
            at, tall = x + list(inks).index(name) * bar, rate / top * TALLEST
            yield '<rect x="%.1f" y="%.1f" width="%.1f" height="%.1f" fill="%s"/>' % (
                at,
                BASE - tall,
                bar - 4,
                tall,
                inks[name],
            )
            yield '<text x="%.1f" y="%.1f" text-anchor="middle" font-size="10">%s</text>' % (
                at + bar / 2 - 2,
                BASE - tall - 3,
                format(rate, ','),
            )
        yield '<text x="%.1f" y="%d" text-anchor="middle">%s</text>' % (x + (room - 40) / 2, BASE + 16, callers)


def main() -> None:
    charts = read(sys.stdin)
    if not charts:
        sys.exit(__doc__)
    names = dict.fromkeys(name for _, groups in charts for _, rates in groups for name in rates)
    blues = itertools.cycle(BLUES)
    inks = {name: INKS.get(name) or next(blues) for name in names}
    width = max(WIDTH, LEFT + 20 + max(len(groups) for _, groups in charts) * (40 + 38 * len(inks)))
    row = max(1, (width - LEFT) // 190)
    size = (width, HEIGHT * len(charts) + 12 + 18 * -(-len(inks) // row))
    print('<svg xmlns="http://www.w3.org/2000/svg" viewBox="0 0 %d %d" font-family="sans-serif" font-size="12">' % size)
    print('<rect width="100%" height="100%" fill="white"/>')
    for k, (title, groups) in enumerate(charts):
        print('\n'.join(['<g transform="translate(0 %d)">' % (k * HEIGHT), *chart(title, groups, inks, width), '</g>']))
    y = HEIGHT * len(charts) + 8
    for k, (name, ink) in enumerate(inks.items()):
        x, line = LEFT + 190 * (k % row), y + 18 * (k // row)
        print(
            '<rect x="%d" y="%d" width="10" height="10" fill="%s"/><text x="%d" y="%d">%s</text>'
            % (x, line, ink, x + 15, line + 9, name)
        )
    print('</svg>')


main()
