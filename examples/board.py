#!/usr/bin/env python3
"""Draws one page (HTML with inline SVG) of what all sites sold and have left, from their open offices.

usage: board.py --output PAGE FILE-sock .. --events EVENT .. [--every SECONDS] [--ceded]

Each FILE-sock is the socket of a site's office on this machine, or the near end of one that ssh brings here (`ssh -N
-L east.db-sock:/var/lib/boxoffice/east.db-sock east`). The page is written once, or again and again each SECONDS
until the program is ended; a browser that shows it loads it again as often. It needs the standard library alone, and
writes to no office.

What a site has left is asked of that site. Released, sold and refunded are by the view of the site that knows of
most. What is neither sold nor left anywhere is ceded and under way, or is not yet heard of. An office that does not
answer is shown as it was when it last did. With --ceded there is also how many seats each site ceded, by `list
EVENT`, which is as long as its history. It lacks: a history, and what an office that has not answered since the start
of this program has left. """

from __future__ import annotations

import argparse
import html
import os
import re
import socket
import time
from collections.abc import Sequence

SECONDS = 3.0  # How long an office may take to answer.
TOTALS = re.compile("totals released ([0-9]+) sold ([0-9]+) refunded ([0-9]+) open ([0-9]+|none)")
STATUS = re.compile(
    "site ([0-9]+) sites ([0-9]+) entries ([0-9]+) limit ([0-9]+) callers ([0-9]+).*?(?: reserve ([0-9]+))?"
)
CESSION = re.compile("[0-9]+ cede [0-9]+ [a-z0-9-]+ ([0-9]+) [0-9]+ done")
NEAR = 0.9  # The part of its LIMIT from which on an office is marked.
SHADES = [
    "#2b6cb0",
    "#2f855a",
    "#b7791f",
    "#805ad5",
    "#c05621",
    "#2c7a7b",
    "#b83280",
    "#4a5568",
    "#63b3ed",
    "#68d391",
    "#d69e2e",
    "#b794f4",
    "#f6ad55",
    "#4fd1c5",
    "#f687b3",
    "#a0aec0",
]
STYLE = """:root { --text: #222; --paper: #fff; --rule: #ddd; --late: #a33; --quiet: #666 }
@media (prefers-color-scheme: dark) {
  :root { --text: #ddd; --paper: #181a1b; --rule: #444; --late: #f88; --quiet: #aaa }
}
body { font: 15px/1.5 sans-serif; margin: 2em auto; max-width: 60em; padding: 0 1em }
body { color: var(--text); background: var(--paper) }
h1 { font-size: 1.4em } h2 { font-size: 1.15em; margin-top: 1.6em }
svg { display: block; width: 100%; height: 34px }
.wide { overflow-x: auto }
.legend { display: flex; flex-wrap: wrap; gap: .2em 1.4em }
.legend { margin: .5em 0; padding: 0; list-style: none; font-size: .9em }
.legend i { display: inline-block; width: .8em; height: .8em; margin-right: .4em }
table { border-collapse: collapse; width: 100%; margin-top: .6em } td, th { text-align: right; white-space: nowrap }
td, th { padding: .2em .7em; border-bottom: 1px solid var(--rule) } .above th { border-bottom: 0; font-weight: normal }
td:first-child, th:first-child { text-align: left }
.late { color: var(--late) } .quiet { color: var(--quiet); font-size: .9em }"""


class Site:
    """What an office answered last, and when."""

    def __init__(self, path: str) -> None:
        self.path, self.name = path, os.path.basename(path).removesuffix("-sock").removesuffix(".db")
        self.heard: float | None = None
        self.is_there = False
        self.status: list[int] | None = None
        self.left: dict[str, int | None] = {}
        self.totals: dict[str, tuple[int | str, ...] | None] = {}
        self.ceded: dict[str, int] = {}

    def look(self, events: list[str], verbs: list[str]) -> None:
        lines = ["status", *(f"{verb} {event}" for event in events for verb in verbs)]
        try:
            replies = asked(self.path, lines)
        except OSError:
            self.is_there = False
            return
        self.heard, self.is_there = time.time(), True
        found = STATUS.fullmatch(replies[0])
        self.status = [int(number) for number in found.groups("0")] if found else None
        for at, event in enumerate(events):
            mine = replies[1 + len(verbs) * at :]
            left, totals = re.fullmatch("left ([0-9]+)", mine[0]), TOTALS.fullmatch(mine[1])
            self.left[event] = int(left[1]) if left else None
            sums = totals.groups() if totals else None
            self.totals[event] = tuple(int(word) if word != "none" else word for word in sums) if sums else None
            if "list" in verbs:
                self.ceded[event] = int(mine[2])


def asked(path: str, lines: list[str]) -> list[str]:
    """The replies of an office, a line each; to a `list` how many seats its cessions have."""
    with socket.socket(socket.AF_UNIX) as office, office.makefile("r", encoding="ascii", errors="replace") as answers:
        office.settimeout(SECONDS)
        office.connect(path)
        replies = []
        for line in lines:
            office.sendall(line.encode() + b"\n")
            reply, ceded = answers.readline().rstrip("\n"), 0
            while line.startswith("list ") and reply[:1].isdigit():
                found, reply = CESSION.fullmatch(reply), answers.readline().rstrip("\n")
                ceded += int(found[1]) if found else 0
            replies.append(str(ceded) if reply and line.startswith("list ") else reply)
        if "" in replies:
            raise OSError("the session ended")
        office.sendall(b"quit\n")
    return replies


def silent(site: Site) -> list[str]:
    """A line for each peer that is silent, by the file that a script of exchange/ writes beside the office's: a peer,
    since when something is due to it, when it was last heard of, in seconds since 1970, and whether it is silent."""
    try:
        with open(site.path.removesuffix("-sock") + "-peers", encoding="ascii") as text:
            rows = [[int(word) for word in line.split(" ")] for line in text]
    except (OSError, ValueError):
        return []
    found = []
    for peer, due, heard, is_silent in (row for row in rows if len(row) == 4):
        if is_silent:
            since = time.strftime("%H:%M:%S", time.localtime(due))
            last = f"last heard of {time.strftime('%H:%M:%S', time.localtime(heard))}" if heard else "never heard of"
            found.append(f"{site.name}: site {peer} has had something due since {since}, {last}")
    return found


def ago(site: Site) -> str:
    if site.heard is None:
        return '<span class="late">no answer yet</span>'
    text = time.strftime("%H:%M:%S", time.localtime(site.heard))
    return text if site.is_there else f'<span class="late">{text}, not since</span>'


def figure(count: object) -> str:
    return "&ndash;" if count is None else f"{count:,}" if isinstance(count, int) else str(count)


def bar(parts: list[tuple[str, int | None, str]], total: int) -> str:
    """A bar of parts, each with its name, count and colour, and a legend under it; a count of None is not known, and
    has no part."""
    drawn, begin, legend = [], 0.0, []
    for name, count, shade in parts:
        width = 100 * (count or 0) / max(total, 1)
        if count:
            shape = f'x="{begin:.3f}%" width="{width:.3f}%" height="34"'
            drawn.append(f'<rect {shape} fill="{shade}"><title>{name}: {figure(count)}</title></rect>')
        if width > 6:
            middle = f'x="{begin + width / 2:.3f}%" y="22" text-anchor="middle"'
            drawn.append(f'<text {middle} fill="#fff" font-size="14">{figure(count)}</text>')
        told = "not known" if count is None else figure(count)
        legend.append(f'<li><i style="background: {shade}"></i>{name} {told}</li>')
        begin += width
    box = '<svg role="img"><rect width="100%" height="34" fill="#8884"/>'
    return box + "".join(drawn) + f'</svg><ul class="legend">{"".join(legend)}</ul>'


def row(cells: Sequence[object], tag: str = "td") -> str:
    return "<tr>" + "".join(f"<{tag}>{figure(cell)}</{tag}>" for cell in cells) + "</tr>"


def table(head: list[str], rows: list[str], above: str = "") -> str:
    return (
        f'<div class="wide"><table><thead>{above}{row(head, "th")}</thead><tbody>{"".join(rows)}</tbody></table></div>'
    )


def of_event(event: str, sites: list[Site]) -> str:
    """The section of an event: a bar of all its seats, and a row for each site with its own view."""
    title, views = f"<h2>{html.escape(event)}</h2>", [view for site in sites if (view := site.totals.get(event))]
    if not views:
        return title + "<p>No site that answers knows of it.</p>"
    released, sold, back = (max(int(view[at]) for view in views) for at in range(3))
    parts: list[tuple[str, int | None, str]] = [("sold and not given back", sold - back, "#444")]
    for at, site in enumerate(sites):
        parts.append((f"left at {html.escape(site.name)}", site.left.get(event), SHADES[at % len(SHADES)]))
    parts.append(("under way or not heard of", max(0, released - sum(count or 0 for _, count, _ in parts)), "#888"))
    ceded = ["ceded"] if any(site.ceded for site in sites) else []
    wide, view_head = 2 + len(ceded), "at all sites, as far as this one knows"
    above = f'<tr class="above"><th colspan="{wide}"></th><th colspan="4">{view_head}</th><th></th></tr>'
    rows = []
    for site in sites:
        mine: tuple[object, ...] = site.totals.get(event) or (None,) * 4
        given = [site.ceded.get(event) for _ in ceded]
        rows.append(row([html.escape(site.name), site.left.get(event), *given, *mine, ago(site)]))
    text = f"<p>{figure(released)} seats released, {figure(sold)} sold, {figure(back)} of these given back.</p>"
    head = ["site", "left", *ceded, "released", "sold", "given back", "open", "last heard"]
    return title + text + bar(parts, released) + table(head, rows, above)


def entries(status: list[int]) -> object:
    """How many entries an office has, marked if it comes near its LIMIT, less what it reserves."""
    count, most = status[2], status[3] - status[5]
    return f'<span class="late">{figure(count)}, nearly full</span>' if count >= NEAR * most else count


def of_offices(sites: list[Site]) -> str:
    """What the offices say of themselves; nothing if none knows the line."""
    if not any(site.status for site in sites):
        return ""
    rows = []
    for site in sites:
        status = site.status
        told: list[object] = [*status[:2], entries(status), *status[3:5]] if status else [None] * 5
        rows.append(row([html.escape(site.name), *told, ago(site)]))
    return "<h2>Offices</h2>" + table(["office", "site", "of", "entries", "room for", "callers", "last heard"], rows)


def page(sites: list[Site], events: list[str], every: float | None) -> str:
    again = f'<meta http-equiv="refresh" content="{max(1, round(every))}">' if every else ""
    head = f'<!DOCTYPE html><html lang="en"><head><meta charset="utf-8">{again}<title>Box offices</title>'
    head += '<meta name="viewport" content="width=device-width">'
    head += f"<style>{STYLE}</style></head>"
    there = sum(site.is_there for site in sites)
    now = time.strftime("%Y-%m-%d %H:%M:%S")
    begin = f'<body><h1>Box offices</h1><p class="quiet">{now}: {there} of {len(sites)} answer</p>'
    late = "".join(f'<p class="late">{html.escape(line)}</p>' for site in sites for line in silent(site))
    sections = "".join(of_event(event, sites) for event in events)
    return head + begin + late + sections + of_offices(sites) + "</body></html>\n"


def write(path: str, text: str) -> None:
    """The page, whole or not at all."""
    with open(path + ".part", "w", encoding="utf-8") as file:
        file.write(text)
    os.replace(path + ".part", path)


def main() -> None:
    reader = argparse.ArgumentParser(usage=__doc__.split("usage: ")[1].split("\n")[0])
    reader.add_argument("sockets", nargs="+")
    reader.add_argument("--events", nargs="+", required=True)
    reader.add_argument("--output", required=True)
    reader.add_argument("--every", type=float)
    reader.add_argument("--ceded", action="store_true")
    given = reader.parse_args()
    if wrong := [event for event in given.events if not re.fullmatch("[a-z0-9-]{1,32}", event)]:
        reader.error(f"no name of an event: {wrong[0]}")
    sites, verbs = [Site(path) for path in given.sockets], ["left", "totals", *(["list"] if given.ceded else [])]
    while True:
        for site in sites:
            site.look(given.events, verbs)
        write(given.output, page(sites, given.events, given.every))
        if not given.every:
            return
        time.sleep(given.every)


main()
