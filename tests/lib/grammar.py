"""Texts by the grammar of docs/FORMAT.md, and texts that are damaged."""

from __future__ import annotations

import random

from .model import MOST, Cell, Site, item_of

EVENTS = ["gala", "expo", "late-show", "g", "gal", "galas"]


def random_site(chance: random.Random) -> int:
    return chance.choice([0, 0, 2, 2, 1, 1, 3, 63]) if chance.random() < 0.3 else chance.choice([0, 2])


def random_value(chance: random.Random, site: Site, cell: Cell) -> int:
    known = site.cells.get(cell, 0)
    return min(MOST, max(1, chance.choice([known, known + 1, known - 1, 1, known + chance.randrange(1, 500), MOST])))


def random_items(chance: random.Random, site: Site) -> list[str]:
    items: dict[tuple[int | str, ...], str] = {}
    for _ in range(chance.choice([0, 1, 1, 2, 3, 5])):
        name = chance.choice(EVENTS)
        if chance.random() < 0.3:
            items[(0, name)] = f"name {name}"
            continue
        kind = chance.randrange(3)
        sites = [random_site(chance) for _ in range(2 if kind == 0 else 1)]
        cell: Cell = (name, kind, *sites)
        items[(1, *cell)] = item_of(cell, random_value(chance, site, cell))
    return [items[key] for key in sorted(items)]


def random_text(chance: random.Random, site: Site) -> bytes:
    """A message to a site by the grammar, with what it knows and more."""
    by, to = random_site(chance), site.me if chance.random() < 0.9 else random_site(chance)
    if chance.random() < 0.15:
        upto = chance.choice([1, len(site.rows), len(site.rows) + 1, 1_000_000])
        return b"ack %d %d %d\nend\n" % (by, to, max(1, upto))
    lines = [item.encode() for item in random_items(chance, site)]
    if lines and chance.random() < 0.05:
        chance.shuffle(lines)
    head = b"delta %d %d %d" % (by, to, chance.choice([1, 2, 40, 1_000_000]))
    return b"".join(line + b"\n" for line in [head, *lines, b"end"])


def mutated(chance: random.Random, text: bytes) -> bytes:
    """The text with a byte turned, put in or left out, a part of it twice, or cut."""
    at = chance.randrange(len(text) + 1)
    byte = bytes([chance.choice(b"0123456789 \nabegls-\rE\x7f\xff\x01")])
    match chance.randrange(6):
        case 0:
            return text[:at] + byte + text[at + 1 :]
        case 1:
            return text[:at] + byte + text[at:]
        case 2:
            return text[:at] + text[at + 1 :]
        case 3:
            return text[:at]
        case 4:
            end = chance.randrange(at, len(text) + 1)
            return text[:end] + text[at:end] + text[end:]
        case _:
            return text + text[at:]


def random_line(chance: random.Random, most: int) -> str:
    """A request or a look, under a number up to this."""
    number, event = chance.randrange(1, most + 1), chance.choice(EVENTS)
    amount = chance.choice([1, 1, 2, 3, 9, 40, 1_000, MOST])
    kinds = [
        (10, f"announce {number} {event}"),
        (10, f"release {number} {event} {amount}"),
        (40, f"sell {number} {event} {amount}"),
        (10, f"refund {number} {chance.randrange(1, most + 1)}"),
        (10, f"refund {number} {chance.randrange(1, most + 1)} {amount}"),
        (10, f"cede {number} {event} {amount} {chance.randrange(4)}"),
        (5, f"left {event}"),
        (5, f"totals {event}"),
    ]
    return chance.choices([line for _, line in kinds], [weight for weight, _ in kinds])[0]


def damaged_line(chance: random.Random, line: str) -> str:
    """A line with a byte turned, put in or left out, or a part of it twice; it stays one line, and is not `quit`."""
    text = mutated(chance, line.encode()).replace(b"\n", b" ").decode("latin-1")
    return text[:190] if text != "quit" else line
