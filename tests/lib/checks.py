"""How often things were as they should be, and what differs."""

from __future__ import annotations

import collections
import threading
from collections.abc import Container

_LOCK = threading.Lock()
# Of what differs no more is printed than can be read.
LONGEST, MOST = 2000, 200


class Checks:
    """A counter of checks. What differs is printed at once, unless it is `quiet`, and kept."""

    def __init__(self, name: str = "", quiet: bool = False) -> None:
        self.name, self.quiet, self.step, self.passed = name, quiet, 0, 0
        self.differing: list[str] = []
        self.told: collections.Counter[str] = collections.Counter()

    @property
    def failed(self) -> int:
        return len(self.differing)

    def same(self, what: str, found: object, wanted: object) -> bool:
        if found == wanted:
            with _LOCK:
                self.passed += 1
            return True
        self.differs(f"{what}: found {found!r}, wanted {wanted!r}")
        return False

    def differs(self, text: str) -> None:
        where = ", ".join(part for part in (self.name, f"step {self.step}" if self.step else "") if part)
        text = f"{where}: {text}"[:LONGEST] if where else text[:LONGEST]
        with _LOCK:
            self.differing.append(text)
            if not self.quiet and len(self.differing) <= MOST:
                print(text, flush=True)

    def among(self, what: str, found: object, wanted: Container[object]) -> bool:
        return self.same(what, found, found if found in wanted else wanted)

    def within(self, what: str, found: float, least: float, most: float) -> bool:
        return self.same(f"{what}: from {least} to {most}, {found}", least <= found <= most, True)

    def add(self, other: Checks) -> None:
        """Takes over what another found, and prints what differs there if that was quiet."""
        with _LOCK:
            self.passed += other.passed
            self.told += other.told
            for text in other.differing:
                self.differing.append(text)
                if other.quiet and not self.quiet and len(self.differing) <= MOST:
                    print(text, flush=True)

    def end(self, well: str = "", badly: str = "{} differences") -> int:
        """Prints what it comes to, and gives the status to end with."""
        text = badly.format(self.failed) if self.failed else well
        if text:
            print(text)
        print(f"{self.passed} passed, {self.failed} failed", flush=True)
        return 1 if self.failed else 0


CHECKS = Checks()
same, among, within = CHECKS.same, CHECKS.among, CHECKS.within
