"""Trials: each has a folder of its own and so many seconds, and leaves no process."""

from __future__ import annotations

import contextlib
import os
import shutil
import signal
import sys
import tempfile
import threading
import time
import traceback
from collections.abc import Callable, Iterable, Iterator, Mapping

from .checks import CHECKS
from .options import OPTIONS

Trial = Callable[[str], None]
# How long a trial may take. The machine may be busy with proofs.
LONGEST = 1200.0
# What has to be done beside ending programs where a trial is given up.
AT_END: list[Callable[[], object]] = []


def children(of: int | None = None) -> Iterator[int]:
    """The numbers of the programs that this one started and that have not ended."""
    parent = of or os.getpid()
    for entry in os.listdir("/proc"):
        with contextlib.suppress(OSError, ValueError, IndexError):
            with open(f"/proc/{int(entry)}/stat", encoding="ascii", errors="replace") as stat:
                if int(stat.read().rpartition(")")[2].split()[1]) == parent:
                    yield int(entry)


def end_children() -> None:
    """Ends them, with what they started."""
    left = [*children()]
    for child in left:
        left += children(child)
    for child in left:
        with contextlib.suppress(OSError):
            os.kill(child, signal.SIGKILL)


def gives_up(name: str, seconds: float, folder: str) -> None:
    """The verdict where a trial does not end."""
    CHECKS.differs(f"{name}: has not ended after {seconds:.0f} s")
    CHECKS.end()
    for end in AT_END:
        with contextlib.suppress(Exception):
            end()
    end_children()
    shutil.rmtree(folder, ignore_errors=True)
    os._exit(1)


def tried(name: str, trial: Trial, seconds: float) -> None:
    """Runs a trial, which is bounded; whatever it raises is a difference."""
    with tempfile.TemporaryDirectory(ignore_cleanup_errors=True) as folder:
        watch = threading.Timer(seconds, gives_up, (name, seconds, folder))
        watch.daemon = True
        watch.start()
        try:
            trial(folder)
        except Exception:
            CHECKS.differs(f"{name} goes on: {traceback.format_exc()[-1500:]}")
        finally:
            watch.cancel()
            end_children()


def named(trials: Mapping[str, Trial] | Iterable[Trial]) -> dict[str, Trial]:
    if isinstance(trials, Mapping):
        return dict(trials)
    return {getattr(trial, "__name__", str(at)): trial for at, trial in enumerate(trials)}


def try_each(
    trials: Mapping[str, Trial] | Iterable[Trial],
    well: str,
    badly: str = "{} differences",
    seconds: float | Callable[[str], float] = LONGEST,
    chosen: list[str] | None = None,
) -> int:
    """Runs each trial that is chosen, prints what it comes to, and gives the status to end with."""
    is_timed = OPTIONS.flag("times")
    OPTIONS.check()
    every, names = named(trials), OPTIONS.chosen if chosen is None else chosen
    if unknown := [name for name in names if name not in every]:
        sys.exit(f"no trial is named {unknown[0]}: {' '.join(every)}")
    # What was started ends with a run that is told to end.
    signal.signal(signal.SIGTERM, lambda *_: sys.exit(1))
    for name in names or every:
        began = time.monotonic()
        tried(name, every[name], seconds(name) if callable(seconds) else seconds)
        if is_timed:
            print(f"{time.monotonic() - began:8.1f} s  {name}", flush=True)
    return CHECKS.end(well, badly)
