"""The harness of the trials: how the program is called, offices and callers, files of sites, checks, the model."""

import os
import sys

from .checks import CHECKS, Checks, among, same, within
from .office import FILE, Caller, Office, Operator, connected, ended, is_reached, started
from .options import DRIVER, HERE, OPTIONS, PROGRAM, TOP
from .program import MEMORY, SECONDS, begun, call, free_port, text_of
from .sites import (
    EMPTY_LOG,
    FORGED,
    ROWS,
    asked_and_killed,
    change,
    copied,
    copied_inside,
    intact,
    make_site,
    make_sites,
    opened,
    reply_of,
    rows_kept,
)
from .trials import LONGEST, children, try_each

sys.path.insert(0, os.path.join(TOP, "clients", "python"))

__all__ = [
    "CHECKS",
    "Caller",
    "Checks",
    "DRIVER",
    "EMPTY_LOG",
    "FILE",
    "FORGED",
    "HERE",
    "LONGEST",
    "MEMORY",
    "OPTIONS",
    "Office",
    "Operator",
    "PROGRAM",
    "ROWS",
    "SECONDS",
    "TOP",
    "among",
    "asked_and_killed",
    "begun",
    "call",
    "change",
    "children",
    "connected",
    "copied",
    "copied_inside",
    "ended",
    "free_port",
    "intact",
    "is_reached",
    "make_site",
    "make_sites",
    "opened",
    "reply_of",
    "rows_kept",
    "same",
    "started",
    "text_of",
    "try_each",
    "within",
]
