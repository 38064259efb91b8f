"""Programs whose syncs take longer: a library of a few lines that is loaded before the C library."""

from __future__ import annotations

import os
import subprocess

from .program import SECONDS
from .refuser import compiler

SOURCE = r"""
struct timespec { long seconds, nanoseconds; };
extern int nanosleep(const struct timespec *, struct timespec *);
extern long syscall(long, ...);
static int slower(long call, int file) {
    struct timespec left = {MICROSECONDS / 1000000, MICROSECONDS % 1000000 * 1000L};
    while (nanosleep(&left, &left)) { }
    return syscall(call, file);
}
int fsync(int file) { return slower(FSYNC, file); }
int fdatasync(int file) { return slower(FDATASYNC, file); }
"""
# The numbers of the two calls, by machines.
CALLS = {"x86_64": (74, 75), "aarch64": (82, 83)}


def slowed(folder: str, microseconds: int) -> dict[str, str]:
    """The environment of a program whose syncs take so much longer; empty where that cannot be made."""
    library, numbers = os.path.join(folder, "slower.so"), CALLS.get(os.uname().machine)
    if numbers is None:
        return {}
    words = [*compiler(), "-w", "-O1", "-fPIC", "-shared", f"-DMICROSECONDS={microseconds}L"]
    words += [f"-DFSYNC={numbers[0]}", f"-DFDATASYNC={numbers[1]}", "-x", "c", "-o", library, "-"]
    try:
        made = subprocess.run(words, input=SOURCE.encode(), timeout=SECONDS, check=False, capture_output=True)
    except OSError:
        return {}
    return {**os.environ, "LD_PRELOAD": library} if made.returncode == 0 else {}
