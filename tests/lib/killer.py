"""Programs that are killed before one of their calls that change files: a library of a few lines that is loaded before
the C library.
"""

from __future__ import annotations

import os
import subprocess
from collections.abc import Iterator

from .options import PROGRAM
from .program import SECONDS
from .refuser import compiler

SOURCE = r"""
extern long syscall(long, ...), strtol(const char *, char **, int);
extern char *getenv(const char *);
static long made, last = -1;
static void count(void) {
    if (last < 0) last = strtol(getenv("KILLED_AT"), 0, 10);
    if (__atomic_add_fetch(&made, 1, __ATOMIC_SEQ_CST) == last) syscall(KILL, syscall(GETPID), 9);
}
long write(int file, const void *bytes, unsigned long size) { count(); return syscall(WRITE, file, bytes, size); }
long pwrite(int file, const void *bytes, unsigned long size, long at) {
    count();
    return syscall(PWRITE, file, bytes, size, at);
}
long pwrite64(int file, const void *bytes, unsigned long size, long at) { return pwrite(file, bytes, size, at); }
int fsync(int file) { count(); return syscall(FSYNC, file); }
int fdatasync(int file) { count(); return syscall(FDATASYNC, file); }
int ftruncate(int file, long size) { count(); return syscall(FTRUNCATE, file, size); }
int ftruncate64(int file, long size) { return ftruncate(file, size); }
int rename(const char *old, const char *new) { count(); return syscall(RENAMEAT, -100, old, -100, new, 0); }
int unlink(const char *path) { count(); return syscall(UNLINKAT, -100, path, 0); }
"""
# The numbers of the calls, by machines.
CALLS = {
    "x86_64": {
        "WRITE": 1,
        "PWRITE": 18,
        "GETPID": 39,
        "KILL": 62,
        "FSYNC": 74,
        "FDATASYNC": 75,
        "FTRUNCATE": 77,
        "RENAMEAT": 316,
        "UNLINKAT": 263,
    },
    "aarch64": {
        "WRITE": 64,
        "PWRITE": 68,
        "GETPID": 172,
        "KILL": 129,
        "FSYNC": 82,
        "FDATASYNC": 83,
        "FTRUNCATE": 46,
        "RENAMEAT": 276,
        "UNLINKAT": 35,
    },
}


def killer(folder: str) -> str:
    """The library; nothing where it cannot be made."""
    library, numbers = os.path.join(folder, "killer.so"), CALLS.get(os.uname().machine, {})
    words = [*compiler(), "-w", "-O1", "-fPIC", "-shared", *(f"-D{name}={at}L" for name, at in numbers.items())]
    words += ["-x", "c", "-o", library, "-"]
    try:
        made = subprocess.run(words, input=SOURCE.encode(), timeout=SECONDS, check=False, capture_output=True)
    except OSError:
        return ""
    return library if numbers and made.returncode == 0 else ""


def killed_at(library: str, number: int, words: list[str], folder: str, given: str = "") -> bool:
    """Whether the program was killed before the call with this number, and did not end first."""
    done = subprocess.run(
        [PROGRAM, *words],
        input=given.encode(),
        capture_output=True,
        cwd=folder,
        timeout=SECONDS,
        check=False,
        env={**os.environ, "LD_PRELOAD": library, "KILLED_AT": str(number)},
    )
    return done.returncode == -9


def numbers(step: int = 1) -> Iterator[int]:
    """The numbers of calls, from the first."""
    number = 1
    while True:
        yield number
        number += step
