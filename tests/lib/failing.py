"""Disks that fail while a program runs: a library of a few lines that is loaded before the C library. Once a file of a
given name is there, each call that writes to a database of another given name, or syncs it, is refused.
"""

from __future__ import annotations

import os
import subprocess

from .program import SECONDS
from .refuser import compiler

SOURCE = r"""
extern long syscall(long, ...), readlink(const char *, char *, unsigned long);
extern char *getenv(const char *), *strstr(const char *, const char *);
extern int sprintf(char *, const char *, ...), access(const char *, int);
extern int *__errno_location(void);
static int is_refused(int file, int is_sync) {
    char link[64], path[4096];
    long length;
    if (access(getenv("FAILS_ONCE"), 0)) return 0;
    sprintf(link, "/proc/self/fd/%d", file);
    length = readlink(link, path, sizeof path - 1);
    if (length < 0) return 0;
    path[length] = 0;
    if (!strstr(path, getenv("FAILS_AT")) || is_sync != (getenv("FAILS_AS")[0] == 's')) return 0;
    *__errno_location() = is_sync ? 5 : 30; /* EIO, EROFS */
    return 1;
}
long write(int file, const void *bytes, unsigned long size) {
    return is_refused(file, 0) ? -1 : syscall(1, file, bytes, size);
}
long pwrite(int file, const void *bytes, unsigned long size, long at) {
    return is_refused(file, 0) ? -1 : syscall(18, file, bytes, size, at);
}
long pwrite64(int file, const void *bytes, unsigned long size, long at) { return pwrite(file, bytes, size, at); }
int ftruncate(int file, long size) { return is_refused(file, 0) ? -1 : syscall(77, file, size); }
int ftruncate64(int file, long size) { return ftruncate(file, size); }
int fsync(int file) { return is_refused(file, 1) ? -1 : syscall(74, file); }
int fdatasync(int file) { return is_refused(file, 1) ? -1 : syscall(75, file); }
"""


def failing(folder: str, file: str, how: str, once: str) -> dict[str, str]:
    """The environment of a program whose `writes` to files with this name, or whose `syncs`, are refused once a file
    stands at `once`; empty where that cannot be made."""
    library = os.path.join(folder, "failing.so")
    words = [*compiler(), "-w", "-O1", "-fPIC", "-shared", "-x", "c", "-o", library, "-"]
    try:
        made = subprocess.run(words, input=SOURCE.encode(), timeout=SECONDS, check=False, capture_output=True)
    except OSError:
        return {}
    if os.uname().machine != "x86_64" or made.returncode:
        return {}
    given = {"LD_PRELOAD": library, "FAILS_ONCE": once, "FAILS_AT": file, "FAILS_AS": how}
    return {**os.environ, **given}
