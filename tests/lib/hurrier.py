"""Programs for which a wait at a socket is over at once, and is counted: a library of a few lines that is loaded before
the C library. So an hour that a caller is silent takes a second.
"""

from __future__ import annotations

import os
import subprocess
from typing import Any

from .program import SECONDS
from .refuser import compiler

SOURCE = r"""
struct timeval { long seconds, microseconds; };
struct timespec { long seconds, nanoseconds; };
extern long syscall(long, ...), strtol(const char *, char **, int);
extern char *getenv(const char *);
extern int *__errno_location(void), sprintf(char *, const char *, ...);
extern int nanosleep(const struct timespec *, struct timespec *);
static long waited;
/* How long a call of this kind waits at a socket, in milliseconds; 0 for what is none. */
static long wait_of(int file, int kind) {
    struct timeval wait = {0, 0};
    unsigned size = sizeof wait;
    int before = *__errno_location();
    if (kind != HURRIED || syscall(GETSOCKOPT, file, 1, kind, &wait, &size) < 0) wait.seconds = wait.microseconds = 0;
    *__errno_location() = before;
    return wait.seconds * 1000 + wait.microseconds / 1000;
}
static void tell(long wait) {
    struct timespec moment = {0, 100000};
    char line[32];
    long all = __atomic_add_fetch(&waited, wait, __ATOMIC_SEQ_CST);
    syscall(PWRITE, strtol(getenv("WAITED"), 0, 10), line, sprintf(line, "%020ld\n", all), 0L);
    nanosleep(&moment, 0);
}
static long at_once(long call, int file, const void *bytes, unsigned long size, int flags, long wait) {
    long done = syscall(call, file, bytes, size, wait ? flags | 0x40 : flags, 0, 0);
    if (done < 0 && wait && *__errno_location() == 11) {
        tell(wait);
        *__errno_location() = 11;
    }
    return done;
}
long recv(int file, void *bytes, unsigned long size, int flags) {
    return at_once(RECVFROM, file, bytes, size, flags, wait_of(file, 20));
}
long send(int file, const void *bytes, unsigned long size, int flags) {
    return at_once(SENDTO, file, bytes, size, flags, wait_of(file, 21));
}
long read(int file, void *bytes, unsigned long size) {
    return wait_of(file, 20) ? recv(file, bytes, size, 0) : syscall(READ, file, bytes, size);
}
long write(int file, const void *bytes, unsigned long size) {
    return wait_of(file, 21) ? send(file, bytes, size, 0x4000) : syscall(WRITE, file, bytes, size);
}
"""
# The numbers of the calls.
CALLS = {"READ": 0, "WRITE": 1, "PWRITE": 18, "SENDTO": 44, "RECVFROM": 45, "GETSOCKOPT": 55}
# The options of a socket that say how long it waits.
TO_READ, TO_WRITE = 20, 21


class Hurrier:
    """What hurries a program's waits to read, or to write, and counts them."""

    def __init__(self, folder: str, kind: int) -> None:
        self.library, self.kind = os.path.join(folder, "hurrier.so"), kind
        self.waits = open(os.path.join(folder, "waited"), "w+b", buffering=0)

    def is_made(self) -> bool:
        """Whether the library can be made here."""
        words = [*compiler(), "-w", "-O1", "-fPIC", "-shared", *(f"-D{name}={at}L" for name, at in CALLS.items())]
        words += [f"-DHURRIED={self.kind}", "-x", "c", "-o", self.library, "-"]
        made = subprocess.run(words, input=SOURCE.encode(), timeout=SECONDS, check=False, capture_output=True)
        return os.uname().machine == "x86_64" and made.returncode == 0

    def more(self) -> dict[str, Any]:
        """What a program is started with."""
        file = self.waits.fileno()
        return {"env": {**os.environ, "LD_PRELOAD": self.library, "WAITED": str(file)}, "pass_fds": (file,)}

    def waited(self) -> int:
        """For how many milliseconds the program would have waited."""
        self.waits.seek(0)
        return int(self.waits.read() or b"0")
