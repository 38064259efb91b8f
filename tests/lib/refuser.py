"""What the trials share that refuse a program one request for memory: a library of a few lines through which the C
library's malloc is called, made by `cc` or by the compiler that `rt` builds with, and runs with that library.
"""

from __future__ import annotations

import os
import shutil
import subprocess
from collections.abc import Callable

from .program import SECONDS

SOURCE = r"""
extern void *__libc_malloc(unsigned long), *__libc_calloc(unsigned long, unsigned long);
extern void *__libc_realloc(void *, unsigned long);
extern char *getenv(const char *);
extern int *__errno_location(void);
extern long strtol(const char *, char **, int), write(int, const void *, unsigned long);
static long asked, refused = -1;
static int is_refused(void) {
    if (refused < 0) refused = strtol(getenv("REFUSED"), 0, 10);
    if (__atomic_add_fetch(&asked, 1, __ATOMIC_SEQ_CST) != refused) return 0;
    write(strtol(getenv("REFUSALS"), 0, 10), "x", 1);
    *__errno_location() = 12; /* ENOMEM, which the C library asks for where it starts a thread */
    return 1;
}
void *malloc(unsigned long size) { return is_refused() ? 0 : __libc_malloc(size); }
void *calloc(unsigned long count, unsigned long size) { return is_refused() ? 0 : __libc_calloc(count, size); }
void *realloc(void *block, unsigned long size) { return is_refused() ? 0 : __libc_realloc(block, size); }
"""


def compiler() -> list[str]:
    """A C compiler, with what else it has to be told."""
    if shutil.which("cc"):
        return ["cc"]
    page = subprocess.run(["rt", "doc"], capture_output=True, check=True).stdout.decode().strip()
    return [os.path.join(os.path.dirname(page), "toolchain", "bin", "clang"), "-fuse-ld=lld", "-nostdlib"]


def make_refuser(folder: str) -> str:
    refuser = os.path.join(folder, "refuser.so")
    words = [*compiler(), "-w", "-O1", "-fPIC", "-shared", "-x", "c", "-o", refuser, "-"]
    subprocess.run(words, input=SOURCE.encode(), check=True, timeout=SECONDS)
    return refuser


def begun(refuser: str, number: int, words: list[str], folder: str) -> tuple[subprocess.Popen[bytes], int]:
    """The run in which the request with this number is refused, and where it is told that it was."""
    told, teller = os.pipe()
    try:
        program = subprocess.Popen(
            words,
            stdin=subprocess.PIPE,
            stdout=subprocess.PIPE,
            stderr=subprocess.PIPE,
            cwd=folder,
            pass_fds=(teller,),
            env={"LD_PRELOAD": refuser, "REFUSED": str(number), "REFUSALS": str(teller)},
        )
    finally:
        os.close(teller)
    return program, told


def ended(program: subprocess.Popen[bytes], told: int, given: bytes = b"") -> tuple[bool, tuple[int, bytes, bytes]]:
    """Whether the request came and was refused, and the status, standard output and standard error."""
    try:
        out, err = program.communicate(given, timeout=SECONDS)
    finally:
        program.kill()
        with os.fdopen(told, "rb") as refusals:
            was_refused = refusals.read() != b""
    return was_refused, (program.returncode, out, err)


def count(was_refused: Callable[[int], bool]) -> int:
    """How many requests a run makes, where `was_refused` runs and tells whether the request with a number came."""
    most = 1
    while was_refused(most):
        most *= 2
    least = most // 2
    while most - least > 1:
        middle = (least + most) // 2
        least, most = (middle, most) if was_refused(middle) else (least, middle)
    return least


def chosen(total: int, spread: int, last: int) -> list[int]:
    """So many requests spread over all, and each of the last ones."""
    step = max(1, total // spread)
    return sorted({*range(1, total + 1, step), *range(max(1, total + 1 - last), total + 1)})
