#!/usr/bin/env python3
"""Tries scripts/mutants with bodies that mean the same as the program, and with receipts that are forged or false.

Usage: tests/same_bodies.py [--receipts]     (after `rt ci`; with --receipts only what needs no prover)

tests/same_bodies/NAME/ has edits same_*.edit, which the prover cannot refuse, and beside them wrong_*.edit, which it
has to: a program that reads too much into a failed check would call the first refused too. Each same_*.edit is given
a receipt with the right sum, which is false: it has to be found and dropped. A receipt with another sum, of another
text or of another mutant, has to count for nothing.
"""

import contextlib
import importlib.machinery
import io
import os
import re
import shutil
import subprocess
import sys
import tempfile
import types
from typing import Any

TOP = os.path.dirname(os.path.dirname(os.path.abspath(__file__)))
EDITS = os.path.join(TOP, "tests", "same_bodies")
# What the prover may take for the four edits, beside whatever else runs.
SECONDS = 3600
passes, failures = 0, 0


def same(what: str, found: object, wanted: object) -> None:
    global passes, failures
    passes, failures = passes + (found == wanted), failures + (found != wanted)
    if found != wanted:
        print(f"{what}: found {found!r}, wanted {wanted!r}", flush=True)


def mutants(*words: str) -> tuple[int, str]:
    """The status of scripts/mutants, and all that it printed."""
    command = [os.path.join(TOP, "scripts", "mutants"), *words]
    ran = subprocess.run(
        command, cwd=TOP, stdout=subprocess.PIPE, stderr=subprocess.STDOUT, text=True, timeout=SECONDS, check=False
    )
    return ran.returncode, ran.stdout


# scripts/mutants as a module, which is loaded as it runs.
Module = Any


def loaded() -> Module:
    """scripts/mutants as a module."""
    path = os.path.join(TOP, "scripts", "mutants")
    module = types.ModuleType("mutants")
    module.__file__ = path
    importlib.machinery.SourceFileLoader("mutants", path).exec_module(module)
    return module


def sums(program: Module, folder: str, name: str) -> dict[str, str]:
    """What the receipt of each edit of a crate has to say."""
    crate = next(it for it in program.rt.rtlib.crates_below(TOP) if it.name == name)
    edits, kept, _ = program.to_try(crate, os.path.join(folder, name), program.texts_of(crate).source, True)
    return {os.path.basename(it.path): kept.sums[it.label] for it in edits}


def write(folder: str, name: str, receipts: dict[str, str]) -> None:
    with open(os.path.join(folder, name, "refused"), "w", encoding="utf-8") as file:
        file.writelines(f"{edit} {sum}\n" for edit, sum in receipts.items())


def tried(folder: str, name: str) -> list[str]:
    """The edits of a crate that would be tried."""
    said = mutants("--list", "--from", folder, name)[1]
    found = re.search(rf"(?m)^{name}: .* with a receipt: ?(.*)$", said)
    return found[1].split() if found else [said]


def forged(program: Module, folder: str, name: str, right: dict[str, str]) -> None:
    """Receipts that are not of what is there: each mutant without one of its own is tried."""
    edits, (one, other) = sorted(right), sorted(right)[:2]
    is_drawn = program.receipts.drawn(name, program.SHARE, TOP)
    some: dict[str, tuple[dict[str, str], list[str]]] = {
        "no receipts": ({}, edits),
        "the right ones": (right, edits if is_drawn else []),
        "another sum": ({**right, one: "0" * 20}, edits if is_drawn else [one]),
        "that of another": ({**right, one: right[other]}, edits if is_drawn else [one]),
        "one that is cut off": ({**right, one: right[one][:-1]}, edits if is_drawn else [one]),
        "no sum": ({**right, one: ""}, edits if is_drawn else [one]),
    }
    for what, (receipts, wanted) in some.items():
        write(folder, name, receipts)
        same(f"{name}: {what}", tried(folder, name), wanted)
    write(folder, name, right)
    same(f"{name}: all", mutants("--list", "--all", "--from", folder, name)[1].count(" 0 to be tried"), 0)
    path = os.path.join(folder, name, one)
    with open(path, encoding="utf-8") as file:
        text = file.read()
    with open(path, "w", encoding="utf-8") as file:
        file.write(text + "\n")
    same(f"{name}: of another text", tried(folder, name), edits if is_drawn else [one])
    with open(path, "w", encoding="utf-8") as file:
        file.write(text)


def waits(folder: str) -> None:
    """A run of `rt ci` that ended without a word of a crate: what waits for it ends, and its mutants are not tried."""
    log = os.path.join(folder, "log")
    for said in ["rt ci ended with 1\n", "rt: request_ledger NOT PROVED\n", "rt: x proved\n3 passed, 1 failed\n"]:
        with open(log, "w", encoding="utf-8") as file:
            file.write(said)
        status, text = mutants("--all", "--from", folder, "--after", log, "request_ledger")
        same(f"after {said!r}", (status, "NOT TRIED: it is not proved" in text), (1, True))


class Refuser:
    """In place of the rounds of a check: what is named wrong_* is refused, and nothing else."""

    def __init__(self, *_: object) -> None:
        self.room = tempfile.TemporaryDirectory(prefix="same-")

    def rounds(self, edits: list[Any]) -> tuple[list[tuple[Any, str]], list[Any]]:
        wrong = [it for it in edits if "/wrong_" in it.label]
        return [(it, "refused") for it in wrong], [it for it in edits if it not in wrong]

    def alone(self, _edit: object, _place: int) -> str:
        return ""


def false_by_a_stub(program: Module, folder: str, name: str, right: dict[str, str]) -> None:
    """The same without the prover: a mutant with a receipt that is not refused is told, and its receipt is dropped."""
    write(folder, name, right)
    crate = next(it for it in program.rt.rtlib.crates_below(TOP) if it.name == name)
    said, kept = io.StringIO(), program.rt.must_fail
    stubs = {"Tried": Refuser, "older": lambda _: "", "wait_for_room": lambda: None}
    before = {word: getattr(program, word) for word in stubs}
    try:
        program.rt.must_fail = lambda *_: (getattr(program.rt, "MISSED", False), "must-fail: NOT REFUSED")
        for word, stub in stubs.items():
            setattr(program, word, stub)
        with contextlib.redirect_stdout(said):
            count, failed = program.try_crate(crate, os.path.join(folder, name), "", True, True)
    finally:
        program.rt.must_fail = kept
        for word, value in before.items():
            setattr(program, word, value)
    wrong = [edit for edit in right if edit.startswith("wrong_")]
    same(
        f"{name}: how many are refused",
        (count, sorted(failed)),
        (len(wrong), sorted(f"{name}/{edit}" for edit in right if edit not in wrong)),
    )
    for edit in right:
        same(f"{name}/{edit}: told as false", f"{name}/{edit}: FALSE RECEIPT" in said.getvalue(), edit not in wrong)
    with open(os.path.join(folder, name, "refused"), encoding="utf-8") as file:
        same(
            f"{name}: the receipts that are left",
            dict(line.split() for line in file),
            {edit: right[edit] for edit in wrong},
        )


def false(folder: str, right: dict[str, dict[str, str]]) -> None:
    """Each body that means the same is told, with its false receipt, and each wrong one is refused."""
    for name, receipts in right.items():
        write(folder, name, receipts)
    status, said = mutants("--all", "--jobs", "2", "--from", folder)
    found = next((line for line in said.split("\n") if line.startswith("FAILED: ")), "")
    for name, receipts in right.items():
        with open(os.path.join(folder, name, "refused"), encoding="utf-8") as file:
            left = dict(line.split() for line in file)
        for edit, sum in receipts.items():
            is_same = edit.startswith("same_")
            same(f"{name}/{edit}: it is not refused", f"{name}/{edit}" in found.split(), is_same)
            same(f"{name}/{edit}: its receipt is false", f"{name}/{edit}: FALSE RECEIPT" in said, is_same)
            same(f"{name}/{edit}: its receipt", left.get(edit), None if is_same else sum)
    same("the status", status, 1)
    if failures:
        print(said)


def main() -> int:
    sys.dont_write_bytecode = True
    program = loaded()
    with tempfile.TemporaryDirectory(prefix="same-") as room:
        folder = os.path.join(room, "edits")
        shutil.copytree(EDITS, folder)
        right = {name: sums(program, folder, name) for name in sorted(os.listdir(folder))}
        for name in [name for name, receipts in right.items() if len(receipts) > 1]:
            forged(program, folder, name, right[name])
            false_by_a_stub(program, folder, name, right[name])
        waits(folder)
        if "--receipts" not in sys.argv:
            false(folder, right)
    print(f"{passes} passed, {failures} failed")
    return 1 if failures else 0


if __name__ == "__main__":
    sys.exit(main())
