#!/usr/bin/env python3
"""scripts/rename over a small repository: words, folders and documents, and a name that is taken.

usage: renames.py
"""

from __future__ import annotations

import os
import shutil
import subprocess
import sys

from lib import TOP, same, try_each

FILES = {
    "crates/low/src/told.rt": "pub enum Told { Told(FaultTold) } // told\n",
    "crates/low/proofs/told/Told/Answers.antt": "use Rattle.low.specs.Told.{Told, told}\n",
    "crates/low/mutants/told.edit": "file: src/told.rt\nold: Told(FaultTold)\nnew: Told(())\n",
    "crates/low/mutants/refused": "Told\n",
    "crates/high/src/lib.rt": "use low::Told;\n",
    "docs/NAMES.md": "Told so, `Told` is an enum, and `Reply` not.\n",
}


def rename(folder: str, *words: str) -> tuple[int, str, str]:
    done = subprocess.run(
        [sys.executable, os.path.join(folder, "scripts", "rename"), *words], capture_output=True, text=True, check=False
    )
    return done.returncode, done.stdout, done.stderr


def held(folder: str) -> dict[str, str]:
    """Each text of the repository but the script itself."""
    found = {}
    for at, folders, names in os.walk(folder):
        folders[:] = [name for name in folders if name not in (".git", "scripts")]
        for name in names:
            path = os.path.join(at, name)
            with open(path, encoding="utf-8") as file:
                found[os.path.relpath(path, folder)] = file.read()
    return found


def is_renamed(folder: str) -> None:
    os.mkdir(os.path.join(folder, "scripts"))
    shutil.copy(os.path.join(TOP, "scripts", "rename"), os.path.join(folder, "scripts"))
    for name, text in FILES.items():
        os.makedirs(os.path.dirname(os.path.join(folder, name)), exist_ok=True)
        with open(os.path.join(folder, name), "w", encoding="utf-8") as file:
            file.write(text)
    for words in (["init", "-q"], ["add", "-A"]):
        subprocess.run(["git", "-C", folder, *words], check=True)
    same("a name that is taken", rename(folder, "Told", "FaultTold", "crates/low")[0], 1)
    same("no name", rename(folder, "Told", "a-b")[0], 2)
    same("nothing has changed", held(folder), FILES)
    same("renamed", rename(folder, "Told", "Reply", "crates"), (0, "7 places, 1 files moved\n", ""))
    same("documents", rename(folder, "Told", "Answer", "docs"), (0, "1 places, 0 files moved\n", ""))
    same(
        "what it came to",
        held(folder),
        {
            "crates/low/src/told.rt": "pub enum Reply { Reply(FaultTold) } // told\n",
            "crates/low/proofs/told/Reply/Answers.antt": "use Rattle.low.specs.Reply.{Reply, told}\n",
            "crates/low/mutants/told.edit": "file: src/told.rt\nold: Reply(FaultTold)\nnew: Reply(())\n",
            "crates/low/mutants/refused": "Told\n",
            "crates/high/src/lib.rt": "use low::Reply;\n",
            "docs/NAMES.md": "Told so, `Answer` is an enum, and `Reply` not.\n",
        },
    )


sys.exit(try_each([is_renamed], "renames: 0 differ", "renames: {} differ"))
