#!/usr/bin/env python3
"""Makes the completions of `boxoffice` for bash, zsh and fish, from its help.

usage: completions.py PROGRAM FOLDER

Writes the files bash, zsh and fish into FOLDER. The first word completes to a command, and an operand FILE to a
database, a file with .db at its end.
"""

from __future__ import annotations

import os
import re
import subprocess
import sys

BASH = """# bash completion of boxoffice
_boxoffice() {
    local current=${COMP_WORDS[COMP_CWORD]} shown=nothing
    case "${COMP_WORDS[1]} $((COMP_CWORD - 1))" in
    *' 0' | 'help 1') shown=names ;;
    @OTHERS@) ;;
    @FILES@) shown=files ;;
    esac
    case $shown in
    names) mapfile -t COMPREPLY < <(compgen -W '@NAMES@' -- "$current") ;;
    files)
        compopt -o filenames 2> /dev/null
        mapfile -t COMPREPLY < <(compgen -f -X '!*.db' -- "$current"; compgen -d -- "$current")
        ;;
    esac
}
complete -F _boxoffice boxoffice
"""
ZSH = """#compdef boxoffice
local -a commands
commands=(
@DESCRIBED@
)
case "$words[2] $((CURRENT - 2))" in
  (*' 0'|'help 1') _describe command commands ;;
  (@OTHERS@) ;;
  (@FILES@) _files -g '*.db' ;;
esac
"""
Commands = dict[str, tuple[str, list[str]]]


def helped(program: str, *words: str) -> str:
    done = subprocess.run([program, "help", *words], capture_output=True, text=True, check=False)
    return done.stdout + done.stderr


def commands(program: str) -> Commands:
    """Each command, with what it does and its operands."""
    listed, found = helped(program).partition("\nCommands:\n")[2].partition("\n\n")[0], Commands()
    for name, what in re.findall(r"^  (\S+) +(.+)$", listed, re.MULTILINE):
        text = "" if name == "help" else helped(program, name)
        use = re.search(rf"^Usage: \S+ {name}\b(?: \[OPTIONS\])?(.*)$", text, re.MULTILINE)
        found[name] = what, re.sub("[<>]", "", use[1]).split() if use else []
    if "open" not in found or found["open"][1] != ["PORT", "FILE"]:
        sys.exit(f"completions.py: the help of {program} is not understood")
    return found


def places(found: Commands) -> dict[str, str]:
    """Patterns of a command and the place of an operand: what is a file, and what before a list of files is not."""
    files, others = list[str](), list[str]()
    for name, (_, operands) in found.items():
        for at, operand in enumerate(operands, 1):
            if operand == "FILE...":
                files.append(f"'{name} '*")
                others += [f"'{name} {before}'" for before in range(1, at)]
            elif operand == "FILE":
                files.append(f"'{name} {at}'")
    return {"FILES": " | ".join(files), "OTHERS": " | ".join(others) or "''"}


def quoted(text: str) -> str:
    return text.replace("\\", "\\\\").replace("'", "'\\''")


def fish(found: Commands) -> str:
    lines = ["complete -c boxoffice -f"]
    for name, (what, operands) in found.items():
        what = what.replace("\\", "\\\\").replace("'", "\\'")
        lines.append(f"complete -c boxoffice -n __fish_use_subcommand -a {name} -d '{what}'")
        for at, operand in enumerate(operands, 1):
            if operand.startswith("FILE"):
                how = "-ge" if operand == "FILE..." else "-eq"
                here = f"__fish_seen_subcommand_from {name}; and test (count (commandline -opc)) {how} {at + 1}"
                lines.append(f"complete -c boxoffice -n '{here}' -k -a '(__fish_complete_suffix .db)'")
    names = " ".join(name for name in found if name != "help")
    lines.append(f"complete -c boxoffice -n '__fish_seen_subcommand_from help' -a '{names}'")
    return "\n".join(lines) + "\n"


def main(program: str, folder: str) -> None:
    found = commands(program)
    described = "\n".join(f"  '{name}:{quoted(what)}'" for name, (what, _) in found.items())
    words = {**places(found), "NAMES": " ".join(found), "DESCRIBED": described}
    texts = {"fish": fish(found)}
    for shell, text in (("bash", BASH), ("zsh", ZSH)):
        texts[shell] = re.sub("@([A-Z]+)@", lambda mark: words[mark[1]], text)
    for shell, text in texts.items():
        with open(os.path.join(folder, shell), "w", encoding="utf-8") as file:
            file.write(text)


if __name__ == "__main__":
    if len(sys.argv) != 3:
        sys.exit((__doc__ or "").split("\n\n")[1])
    main(*sys.argv[1:])
