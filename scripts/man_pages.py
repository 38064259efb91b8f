#!/usr/bin/env python3
"""Makes the man pages of the package, from what the program, the scripts and the documents say already.

usage: man_pages.py PROGRAM FOLDER

Writes NAME.1 into FOLDER for each program of the package. `boxoffice` has the first words of its help, the first of
README, and sections of the manual; a script has its own first text, and sections of its page. The date is
SOURCE_DATE_EPOCH, where that is set.
"""

from __future__ import annotations

import ast
import os
import re
import subprocess
import sys
import time
from collections.abc import Iterator

TOP = os.path.dirname(os.path.dirname(os.path.abspath(__file__)))
MANUAL, EXCHANGE, DOCUMENTS = "docs/MANUAL.md", "exchange/README.md", "/usr/share/doc/boxoffice"
SECTIONS = [
    "Commands",
    "Words",
    "Requests and their numbers",
    "Events and rights",
    "An office that stays open",
    "Every word that is printed",
]
# Each script: where it is, and the sections of the page that its man page has too.
SCRIPTS: dict[str, tuple[str, str, list[str]]] = {
    "boxoffice-exchange-folder": (
        "exchange/folder/boxoffice-exchange",
        EXCHANGE,
        ["A folder", "What they send", "What they say"],
    ),
    "boxoffice-exchange-mqtt": (
        "exchange/mqtt/boxoffice-exchange",
        "exchange/mqtt/README.md",
        ["Two machines", "A third", "What it says", "Who may say what", "Limits"],
    ),
    "boxoffice-exchange-ssh": (
        "exchange/ssh/boxoffice-exchange",
        EXCHANGE,
        ["ssh", "What they send", "What they say"],
    ),
    "boxoffice-answer": ("exchange/ssh/boxoffice-answer", EXCHANGE, ["ssh"]),
    "boxoffice-succeed": ("exchange/succeed", EXCHANGE, ["A successor"]),
    "boxoffice-balance": ("exchange/balance", "docs/BALANCE.md", []),
    "boxoffice-web": (
        "clients/web/boxoffice-web",
        "clients/web/README.md",
        ["Set it up", "What a clerk sees", "Holds"],
    ),
}
# What the repository's texts call a thing, and what it is called where the package is installed.
INSTALLED = [
    (r"/usr/local/bin/", "/usr/bin/"),
    (r"/usr/local/lib/boxoffice/", "/usr/lib/boxoffice/"),
    (r"(?<![/\w])(?:exchange/)?(folder|mqtt|ssh)/boxoffice-exchange\b", r"boxoffice-exchange-\1"),
    (r"(?<![/\w])(?:exchange/)?succeed(?= (?:OLD|north|--))", "boxoffice-succeed"),
    (r"(?<![/\w])clients/web/boxoffice-web\b", "boxoffice-web"),
    (r"(?<![/\w])exchange/balance\b", "boxoffice-balance"),
    (r"(?<![/\w])examples/(?=\w+\.(?:py|sql))", DOCUMENTS + "/examples/"),
]


def read(name: str) -> str:
    with open(os.path.join(TOP, name), encoding="utf-8") as text:
        return text.read()


def installed(text: str) -> str:
    for pattern, name in INSTALLED:
        text = re.sub(pattern, name, text)
    return text


def plain(text: str) -> str:
    """Text that has no meaning to roff."""
    return re.sub(r"^([.'])", r"\\&\1", text.replace("\\", "\\e"), flags=re.MULTILINE)


def marked(text: str) -> str:
    """A text with its marks: code and what is strong are bold, links are their text."""
    done = []
    for at, part in enumerate(re.split(r"`([^`]*)`", text)):
        if at % 2:
            done.append("\\fB" + plain(part).replace("-", "\\-") + "\\fR")
            continue
        part = re.sub(r"\[([^\]]*)\]\([^)]*\)", r"\1", plain(part))
        part = re.sub(r"\*\*([^*]+)\*\*", r"\\fB\1\\fR", part)
        done.append(re.sub(r"(?<![\w*])\*([^*\s][^*]*)\*", r"\\fI\1\\fR", part).replace("**", ""))
    return re.sub(r"^(?=[.'])", r"\\&", "".join(done))


def code(lines: list[str]) -> list[str]:
    return [".PP", ".RS 4", ".nf", *(plain(line).replace("-", "\\-") or "\\&" for line in lines), ".fi", ".RE"]


def cells(line: str) -> list[str]:
    return [cell.strip().replace("\\|", "|") for cell in re.split(r"(?<!\\)\|", line.strip()[1:-1])]


def table(lines: list[str]) -> list[str]:
    """A list of terms: the first column, and what the others say of it, under their heads if there are several."""
    heads, done, term = cells(lines[0]), list[str](), ""
    for line in lines[2:]:
        first, *rest = cells(line)
        term = first or term
        says = [(head, cell) for head, cell in zip(heads[1:], rest) if cell]
        is_bare = len(heads) == 2
        texts = [("" if is_bare or head == "Does" else f"\\fI{head}:\\fR ") + marked(cell) for head, cell in says]
        texts = texts if is_bare else [text + "." for text in texts]
        done += [".TP", marked(term), *(texts or ["\\&"])]
    return [".SH EXIT STATUS", *done] if heads[0] == "Status" else done


def blocks(lines: list[str]) -> Iterator[tuple[str, list[str]]]:
    """The lines of a document, put together: code, tables, and all others by themselves."""
    kind, block, is_item = "", list[str](), False
    for line in [*lines, ""]:
        is_item = bool(re.match(r"(?:- |\d+\. )", line)) or (is_item and line[:1] in ("", " "))
        here = "code" if line.startswith(" " * (8 if is_item else 4)) else "table" if line[:1] == "|" else "text"
        if not line.strip() and kind == "code":
            block.append("")
            continue
        if kind and kind != here:
            yield kind, block
            kind, block = "", []
        if here == "text" and line.strip():
            yield here, [line.strip()]
        elif here != "text":
            kind, block = here, [*block, line]


def paragraph(line: str) -> list[str]:
    if line.startswith(("![", "```", "<!--")):
        return []
    if line.startswith("#"):
        return [".SS " + marked(line.lstrip("# "))]
    if item := re.match(r"(- |\d+\.) *(.*)", line):
        return [".IP \\(bu 2" if item[1] == "- " else f".IP {item[1]} 4", marked(item[2])]
    return [".PP", marked(line)]


def roff(lines: list[str]) -> list[str]:
    """A document's lines for man."""
    done: list[str] = []
    for kind, block in blocks(lines):
        if kind == "code":
            while not block[-1].strip():
                block.pop()
            edge = min(len(line) - len(line.lstrip()) for line in block if line.strip())
            done += code([line[edge:] for line in block])
        else:
            done += table(block) if kind == "table" else paragraph(block[0])
    return done


def section(name: str, heading: str) -> list[str]:
    """The lines of a section of a document."""
    found = re.search(rf"^## {re.escape(heading)}\n(.*?)(?=^## |\Z)", read(name), re.MULTILINE | re.DOTALL)
    if not found:
        sys.exit(f"man_pages.py: {name} has no section {heading!r}")
    return installed(found[1]).split("\n")


def sections(name: str, headings: list[str]) -> list[str]:
    return [line for heading in headings for line in (f".SH {heading.upper()}", *roff(section(name, heading)))]


def page(name: str, version: str, what: str, synopsis: list[str], rest: list[str]) -> str:
    day = os.environ.get("SOURCE_DATE_EPOCH")
    date = time.strftime("%Y-%m-%d", time.gmtime(int(day))) if day else ""
    others = ",\n".join(f".BR {other} (1)" for other in ["boxoffice", *SCRIPTS] if other != name)
    top = [f'.TH {name.upper()} 1 "{date}" "boxoffice {version}" "User Commands"', ".SH NAME", f"{name} \\- {what}"]
    end = [".SH SEE ALSO", others.replace(",\n", " ,\n"), ".PP", f"The manual is {DOCUMENTS}/docs/MANUAL.md."]
    return "\n".join([*top, ".SH SYNOPSIS", *synopsis, *rest, *end]) + "\n"


def started(text: str) -> str:
    """The first sentence as a line under NAME has it."""
    first = re.split(r"[.:,](?:\s|$)", " ".join(text.split()))[0]
    return marked(first[0].lower() + first[1:])


def script_page(name: str, version: str) -> str:
    path, document, headings = SCRIPTS[name]
    said = ast.get_docstring(ast.parse(read(path))) or ""
    before, use, after = re.split(r"(?im)^(usage: (?:.+\n?)+)", said, maxsplit=1)
    called = re.sub(rf"\b{os.path.basename(path)}\b", name, use.strip()[len("usage: ") :])
    use_lines = called.replace("\n       ", "\n").split("\n")
    # (lines of a paragraph are one, those of code and of columns stay)
    texts: list[str] = []
    for text in installed(after).strip().split("\n\n"):
        is_kept = text.startswith("    ") or re.match(r"\d\. .*\S {3,}\S", text)
        texts += ["    " + line.strip() for line in text.split("\n")] if is_kept else [" ".join(text.split())]
        texts.append("")
    about = [".SH DESCRIPTION", ".PP", marked(" ".join(installed(before).split())), *roff(texts)]
    return page(name, version, started(before), code(use_lines)[2:-1], about + sections(document, headings))


def program_page(program: str, version: str) -> str:
    told = subprocess.run([program, "help"], capture_output=True, text=True, check=False)
    what = (told.stdout + told.stderr).split("\n")[0]
    first = next(line for line in read("README.md").split("\n") if line and line[0] not in "#!")
    about = [".SH DESCRIPTION", *paragraph(first)]
    synopsis = [".B boxoffice", ".I COMMAND", ".RI [ ARGUMENT \" ...]\""]
    return page("boxoffice", version, started(what), synopsis, about + sections(MANUAL, SECTIONS))


def main(program: str, folder: str) -> None:
    told = subprocess.run([program, "version"], capture_output=True, text=True, check=True).stdout
    version = told.split("\n")[0].removeprefix("boxoffice ")
    pages = {"boxoffice": program_page(program, version)}
    pages |= {name: script_page(name, version) for name in SCRIPTS}
    for name, text in pages.items():
        with open(os.path.join(folder, f"{name}.1"), "w", encoding="utf-8") as file:
            file.write(text)


if __name__ == "__main__":
    if len(sys.argv) != 3:
        sys.exit((__doc__ or "").split("\n\n")[1])
    main(*sys.argv[1:])
