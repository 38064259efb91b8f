"""Receipts: for each mutant that the prover refused, a sum of what that rests on, in crates/NAME/mutants/refused.

The sum covers the toolchain, the mutant's text, the functions that it changes, and what their proofs may read: the
contracts of functions that they name, types and traits with their ghost members, and modules of specs/, each with all
that it names in turn, in its crate and in those below. A name stands for everything of that name, so the sum covers
too much and not too little. It covers neither bodies of other functions nor proofs nor comments: a body that does not
meet its contract meets it by no proof. A mutant that changes more than bodies rests on all of its crate's src/ and
specs/, and on the contracts below.
"""

import collections
import hashlib
import os
import pathlib
import re
import subprocess
from collections.abc import Iterable, Sequence
from typing import Any, Protocol

# What the toolchain's modules have, which are loaded as they run: a crate, its source, and a function of that.
Crate = Any
Source = Any
Function = Any
# A token of a source: its place, and of what kind its word is.
Row = tuple[Any, int, Any, str, str]
# Raised when `mutants` decides otherwise what is refused.
RULES = 1
ITEMS = ("struct", "enum", "union", "impl", "trait", "type", "const", "static", "macro_rules", "mod")
WORD = re.compile(r"[^\s(){}\[\],;:.]+")


def sum_of(it: object) -> str:
    return hashlib.sha256(repr(it).encode()).hexdigest()


def words_in(texts: Iterable[str]) -> set[str]:
    return {it for text in texts for it in WORD.findall(text)}


def imported(words: list[str]) -> dict[str, str]:
    """Returns the modules of specs/ that uses among antt's words name, by the names under which they are used."""
    found: dict[str, str] = {}
    at = 0
    while at < len(words):
        if words[at] != "use":
            at += 1
            continue
        path, at = words[at + 1], at + 2
        if words[at : at + 2] == [".", "{"]:
            end = words.index("}", at)
            names = " ".join(words[at + 2 : end]).split(" , ")
            found.update({it.split(" as ")[-1].strip(): path for it in names})
            at = end + 1
        elif words[at : at + 1] == ["as"]:
            found[words[at + 1]] = path
        else:
            found[path.rpartition(".")[2]] = path
    return found


class Mutant(Protocol):
    """An edit of a crate: its file, its name, its text, and the functions whose bodies hold it."""

    path: str
    label: str
    text: str
    functions: list[Function]


class Part:
    """A piece of text that a proof may read: its sum, the modules that it names, and its words."""

    function: Function

    def __init__(self, texts: list[str], imports: dict[str, str]) -> None:
        self.words = words_in(texts)
        self.sum, self.modules = sum_of(texts), {imports[it] for it in self.words if it in imports}


class Texts:
    """What a crate says, without bodies: heads of functions and types by their names, modules of specs/ by paths."""

    def __init__(self, name: str, source: Source) -> None:
        self.source, self.rows = source, {file: source.tokens(file)[0] for file in source.data}
        self.heads: dict[str, list[Part]] = collections.defaultdict(list)
        self.types: dict[str, list[Part]] = collections.defaultdict(list)
        self.modules: dict[str, tuple[str, list[str]]] = {}
        self.imports: dict[str, dict[str, str]] = {}
        for file, rows in self.rows.items():
            self.read(file, rows)
        for at, _, names in os.walk(f"{source.folder}/specs"):
            for it in names:
                path = os.path.relpath(f"{at}/{it}", source.folder)
                words = [row[4] for row in source.tokens(path)[0]]
                module = f"{name}.{path.removesuffix('.antt').replace('/', '.')}"
                self.modules[module] = sum_of(words), sorted({*imported(words).values()})
        specs, parts = sum_of(sorted(self.modules.items())), [*self.heads.values(), *self.types.values()]
        self.all = sum_of(sorted((file, [it[4] for it in rows]) for file, rows in self.rows.items())), specs
        self.shown = specs, sum_of(sorted(it.sum for some in parts for it in some))

    def read(self, file: str, rows: list[Row]) -> None:
        uses = [it[4] for it in rows if it[3] in ("Antt", "Head")]
        imports, own = imported(uses), [f for f in self.source.functions if f.file == file]
        self.imports[file] = imports
        for f in own:
            part = Part([it[4] for it in rows if f.first <= it[1] < (f.opens if f.has_body else f.end)], imports)
            part.function = f
            self.heads[f.name].append(part)
        rest = [it for it in rows if not any(f.first <= it[1] < f.end for f in own)]
        depth, items = 0, []
        item: list[str] | None = None
        for _, _, _, kind, word in rest:
            if not depth and kind == "Code" and word in ITEMS:
                item = []
                items.append(item)
            elif not depth and word in ("use", "ghost"):
                item = None
            depth += (kind == "Code") * ((word in "{([") - (word in "})]"))
            if item is not None:
                item.append(word)
        for words in items:
            head = words[: words.index("{")] if "{" in words else words
            for it in {it for it in head if it[:1].isupper()}:
                self.types[it].append(Part(words, imports))

    def of_function(self, f: Function) -> Part:
        return Part([it[4] for it in self.rows[f.file] if f.first <= it[1] < f.end], self.imports[f.file])


def rests_on(texts: Texts, below: list[Texts], functions: list[Function]) -> list[str]:
    """Returns the sums of all that the functions' proofs may read."""
    every, own = [texts, *below], [texts.of_function(f) for f in functions]
    sums: set[object] = set()
    parts, names = [*own], [("type", it) for f in functions if f.block for it in [*f.block.ty, *f.block.trait]]
    for f in functions:
        for word in {f.name}.union(*(it.words for it in own)):
            for one in every:
                seen = [p for p in one.heads.get(word, ()) if one is texts or p.function.is_pub or p.function.in_trait]
                parts += seen
    done: set[tuple[str, str]] = set()
    while parts or names:
        if parts:
            part = parts.pop()
            sums.add(part.sum)
            names += [("module", path) for path in part.modules] + [("type", word) for word in part.words]
            continue
        kind, name = names.pop()
        if (kind, name) in done or kind == "type" and not name[:1].isupper():
            continue
        done.add((kind, name))
        if kind == "type":
            parts += [part for one in every for part in one.types.get(name, ())]
            continue
        path = name.removeprefix("Rattle.")
        if ".specs.declared." in path:
            names += [("type", word) for word in path.split(".")]
        for one in every:
            for module in (path, path.rpartition(".")[0]):
                if module in one.modules:
                    sums.add((module, one.modules[module][0]))
                    names += [("module", use) for use in one.modules[module][1]]
    return sorted(map(repr, sums))


def toolchain(kit: str) -> str:
    """Returns what names the toolchain, the same on each machine."""
    formats = [f"{kit}/rlibs/{it}/format" for it in sorted(os.listdir(f"{kit}/rlibs"))]
    return sum_of([pathlib.Path(it).read_bytes() for it in [f"{kit}/KIT-ID", *formats] if os.path.isfile(it)])


class Receipts:
    """The receipts of a crate's mutants."""

    def __init__(
        self, folder: str, crate: Crate, edits: Sequence[Mutant], texts: Texts, below: list[Texts], kit: str
    ) -> None:
        self.path, kind = f"{folder}/refused", (RULES, kit, crate.name, sorted(crate.of_kit))
        whole = texts.all, [it.shown for it in below]
        self.sums: dict[str, str] = {}
        for it in edits:
            rests = rests_on(texts, below, it.functions) if it.functions else whole
            self.sums[it.label] = sum_of((kind, it.text, rests))[:20]
        self.known: dict[str, str] = {}
        if os.path.isfile(self.path):
            with open(self.path, encoding="utf-8") as lines:
                # (what is no receipt, as after a merge, counts for nothing)
                self.known = {words[0]: words[1] for words in map(str.split, lines) if len(words) == 2}

    def has(self, edit: Mutant) -> bool:
        return self.known.get(os.path.basename(edit.path)) == self.sums[edit.label]

    def write(self, edits: Sequence[Mutant], refused: Sequence[Mutant], failed: list[str]) -> None:
        """Writes the receipts of these mutants: the new ones, and those that were there and still stand."""
        told = {
            os.path.basename(it.path): self.sums[it.label]
            for it in edits
            if it in refused or self.has(it) and it.label not in failed
        }
        text = "".join(f"{name} {sum}\n" for name, sum in sorted(told.items()))
        if told != self.known:
            with open(self.path, "w", encoding="utf-8") as out:
                out.write(text)


def drawn(crate: str, share: int, root: str) -> bool:
    """Returns whether a crate's mutants are tried in spite of their receipts: one crate in so many, others at each
    commit. (The first mutant of a crate costs as much as a dozen more, so crates are drawn, and not mutants.)"""
    head = subprocess.run(["git", "-C", root, "rev-parse", "HEAD"], capture_output=True, text=True).stdout
    return int(hashlib.sha256(f"{head}{crate}".encode()).hexdigest()[:8], 16) % share == 0
