#!/usr/bin/env python3
"""Counts the definitions that a reader of the claim has to believe: those that the contract of `saber` names, those
that they name, and so on.

usage: tests/believed.py            compares the counts of docs/TRUST.md and docs/CLAIM.md with the sources: each has to be
                                    right to a twentieth
       tests/believed.py --write    writes them

It goes by names, so a figure may be a few lines off. Lines are those without comments, imports and blanks. The kinds
are those of the first lines of the files. What rustc's types give (`declared`) is not counted.
The last line is 'N passed, M failed'.
"""
import pathlib
import re
import sys

from index import LAYER, PAGE as LAYERS, ROW
from trust import below_program

ROOT = pathlib.Path(__file__).resolve().parent.parent
ORIGINALS = {
    "Edge": "[COMMANDS](COMMANDS.md): words, answers; the traits of the outside",
    "Language, text": "ANSI 2.1.1.2, 3.1, 3.8",
    "Language, grammar": "ANSI 3.3 to 3.7; half of it says why a text is refused",
    "Typed tree": "what a checked module is and keeps",
    "Language, types": "ANSI 3.1.2, 3.2 to 3.7",
    "Meaning": "ANSI 2.1.2.3, 3.3, 3.6, 4; the rules of [VIOLATIONS](VIOLATIONS.md)",
    "Memory": "the same tests by addresses",
    "Interpreter": "nothing: steps that theorems tie to the meaning",
    "Compiler": "the RISC-V manual, ELF32; the generator with nothing yet",
    "Session": "[COMMANDS](COMMANDS.md); runs of both forms with the meaning, from premises",
}
KINDS = ("Yardstick", "Machine", "Inside")
MARKS = ("<!-- tests/believed.py: begin -->\n", "<!-- tests/believed.py: end -->")
LEADING = {"abbrev", "pub", "record", "data", "unfoldable", "pattern", "axiom", "module", "rewrite", "private"}
IMPORT = re.compile(r"^(?:pub |ghost )*use Rattle\.(sc_\w+)\.specs\.([\w.]+?)(?:\.\{([^}]*)\}| as (\S+?))?;?$", re.M)
WORD = re.compile(r"[^\s(){}\[\],;λ→:=\"]+")


def imported(text):
    """The names and the aliases of files that a text brings in: name to (crate, file, name there), alias to (crate, file)."""
    names, files = {}, {}
    for crate, path, group, alias in IMPORT.findall(text):
        if path.split(".")[0] in ("declared", "contracts"):
            continue
        file = path.replace(".", "/")
        if group:
            for item in group.split(","):
                there, _, here = item.strip().partition(" as ")
                names[here.strip() or there] = (crate, file, there)
        else:
            files[alias or path.split(".")[-1]] = (crate, file)
    return names, files


class Definitions:
    """A file of definitions: each by its name, with its lines."""

    def __init__(self, path):
        text = path.read_text()
        self.kind = next((it for it in KINDS if text.startswith(f"-- {it}:")), "Inside")
        self.names, self.files = imported(text)
        self.parts, last = {}, None
        for line in text.split("\n"):
            if not line.strip() or line.lstrip().startswith("--") or re.match(r"(pub )?use ", line):
                continue
            if not line.startswith(" "):
                words = [it for it in line.split() if it not in LEADING]
                name = words[0] if words else ""
                is_new = any(line.startswith(it + " ") for it in LEADING) or re.match(r"\S+ .*?: ", line) or re.match(r"\S+ :$", line)
                last = name if name in self.parts or is_new or last is None else last
            self.parts.setdefault(last, []).append(line)

    def lines(self):
        return sum(map(len, self.parts.values()))


def all_files():
    found = {}
    for path in sorted((ROOT / "crates").glob("*/specs/**/*.antt")):
        folder = next(it for it in path.parents if it.name == "specs")
        found[folder.parent.name, str(path.relative_to(folder))[:-5]] = Definitions(path)
    return found


def named(text, names, files, own, key):
    """The definitions that a text names."""
    for word in WORD.findall(text):
        first, _, rest = word.partition(".")
        if word in own:
            yield (*key, word)
        elif first in own:
            yield (*key, first)
        elif word in names or first in names:
            yield names.get(word) or names[first]
        elif first in files and rest:
            yield (*files[first], rest.split(".")[0])


def roots():
    """What the contract of `saber` names."""
    text = (ROOT / "crates" / "sc_top" / "src" / "lib.rt").read_text()
    contract = text[text.index("\npub fn saber<"):]
    contract = contract[:contract.index("\n{\n")]
    names, files = imported(text)
    return set(named(contract, names, files, {}, None))


def reached(files):
    found, todo = set(), list(roots())
    while todo:
        crate, file, name = it = todo.pop()
        if it in found or (crate, file) not in files or name not in files[crate, file].parts:
            continue
        found.add(it)
        here = files[crate, file]
        todo += named("\n".join(here.parts[name]), here.names, here.files, here.parts, (crate, file))
    return found


def kinds(files, got):
    """The rows of docs/TRUST.md: for each kind the files below the program with their lines, and what the contract reaches."""
    below, rows = below_program(), []
    for kind in KINDS:
        mine = [it for key, it in files.items() if it.kind == kind and key[0] in below]
        hit = [it for it in got if files[it[:2]].kind == kind]
        rows.append((kind, len(mine), sum(it.lines() for it in mine), len(hit), size(files, hit)))
    return [*rows, ("all", *(sum(row[at] for row in rows) for at in range(1, 5)))]


def size(files, got):
    return sum(len(files[it[:2]].parts[it[2]]) for it in got)


def table(head, rows):
    lines = ["| " + " | ".join(head) + " |", "|" + "---|" * len(head)]
    lines += ["| " + " | ".join(f"{it:,}" if isinstance(it, int) else it for it in row) + " |" for row in rows]
    return "\n".join(lines) + "\n"


def blocks():
    """What stands between the marks of each page."""
    files = all_files()
    got = reached(files)
    head = ("Kind", "Files below the program", "Lines", "Definitions that the contract of `saber` reaches", "Lines")
    crates = f"\nThe definitions that are reached stand in {len({it[0] for it in got})} crates.\n"
    layers = [(title, {name for name, _, _ in ROW.findall(body)}) for title, _, body in LAYER.findall(LAYERS.read_text())]
    rows = [(title, size(files, [it for it in got if it[0] in names]), ORIGINALS[title]) for title, names in layers if title in ORIGINALS]
    return {"TRUST.md": table(head, kinds(files, got)) + crates, "CLAIM.md": table(("Layer", "Lines", "Compare with"), rows)}


def numbers(text):
    return [int(it.replace(",", "")) for it in re.findall(r"(?<=\| )\d[\d,]*(?= \|)|(?<=in )\d+", text)]


def agree(now, then):
    return len(now) == len(then) and all(abs(a - b) * 20 <= max(a, b) for a, b in zip(now, then))


def main():
    if sys.argv[1:] not in ([], ["--write"]):
        sys.exit(__doc__)
    wrong = 0
    for name, block in blocks().items():
        page = ROOT / "docs" / name
        before, _, rest = page.read_text().partition(MARKS[0])
        told, _, after = rest.partition(MARKS[1])
        if sys.argv[1:]:
            page.write_text(before + MARKS[0] + block + MARKS[1] + after)
            continue
        print(block, end="")
        if not agree(numbers(block), numbers(told)):
            print(f"docs/{name} has other counts: tests/believed.py --write")
            wrong += 1
    if not sys.argv[1:]:
        print(f"{2 - wrong} passed, {wrong} failed")
    return wrong


if __name__ == "__main__":
    sys.exit(main())
