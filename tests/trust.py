#!/usr/bin/env python3
"""Holds docs/TRUST.md to the repository: each file of definitions is in its table once, and each law is named in it, with
whether the program stands on its crate.

usage: tests/trust.py            checks, and says what is missing
       tests/trust.py --tag      writes the first line of each file by the table, if the table has the file
       tests/trust.py --table    writes the table by the first lines of the files that have them

If any file of definitions begins with a line that says its kind, all have to, and as the table says.
The last line is 'N passed, M failed'.
"""
import pathlib
import re
import sys

ROOT = pathlib.Path(__file__).resolve().parent.parent
PAGE = ROOT / "docs" / "TRUST.md"
TAGS = {
    "yardstick": "-- Yardstick: to be compared with what it restates (docs/TRUST.md).",
    "machine": "-- Machine: the program once more; a theorem ties it to a yardstick (docs/TRUST.md).",
    "inside": "-- Inside: plumbing, a representation, an invariant or a promise beside the claim (docs/TRUST.md).",
}
ROW = re.compile(r"^\| `(sc_\w+)` \| ([^|]*) \| ([^|]*) \| ([^|]*) \|$", re.M)
LAW_ROW = re.compile(r"^\| `(\w+)` \| `(sc_\w+)` \| [^|]* \| (yes|no) \|$", re.M)
# A public function without parameters and without a body, which has a contract.
LAW = re.compile(r"^pub fn (\w+)\(\)(?:\n    ensures [^\n]*)+\n\{\n?\}", re.M)


def table():
    """The kind of each file that the page has, by crate and file, and what stands in it twice."""
    kinds, twice = {}, []
    text = PAGE.read_text().partition("\n## Every file of definitions\n")[2]
    for crate, *columns in ROW.findall(text):
        for kind, column in zip(TAGS, columns):
            for name in [it.strip() for it in column.split(",") if it.strip() not in ("", "-")]:
                if (crate, name) in kinds:
                    twice.append(f"{crate}: {name} stands twice")
                kinds[crate, name] = kind
    return kinds, twice


def files():
    """The files of definitions, by crate and name; the lists of files apart."""
    found = {}
    for crate in sorted((ROOT / "crates").iterdir()):
        folder = crate / "specs"
        for file in sorted(folder.rglob("*.antt")):
            found[crate.name, str(file.relative_to(folder))[:-5]] = file
    return found


def kind_of(key, kinds):
    return "inside" if key[1] == "Lib" else kinds.get(key)


def laws():
    found = []
    for file in sorted((ROOT / "crates").glob("*/src/**/*.rt")):
        found += [(file.relative_to(ROOT).parts[1], name) for name in LAW.findall(file.read_text())]
    return found


def below_program():
    """The crates on which the program stands, and its own."""
    lines = [it.split("#")[0].split(":") for it in (ROOT / "crates.txt").read_text().splitlines() if ":" in it.split("#")[0]]
    below = {name.strip(): rest.split() for name, rest in lines}
    found, todo = set(), ["sc_cli"]
    while todo:
        name = todo.pop()
        if name in below and name not in found:
            found.add(name)
            todo += below[name]
    return found


def tagged(file):
    first = file.read_text().split("\n", 1)[0]
    return next((kind for kind, tag in TAGS.items() if first == tag), None)


def tag(kinds):
    for key, file in files().items():
        kind = kind_of(key, kinds)
        if kind is None or tagged(file) == kind:
            continue
        text = file.read_text()
        rest = text.split("\n", 1)[1] if tagged(file) else text
        file.write_text(TAGS[kind] + "\n" + rest)


def write_table(kinds):
    names = re.findall(r"^(sc_\w+)[^:\n]*:", (ROOT / "crates.txt").read_text(), re.M)
    rows = {name: {kind: [] for kind in TAGS} for name in names}
    for (crate, name), file in files().items():
        kind = tagged(file) or kind_of((crate, name), kinds)
        if kind and name != "Lib":
            rows[crate][kind].append(name)
    lines = [f"| `{name}` | " + " | ".join(", ".join(row[kind]) or "-" for kind in TAGS) + " |"
             for name, row in rows.items() if any(row.values())]
    text, mark, _ = PAGE.read_text().partition("| Crate | Yardstick | Machine | Inside |\n|---|---|---|---|\n")
    PAGE.write_text(text + mark + "\n".join(lines) + "\n")


def faults(kinds):
    found, told = files(), {key: tagged(file) for key, file in files().items()}
    wrong = [f"{crate}: {name} is in no column" for crate, name in found if kind_of((crate, name), kinds) is None]
    wrong += [f"{crate}: there is no {name}" for crate, name in kinds if (crate, name) not in found]
    if any(told.values()):
        wrong += [f"{crate}: the first line of {name} says {told[crate, name]}" for crate, name in found
                  if told[crate, name] != kind_of((crate, name), kinds)]
    told = {(crate, name): below for name, crate, below in LAW_ROW.findall(PAGE.read_text())}
    below = below_program()
    wrong += [f"{crate}: the law {name} is missing" for crate, name in laws() if (crate, name) not in told]
    wrong += [f"{crate}: of the law {name} it says '{said}' on whether it is below the program" for (crate, name), said in told.items()
              if said != ("yes" if crate in below else "no")]
    return wrong


def main():
    kinds, twice = table()
    if sys.argv[1:] == ["--tag"]:
        tag(kinds)
        return 0
    if sys.argv[1:] == ["--table"]:
        write_table(kinds)
        return 0
    if sys.argv[1:]:
        sys.exit(__doc__)
    wrong = twice + faults(kinds)
    for it in wrong:
        print(f"docs/TRUST.md: {it}")
    print(f"{len(files())} files of definitions, {len(laws())} laws")
    print(f"{0 if wrong else 1} passed, {len(wrong)} failed")
    return 1 if wrong else 0


if __name__ == "__main__":
    sys.exit(main())
