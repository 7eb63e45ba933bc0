#!/usr/bin/env python3
"""Holds docs/index and the tables of docs/ARCHITECTURE.md to the sources.

usage: tests/index.py            checks, and says what is not as the sources have it
       tests/index.py --write    writes docs/index, and the columns "Stands on" of docs/ARCHITECTURE.md

docs/index has a page for each layer of docs/ARCHITECTURE.md: each public call of its crates, the first sentence of its
comment, and its clauses. A clause has a name, or else its text, or the definitions that it cites where that is long.
A call without a clause has to be named in docs/OPEN.md, and a function that this page names has to be there.
The last line is 'N passed, M failed'.
"""
import pathlib
import re
import sys

ROOT = pathlib.Path(__file__).resolve().parent.parent
PAGE = ROOT / "docs" / "ARCHITECTURE.md"
OPEN = ROOT / "docs" / "OPEN.md"
FOLDER = ROOT / "docs" / "index"
LAYER = re.compile(r"^### ([^:\n]*): ([^\n]*)\n(.*?)(?=^##)", re.M | re.S)
ROW = re.compile(r"^\| `(sc_\w+)` \|([^|]*)\|([^|]*)\|$", re.M)
LEFT_OUT = ("Tools", "Tests")
LONG = 70


def stands_on():
    """What each crate stands on, by crates.txt."""
    lines = (ROOT / "crates.txt").read_text().splitlines()
    pairs = [it.split("#")[0].split(":") for it in lines if ":" in it.split("#")[0]]
    return {name.split()[0]: below.split() for name, below in pairs}


def reached(name, below):
    found, todo = set(), list(below.get(name, ()))
    while todo:
        it = todo.pop()
        if it not in found:
            found.add(it)
            todo += below.get(it, ())
    return found


def column(name, below):
    """What the crate stands on, without what follows from the others; the kit's crates last."""
    own = [it for it in below[name] if it in below]
    kit = [it for it in below[name] if it not in below]
    direct = [it for it in own if not any(it in reached(other, below) for other in own if other != it)]
    return ", ".join([f"`{it}`" for it in direct] + [f"the kit's `{it}`" for it in kit])


def with_columns(text, below):
    return ROW.sub(lambda row: f"| `{row[1]}` | {column(row[1], below)} |{row[3]}|".replace("|  |", "| |"), text)


def out_of_order(text, below):
    """The crates that stand on one that the tables have later."""
    place = {name: at for at, (name, _, _) in enumerate(ROW.findall(text))}
    return [(name, other) for name in place for other in below[name] if place.get(other, -1) > place[name]]


class Source:
    """A file of code, by its lines."""

    def __init__(self, file):
        self.lines = file.read_text().split("\n")
        cited = re.findall(r"ghost use Rattle\.(?!std)[\w.◌]*\.\{([^}]*)\}", "\n".join(self.lines))
        self.definitions = {it.split(" as ")[-1].strip() for group in cited for it in group.split(",")}

    def comment(self, at):
        """The first sentence of the comment above a line."""
        said = []
        while at > 0 and self.lines[at - 1].lstrip().startswith(("///", "#[")):
            at -= 1
            if self.lines[at].lstrip().startswith("///"):
                said.insert(0, self.lines[at].strip()[3:].strip())
        text = re.split(r"\.(?: |$)", " ".join(said), maxsplit=1)[0]
        return text.replace("|", "\\|")

    def clauses(self, at):
        """The clauses of the function that begins on a line: what it asks, what it ensures."""
        asked, ensured, said, indent = [], [], None, self.lines[at][:len(self.lines[at]) - len(self.lines[at].lstrip())]
        for line in self.lines[at:]:
            begun = re.match(r"\s*(requires|ensures)\*?\s*(\w*)\s*\{(.*)", line)
            if begun:
                said = [begun[2], begun[3]]
                (asked if begun[1] == "requires" else ensured).append(said)
            elif line.rstrip() == indent + "{" or line.rstrip().endswith(("{}", ") {", "{ .. }")) or not line.strip() and not said:
                break
            elif said and line.strip() and not line.lstrip().startswith("//"):
                said[1] += " " + line.strip()
            if line.rstrip().endswith(";") and not line.lstrip().startswith("//"):
                break
            if said is None and line.rstrip().endswith(" {"):
                break
        return [self.named(it) for it in asked], [self.named(it) for it in ensured]

    def named(self, clause):
        name, text = clause
        if name:
            return name
        text = " ".join(text.rstrip(";{ ").rsplit("}", 1)[0].split())
        if len(text) <= LONG:
            return "`" + text.replace("|", "\\|") + "`"
        cited = [it for it in dict.fromkeys(re.findall(r"[\w]+", text)) if it in self.definitions]
        return "by " + ", ".join(f"`{it}`" for it in cited) if cited else "`" + text[:LONG].replace("|", "\\|") + " ..`"


def calls(crate):
    """The public calls of a crate: name, first sentence, what is asked, what is ensured."""
    lib = (ROOT / "crates" / crate / "src" / "lib.rt").read_text()
    exported = set(re.findall(r"\w+", " ".join(re.findall(r"pub use ([^;]*);", lib, re.S))))
    for file in sorted((ROOT / "crates" / crate / "src").rglob("*.rt")):
        source, owner, is_trait = Source(file), None, False
        for at, line in enumerate(source.lines):
            of = re.match(r"(?:pub )?(impl|trait)\b(?:<[^{]*?>)? ?(?:(\w+)(?:<.*?>)? for )?(\w+)", line)
            if of:
                owner, is_trait = of[3], of[1] == "trait"
            if line == "}":
                owner = None
            fun = re.match(r"(\s*)(pub )?fn (\w+)", line)
            if not fun or not (fun[2] or is_trait and fun[1]):
                continue
            inside = owner if fun[1] else None
            if file.name != "lib.rt" and (inside or fun[3]) not in exported:
                continue
            yield (f"{inside}::{fun[3]}" if inside else fun[3], source.comment(at), *source.clauses(at))


def said(asked, ensured):
    parts = ["asks " + ", ".join(asked)] if asked else []
    return "; ".join(parts + [", ".join(ensured) if ensured else "none"])


def section(crate):
    """What a page says of a crate."""
    lib = ROOT / "crates" / crate / "src" / "lib.rt"
    if not lib.is_file():
        return [f"## {crate}", "", "A program: it has no public calls.", ""]
    head = " ".join(re.findall(r"^//! (.*)", lib.read_text(), re.M))
    rows = [f"| `{name}` | {about} | {said(asked, ensured)} |" for name, about, asked, ensured in calls(crate)]
    table = ["| Call | It does | Clauses |", "|---|---|---|", *rows, ""]
    return [f"## {crate}", "", head, "", *(table if rows else ["It has no public calls.", ""])]


def pages(text):
    """The pages of docs/index, by name."""
    made = {}
    for title, about, body in LAYER.findall(text):
        if title in LEFT_OUT:
            continue
        layer = title.split()[-1].upper()
        lines = [f"# {title}: public calls", "", f"{about[0].upper()}{about[1:]}. [ARCHITECTURE](../ARCHITECTURE.md) has the layers.",
                 "Written by `tests/index.py --write` from the sources. A clause without a name stands with its text, or with the "
                 "definitions that it cites (`by`).", ""]
        for crate, _, _ in ROW.findall(body):
            lines += section(crate)
        made[layer + ".md"] = "\n".join(lines)
    return made


def without_clause(text):
    """The calls of docs/index that ensure nothing."""
    crates = [name for title, _, body in LAYER.findall(text) if title not in LEFT_OUT for name, _, _ in ROW.findall(body)]
    crates = [it for it in crates if (ROOT / "crates" / it / "src" / "lib.rt").is_file()]
    return [name for crate in crates for name, _, _, ensured in calls(crate) if not ensured]


def gone():
    """The functions that docs/OPEN.md names in the rows of a crate, and that are in none of its crates any more."""
    for crates, functions in re.findall(r"^\| (`sc_\w+`[^|]*) \| ([^|]*) \|", OPEN.read_text(), re.M):
        folders = [ROOT / "crates" / it / "src" for it in re.findall(r"`(sc_\w+)`", crates)]
        text = "".join(file.read_text() for folder in folders for file in folder.rglob("*.rt"))
        for name in re.findall(r"(?<!of )`(\w+)`", functions):
            if not re.search(rf"\bfn {name}\b", text):
                yield f"{name} of {crates}"


def faults(text, below):
    wrong = [f"docs/index/{name} is not as the sources have it" for name, page in pages(text).items()
             if not (FOLDER / name).is_file() or (FOLDER / name).read_text() != page]
    wrong += [f"docs/index/{it.name} is of no layer" for it in FOLDER.glob("*") if it.name not in pages(text)]
    wrong += [f"docs/ARCHITECTURE.md: {name} stands on {column(name, below)}" for name, told, _ in ROW.findall(text)
              if told.strip() != column(name, below)]
    wrong += [f"docs/OPEN.md: {name} has no clause, and is not named" for name in without_clause(text)
              if f"`{name}`" not in OPEN.read_text()]
    wrong += [f"docs/OPEN.md: there is no {it}" for it in gone()]
    known = [name for name, _, _ in ROW.findall(text)]
    wrong += [f"docs/ARCHITECTURE.md: {name} stands there {known.count(name)} times" for name in below if known.count(name) != 1]
    wrong += [f"docs/ARCHITECTURE.md: there is no {name}" for name in known if name not in below]
    wrong += [f"docs/ARCHITECTURE.md: {name} stands above {other}, on which it stands" for name, other in out_of_order(text, below)
              if f"`{name}` stands on `{other}`" not in text]
    return wrong


def main():
    text, below = PAGE.read_text(), stands_on()
    if sys.argv[1:] == ["--write"]:
        PAGE.write_text(with_columns(text, below))
        FOLDER.mkdir(exist_ok=True)
        for name, page in pages(text).items():
            (FOLDER / name).write_text(page)
        return 0
    if sys.argv[1:]:
        sys.exit(__doc__)
    wrong = faults(text, below)
    for it in wrong:
        print(it)
    print(f"{0 if wrong else 1} passed, {len(wrong)} failed")
    return 1 if wrong else 0


if __name__ == "__main__":
    sys.exit(main())
