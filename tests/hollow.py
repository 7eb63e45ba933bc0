#!/usr/bin/env python3
"""Makes a tree in which all crates below one are hollow, so that this one can be checked where nothing is built.

usage: tests/hollow.py CRATE FOLDER

Of the crates below, types, definitions, contracts and the statements of lemmas stay. Bodies become `unreachable!()`,
proofs of functions go, and lemmas become axioms. Then

    FOLDER/check FUNCTION        checks one function of the crate, by its path in it (a::b::f)
    FOLDER/check                 checks the whole crate

A function that calls a hollow one "depends on a hole in" it: that is no fault, and no verdict either. What else stays
open would stay open over the real crates too.
"""
import pathlib
import re
import shutil
import sys

ROOT = pathlib.Path(__file__).resolve().parent.parent
FUN = re.compile(r"^(\s*)(?:pub(?:\([a-z]+\))? )?(?:const |unsafe )*fn (\w+)")
ANSWER = """use Rattle.{}.Goals as goal

pub unreachable-requires : goal.unreachable-requires
unreachable-requires = ?
"""
OWNER = re.compile(r"^(?:pub )?(impl|trait)\b(?:<.*?>(?= ))? ?(?:(\w+)(?:<.*>)? for )?&?(\w+)")
OF_TRAIT = re.compile(r"\b\w+<(\w+)> for ")
TYPE = re.compile(r"^(?:pub(?:\([a-z]+\))? )?(?:struct|enum) (\w+)", re.M)


def stands_on():
    lines = [it.split("#")[0] for it in (ROOT / "crates.txt").read_text().splitlines()]
    return {it.split(":")[0].strip(): it.split(":")[1].split() for it in lines if ":" in it}


def below(crate, known):
    """The crates of this repository on which one stands, the lowest first."""
    found = []

    def visit(name):
        for it in known[name]:
            if it in known and it not in found:
                visit(it)
                found.append(it)
    visit(crate)
    return found


def body_of(lines, at):
    """The lines at which the body of a function begins and ends, or none if it has no body on lines of its own."""
    indent = re.match(r"\s*", lines[at])[0]
    for here in range(at, len(lines)):
        line = lines[here].rstrip()
        if line == indent + "{" or (line.endswith(" {") and not re.match(r"\s*(ensures|requires)\b", line)):
            end = next(it for it in range(here + 1, len(lines)) if lines[it] == indent + "}")
            return here, end
        if line.endswith((";", "{}")) or (line.endswith("}") and line.startswith(indent + "{")):
            return None
    return None


def hollowed(text):
    """A text with hollow bodies, and the functions that have one: (owner, name)."""
    lines, out, made, owner, stays, at = text.split("\n"), [], [], None, False, 0
    while at < len(lines):
        line = lines[at]
        of = OWNER.match(line)
        if of and line.rstrip().endswith("{"):
            # a conversion is a line, and its folder would be named by its types
            owner, stays = of[3] + (of[2] or "") + "".join(OF_TRAIT.findall(line)), of[2] == "From"
        if line == "}":
            owner, stays = None, False
        fun = FUN.match(line)
        body = body_of(lines, at) if fun and not stays else None
        if not body:
            out.append(line)
            at += 1
            continue
        while re.match(r"\s*#\[(cycle|tactic|inline)\b", out[-1]):
            out.pop()
        out += [*lines[at:body[0] + 1], fun[1] + "    unreachable!()", lines[body[1]]]
        made.append((owner if fun[1] else None, fun[2]))
        at = body[1] + 1
    return "\n".join(out), made


def depth(line):
    return len(line) - len(line.lstrip())


def blocks(lines):
    """The parts of a file of lemmas: a line, with what stands deeper below it and the brackets that it closes."""
    at = 0
    while at < len(lines):
        deep, end = depth(lines[at]), at + 1
        is_head = re.match(r"\s*(pub )?module\s", lines[at])
        if is_head:
            while not lines[end - 1].rstrip().endswith("where"):
                end += 1
        elif lines[at].strip() and not lines[at].lstrip().startswith(("--", "use ", "pub use ")):
            while end < len(lines):
                rest = [it for it in lines[end:] if it.strip()]
                if not rest or depth(rest[0]) < deep or depth(rest[0]) == deep and rest[0].strip()[0] not in ")}]":
                    break
                end += 1
        yield lines[at:end]
        at = end


def stated(text):
    """A file of lemmas in which each lemma is an axiom; definitions stay."""
    out, stays = [], {}
    for block in blocks(text.split("\n")):
        first = block[0].strip()
        name = re.match(r"(?:(?:unfoldable|pattern|abbrev|pub|record|data) )*([^\s:(]*)", first)[1]
        is_typed = re.match(r"(?:pub )?[^\s:(]+(?: \{[^}]*\})? :(?: |$)", first)
        if not first or first.startswith(("--", "use ", "pub use ")) or re.match(r"(pub )?module\s", first):
            out += block
        elif re.match(r"(?:(?:unfoldable|pattern|pub) )*(?:abbrev|record|data)\b", first):
            stays[name] = True
            out += block
        elif is_typed:
            stays[name] = False
            indent = block[0][:len(block[0]) - len(block[0].lstrip())]
            out += [f"{indent}axiom {first}", *(it for it in block[1:] if not it.strip().startswith("unfolding "))]
        elif stays.get(name, True) and name != "unfolding":
            out += block
    return "\n".join(out)


def module_of(target, file):
    module = file.relative_to(target / "src").with_suffix("").parts
    return () if module in (("lib",), ("main",)) else module


def hollow(crate, target):
    """Copies a crate below as a hollow one."""
    source = ROOT / "crates" / crate
    for part in ("src", "specs"):
        if (source / part).is_dir():
            shutil.copytree(source / part, target / part)
    files = sorted((target / "src").rglob("*.rt"))
    homes = {name: module_of(target, file) for file in files for name in TYPE.findall(file.read_text())}
    for file in files:
        text, made = hollowed(file.read_text())
        file.write_text(text)
        module, here = module_of(target, file), TYPE.findall(text)
        for owner, name in made:
            # a type's own functions are named by the module of the type, wherever they stand
            path = [*(module if owner in here else homes.get(owner, module)), *([owner] if owner else []), name]
            folder = target.joinpath("proofs", *path)
            folder.mkdir(parents=True, exist_ok=True)
            (folder / "Answers.antt").write_text(ANSWER.format(".".join([crate, "proofs", *path])))
    if (source / "proofs" / "Lib.antt").is_file():
        for name in re.findall(r"^(?:pub )?mod (\w+)", (source / "proofs" / "Lib.antt").read_text(), re.M):
            copy_lemmas(source / "proofs" / f"{name}.antt", target / "proofs" / f"{name}.antt")
        shutil.copy(source / "proofs" / "Lib.antt", target / "proofs" / "Lib.antt")


def copy_lemmas(source, target):
    target.parent.mkdir(parents=True, exist_ok=True)
    target.write_text(stated(source.read_text()))


def checking(crate, names, known):
    """A script that checks the crate over the hollow ones, by their sources."""
    kit = sorted({it for name in [crate, *names] for it in known[name] if it not in known} | {"core", "std"})
    folder = pathlib.Path(__file__).name
    lines = ["#!/bin/sh", f"# Written by {folder}: checks {crate} over hollow crates. It gives no verdict.",
             'here=$(dirname "$(readlink -f "$0")")', 'kit=$(dirname "$(rt doc)")', f'cd "$here/crates/{crate}" || exit 1',
             'only=', '[ -z "$1" ] || only="--only $1"',
             f'exec rattle check --crate-name {crate} src/{"lib" if (ROOT / "crates" / crate / "src" / "lib.rt").is_file() else "main"}.rt \\']
    lines += [f'    --extern {it}="$kit/rlibs/{it}.rlib" \\' for it in kit]
    lines += ['    -L dependency="$kit/rlibs" \\']
    lines += [f'    --lib {it}:{",".join(["core", "std", *known[it]])}="$here/crates/{it}/src/lib.rt" \\' for it in names]
    lines += ['    --antt-project "$kit/rattle/logic/antt-project.json" --logic-built "$kit/logic_built" \\',
              '    --incremental "$here/kept" --jobs 1 --allow-holes $only']
    return "\n".join(lines) + "\n"


def main():
    if len(sys.argv) != 3:
        sys.exit(__doc__)
    crate, room = sys.argv[1], pathlib.Path(sys.argv[2])
    known = stands_on()
    if crate not in known:
        sys.exit(f"crates.txt has no {crate}")
    if room.exists():
        sys.exit(f"{room} is there already")
    names = below(crate, known)
    for name in names:
        hollow(name, room / "crates" / name)
    shutil.copytree(ROOT / "crates" / crate, room / "crates" / crate, ignore=shutil.ignore_patterns("out", "must-fail"))
    (room / "crates.txt").write_text("".join(f"{it}: {' '.join(known[it])}\n" for it in [*names, crate]))
    shutil.copy(ROOT / "HANDLES", room / "HANDLES")
    (room / "check").write_text(checking(crate, names, known))
    (room / "check").chmod(0o755)
    print(f"{len(names)} hollow crates below {crate} in {room}")


if __name__ == "__main__":
    main()
