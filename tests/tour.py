#!/usr/bin/env python3
"""Compares the tours of README.md, docs/TOUR.md and docs/COMMANDS.md with what the built program answers to the commands of examples.

usage: tests/tour.py PROGRAM

In the indented blocks of a tour's section a command stands before its answer. A line '...' stands for any lines.
An indented block of README.md or docs/TOUR.md that begins with '$ ' is a command of the shell with what it prints; there
`saber` is PROGRAM.
"""
import os
import pathlib
import re
import shutil
import subprocess
import sys
import tempfile

ROOT = pathlib.Path(__file__).resolve().parent.parent
TOURS = {
    ("README.md", "A tour"): ROOT / "examples" / "queue",
    ("docs/TOUR.md", "A run looked at by hand"): ROOT / "examples" / "queue",
    ("docs/TOUR.md", "One module suspect, the rest compiled"): ROOT / "examples" / "library",
    ("docs/COMMANDS.md", "Mending a program while it runs"): ROOT / "examples" / "service",
}


def blocks(text):
    """The lines of each indented block of a text."""
    return [[it[4:] for it in block.splitlines()] for block in re.findall(r"(?:^    [^\n]*\n)+", text, re.M)]


def told(place):
    """The lines of a tour's blocks, but for those with commands of the shell."""
    file, title = place
    section = re.search(rf"^## {title}\n(.*?)^## ", (ROOT / file).read_text(), re.M | re.S)
    return [line for block in blocks(section[1]) if not block[0].startswith("$ ") for line in block]


def answered(program, folder):
    """Each command with its answer, one after another."""
    lines, before = [], b""
    commands = [it for it in (folder / "commands").read_text().splitlines() if it and not it.startswith("#")]
    for count in range(1, len(commands) + 1):
        text = "".join(it + "\n" for it in commands[:count])
        with tempfile.TemporaryDirectory() as room:
            shutil.copytree(folder, room, dirs_exist_ok=True)
            after = subprocess.run([program], input=text.encode(), capture_output=True, cwd=room, timeout=120).stdout
        lines += [commands[count - 1], *after[len(before):].decode().splitlines()]
        before = after
    return lines


def agree(tour, lines):
    """Whether the tour is these lines, '...' standing for any."""
    pattern = "".join("(?:[^\n]*\n)*?" if it == "..." else re.escape(it) + "\n" for it in tour)
    return re.fullmatch(pattern, "".join(it + "\n" for it in lines)) is not None


def shown(file):
    """The blocks of a page that begin with a command of the shell: the command, and the lines below it."""
    return [(it[0][2:], it[1:]) for it in blocks((ROOT / file).read_text()) if it[0].startswith("$ ")]


def printed(program, command):
    """What a command of the shell prints in a tree with the examples, the tools and the program as `saber`."""
    with tempfile.TemporaryDirectory() as room:
        shutil.copytree(ROOT / "examples", pathlib.Path(room, "examples"))
        pathlib.Path(room, "tools").symlink_to(ROOT / "tools")
        pathlib.Path(room, "saber").symlink_to(program)
        ran = subprocess.run(["sh", "-c", command], capture_output=True, text=True, cwd=room, timeout=120,
                             env={**os.environ, "SABER_PROGRAM": str(program)})
    return ran.stdout.splitlines()


def main():
    if len(sys.argv) != 2:
        sys.exit(__doc__)
    program = pathlib.Path(sys.argv[1]).resolve()
    failed = [place for place, folder in TOURS.items() if not agree(told(place), answered(program, folder))]
    commands = [(file, *it) for file in ("README.md", "docs/TOUR.md") for it in shown(file)]
    failed += [(file, command) for file, command, lines in commands if not agree(lines, printed(program, command))]
    for file, title in failed:
        print(f"FAIL: {file}, {title}: it is not what the program answers")
    print(f"{len(TOURS) + len(commands) - len(failed)} passed, {len(failed)} failed")
    return 1 if failed else 0


if __name__ == "__main__":
    sys.exit(main())
