#!/usr/bin/env python3
"""Runs each folder of tests/programs and examples through the built program, and compares what it writes.

usage: tests/programs.py PROGRAM [FOLDER..]      (all folders if none is named)

A folder holds C files, `commands` (the command lines) and `expected` (what the program has to write). It may hold
`words` (words of the command line) and `exit` (the exit status, if it is not 0). `commands.X` and `expected.X` are one
more case. To add a case, make such a folder. Take `expected` from the C standard and docs/COMMANDS.md, not from the
program's output.
The last line is 'N passed, M failed'.
"""
import difflib
import pathlib
import shutil
import subprocess
import sys
import tempfile

ROOT = pathlib.Path(__file__).resolve().parent.parent
SECONDS = 120


def optional(file, otherwise):
    return file.read_text().strip() if file.is_file() else otherwise


def cases(folder):
    """The cases of a folder: name, commands, expected output, words and exit status."""
    for commands in sorted(folder.glob("commands*")):
        ending = commands.name[len("commands"):]
        expected = folder / ("expected" + ending)
        words = optional(folder / ("words" + ending), "").split()
        status = int(optional(folder / ("exit" + ending), "0"))
        yield str(folder.relative_to(ROOT)) + ending, commands, expected, words, status


def ran(program, folder, commands, words):
    """The output and the exit status, in a copy of the folder."""
    with tempfile.TemporaryDirectory() as room:
        shutil.copytree(folder, room, dirs_exist_ok=True)
        told = subprocess.run([program, *words], input=commands.read_bytes(), stdout=subprocess.PIPE,
                              stderr=subprocess.DEVNULL, cwd=room, timeout=SECONDS)
    return told.stdout, told.returncode


def differs(program, folder, case):
    """Why a case fails, or nothing."""
    name, commands, expected, words, status = case
    if not expected.is_file():
        return f"FAIL {name}: there is no file {expected.name}"
    try:
        output, code = ran(program, folder, commands, words)
    except subprocess.TimeoutExpired:
        return f"FAIL {name}: not ended after {SECONDS} seconds"
    wanted = expected.read_bytes()
    if output == wanted and code == status:
        return ""
    lines = [it.decode(errors="replace").splitlines() for it in (wanted, output)]
    shown = list(difflib.unified_diff(*lines, "expected", "written", lineterm="", n=1))[:12]
    return "\n".join([f"FAIL {name}: exit status {code}, expected {status}", *shown])


def main():
    if len(sys.argv) < 2:
        sys.exit(__doc__)
    program = pathlib.Path(sys.argv[1]).resolve()
    folders = [pathlib.Path(it).resolve() for it in sys.argv[2:]]
    folders = folders or sorted([*ROOT.glob("tests/programs/*/"), *ROOT.glob("examples/*/")])
    passed, failed = 0, 0
    for folder in folders:
        for case in cases(folder):
            why = differs(program, folder, case)
            passed, failed = passed + (not why), failed + bool(why)
            if why:
                print(why)
    print(f"{passed} passed, {failed} failed")
    return 1 if failed or not passed else 0


if __name__ == "__main__":
    sys.exit(main())
