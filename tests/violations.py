#!/usr/bin/env python3
"""Runs each program of docs/VIOLATIONS.md as module m and compares the answer with the one that stands below it.

usage: tests/violations.py PROGRAM
"""
import pathlib
import re
import subprocess
import sys
import tempfile

CASE = re.compile(r"^## (U\d+): .*?\n```c\n(.*?)```\n\n    (> [^\n]*)\n", re.M | re.S)


def answer_of(program, text):
    with tempfile.TemporaryDirectory() as folder:
        pathlib.Path(folder, "m.c").write_text(text)
        ran = subprocess.run([program], input="load m\nrun\nquit\n", capture_output=True, text=True, cwd=folder, timeout=60)
    return ran.stdout.splitlines()


def main():
    program = pathlib.Path(sys.argv[1]).resolve()
    page = pathlib.Path(__file__).resolve().parent.parent / "docs" / "VIOLATIONS.md"
    cases = CASE.findall(page.read_text())
    failed = 0
    for rule, text, wanted in cases:
        came = answer_of(program, text)
        if came != ["> loaded m", wanted, "> bye"]:
            failed += 1
            print(f"{rule}: wanted {wanted}, came {came}")
    failed += len(cases) != 18
    print(f"{len(cases)} programs of docs/VIOLATIONS.md\n{len(cases) - failed} passed, {failed} failed")
    return failed > 0


if __name__ == "__main__":
    sys.exit(main())
