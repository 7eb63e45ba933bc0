#!/usr/bin/env python3
"""The functions of tools/saberlib.c and tools/saberio.c give what those of the C library give.

usage: tests/tools/saberlib.py PROGRAM | --renew

Each tests/tools/lib/NAME.c is written by saber-prep, loaded with the support modules and run by PROGRAM. NAME.expected has what
gcc and the C library make of it; `--renew` writes these files anew by them. NAME.input is the program's input.
"""
import functools
import pathlib
import sys
import tempfile

import common

FOLDER = common.HERE / "lib"


def given_to(file):
    path = file.with_suffix(".input")
    return path.read_bytes() if path.exists() else None


def renew():
    with tempfile.TemporaryDirectory() as folder:
        for file in sorted(FOLDER.glob("*.c")):
            text = common.compiled_run(file, pathlib.Path(folder), given_to(file))
            file.with_suffix(".expected").write_text(text, encoding="latin-1")


def meaning(program, folder, file):
    """A program gives what a compiler and the C library make of it."""
    ran = common.prepared([file], folder, ["--narrow"])
    if ran.returncode != 0:
        return ran.stderr
    came = common.run_of(program, folder, common.modules_in(folder), given_to(file))
    wanted = file.with_suffix(".expected").read_text(encoding="latin-1")
    return None if came == wanted else common.difference(wanted, came)


def loads_alone(program, folder):
    """The support modules are taken as they are, without the pre-pass."""
    answer = common.session(program, common.TOOLS, "load saberlib\nload saberio\n")
    return None if answer == "> loaded saberlib\n> loaded saberio\n" else answer


def main():
    if sys.argv[1:] == ["--renew"]:
        return renew()
    parts = [common.one_check("the modules alone", loads_alone)]
    parts += [common.one_check(it.stem, functools.partial(meaning, file=it)) for it in sorted(FOLDER.glob("*.c"))]
    return common.checked(__doc__, parts, {})


if __name__ == "__main__":
    sys.exit(main())
