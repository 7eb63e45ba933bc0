#!/usr/bin/env python3
"""Runs programs with their modules in form object and in form fast: what they write is the same, and fast carries out no more instructions.

usage: tests/faster.py PROGRAM

The modules of a program are all in one form, then all in the other. Where a program has functions of its own to compare, one is that
the loop of tests/programs/fast carries out fewer instructions. The last line is 'N passed, M failed'.
"""
import pathlib
import shutil
import sys
import tempfile

ROOT = pathlib.Path(__file__).resolve().parent.parent
sys.path.insert(0, str(ROOT / "tools"))

from saber_session import Session  # noqa: E402

# the folder; its modules in the order of loading; what `run` reads; and whether fast has to carry out fewer instructions
PROGRAMS = (
    ("tests/programs/fast", ("loop",), "", True),
    ("tests/programs/fast", ("kept",), "", False),
    ("tests/programs/fast", ("f", "g"), "", False),
    ("examples/words", ("input", "table", "main"), "poem.txt", False),
    ("examples/library", ("text", "pool", "table", "list", "demo"), "", False),
    ("tests/programs/traced", ("f", "g"), "", False),
)


def ran(program, room, modules, given, form):
    """What a run answers, line by line, and how many instructions it carried out."""
    session = Session(program, room, ("--turns", "1000000000"))
    try:
        for name in modules:
            file = f"{name} fast" if form == "fast" else name
            for line in (f"load {name}", f"compile {file}", f"swap {name} {form}"):
                answer = session.ask(line)
                if answer.is_refused:
                    raise SystemExit(f"{line}: {answer.text}")
        lines = session.ask(f"run {given}".strip()).lines
        return lines, int(session.ask("machine").lines[0].split()[3])
    finally:
        session.close()


def faults(program, folder, modules, given, fewer):
    """What is wrong of one program."""
    with tempfile.TemporaryDirectory() as room:
        shutil.copytree(ROOT / folder, room, dirs_exist_ok=True)
        plain, fast = (ran(program, room, modules, given, form) for form in ("object", "fast"))
    if plain[0] != fast[0]:
        yield f"in form fast it answers {fast[0][-1:]}, and in form object {plain[0][-1:]}"
    if fast[1] > plain[1] or (fewer and fast[1] == plain[1]):
        yield f"in form fast {fast[1]} instructions are carried out, and in form object {plain[1]}"


def main():
    if len(sys.argv) != 2:
        sys.exit(__doc__)
    failed = 0
    for case in PROGRAMS:
        wrong = list(faults(pathlib.Path(sys.argv[1]).resolve(), *case))
        failed += bool(wrong)
        for it in wrong:
            print(f"FAIL {case[0]} {' '.join(case[1])}: {it}")
    print(f"{len(PROGRAMS) - failed} passed, {failed} failed")
    sys.exit(failed > 0)


if __name__ == "__main__":
    main()
