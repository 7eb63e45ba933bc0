#!/usr/bin/env python3
"""Checks tools/saber-lcov: tracefiles of programs whose counts are worked out by hand from the C text.

usage: tests/tools/lcov.py PROGRAM

genhtml (Debian package lcov) has to take a tracefile, if it is installed; it is said if it is not. The last line is
'N passed, M failed'.
"""
import json
import re
import shutil
import subprocess
import sys

import common

FILES = {
    "own.h": "#include <stddef.h>\nstatic int twice(size_t n)\n{\n    return (int) (n + n);\n}\n",
    # line by line: each case of docs/COMMANDS.md where a line is reached, over as many lines as it may take
    "forms.c": "#include <stdio.h>\n#include \"own.h\"\n\nstatic int never(void) { return 1; }\n"
               "int forms(int n)\n{\n    static int kept = 3;\n    int plain, made =\n        n, *\n        far = 0;\n"
               "    (\n        plain\n    ) = 2;\n    if (\n        n > 0)\n        plain--;\n    else\n        plain++;\n"
               "    for (\n        made = 0;\n        made < 3;\n        made++)\n        ;\n"
               "    do {\n        plain--;\n    } while\n        (plain > 0);\n    while (plain > 9)\n        continue;\n"
               "    switch (n) {\n    case 1: plain = 5;\n        break;\n    default:\n        goto out;\n    }\n    kept = twice(2);\n"
               "out:\n    return\n        far == 0 ? kept : plain;\n}\n"
               "int main(void)\n{\n    forms(0);\n    return forms(1) - 4;\n}\n",
    "broken.c": "int main(void)\n{\n    int a[2];\n    a[2] = 1;\n    return 0;\n}\n",
    "echo.c": "#include <stdio.h>\nint main(void)\n{\n    while (getchar() != -1)\n        putchar('.');\n    return 0;\n}\n",
    "fast.c": "int fast(int n)\n{\n    return n;\n}\n",
    "slow.c": "extern int fast(int n);\nint main(void)\n{\n    return fast(0);\n}\n",
    "mapped.c": "int main(void) { return 0; }\n",
    "real.c": "/* a line */\nint main(void)\n{\n    return 0;\n}\n",
    "long.c": "int main(void)\n{\n    int i;\n    for (i = 0; i < 400000; i++)\n        ;\n    return 0;\n}\n",
    "wrong.c": "int main(void) { return x; }\n",
    # a module of the tools' own, which is left out, and one of the user's that has its name alone
    "texts.c": "extern char *strstr(const char *text, const char *wanted);\nint main(void)\n{\n    return *strstr(\"abc\", \"c\") - 'c';\n}\n",
    "lib/saberlib.c": (common.TOOLS / "saberlib.c").read_text(),
    "own/saberlib.c": "char *strstr(const char *text, const char *wanted)\n{\n    return wanted == text ? 0 : (char *) text + 2;\n}\n",
    "mapped.map.json": json.dumps({"ranges": [{"first": 1, "last": 1, "file": "real.c", "line": 2}]}),
    "input": "abc",
}
# the words of the command line, the exit status, and for each file its functions (line, name, calls) and lines (line, count)
CASES = [
    # forms(0): plain is 2, 3, and 2, 1, 0 by three rounds; forms(1): 2, 1, and 0 by one round. The header is on its #include's line.
    (["forms"], 0, {"forms.c": (
        [(2, "twice", 1), (4, "never", 0), (5, "forms", 2), (41, "main", 1)],
        [(2, 1), (4, 0), (8, 2), (10, 2), (11, 2), (14, 2), (16, 1), (18, 1), (19, 10), (23, 6), (25, 4), (26, 4), (28, 2), (29, 0),
         (30, 2), (31, 1), (32, 1), (34, 1), (36, 1), (38, 2), (43, 1), (44, 1)])}),
    (["broken"], 1, {"broken.c": ([(1, "main", 1)], [(4, 1), (5, 0)])}),
    (["-i", "input", "echo"], 0, {"echo.c": ([(2, "main", 1)], [(4, 4), (5, 3), (6, 1)])}),
    (["--object", "fast", "slow", "fast"], 0, {"slow.c": ([(2, "main", 1)], [(4, 1)])}),
    # all of the module's one line lies on line 2 of the original
    (["mapped"], 0, {"real.c": ([(2, "main", 1)], [(2, 1)])}),
    # more than one slice of turns
    (["long"], 0, {"long.c": ([(1, "main", 1)], [(4, 400002), (5, 400000), (6, 1)])}),
    (["texts", "lib/saberlib"], 0, {"texts.c": ([(2, "main", 1)], [(4, 1)])}),
    (["texts", "own/saberlib"], 0, {"own/saberlib.c": ([(1, "strstr", 1)], [(3, 1)]), "texts.c": ([(2, "main", 1)], [(4, 1)])}),
    (["--turns", "1000", "echo", "--input", "input"], 0, {"echo.c": ([(2, "main", 1)], [(4, 4), (5, 3), (6, 1)])}),
]
REFUSED = [
    (["absent"], "saber-lcov: there is no file absent.c"),
    (["wrong"], "saber-lcov: load wrong: refused C5 X6 wrong.c:1; saber-run prepares such a file, runs it and explains, and saber-prep writes it in the core"),
    (["fast"], "saber-lcov: run: refused C13"),
    (["-o", "nowhere/file", "mapped"], "saber-lcov: nowhere/file cannot be written: No such file or directory"),
]


def text_of(room, files):
    """The tracefile that is wanted, with the two sums of each file."""
    out = []
    for file, (functions, lines) in sorted(files.items()):
        out += ["TN:", f"SF:{room / file}", *(f"FN:{line},{name}" for line, name, _ in functions)]
        out += [*(f"FNDA:{calls},{name}" for _, name, calls in functions)]
        out += [f"FNF:{len(functions)}", f"FNH:{sum(calls > 0 for *_, calls in functions)}"]
        out += [*(f"DA:{line},{count}" for line, count in lines)]
        out += [f"LF:{len(lines)}", f"LH:{sum(count > 0 for _, count in lines)}", "end_of_record"]
    return "\n".join(out) + "\n"


def checks(program, room):
    """Tracefiles, and what is refused."""
    for words, status, files in CASES:
        ran = common.tool_run("saber-lcov", program, room, words)
        yield " ".join(words), ran.returncode == status and ran.stdout.decode() == text_of(room, files), common.told_by(ran)
    for words, line in REFUSED:
        ran = common.tool_run("saber-lcov", program, room, words)
        yield " ".join(words), ran.returncode == 2 and ran.stderr.decode().strip().splitlines()[-1] == line, common.told_by(ran)
    (room / "without").mkdir()
    (room / "without" / "pycparser.py").write_text("raise ImportError\n")
    ran = common.tool_run("saber-lcov", program, room, ["mapped"], PYTHONPATH=str(room / "without"))
    said = "saber-lcov: pycparser is not installed (Debian: python3-pycparser)\n"
    yield "without pycparser", ran.returncode == 2 and ran.stderr.decode() == said, common.told_by(ran)


# the functions (line, name, calls) and the lines (line, count) of the hostile sources that are taken
TAKEN = {
    "blocks": ([(1, "main", 1)], [(2, 1)]),
    "wide": ([(1, "main", 1)], [(3, 1), (4, 20_000), (5, 1)]),
    "chain": ([(1, "main", 1)], [(3, 1), (4, 1)]),
    "cut": ([(1, "main", 1)], [(3, 1)]),
}


def hostile(program, room):
    """Hostile sources: a tracefile, or one line that says what and where, and a status; and a program that never ends."""
    for name, (text, refusal) in common.HOSTILE.items():
        (room / f"{name}.c").write_text(text)
        ran = common.tool_run("saber-lcov", program, room, [name])
        if refusal:
            lines = ran.stderr.decode().splitlines()
            told = len(lines) == 1 and re.fullmatch(rf"saber-lcov: load {name}: {refusal}(;.*)?", lines[0])
            yield name, told and ran.returncode == (4 if "no answer" in lines[0] else 2), common.told_by(ran)
        else:
            yield name, ran.returncode == 0 and ran.stdout.decode() == text_of(room, {f"{name}.c": TAKEN[name]}), common.told_by(ran)
    (room / "spin.c").write_text("int main(void)\n{\n    for (;;)\n        ;\n}\n")
    ran = common.tool_run("saber-lcov", program, room, ["--turns", "5000", "spin"])
    yield "a loop without an end", ran.returncode == 3 and ran.stderr.startswith(b"saber-lcov: paused after ") and b"\nDA:4," in ran.stdout, common.told_by(ran)
    ran = common.tool_run("saber-lcov", common.spinning(room), room, ["cut"])
    yield "a program that does not answer", ran.returncode == 4 and ran.stderr == b"saber-lcov: load cut: no answer after 5 s of processor time\n", common.told_by(ran)


def shown(program, room):
    """genhtml takes a tracefile."""
    if not shutil.which("genhtml"):
        print("genhtml is not installed (Debian package lcov): no tracefile was shown to it")
        return
    ran = common.tool_run("saber-lcov", program, room, ["-o", "forms.info", "-t", "by_hand", "forms"])
    made = subprocess.run(["genhtml", "-o", "pages", "forms.info"], cwd=room, capture_output=True, timeout=120)
    right = made.returncode == 0 and b"90.9% (20 of 22 lines)" in made.stdout and b"75.0% (3 of 4 functions)" in made.stdout
    yield "genhtml", ran.returncode == 0 and right, common.told_by(made)


if __name__ == "__main__":
    sys.exit(common.checked(__doc__, [checks, hostile, shown], FILES))
