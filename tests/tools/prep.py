#!/usr/bin/env python3
"""tools/saber-prep makes of C files what `load` takes, with the meaning and the lines of the originals.

usage: tests/tools/prep.py PROGRAM | --renew

Each program of tests/tools/prep that has a file NAME.expected is written by saber-prep, loaded and run by PROGRAM, and has to
answer it. The file has what gcc makes of the same program; `--renew` writes these files anew by it. What is told, the lines of
reports, names, maps and faults are tested by the functions below, against what was worked out by hand.
"""
import functools
import json
import pathlib
import re
import sys
import tempfile

import common

FOLDER = common.HERE / "prep"
WORDS = {"words": ["--arguments", "0x11 two"]}  # further words of saber-prep for a program
GIVEN = {"words": ["0x11", "two"]}  # the same words for the compiled program
RUN = ["bits", "c99", "constant", "gnu", "jumps", "members", "narrow", "oldstyle", "pointers", "structs", "tokens", "variadic", "words"]


def given_to(name):
    path = FOLDER / f"{name}.input"
    return path.read_bytes() if path.exists() else None


def renew():
    for name in RUN:
        with tempfile.TemporaryDirectory() as folder:
            text = common.compiled_run(FOLDER / f"{name}.c", pathlib.Path(folder), given_to(name), GIVEN.get(name, ()))
        (FOLDER / f"{name}.expected").write_text(text, encoding="latin-1")


def meaning(program, folder, name):
    """A program gives what a compiler makes of it."""
    ran = common.prepared([FOLDER / f"{name}.c"], folder, ["--narrow", *WORDS.get(name, [])])
    if ran.returncode != 0:
        return f"status {ran.returncode}: {ran.stderr}"
    came = common.run_of(program, folder, common.modules_in(folder), given_to(name))
    wanted = (FOLDER / f"{name}.expected").read_text(encoding="latin-1")
    return None if came == wanted else common.difference(wanted, came)


def reported_place(program, folder, name):
    """The file and the line of a report, by the map of its module."""
    common.prepared([FOLDER / f"{name}.c"], folder)
    answer = common.run_of(program, folder, common.modules_in(folder))
    found = re.match(r"> violation (U\d+) in \S+ at (\w+):(\d+) ", answer)
    if found is None:
        return answer
    line = int(found[3])
    for it in json.loads((folder / f"{found[2]}.map.json").read_text())["ranges"]:
        if it["first"] <= line <= it["last"]:
            return found[1], (folder / it["file"]).resolve().name, it["line"] + line - it["first"]
    return answer


def lines_of_own_code(program, folder):
    """A report in the file itself has the line that it has there."""
    place = reported_place(program, folder, "lines")
    wanted = ("U3", "lines.c", 20)
    return None if place == wanted else f"wanted {wanted}, came {place}"


def lines_of_headers(program, folder):
    """A report in code of a header has the header's name and line, by the map."""
    place = reported_place(program, folder, "deep")
    wanted = ("U2", "lines.h", 8)
    return None if place == wanted else f"wanted {wanted}, came {place}"


TAKEN = """\
rest.c:4: not taken: double
rest.c:6: not taken: floating constant 3.0
rest.c:10: not taken: assembler
rest.c:15: not taken: the array room with a size that is computed
rest.c:28: not taken: statements in an expression
"""


def names_what_stays(program, folder):
    """What is not taken is named with file and line, and with status 1."""
    ran = common.prepared([FOLDER / "rest.c"], folder)
    came = re.sub(r"^.*/|: [^:\n]*$", "", ran.stderr, flags=re.M)
    came = "".join(sorted(set(it + "\n" for it in came.splitlines() if "not taken" in it), key=lambda it: int(it.split(":")[1])))
    return None if (ran.returncode, came) == (1, TAKEN) else f"status {ran.returncode}, came {came!r}"


def leaves_out(program, folder):
    """With --leave-out the rest loads and runs, and a call of what was left out is told."""
    text = (FOLDER / "rest.c").read_text().replace("({ int k = 3; k; })", "3").replace("{ 3 }", "{ VALUE }")
    wanted = {"3": "4\n> exit 0\n", "4": "5\n> violation U17 in main at rest:28 name rest:spin\n"}
    for value, answer in wanted.items():
        (folder / "rest.c").write_text(text)
        ran = common.prepared([folder / "rest.c"], folder / value, ["--leave-out", "-D", f"VALUE={value}", "-I", FOLDER])
        if ran.returncode != 0 or "LEFT OUT: the function third" not in ran.stderr:
            return f"status {ran.returncode}: {ran.stderr}"
        came = common.run_of(program, folder / value, ["rest"])
        if came != answer:
            return common.difference(answer, came)
    return None


def tells_of_narrow(program, folder):
    """Without --narrow 64 bits are named and not taken, with it they are told; --verbose tells each place."""
    file = FOLDER / "narrow.c"
    without, narrow = common.prepared([file], folder, ["--verbose"]), common.prepared([file], folder, ["--narrow", "--verbose"])
    lines = [5, 13, 15, 21, 22, 23]
    for line in lines:
        if f"narrow.c:{line}: NARROWED: " not in narrow.stderr or f"narrow.c:{line}: not taken: " not in without.stderr:
            return f"line {line} is not told"
    return None if (without.returncode, narrow.returncode) == (1, 0) else "statuses"


def tells_what_changes(program, folder):
    """What may change what a program does is told with its place."""
    ran = common.prepared([FOLDER / "c99.c", FOLDER / "gnu.c", FOLDER / "bits.c"], folder, ["--verbose"])
    for text in ("c99.c:123: told: volatile", "c99.c:77: told: the inner object n", "gnu.c:16: told: the open array data",
                 "gnu.c:22: told: arithmetic on void *", "gnu.c:29: told: conversion from unsigned char * to char *", "bits.c:7: told: the bit-field low"):
        if text not in ran.stderr:
            return f"not told: {text}"
    return None


# other files hold `other` and `user`; `scan` is reached by a table and by a static function
WEIGHTS = """\
left.c:22: LEFT OUT: the function other: double; floating constant 2.0. A run that calls it ends with U17; reached by main, other, user
left.c:4: LEFT OUT: the function scan: double; floating constant 1.5. A run that calls it ends with U17; reached by by_call, by_table
left.c:2: NARROWED: uint64_t is read with 32 bits: values above 32 bits are lost (the first of 2 places)
"""


def tells_by_weight(program, folder):
    """What was left out stands first, with the exported functions that reach it, and places of one kind are one line."""
    ran = common.prepared([FOLDER / "left.c", FOLDER / "left_user.c"], folder, ["--leave-out", "--narrow"])
    came, answer = ran.stderr.replace(f"{FOLDER}/", ""), common.run_of(program, folder, ["left", "left_user"])
    return None if (ran.returncode, came, answer) == (0, WEIGHTS, "> exit 3\n") else f"{came} {answer}"


INTEGERS = """\
AS INTEGER: the constant 1.5 becomes 1l: its value is another
AS INTEGER: the constant .5f becomes 0l: its value is another
AS INTEGER: the constant 1e30 becomes 2147483647l: its value is another
AS INTEGER: double is read as long: what stands behind the point is lost, and what needs more than 32 bits; sizeof differs (the first of 4 places)
"""


def reads_integers(program, folder):
    """With --integers floating types are `long`, which is told; a conversion of a format goes with them."""
    ran = common.prepared([FOLDER / "integers.c"], folder, ["--integers"])
    untold = [it for it in INTEGERS.splitlines() if it not in ran.stderr]
    # 9 / 2 is 4, and 1 + 2 + 0600 + 2 is 389
    answer, wanted = common.run_of(program, folder, ["integers"]), "    1|4|1000|0\n1 389\n> exit 0\n"
    return f"{untold} {answer} {ran.stderr}" if untold or ran.returncode or answer != wanted else None


def tells_limits(program, folder):
    """A text above the limit of `load` is told, soon, and blanks stand only where tokens would grow together."""
    (folder / "large.c").write_text(f"const unsigned char all[] = {{ {'1, ' * 600_000} }};\nint main(void) {{ return all[2]; }}\n")
    ran = common.prepared([folder / "large.c"], folder / "out")
    if ran.returncode != 3 or "large.c:1: its own text has 12000" not in ran.stderr or "load takes 1048576" not in ran.stderr:
        return f"{ran.returncode} {ran.stderr}"
    ran = common.prepared([FOLDER / "tokens.c"], folder / "out")
    line = (folder / "out" / "tokens.c").read_text().splitlines()[8]
    return None if line == "int a=3,b=2,*p= &b,c[3]={1,2,3};" else line


def own_printf(program, folder):
    """A source may declare printf by itself, without the dots, and a type a second time."""
    ran = common.prepared([FOLDER / "printf.c"], folder)
    answer = common.run_of(program, folder, ["printf"])
    return None if (ran.returncode, answer) == (0, "3 x\n> exit 0\n") else f"{ran.stderr} {answer}"


def names_of_modules(program, folder):
    """Names that `load` does not take are changed, two of one name are kept apart, and both are told."""
    names = ["with-a-dash.c", "a_name_of_more_than_thirty_one_characters.c", "9.c", "same.c", "sub/same.c"]
    (folder / "sub").mkdir()
    for name in names:
        (folder / name).write_text("int main(void) { return 0; }\n")
    ran = common.prepared([folder / it for it in names], folder / "out")
    wanted = ["a_name_of_more_than_thirty_one_", "m9", "same", "same_2", "with_a_dash"]
    came = common.modules_in(folder / "out")
    if came != wanted:
        return f"wanted {wanted}, came {came}"
    untold = [it for it in wanted if f": module {it}\n" not in ran.stdout]
    refused = [it for it in wanted if common.run_of(program, folder / "out", [it]) != "> exit 0\n"]
    return f"{untold} {refused}" if untold or refused else None


FAULTS = {
    "no such file": (["nowhere.c"], 2, "nowhere.c: there is no such file"),
    "a folder": (["folder"], 2, "folder: this is no file"),
    "no header": (["header.c"], 3, "header.c:2: 'nowhere.h' file not found; give its folder by -I"),
    "no config.h": (["config.c"], 3, "config.c:2: use of undeclared identifier 'VALUE'; config.h was not there, and an empty one was taken: give the folder of yours by -I"),
    "an #error": (["error.c"], 3, "error.c:1: wrong machine"),
    "no C": (["text.c"], 3, "text.c:1: unknown type name 'This'"),
    "a bracket": (["open.c"], 3, "open.c:1: expected '}'"),
    "bytes": (["bytes.c"], 3, "bytes.c:1: "),
    "macros without end": (["bomb.c"], 4, "bomb.c:1: clang makes more of it than can be worked on"),
    "a header of itself": (["itself.c"], 3, "itself.c:1: #include nested too deeply"),
}
FILES = {
    "header.c": b"int x;\n#include \"nowhere.h\"\n", "config.c": b"#include <config.h>\nint x = VALUE;\n", "error.c": b"#error wrong machine\n", "text.c": b"This is no C.\n",
    "open.c": b"int main(void) { return 0;\n", "bytes.c": bytes(range(1, 256)),
    "bomb.c": b"#define M0 int a; int a;\n" + b"".join(b"#define M%d M%d M%d\n" % (it, it - 1, it - 1) for it in range(1, 40)) + b"M39\n",
    "itself.c": b"#include \"itself.c\"\n",
}


def faults(program, folder):
    """A file that cannot be worked on: one line that says what and where, a status, and the user's files as they were."""
    (folder / "folder").mkdir()
    for name, content in FILES.items():
        (folder / name).write_bytes(content)
    for case, (files, status, text) in FAULTS.items():
        ran = common.prepared([folder / it for it in files], folder / "out")
        lines = ran.stderr.replace(f"{folder}/", "").splitlines()
        if ran.returncode != status or len(lines) != 1 or not lines[0].startswith(f"saber-prep: {text}"):
            return f"{case}: status {ran.returncode}, {lines}"
    changed = [name for name, content in FILES.items() if (folder / name).read_bytes() != content]
    return f"changed: {changed}" if changed or (folder / "out").exists() else None


def hostile(program, folder):
    """A hostile source is written so that it runs, or refused in one line, and soon. clang takes 256 brackets inside each other."""
    wanted = {"brackets": 3, "bytes": 3, "itself": 3, "types": 4}
    for name, (text, _) in common.HOSTILE.items():
        (folder / f"{name}.c").write_text(text)
        ran = common.prepared([folder / f"{name}.c"], folder / name)
        lines = [it for it in ran.stderr.splitlines() if it.startswith("saber-prep: ")]
        if ran.returncode != wanted.get(name, 0) or len(lines) != (name in wanted):
            return f"{name}: status {ran.returncode}, {ran.stderr[:500]}"
        if name not in wanted and (came := common.run_of(program, folder / name, [name])) != "> exit 0\n":
            return f"{name}: {came[:500]}"
    return None


def keeps_the_source(program, folder):
    """The output never takes the place of a file of the user, and an empty file is a module."""
    for name in ("own.c", "with-dash.c", "with_dash.c"):
        (folder / name).write_text("int main(void) { return 0; }\n")
    (folder / "empty.c").write_text("")
    for name in ("own.c", "with-dash.c"):
        ran = common.prepared([folder / name], folder)
        if ran.returncode != 2 or not ran.stderr.startswith("saber-prep: ") or list(folder.glob("*.json")):
            return f"status {ran.returncode}"
    common.prepared([folder / "own.c", folder / "empty.c"], folder / "out")
    came = common.run_of(program, folder / "out", ["own", "empty"])
    return None if came == "> exit 0\n" else came


def own_functions(program, folder):
    """A program that has a function of a support module itself keeps its own."""
    (folder / "m.c").write_text(
        "#include <stdio.h>\n#include <string.h>\nchar *strdup(const char *s) { return (char *)s + 1; }\n"
        "int main(void) { puts(strdup(\"own\")); return strpbrk(\"ab\", \"b\") == NULL; }\n")
    ran = common.prepared([folder / "m.c"], folder / "out")
    came = common.run_of(program, folder / "out", common.modules_in(folder / "out"))
    return None if came == "wn\n> exit 0\n" else f"{came} {ran.stderr}"


def library_without_headers(program, folder):
    """A function of the library that no header declares is declared as its header has it; a call that does not fit is one of a function of the user's."""
    (folder / "m.c").write_text(
        "#include <stdio.h>\nstatic char *twice(char *t)\n{\n    char *made = malloc(2 * strlen(t) + 1);\n    strcpy(made, t);\n    return strcat(made, t);\n}\n"
        "int main(void)\n{\n    char *t = twice(\"ab\");\n    char *getenv();\n    printf(\"%s %d\\n\", t, getenv(\"NONE\") == NULL);\n    free(t);\n    return other(2) - 4;\n}\n"
        "int other(int n) { return n + n; }\n")
    (folder / "n.c").write_text("int main(void) { exit(); return 0; }\n")
    ran = common.prepared([folder / "m.c"], folder / "out")
    came, told = common.run_of(program, folder / "out", ["m", *(["saberlib"] if (folder / "out" / "saberlib.c").exists() else [])]), ran.stderr.replace(f"{folder}/", "")
    wanted = "m.c:4: told: call of malloc without a declaration: it is declared as void *malloc(unsigned int) (the first of 6 places)\n"
    if (came, told) != ("abab 1\n> exit 0\n", wanted):
        return f"{came} {told}"
    ran = common.prepared([folder / "n.c"], folder / "other")
    return None if (ran.returncode, "call of exit without a declaration: it is declared as int exit(void)" in ran.stderr) == (0, True) else ran.stderr


TESTS = [lines_of_own_code, lines_of_headers, names_what_stays, leaves_out, tells_of_narrow, tells_what_changes, tells_by_weight, reads_integers, tells_limits, own_printf,
         names_of_modules, faults, hostile, keeps_the_source, own_functions, library_without_headers]


def main():
    if sys.argv[1:] == ["--renew"]:
        return renew()
    parts = [common.one_check(it.__name__, it) for it in TESTS]
    parts += [common.one_check(name, functools.partial(meaning, name=name)) for name in RUN]
    return common.checked(__doc__, parts, {})


if __name__ == "__main__":
    sys.exit(main())
