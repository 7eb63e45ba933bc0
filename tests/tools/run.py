#!/usr/bin/env python3
"""Checks tools/saber-run: one command from C files of today to an explained report, and the list of all undefined steps of a run.

usage: tests/tools/run.py PROGRAM

The expected lines are worked out by hand from each C program, docs/COMMANDS.md and docs/SABER-RUN.1. The last line is 'N passed, M failed'.
"""
import re
import sys

import common
from why import content, holds, spaced

LARGE = "\n" * 20_000
FILES = {
    # the object is the seventh: table, the two texts of use, n and p of main, and wanted are born before it
    "lib/room.c": "#include <stdint.h>\n#include \"room.h\"\nstatic uint8_t *table[2];\nuint8_t *room(uint32_t wanted)\n{\n    // one too few\n"
                  "    table[0] = malloc(wanted - 1);\n    return table[0];\n}\nvoid drop(void) { free(table[0]); }\n",
    "lib/room.h": "#include <stdint.h>\n#include <stdlib.h>\nuint8_t *room(uint32_t wanted);\nvoid drop(void);\n#ifndef COUNT\n#define COUNT 4\n#endif\n",
    "test/use.c": "#include <stdio.h>\n#include <room.h>\nint main(void)\n{\n    uint32_t n = COUNT;\n    uint8_t *p = room(n);\n    puts(\"begun\");\n"
                  "    for (uint32_t i = 0; i < n; i++)\n        p[i] = (uint8_t)i;\n    drop();\n    puts(\"ended\");\n    return 0;\n}\n",
    # loads as it is
    "plain.c": "int main(void)\n{\n    int x;\n    return x;\n}\n",
    "fine.c": "extern int other(int);\nint main(void)\n{\n    return other(2) - 4;\n}\n",
    "with-dash.c": "int other(int n) { int twice[n > 0 ? 2 : 2]; return 0; }\n",
    # the names of their modules would be the same
    "a-b.c": "extern void say(void);\nint main(void) { say(); return 0; }\n",
    "a_b.c": "#include <stdio.h>\nvoid say(void) { puts(\"a_b\"); }\n",
    "other.c": "#include <stdbool.h>\nint other(int n) { bool is = n; int twice = n + n; return is ? twice : 0; }\n",
    "copy.c": "#include <stdio.h>\nint main(void)\n{\n    int c;\n    while ((c = getchar()) != EOF)\n        putchar(c);\n    return 0;\n}\n",
    "input": "some words\n",
    "words.c": "#include <stdio.h>\nint main(int argc, char **argv) { return puts(argv[1]) < 0; }\n",
    "wide.c": "#include <stdint.h>\nuint64_t all;\nint main(void) { all = 5; return all == 5 ? 0 : 1; }\n",
    "real.c": "double half(double v) { return v / 2; }\nint main(void) { return half(9.0) == 4 ? 0 : 1; }\n",
    "status.c": "int main(void) { return 7; }\n",
    "lone.c": "int lone(void) { return 1; }\n",
    "third.c": "#include <stdlib.h>\nstruct n { struct n *next; };\nint main(void)\n{\n    struct n *a = calloc(1, sizeof *a), *p;\n"
               "    for (p = a; p; p = p->next)\n        free(p);\n    return 0;\n}\n",
    "seventh": "U3 third.c:7\n",
    "sixth": "U3 third.c:6\n",
    "twice.c": "int main(void) { return 1; }\n",
    # three steps in three modules, the second one only by what the first module leaves behind; the middle one is unharmed
    "one.c": "int one(int n)\n{\n    int table[2], i;\n    table[0] = 1;\n    table[1] = 2;\n    i = n;\n    if (table + 3 == table)\n        return 9;\n    return i;\n}\n",
    "two.c": "int two(int *p, int *q) { return p - q > 0; }\n",
    "three.c": "#include <stdio.h>\nextern int one(int), two(int *, int *);\nint main(void)\n{\n    int a, b[2];\n    puts(\"first\");\n    a = one(1);\n"
               "    puts(\"second\");\n    a = a + (two(&a, b) ? 1 : 1);\n    puts(\"third\");\n    b[0] = 2147483647;\n    b[1] = b[0] + a;\n    return 0;\n}\n",
    "known": "# what is known\nU5 one.c:7 a sentinel\n\nU6 two\n* three.c\n",
    "some": "U6 two.c:1\n",
    # a step that does no harm, twice, and behind it one in the same module that does
    "store.c": "static int room[4];\nint *below(void) { return room - 1; }\nint last(int n) { return room[n]; }\nint *again(void) { return below() + 1; }\n",
    "user.c": "#include <stdio.h>\nint *below(void), *again(void);\nint last(int);\nint main(void)\n{\n    int i, n = 0;\n    int *p = below();\n    puts(p ? \"one\" : \"none\");\n"
              "    for (i = 0; i < TIMES; i++)\n        n += last(i);\n    p = again();\n    puts(\"two\");\n    n += last(4);\n    return n;\n}\n",
    "often.c": "int *below(void), last(int);\nint main(void)\n{\n    int i, n = 0;\n    for (i = 0; i < 100; i++)\n        n += below() ? 0 : 1;\n    return last(n + 4);\n}\n",
    # the step is in what the third part of line 5 calls
    "links.c": "static int room[4];\nint next(int n)\n{\n    return room - n == room ? 0 : 4;\n}\n",
    "chain.c": "int next(int);\nint main(void)\n{\n    int i, n = 0;\n    for (i = 1; i < 4; i = next(i))\n        n++;\n    return n - 1;\n}\n",
    "bad": "U5 one.c:7\nsomething\n",
    "endless.c": "#include <stdio.h>\nint main(void) { puts(\"begun\"); for (;;) ; }\n",
    "many.c": LARGE + "extern int part(void);\nint main(void) { return part(); }\n",
    "part.c": "int part(void) { return 0; }\n",
    "huge.c": "char all[] = {" + "1," * 600_000 + "};\n",
    "deep.c": common.HOSTILE["brackets"][0],
    "types.c": common.HOSTILE["types"][0],
    "noise.c": "".join(chr(it % 94 + 33) for it in range(7, 9000, 13)),
}
ROOM = ["> violation U2 in main at use:9 object 7 offset 3 size 1", "-- at test/use.c:9", "    p[i] = (uint8_t)i;", "-- calls, the innermost one first",
        "    main at use:9 test/use.c:9: p[i] = (uint8_t)i;", "    p = object 7 + 0", "    i = 3",
        "-- object 7 is a heap block of 3 bytes, which malloc gave here", "    room at room:7 lib/room.c:7: table[0] = malloc(wanted - 1);",
        "    main at use:6 test/use.c:6: uint8_t *p = room(n);"]
# three texts come first, then a and b of main, and n of one
LIST = ["first", "> violation U5 in one at one:7 left object 7 + 0 right 3",
        "-- one runs compiled while three.c:7 is carried out, and is not watched there; the program is run again",
        "second", "> violation U6 in two at two:1 left object 4 + 0 right object 5 + 0",
        "-- two runs compiled while three.c:9 is carried out, and is not watched there; the program is run again",
        "third", "> violation U7 in main at three:12 left 2147483647 right 2",
        "-- three, one, two run compiled from here on, and are no longer watched; the program is run again", "> exit 0",
        "-- 3 undefined steps, in the order of their reports",
        "  U5 one.c:7 in one: a pointer leaves its object", "      one at one:7 one.c:7: if (table + 3 == table)", "      main at three:7 three.c:7: a = one(1);",
        "  U6 two.c:1 in two: pointers into different objects are ordered or subtracted",
        "  U7 three.c:12 in main: a signed result is out of range", "-- not watched behind their reports: three, one, two", "-- the last run: exit 0"]
# words of the command line, exit status, and lines that the output has to hold in this order
CASES = [
    (["-I", "lib", "lib/room.c", "test/use.c"], 1, ["begun", *ROOM]),
    (["-I", "lib", "-DCOUNT=0", "lib/room.c", "test/use.c"], 0, ["begun", "ended", "> exit 0"]),
    (["-I", "lib", "--suspect", "room", "lib/room.c", "test/use.c"], 0, ["begun", "ended", "> exit 0"]),
    (["-I", "lib", "--compiled", "room", "lib/room.c", "test/use.c"], 1, ROOM[:1]),
    (["-I", "lib", "--suspect", "use.c", "lib/room.c", "test/use.c"], 1, ROOM[:1]),
    (["-I", "lib", "--compiled", "room,use", "lib/room.c", "test/use.c"], 0, ["begun", "ended", "> exit 0"]),
    (["plain.c"], 1, ["> violation U1 in main at plain:4 object 1 offset 0 size 4", "-- at plain.c:4"]),
    (["fine.c", "other.c"], 0, ["> exit 0"]),
    (["a-b.c", "a_b.c"], 0, ["a_b", "> exit 0"]),
    (["copy.c", "--", "input"], 0, ["some words", "> exit 0"]),
    (["-i", "input", "copy.c"], 0, ["some words", "> exit 0"]),
    (["--arguments", "hello", "words.c"], 0, ["hello", "> exit 0"]),
    (["--narrow", "wide.c"], 0, ["> exit 0"]),
    (["--integers", "real.c"], 0, ["> exit 0"]),
    (["status.c"], 3, ["> exit 7"]),
    (["lone.c"], 2, ["> refused C13", "-- no module has a main: give the file of a driver too, or words by which its main is not left out"]),
    (["--turns", "100000", "endless.c"], 3, ["begun", "> paused after 100000 turns"]),
    (["--go-on", "three.c", "one.c", "two.c"], 1, LIST),
    (["three.c", "one.c", "two.c"], 1, LIST[:2]),
    (["--brief", "--go-on", "three.c", "one.c", "two.c"], 1, [LIST[0], LIST[1], LIST[3], LIST[4], "  U7 three.c:12 in main: a signed result is out of range"]),
    (["--known", "known", "three.c", "one.c", "two.c"], 0, ["  known: U5 one.c:7 in one: a pointer leaves its object", "-- the last run: exit 0"]),
    (["--known", "some", "--go-on", "three.c", "one.c", "two.c"], 1, ["-- this one is known",
        "  known: U6 two.c:1 in two: pointers into different objects are ordered or subtracted"]),
    # without --go-on the first step that is not known ends it
    (["--known", "some", "three.c", "one.c", "two.c"], 1, LIST[:2]),
    # a module is watched but for the lines that led to its steps
    (["-DTIMES=3", "--go-on", "user.c", "store.c"], 1, ["> violation U5 in below at store:2 left object 4 + 0 right 1", "-- object 4 is an object of static storage duration or a string literal",
        "-- store runs compiled while user.c:7 is carried out, and is not watched there; the program is run again", "one",
        "> violation U5 in below at store:2 left object 4 + 0 right 1", "-- this one is in the list already",
        "-- store runs compiled while store.c:4 is carried out, and is not watched there; the program is run again",
        # what is one below the array is a pointer into no object
        "> violation U5 in again at store:4 left object 4 + 4294967292 right 1", "two",
        "> violation U2 in last at store:3 object 4 offset 16 size 4", "    main at user:13 user.c:13: n += last(4);",
        "-- store runs compiled while user.c:13 is carried out, and is not watched there; the program is run again",
        "-- 3 undefined steps, in the order of their reports", "  U5 store.c:2 in below: a pointer leaves its object", "  U2 store.c:3 in last: the bytes are not inside the object",
        "-- store was not watched while these lines were carried out: user.c:7, store.c:4, user.c:11, user.c:13"]),
    # what is called too often has its whole module compiled
    (["--go-on", "often.c", "store.c"], 1, ["-- store runs compiled while often.c:6 is carried out, and is not watched there; the program is run again",
        "-- store is called there too often: store runs compiled from here on, and is no longer watched; the program is run again",
        "  U5 store.c:2 in below: a pointer leaves its object", "-- not watched behind their reports: store"]),
    (["--go-on", "chain.c", "links.c"], 1, ["> violation U5 in next at links:4 left object 1 + 0 right 1", "    main at chain:5 chain.c:5: for (i = 1; i < 4; i = next(i))",
        "-- links runs compiled while chain.c:6 with the third part of chain.c:5 is carried out, and is not watched there; the program is run again", "> exit 0",
        "  U5 links.c:4 in next: a pointer leaves its object", "      main at chain:5 chain.c:5: for (i = 1; i < 4; i = next(i))",
        "-- links was not watched while these lines were carried out: chain.c:6 with the third part of chain.c:5"]),
    # the step is in the third part of the `for` of line 6
    (["--brief", "--go-on", "third.c"], 1, ["> violation U3 in main at third:7 object 3 offset 0 size 4", "  U3 third.c:6 in main: the object is dead"]),
    (["--known", "seventh", "third.c"], 0, ["  known: U3 third.c:6 in main: the object is dead"]),
    (["--known", "sixth", "third.c"], 0, ["  known: U3 third.c:6 in main: the object is dead"]),
    (["--compiled", "one", "--go-on", "three.c", "one.c", "two.c"], 1, ["-- 2 undefined steps, in the order of their reports",
                                                                     "-- not watched behind their reports: three, two", "-- not watched at all: one"]),
]
# words of the command line, and the one line on standard error that a refusal gives at its end
REFUSED = [
    (["absent.c"], "saber-run: there is no file absent.c"),
    (["test/use.c", "lib/room.c"], "saber-run: test/use.c:2: 'room.h' file not found; give its folder by -I"),
    (["wide.c"], "saber-run: what is named `not taken` cannot be loaded; its lines say which words or edits help"),
    (["--suspect", "nobody", "plain.c"], "saber-run: there is no module nobody: the modules are plain"),
    (["--suspect", "plain", "--compiled", "plain", "plain.c"], "saber-run: module plain is to be both interpreted and compiled"),
    (["--known", "bad", "plain.c"], "saber-run: bad:2: no rule and place, as `U3 list.c:20`, `U3 list:drop` or `* list.c`"),
    (["--known", "absent", "plain.c"], "saber-run: absent: No such file or directory"),
    (["plain.c", "--", "absent"], "saber-run: there is no file absent"),
    (["plain.c", "twice.c"], "saber-run: load twice: refused C6 main plain"),
    (["fine.c", "with-dash.c"], None),
    (["huge.c"], "saber-run: huge.c:1: its own text has 1200013 bytes without blanks and comments, and load takes 1048576: cut the file into two"),
    (["deep.c"], None),
    (["noise.c"], None),
]


def runs(program, room):
    """What is told of runs; the user's files stay as they were."""
    before = content(room)
    for words, status, wanted in CASES:
        ran = common.tool_run("saber-run", program, room, words)
        yield " ".join(words), ran.returncode == status and holds(ran.stdout, wanted), common.told_by(ran)
    yield "files of the user", content(room) == before


def refuses(program, room):
    """What is refused, with status 2 and a last line that says what and where; hostile files too, and soon."""
    for words, line in REFUSED:
        ran = common.tool_run("saber-run", program, room, words)
        last = ran.stderr.decode(errors="replace").strip().splitlines()[-1:]
        right = last == [line] if line else last and last[0].startswith("saber-run: ") or b"> refused C13" in ran.stdout
        yield " ".join(words), ran.returncode == 2 and right, common.told_by(ran)
    # whether the program gives it up or is not waited for, clang makes too much of it
    for words in (["types.c"], ["-DTYPES", "types.c"]):
        ran = common.tool_run("saber-run", program, room, words)
        yield " ".join(words), ran.returncode == 4 and ran.stderr.startswith(b"saber-run: "), common.told_by(ran)
    spins = common.spinning(room)
    ran = common.tool_run("saber-run", spins, room, ["plain.c"])
    yield "a program that does not answer", ran.returncode == 4 and ran.stderr == b"saber-run: load plain: no answer after 5 s of processor time\n", common.told_by(ran)


def proposes(program, room):
    """A large program brings a proposal on standard error, a small one and one whose forms were chosen do not."""
    for words, wanted in ((["many.c", "part.c"], True), (["--suspect", "part", "many.c", "part.c"], False), (["fine.c", "other.c"], False)):
        ran = common.tool_run("saber-run", program, room, words)
        told = b"--suspect M interprets one module and runs the others compiled" in ran.stderr
        yield f"proposal for {' '.join(words)}", told == wanted and ran.returncode == 0, common.told_by(ran)


def shows_once(program, room):
    """What the program writes is shown once, however often it is run."""
    ran = common.tool_run("saber-run", program, room, ["--go-on", "three.c", "one.c", "two.c"])
    lines = [spaced(it) for it in ran.stdout.decode().splitlines()]
    counts = {it: lines.count(it) for it in ("first", "second", "third")}
    yield "output once", set(counts.values()) == {1}, counts


def keeps_copies(program, room):
    """With -o the prepared files stay, and load with the modules that they need."""
    ran = common.tool_run("saber-run", program, room, ["-o", "kept", "-I", "lib", "lib/room.c", "test/use.c"])
    came = common.run_of(program, room / "kept", ["room", "use"])
    yield "kept copies", ran.returncode == 1 and came.startswith("begun\n> violation U2 in main at use:9 "), came, common.told_by(ran)


def helps(program, room):
    """What the other tools say of a file of today: saber-why prepares it, and others name the command that does."""
    ran = common.tool_run("saber-why", program, room, ["other", "fine"])
    yield "saber-why prepares", ran.returncode == 0 and holds(ran.stdout, ["> exit 0"]), common.told_by(ran)
    ran = common.tool_run("saber-why", program, room, ["test/use"])
    line = "saber-why: test/use.c:2: 'room.h' file not found; give its folder by -I (load use: refused C5 X4 use.c:2); saber-run takes -I, -D and other words for that\n"
    yield "saber-why names saber-run", ran.returncode == 2 and ran.stderr.decode() == line, common.told_by(ran)
    ran = common.tool_run("saber-lcov", program, room, ["fine", "other"])
    yield "saber-lcov names saber-run", ran.returncode == 2 and re.search(rb"refused C5 .*saber-run prepares such a file", ran.stderr), common.told_by(ran)


if __name__ == "__main__":
    sys.exit(common.checked(__doc__, [runs, refuses, proposes, shows_once, keeps_copies, helps], FILES))
