#!/usr/bin/env python3
"""Checks tools/saber-why: what it tells of violations, its exit status, and that no file of the user changes.

usage: tests/tools/why.py PROGRAM

The expected lines are worked out by hand from each C program and docs/COMMANDS.md. The last line is 'N passed, M failed'.
"""
import json
import os
import pathlib
import re
import signal
import subprocess
import sys
import time

import common

FILES = {
    # the object is the third: count, and the parameter n of room are born before it
    "heap.c": "#include <stdlib.h>\nstatic int count;\nstatic char *room(int n)\n{\n    count++;\n    return malloc(n * 2);\n}\n"
              "int main(void)\n{\n    char *p;\n    p = room(5);\n    p[10] = 1;\n    return 0;\n}\n",
    "freed.c": "#include <stdlib.h>\nstruct cell { int *item; };\nstatic void drop(struct cell *c)\n{\n    free(c->item);\n}\n"
               "int main(void)\n{\n    struct cell c;\n    c.item = calloc(3, sizeof(int));\n    drop(&c);\n    return *c.item;\n}\n",
    "left.c": "static int *kept(int n)\n{\n    int twice;\n    twice = n + n;\n    return &twice;\n}\n"
              "int main(void)\n{\n    int *p;\n    p = kept(4);\n    return *p;\n}\n",
    # of two calls on one line the outer one breaks the rule, after the inner one came by that line
    "rec.c": "static int fact(int n)\n{\n    return n > 1 ? n * fact(n - 1) : 1;\n}\nint main(void)\n{\n    return fact(13);\n}\n",
    "first.c": "static const char text[4] = \"abc\";\nint main(void)\n{\n    return text[5];\n}\n",
    "deep.c": "static int down(int n)\n{\n    return 1 + down(n + 1);\n}\nint main(void)\n{\n    return down(0);\n}\n",
    "echo.c": "#include <stdio.h>\nint main(void)\n{\n    int c;\n    while ((c = getchar()) != -1)\n        putchar(c);\n    return 0;\n}\n",
    "feign.c": "#include <stdio.h>\nint main(void)\n{\n    puts(\"> violation U1 in main at feign:4 object 1 offset 0 size 4\");\n"
               "    printf(\"> exit 0\");\n    return 0;\n}\n",
    "nine.c": "int main(void)\n{\n    return 9;\n}\n",
    # a hung program
    "hang.c": "#include <stdio.h>\nstatic int turns;\nstatic void spin(int n)\n{\n    while (n)\n        turns = 1;\n}\n"
              "int main(void)\n{\n    puts(\"before\");\n    spin(3);\n    return 0;\n}\n",
    "loop.c": "int main(void)\n{\n    for (;;)\n        ;\n}\n",
    "wrong.c": "int main(void)\n{\n    return x;\n}\n",
    "store.c": "void store(int *p)\n{\n    p[1] = 2;\n}\n",
    "user.c": "extern void store(int *p);\nint main(void)\n{\n    int one;\n    store(&one);\n    return one;\n}\n",
    "grow.c": "#include <stdlib.h>\nint main(void)\n{\n    char *p, *q;\n    q = malloc(2);\n    p = realloc(q, 6);\n    p = realloc(p, 3);\n"
              "    p[4] = 0;\n    return 0;\n}\n",
    "moved.c": "#include <stdlib.h>\nint main(void)\n{\n    char *p, *q;\n    q = malloc(2);\n    q[0] = 1;\n    p = realloc(q, 6);\n    return p[0] + q[0];\n}\n",
    "crash.c": "int main(void)\n{\n    int *p;\n    p = 0;\n    return *p;\n}\n",
    "param.c": "static int *keep(int first, int second)\n{\n    int third;\n    third = first;\n    return third ? &second : 0;\n}\n"
               "int main(void)\n{\n    int *p;\n    int q;\n    p = keep(1, 2);\n    q = *p;\n    return q;\n}\n",
    "inner.c": "int main(void)\n{\n    int p;\n    p = 1;\n    if (p) {\n        int q;\n        p = q;\n    }\n    return p;\n}\n",
    "copy.c": "#include <stdlib.h>\n#include <string.h>\nint main(void)\n{\n    strcpy(malloc(3), \"abc\");\n    return 0;\n}\n",
    "hot.c": "static int sum;\nstatic void add(int *p, int i)\n{\n    sum += p[i];\n}\nint main(void)\n{\n    int i, all[400];\n"
             "    for (i = 0; i < 400; i++)\n        all[i] = 1;\n    for (i = 0; i <= 400; i++)\n        add(all, i);\n    return sum;\n}\n",
    "fresh.c": "static int sum(const int *p)\n{\n    int at, sum;\n    for (at = 0; at < 2; at++)\n        sum += p[at];\n    return sum;\n}\n"
               "int main(void)\n{\n    int two[2];\n    two[0] = two[1] = 1;\n    return sum(two) - 2;\n}\n",
    # the heap's functions are called through pointers: objects 1 and 2 are the pointers, 3 main's p, 4 make's p, 5 the block
    "ptr.c": "#include <stdlib.h>\nstatic void *(*get)(size_t) = malloc;\nstatic void (*put)(void *) = free;\nstatic int *make(void)\n{\n"
             "    int *p = (*get)(8);\n    p[0] = 1;\n    return p;\n}\nint main(void)\n{\n    int *p = make();\n    (*put)(p);\n    return p[0];\n}\n",
    # h is 1, p and q are 2 and 3, and the blocks 4 and 5
    "hooks.c": "#include <stdlib.h>\nstruct hooks {\n    void *(*get)(size_t, size_t);\n    void *(*more)(void *, size_t);\n    void (*free)(void *);\n};\n"
               "static const struct hooks h = { calloc, realloc, free };\nint main(void)\n{\n    char *p, *q;\n    p = h.get(2, 3);\n    q = h.more(p, 12);\n"
               "    h.free(q);\n    h.free(q);\n    return p[0];\n}\n",
    # a name that the preprocessor makes is not seen; p and q are 1 and 2
    "paste.c": "#include <stdlib.h>\n#define KIND(a) a ## alloc\nint main(void)\n{\n    char *p, *q;\n    p = KIND(m)(4);\n    q = p;\n    free(p);\n"
               "    return q[0];\n}\n",
    # a macro of the user's own stands for malloc, and gives what no heap gave
    "macro.c": "#define malloc(n) own(n)\nstatic char room[4];\nstatic char *own(int n)\n{\n    return n > 4 ? 0 : room;\n}\n"
               "int main(void)\n{\n    char *p;\n    p = malloc(3);\n    return p[4];\n}\n",
    "third.c": "#include <stdlib.h>\nstruct n { struct n *next; };\nint main(void)\n{\n    struct n *a = malloc(sizeof *a), *p;\n    a->next = 0;\n"
               "    for (p = a; p; p = p->next)\n    {\n        int i = 0;\n        i++;\n        free(p);\n    }\n    return 0;\n}\n",
    # behind the inner loop's last test the outer loop's third part follows
    "nest.c": "int main(void)\n{\n    int a[3], i, j, *p = a;\n    for (i = 0; i < 3;\n         p += 4, i++)\n        for (j = 0; j < 2; j++)\n"
              "            a[i] = j;\n    return 0;\n}\n",
    "body.c": "int main(void)\n{\n    int a[3], i;\n    for (i = 0; i < 9; i++)\n        a[i] = i;\n    return 0;\n}\n",
    # the outer call is in the third part, behind a statement that calls something else
    "outer.c": "#include <stdlib.h>\nstruct n { struct n *next; };\nstatic struct n *next(struct n *p)\n{\n    return p->next;\n}\n"
               "static void drop(struct n *p)\n{\n    free(p);\n}\nstatic void walk(struct n *p, void (*each)(struct n *))\n{\n    for (; p; p = next(p)) {\n"
               "        int i = 0;\n        i++;\n        each(p);\n    }\n}\nint main(void)\n{\n    struct n *a = calloc(1, sizeof *a);\n    walk(a, drop);\n    return 0;\n}\n",
    # both may have called it
    "either.c": "#include <stdlib.h>\nstruct n { struct n *next; };\nstatic struct n *next(struct n *p)\n{\n    return p->next;\n}\n"
                "int main(void)\n{\n    struct n *a = calloc(1, sizeof *a), *p;\n    for (p = a; p; p = next(p))\n        next(p), free(p);\n    return 0;\n}\n",
    # a block that is given in a third part, and given back in another one
    "parts.c": "#include <stdlib.h>\nint main(void)\n{\n    char *p = 0;\n    int i;\n    for (i = 0; i < 1; p = malloc(2))\n        i++;\n"
               "    for (i = 0; i < 1; free(p))\n        i++;\n    return p[0];\n}\n",
    # a depth of calls that the stack does not hold, from a third part
    "sinks.c": "static int sink(int n)\n{\n    int k = 0;\n    for (; n; n = sink(n))\n        k++;\n    return k;\n}\nint main(void)\n{\n    return sink(1);\n}\n",
    # the third part is carried out more often than is waited for
    "over.c": "int main(void)\n{\n    int i, sum;\n    for (i = 2147453647; i > 0; i++)\n        sum = i;\n    return sum;\n}\n",
    "assert.c": "#include <assert.h>\nstatic int half(int n)\n{\n    assert(n % 2 == 0);\n    return n / 2;\n}\nint main(void)\n{\n    int i;\n"
                "    for (i = 4; i > 0; i--)\n        half(half(i * 2));\n    return 0;\n}\n",
    # sixty loops around one statement, and a line of twenty thousand statements
    "nested.c": "int main(void)\n{\n    int a[1], i, s = 0;\n" + "    for (i = 0; i < 1; i++)\n" * 60 + "        a[1] = 1;\n    return s;\n}\n",
    "wide.c": "int main(void)\n{\n    int a[1], i = 0, s = 0;\n    for (i = 0; i < 2; i++) {\n        " + "s += 1; " * 20000 + "\n        a[i] = s;\n    }\n    return s;\n}\n",
    "inside.c": "#include <stdlib.h>\nint main(void)\n{\n    char *p = malloc(4);\n    free(p + 1);\n    return 0;\n}\n",
    "mapped.c": "int main(void) { int x; return x; }\n",
    "real.c": "\n\nint main(void) {\n    int x;\n    return x;\n}\n",
    "mapped.map.json": json.dumps({"ranges": [{"first": 1, "last": 1, "file": "real.c", "line": 5}]}),
    "input": "some\n> words",
    "three.h": "#define THREE 3\n",
    "sub/up.c": "#include \"../three.h\"\nint main(void)\n{\n    return THREE - 3 ? 1 : 0;\n}\n",
    "store.o": "a file of the user",
}
# words of the command line, exit status, and lines that the output has to hold in this order ('    ' begins a call or a value)
CASES = [
    (["heap"], 1, ["> violation U2 in main at heap:12 object 4 offset 10 size 1", "-- at heap.c:12", "    p[10] = 1;",
                   "    main at heap:12 heap.c:12: p[10] = 1;", "    p = object 4 + 0",
                   "-- object 4 is a heap block of 10 bytes, which malloc gave here",
                   "    heap:room at heap:6 heap.c:6: return malloc(n * 2);", "    main at heap:11 heap.c:11: p = room(5);"]),
    (["freed.c"], 1, ["> violation U3 in main at freed:12 object 2 offset 0 size 4", "    c = {dead object 2 + 0}",
                      "-- object 2 is a heap block of 12 bytes, which calloc gave here", "    main at freed:10 freed.c:10: c.item = calloc(3, sizeof(int));",
                      "-- and it died here", "    freed:drop at freed:5 freed.c:5: free(c->item);", "    main at freed:11 freed.c:11: drop(&c);"]),
    (["left"], 1, ["> violation U3 in main at left:11 object 3 offset 0 size 4", "    p = dead object 3 + 0",
                   "-- object 3 is twice, an object of left:kept's outermost block, born here",
                   "-- and it died as its block was left, at the latest behind this line", "    left:kept at left:5 left.c:5: return &twice;"]),
    (["rec"], 1, ["> violation U7 in rec:fact at rec:3 left 13 right 479001600", "    n = 13"]),
    (["first"], 1, ["> violation U5 in main at first:4 left object 1 + 0 right 5",
                    "    text = {97, 98, 99, 0}", "-- object 1 is an object of static storage duration or a string literal"]),
    (["--stack", "4096", "deep"], 1, ["> stack full entering deep:down", "    main at deep:7 deep.c:7: return down(0);"]),
    (["-i", "input", "echo"], 0, ["some", "> words", "> exit 0"]),
    (["feign"], 0, ["> violation U1 in main at feign:4 object 1 offset 0 size 4", "> exit 0", "> exit 0"]),
    (["nine"], 3, ["> exit 9"]),
    (["--turns", "1000", "loop"], 3, ["> paused after 1000 turns"]),
    (["user", "store"], 1, ["> violation U2 in store at store:3 object 1 offset 4 size 4", "    p = object 1 + 0",
                            "-- object 1 is one, an object of main's outermost block, born here"]),
    # compiled code tests nothing itself: what was not written is found where it is read
    (["user", "--object", "store"], 1, ["> violation U1 in main at user:6 object 1 offset 0 size 4", "    one = ?"]),
    # main's p and q are 1 and 2, and the parameters of keep 3 and 4
    (["param"], 1, ["> violation U3 in main at param:12 object 4 offset 0 size 4",
                    "-- object 4 is second, a parameter of param:keep, born here", "    main at param:11 param.c:11: p = keep(1, 2);"]),
    (["inner"], 1, ["> violation U1 in main at inner:7 object 2 offset 0 size 4", "-- object 2 is an object of a block, born here",
                    "    main at inner:5 inner.c:5: if (p) {"]),
    (["crash", "--object", "crash"], 1, ["-- calls, the innermost one first, as the last function was entered"]),
    # p and q are the first objects
    (["grow"], 1, ["> violation U5 in main at grow:8 left object 5 + 0 right 4", "-- object 5 is a heap block of 3 bytes, which realloc gave here",
                   "    main at grow:7 grow.c:7: p = realloc(p, 3);"]),
    (["moved"], 1, ["> violation U3 in main at moved:8 left dead object 3 + 0 right 0",
                    "-- object 3 is a heap block of 2 bytes, which malloc gave here", "-- and it died here",
                    "    main at moved:7 moved.c:7: p = realloc(q, 6);"]),
    # the line is reached 401 times, and the function is entered more often than its entries are waited for
    (["hot"], 1, ["> violation U2 in hot:add at hot:4 object 3 offset 1600 size 4", "    hot:add at hot:4 hot.c:4: sum += p[i];",
                  "    main at hot:12 hot.c:12: add(all, i);", "    sum = 400", "    p = object 3 + 0", "    i = 400",
                  "-- object 3 is all, an object of main's outermost block, born here"]),
    # no function is entered behind the birth: main's two is 1, and p, at and sum follow
    (["fresh"], 1, ["> violation U1 in fresh:sum at fresh:5 object 4 offset 0 size 4", "    sum = ?", "    p = object 1 + 0", "    at = 0",
                    "-- object 4 is sum, an object of fresh:sum's outermost block, born here"]),
    (["sub/up"], 0, ["> exit 0"]),
    # a copy by the library is tested, whoever calls it
    (["--object", "copy", "copy"], 1, ["> violation U2 in main at copy:0 object 2 offset 3 size 1",
                                       "-- the line is in compiled code of copy; leave it in source form to see it",
                                       "-- object 2 is a heap block of 3 bytes, which malloc gave here"]),
    (["ptr"], 1, ["> violation U3 in main at ptr:14 left dead object 5 + 0 right 0", "    p = dead object 5 + 0",
                  "-- object 5 is a heap block of 8 bytes, which malloc gave here", "    ptr:make at ptr:6 ptr.c:6: int *p = (*get)(8);",
                  "    main at ptr:12 ptr.c:12: int *p = make();", "-- and it died here", "    main at ptr:13 ptr.c:13: (*put)(p);"]),
    (["hooks"], 1, ["> violation U14 in main at hooks:14 value dead object 5 + 0", "-- at hooks.c:14", "    q = dead object 5 + 0",
                    "-- object 5 is a heap block of 12 bytes, which realloc gave here", "    main at hooks:12 hooks.c:12: q = h.more(p, 12);",
                    "-- and it died here", "    main at hooks:13 hooks.c:13: h.free(q);"]),
    (["paste"], 1, ["> violation U3 in main at paste:9 left dead object 3 + 0 right 0",
                    "-- object 3 is a heap block or an object of a block, born here", "    main at paste:6 paste.c:6: p = KIND(m)(4);",
                    "-- and where it died was not seen"]),
    (["macro"], 1, ["> violation U2 in main at macro:11 object 1 offset 4 size 1", "-- object 1 is an object of static storage duration or a string literal"]),
    (["inside"], 1, ["> violation U14 in main at inside:5 value object 2 + 1", "-- object 2 is a heap block of 4 bytes, which malloc gave here",
                     "    main at inside:4 inside.c:4: char *p = malloc(4);"]),
    (["nested"], 1, ["> violation U2 in main at nested:64 object 1 offset 4 size 4", "-- at nested.c:64", "    a[1] = 1;",
                     "-- object 1 is a, an object of main's outermost block, born here"]),
    (["wide"], 1, ["> violation U2 in main at wide:6 object 1 offset 4 size 4", "-- at wide.c:6", "    a[i] = s;", "    i = 1", "    s = 40000"]),
    # a is 1, p 2 and the node 3
    (["third"], 1, ["> violation U3 in main at third:11 object 3 offset 0 size 4", "-- at third.c:7, in the third part of the `for`, behind line 11",
                    "    for (p = a; p; p = p->next)", "    main at third:7 third.c:7: for (p = a; p; p = p->next)", "-- values, before line 11 is carried out", "    p = object 3 + 0", "-- and it died here",
                    "    main at third:11 third.c:11: free(p);"]),
    (["nest"], 1, ["> violation U5 in main at nest:6 left object 1 + 0 right 4", "-- at nest.c:4, in the third part of the `for`, behind line 6",
                   "    for (i = 0; i < 3;", "    p += 4, i++)", "    p = object 1 + 0"]),
    # a is 1, and the node 2
    (["outer"], 1, ["> violation U3 in outer:next at outer:5 object 2 offset 0 size 4", "    outer:next at outer:5 outer.c:5: return p->next;",
                    "    outer:walk at outer:13 outer.c:13: for (; p; p = next(p)) {", "    main at outer:22 outer.c:22: walk(a, drop);", "-- and it died here",
                    "    outer:drop at outer:9 outer.c:9: free(p);", "    outer:walk at outer:16 outer.c:16: each(p);"]),
    # a is 1, p 2 and the node 3
    (["either"], 1, ["> violation U3 in either:next at either:5 object 3 offset 0 size 4",
                     "    main at either:11 or either:10 either.c:11: next(p), free(p); or either.c:10: for (p = a; p; p = next(p))"]),
    (["parts"], 1, ["> violation U3 in main at parts:10 left dead object 3 + 0 right 0", "-- object 3 is a heap block of 2 bytes, which malloc gave here",
                    "    main at parts:6 parts.c:6: for (i = 0; i < 1; p = malloc(2))", "-- and it died here", "    main at parts:8 parts.c:8: for (i = 0; i < 1; free(p))"]),
    (["--stack", "4096", "sinks"], 1, ["> stack full entering sinks:sink", "    sinks:sink at sinks:4 sinks.c:4: for (; n; n = sink(n))", "    main at sinks:10 sinks.c:10: return sink(1);"]),
    (["body"], 1, ["> violation U2 in main at body:5 object 1 offset 12 size 4", "-- at body.c:5", "    i = 3"]),
    (["over"], 1, ["> violation U7 in main at over:5 left 2147483647 right 1", "-- at over.c:5", "    sum = i;",
                   "-- or at over.c:4, in the third part of the `for`, behind line 5", "    for (i = 2147453647; i > 0; i++)"]),
    # half(8), half(4), half(6), and then half(3)
    (["assert"], 3, ["> exit 134", "-- a failed assertion and abort end so", "-- calls, the innermost one first, at the last line that was reached",
                     "    assert:half at assert:4 assert.c:4: assert(n % 2 == 0);", "    main at assert:11 assert.c:11: half(half(i * 2));", "    n = 3"]),
    (["--object", "assert", "assert"], 3, ["> exit 134", "-- calls, the innermost one first, as the last function was entered"]),
    (["mapped"], 1, ["> violation U1 in main at mapped:1 object 1 offset 0 size 4", "-- at real.c:5", "    return x;"]),
]
REFUSED = [
    (["absent"], "saber-why: there is no file absent.c"),
    (["-i", "absent", "nine"], "saber-why: there is no file absent"),
    (["wrong"], "saber-why: wrong.c:3: use of undeclared identifier 'x' (load wrong: refused C5 X6 wrong.c:3)"),
    (["store"], ""),
    (["nine", "nine.c"], "saber-why: module nine is named twice"),
    (["9.c"], "saber-why: 9 is no module's name: a letter and up to 30 letters, digits or underscores"),
    (["--program", "absent", "nine"], "saber-why: there is no program absent"),
]


# words, and a part of a line that the output may not have
NOT_TOLD = [
    (["paste"], "died as its block was left"),
    (["inside"], "died"),
    (["body"], "third part"),
]


def spaced(line):
    """A line with runs of spaces behind its indent made one."""
    return re.sub(r"(?<=\S) +", " ", line)


def holds(output, wanted):
    """Whether the wanted lines stand in the output in this order."""
    lines = iter(spaced(it) for it in output.decode(errors="replace").splitlines())
    return all(any(line == it for line in lines) for it in wanted)


def content(room):
    return {path: path.read_bytes() for path in room.rglob("*") if path.is_file()}


def tells(program, room):
    """What is told of runs, and what is refused; the user's files stay as they were."""
    before = content(room)
    for words, status, wanted in CASES:
        ran = common.tool_run("saber-why", program, room, words)
        yield " ".join(words), ran.returncode == status and holds(ran.stdout, wanted), common.told_by(ran)
    for words, part in NOT_TOLD:
        ran = common.tool_run("saber-why", program, room, words)
        yield f"not told of {words[0]}: {part}", ran.returncode == 1 and part not in ran.stdout.decode(), common.told_by(ran)
    for words, line in REFUSED:
        ran = common.tool_run("saber-why", program, room, words)
        yield " ".join(words), ran.returncode == 2 and ran.stderr.decode().strip() == line, common.told_by(ran)
    yield "files of the user", content(room) == before


def has_hung(tool):
    """Whether a program that the tool runs has taken half a second of processor time."""
    try:
        children = pathlib.Path(f"/proc/{tool.pid}/task/{tool.pid}/children").read_text().split()
        fields = [pathlib.Path(f"/proc/{it}/stat").read_text().rpartition(")")[2].split() for it in children]
    except OSError:
        return False
    return any(int(it[11]) + int(it[12]) > os.sysconf("SC_CLK_TCK") / 2 for it in fields)


def interrupted(program, room):
    """Ctrl-C of a program that hangs: what it printed, and where it stood."""
    environment = {**os.environ, "SABER_PROGRAM": str(program)}
    child = subprocess.Popen([common.TOOLS / "saber-why", "hang"], cwd=room, env=environment, stdout=subprocess.PIPE, stderr=subprocess.PIPE)
    end = time.monotonic() + 100
    while not has_hung(child) and time.monotonic() < end:
        time.sleep(0.2)
    child.send_signal(signal.SIGINT)
    output, said = child.communicate(timeout=120)
    wanted = ["-- ended by Ctrl-C; the run is repeated up to where it stood",
              "before", "-- calls, the innermost one first, where it stood or came by last", "    main at hang:11 hang.c:11: spin(3);"]
    yield "Ctrl-C", child.returncode == 3 and holds(output, wanted) and b"    hang:spin at hang:" in output, output.decode() + said.decode()


def replays(program, room):
    """How often the program is started: for the run, for a list of functions, and for one replay that tells all.

    The object may be a heap block, one that stands as the run begins, or one of a function that is active.
    """
    counted, log = room / "counted.sh", room / "log"
    counted.write_text(f'#!/bin/sh\necho >> "{log}"\nexec "{program}" "$@"\n')
    counted.chmod(0o755)
    for name in ("heap", "freed", "first", "hot", "user store", "fresh"):
        log.write_text("")
        ran = common.tool_run("saber-why", counted, room, name.split())
        starts = len(log.read_text())
        yield f"starts for {name}", ran.returncode == 1 and starts == 3, f"{starts} starts", common.told_by(ran)


def ends_early(program, room):
    """A program that ends at once."""
    early = room / "early.sh"
    early.write_text("#!/bin/sh\necho 'saber: no memory' >&2\nexit 6\n")
    early.chmod(0o755)
    ran = common.tool_run("saber-why", early, room, ["nine"])
    said = "saber-why: the session ended early with status 6: saber: no memory\n"
    yield "a session that ends early", ran.returncode == 3 and ran.stderr.decode() == said, common.told_by(ran)


if __name__ == "__main__":
    sys.exit(common.checked(__doc__, [tells, interrupted, replays, ends_early], FILES))
