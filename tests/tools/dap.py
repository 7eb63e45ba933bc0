#!/usr/bin/env python3
"""Checks tools/saber-dap: requests, their answers and the events, worked out by hand from the C programs.

usage: tests/tools/dap.py PROGRAM

The transcripts tests/tools/*.dap were taken of real clients; what such a client sent is sent again, and each answer has to
hold what the adapter answered then. The last line is 'N passed, M failed'.
"""
import json
import os
import pathlib
import queue
import re
import subprocess
import sys
import threading

import common

DAP = common.TOOLS / "saber-dap"
SECONDS = 120
# the last statement of the loop is a jump, and the third part reads what is dead
THIRD = ("#include <stdlib.h>\nstruct n { struct n *next; int v; };\nint main(void)\n{\n    struct n *a = calloc(1, sizeof *a), *p;\n"
         "    for (p = a; p; p = p->next) {\n        a = 0;\n        free(p);\n        continue;\n    }\n    return 0;\n}\n")
# each kind of statement, and lines on which more than one is reached
KINDS = """#include <stdio.h>
struct s { int a; int v[3]; };
static int n;
static void quiet(int k)
{
    if (k > 2) {
        n = k;
        return;
    }
    n = -k;
    return;
}
static int f(int k)
{
    int x = k * 2, b[2] = {7, 8}, y = k;
    char text[] = "abc";
    struct s v = {1, {2, 3, 4}};
    struct s w = v;

    switch (k) {
    case 1:
        x = 5;
        break;
    case 2: x = 6; break;
    default: goto out;
    }
    return x + b[0] + y + w.a;
out:
    return text[0];
}
int one(int k) { return k + 1; }
int main(void)
{
    int i, t = 0;
    for (i = 0; i < 4; i++) { if (i == 3) continue; t += f(i); }
    for (i = 0; i < 4; i++) {
        if (i == 1)
            continue;
        quiet(i);
    }
    while (1) {
        int c = t++;
        if (c > 100) break; else { continue; }
    }
    t = one(2) + one(t);
    do { t--; if (t < 130) break; } while (t);
    {
        static int z[] = {1, 2};
        int q[2] = {0};
        q[1] = z[1];
    }
    ; return t - t;
}
"""
FILES = {
    "third.c": THIRD,
    "outer.c": "static int n;\nstatic int up(int i)\n{\n    return i + 1;\n}\nint main(void)\n{\n    int i;\n    for (i = 0; i < 2; i = up(i)) {\n        n += i;\n"
               "        n++;\n    }\n    return n;\n}\n",
    "kinds.c": KINDS,
    "stack.c": "#include <stdlib.h>\nstatic int *room;\nstatic int used, limit = 9;\n\nvoid push(int n)\n{\n    room[used] = n;\n    used++;\n}\n\n"
               "void begin(int n)\n{\n    room = malloc(n * sizeof(int));\n    limit = n;\n}\n",
    "user.c": "#include <stdio.h>\nextern void push(int n);\nextern void begin(int n);\nstruct pair { int a; int b[2]; };\n\nint main(void)\n{\n"
              "    struct pair p = { 1, { 2, 3 } };\n    int i;\n\n    begin(p.b[0]);\n    for (i = 0; i < 3; i++) {\n        printf(\"push %d\\n\", i);\n"
              "        push(i);\n    }\n    return 0;\n}\n",
    "spin.c": "static int turns;\nstatic void work(void)\n{\n    int i;\n    for (i = 0; i < 5; i++)\n        turns = 1;\n}\n"
              "int main(void)\n{\n    work();\n    for (;;)\n        turns = 7;\n}\n",
    "slow.c": "static int sum;\nstatic void work(int n)\n{\n    int i;\n    for (i = 0; i < n; i++)\n        sum = i & 7;\n}\n"
              "int main(void)\n{\n    sum = 1;\n    work(250000);\n    sum = 2;\n    return 5;\n}\n",
    "wrong.c": "int main(void)\n{\n    return x;\n}\n",
    "loop.c": "extern int reply(int n);\nint main(void)\n{\n    int i, sum = 0;\n    for (i = 0; i < 4; i++)\n        sum += reply(i);\n    return sum;\n}\n",
    "held.c": "#include <stdlib.h>\nint reply(int n);\nint main(void)\n{\n    int *p = malloc(4);\n    reply(1);\n    p[1] = 1;\n    return 0;\n}\n",
    "reply.c": "int reply(int n)\n{\n    return n;\n}\n",
    "mended.c": "int reply(int n)\n{\n    n = n + 10;\n    return n;\n}\n",
    "worse.c": "int reply(int n)\n{\n    int two = 2;\n    return n / (two - n);\n}\n",
    # 7 is no even number
    "even.c": "#include <assert.h>\nstatic int half(int n)\n{\n    assert(n % 2 == 0);\n    return n / 2;\n}\nint main(void)\n{\n    return half(half(14));\n}\n",
    "list.c": "#include <stdlib.h>\nstruct node { int v[3]; struct node *next; };\nstatic struct node *head;\nstatic int sum(struct node *p)\n{\n"
              "    int s = 0;\n    for (; p; p = p->next) {\n        unsigned k = p->v[1];\n        s += k;\n    }\n    return s;\n}\n"
              "int main(void)\n{\n    int i;\n    for (i = 1; i < 4; i++) {\n        struct node *n = calloc(1, sizeof *n);\n        n->v[1] = i * i;\n"
              "        n->next = head;\n        head = n;\n    }\n    return sum(head) - 14;\n}\n",
}


class Client:
    """An editor's side of the protocol."""

    def __init__(self, program, room):
        self.child = subprocess.Popen([DAP, "--program", program], cwd=room, stdin=subprocess.PIPE, stdout=subprocess.PIPE,
                                      stderr=subprocess.PIPE)
        self._told, self._number, self.events, self.is_begun = queue.Queue(), 0, [], False
        threading.Thread(target=self._read, daemon=True).start()

    def _read(self):
        source = self.child.stdout
        while head := source.readline():
            source.readline()
            self._told.put(json.loads(source.read(int(head.split(b":")[1]))))
        self._told.put(None)

    def send(self, message):
        text = json.dumps(message).encode()
        self.child.stdin.write(b"Content-Length: %d\r\n\r\n" % len(text) + text)
        self.child.stdin.flush()

    def ask(self, command, **given):
        """The answer to a request; events that come before it are kept."""
        self._number += 1
        self.send({"seq": self._number, "type": "request", "command": command, "arguments": given})
        while (told := self._next()) and told["type"] == "event":
            self.events.append(told)
        return told or {}

    def event(self, *names):
        """The next event of one of these names; those before it are dropped."""
        while self.events:
            told = self.events.pop(0)
            if told["event"] in names:
                return told["body"]
        while told := self._next():
            if told["type"] == "event" and told["event"] in names:
                return told["body"]
        return {}

    def output(self, until):
        """What the program wrote up to the next event of a name, and that event."""
        text = ""
        while body := self._any():
            if body["event"] == until:
                return text, body["body"]
            if body["event"] == "output" and body["body"]["category"] == "stdout":
                text += body["body"]["output"]
        return text, {}

    def _any(self):
        return self.events.pop(0) if self.events else self._next()

    def _next(self):
        try:
            return self._told.get(timeout=SECONDS)
        except queue.Empty:
            return None

    def launched(self, **given):
        """Launches modules, up to where breakpoints are taken; tells whether that succeeded."""
        self.ask("initialize", adapterID="saber")
        answer = self.ask("launch", **given)
        return answer["success"] and self.event("initialized") == {}

    def frames(self):
        body = self.ask("stackTrace", threadId=1)["body"]
        return [(it["name"], pathlib.Path(it["source"]["path"]).name, it["line"]) for it in body["stackFrames"]]

    def values(self, number=1):
        return {it["name"]: it["value"] for it in self.ask("variables", variablesReference=number)["body"]["variables"]}

    def status(self):
        self.child.stdin.close()
        return self.child.wait(SECONDS)


def breakpoints(program, room):
    """Lines and functions, steps, values, and the end by an undefined step."""
    client = Client(program, room)
    yield "launch", client.launched(modules=["user", "stack.c"], cwd=str(room))
    # line 12 is `for`, line 10 has no statement, and none begins behind line 16
    told = client.ask("setBreakpoints", source={"path": str(room / "user.c")}, breakpoints=[{"line": 10}, {"line": 17}])
    yield "lines", [it.get("line") for it in told["body"]["breakpoints"]] == [11, None]
    told = client.ask("setFunctionBreakpoints", breakpoints=[{"name": "push"}, {"name": "pop"}])
    yield "functions", [it["verified"] for it in told["body"]["breakpoints"]] == [True, False]
    client.ask("configurationDone")
    yield "a line", client.event("stopped")["reason"] == "breakpoint" and client.frames() == [("main", "user.c", 11)]
    yield "values", client.values() == {"p": "{1, {2, 3}}"} | {"i": "?"}
    yield "parts", client.values(1000) == {"[0]": "1", "[1]": "{2, 3}"}
    yield "a name", client.ask("evaluate", expression="p", context="hover")["body"]["result"] == "{1, {2, 3}}"
    yield "a member", client.ask("evaluate", expression="p.b[1] - 4", context="hover")["body"]["result"] == "-1"
    told = client.ask("evaluate", expression="q", context="hover")
    yield "no name", not told["success"] and told["message"] == "q is no expression here (refused C5 X6 user.c:11)"
    client.ask("next")
    yield "next goes over a call", client.event("stopped")["reason"] == "step" and client.frames() == [("main", "user.c", 12)]
    client.ask("continue")
    text, stopped = client.output("stopped")
    yield "a function", text == "push 0\n" and stopped["reason"] == "function breakpoint"
    yield "calls", client.frames() == [("push", "stack.c", 5), ("main", "user.c", 14)]
    yield "the function's names", client.values() == {"n": "0", "room": "object 8 + 0", "used": "0"}
    yield "the module's other names", client.values(2) == {"limit": "2"}
    told = client.ask("scopes", frameId=2)["body"]["scopes"]
    yield "the scopes of an outer call", [(it["name"], it["variablesReference"]) for it in told] == \
        [("Function, as line 14 was begun", 3), ("Module, as line 14 was begun", 4)]
    yield "the names of an outer call", client.values(3) == {"p": "{1, {2, 3}}", "i": "0"}
    client.ask("stepOut")
    client.event("stopped")
    yield "out", client.frames() == [("main", "user.c", 12)]
    client.ask("setFunctionBreakpoints", breakpoints=[])
    for line in (13, 14, 7):
        client.ask("stepIn")
        client.event("stopped")
        yield f"in, to line {line}", client.frames()[0][2] == line
    client.ask("continue")
    text, stopped = client.output("stopped")
    yield "an undefined step", text == "push 2\n" and stopped["reason"] == "exception" and \
        stopped["text"] == "violation U2 in push at stack:7 object 8 offset 8 size 4"
    yield "where it is", client.frames() == [("push", "stack.c", 7), ("main", "user.c", 14)]
    yield "its values", client.values() == {"n": "2", "room": "object 8 + 0", "used": "2"}
    for text, at, value in (("room[used - 1] + 5", 1, "6"), ("room", 1, "object 8 + 0"), ("p.b[1]", 2, "3"), ("i", 2, "2"), ("i * 2 == 4", 2, "1")):
        told = client.ask("evaluate", expression=text, frameId=at, context="hover")
        yield f"the value of {text}", told["success"] and told["body"]["result"] == value, told
    told = client.ask("evaluate", expression="room[used]", frameId=1, context="hover")
    yield "no value", told.get("message") == "it has no value: violation U2 in push at stack:7 object 8 offset 8 size 4", told
    told = client.ask("exceptionInfo", threadId=1)["body"]
    yield "why", told["exceptionId"] == "U2" and "object 8 is a heap block of 8 bytes" in told["details"]["stackTrace"]
    client.ask("continue")
    yield "the end", client.event("terminated") == {} and client.ask("disconnect")["success"] and client.status() == 0


def pauses(program, room):
    """A run that never ends is paused, where it is."""
    client = Client(program, room)
    yield "launch", client.launched(modules=["spin"], cwd=str(room), stopOnEntry=True)
    client.ask("configurationDone")
    yield "entry", client.event("stopped")["reason"] == "entry" and client.frames() == [("main", "spin.c", 8)]
    client.ask("continue")
    told = client.ask("stackTrace", threadId=1)
    yield "a run that goes on shows nothing", not told["success"] and told["message"] == "the run goes on"
    client.ask("pause", threadId=1)
    yield "paused", client.event("stopped")["reason"] == "pause"
    frames = client.frames()
    yield "where", frames in ([("main", "spin.c", 11)], [("main", "spin.c", 12)]) or print(frames)
    client.ask("setBreakpoints", source={"path": str(room / "spin.c")}, breakpoints=[{"line": 12}])
    client.ask("continue")
    yield "and on", client.event("stopped")["reason"] == "breakpoint" and client.frames() == [("main", "spin.c", 12)]
    yield "terminate", client.ask("terminate")["success"] and client.event("terminated") == {} and client.status() == 0


def long_steps(program, room):
    """A step over a call that takes more than a slice, and the exit status of the program."""
    client = Client(program, room)
    client.launched(modules=["slow"], cwd=str(room), stopOnEntry=True)
    client.ask("configurationDone")
    client.event("stopped")
    for line in (10, 11, 12):
        client.ask("next")
        client.event("stopped")
        yield f"over, to line {line}", client.frames() == [("main", "slow.c", line)]
    yield "what it did", client.ask("evaluate", expression="sum")["body"]["result"] == "7"
    told = client.ask("evaluate", expression="(work(2000000000), sum)")
    yield "an expression without an end", not told["success"] and told["message"].startswith("it was not evaluated: paused after "), told
    client.ask("continue")
    yield "its exit status", client.event("exited") == {"exitCode": 5} and client.event("terminated") == {}


def expressions(program, room):
    """What is evaluated at each kind of statement. The list has the squares of 3, 2 and 1 in the middle of its nodes."""
    client = Client(program, room)
    client.launched(modules=["list"], cwd=str(room))
    client.ask("setBreakpoints", source={"path": str(room / "list.c")}, breakpoints=[{"line": it} for it in (6, 7, 8, 9, 11)])
    client.ask("configurationDone")
    for line, wanted in (
        (6, {"p->v[1]": "9", "p->next->v[1]": "4", "p == head": "1"}),
        (7, {"p->next->next->next": "null", "s": "0", "s - 1": "-1", "sizeof(struct node)": "16"}),
        # k is not written yet
        (8, {"p->v[1] + s": "9", "k": "?"}),
        # head and i are objects 1 and 2, and n and a block follow three times
        (9, {"k - 10": "4294967295", "-1": "-1", "(char) 200": "200", "head->v": "object 8 + 0", "*head": "{{0, 9, 0}, object 6 + 0}", "*p->next": "{{0, 4, 0}, object 4 + 0}",
             "sum": "function list:sum", "sum(head->next->next)": "1"}),
    ):
        yield f"a stop at line {line}", client.event("stopped")["text"] == f"at list:{line}"
        for text, value in wanted.items():
            told = client.ask("evaluate", expression=text, frameId=1, context="watch")
            yield f"{text} at line {line}", told["success"] and told["body"]["result"] == value, told
        if line == 7:
            names = {it["name"]: it["variablesReference"] for it in client.ask("variables", variablesReference=1)["body"]["variables"]}
            yield "a pointer is opened", client.values(names["p"]) == {"*p": "{{0, 9, 0}, object 6 + 0}"}, names
        client.ask("continue")
    client.event("stopped")
    client.ask("setBreakpoints", source={"path": str(room / "list.c")}, breakpoints=[{"line": 11}])
    for wrong in ("p +", "1; sum(p)", "p) (", "}", "q->v", '"a', "1 /* */"):
        told = client.ask("evaluate", expression=wrong, frameId=1, context="watch")
        yield f"{wrong} is refused", not told["success"] and "no expression" in told["message"], told
    client.ask("continue")
    yield "on to line 11", client.event("stopped")["text"] == "at list:11"
    told = client.ask("evaluate", expression="s", frameId=1, context="watch")
    yield "the run is where it was", told["body"]["result"] == "14"
    told = client.ask("evaluate", expression="eval list sizeof(struct node) * 2", frameId=1, context="repl")
    yield "eval at the prompt", told["body"]["result"] == "value 32", told
    told = client.ask("evaluate", expression="p s + 1", frameId=1, context="repl")
    yield "p at the prompt", told["success"] and told["body"]["result"] == "15", told
    told = client.ask("evaluate", expression="help", frameId=1, context="repl")
    yield "help at the prompt", told["success"] and all(f"{it}" in told["body"]["result"] for it in ("print", "where", "eval M E", "swap M", "edit M")), told


def stands_at(client):
    """The line at which the run halted; 0 where it ended."""
    body = client.event("stopped", "exited")
    return client.frames()[0][2] if "reason" in body else 0


def each_statement(program, room):
    """Where the run stands at each line in turn, an expression of a name has the value that the name has there.

    An odd one is told for what is no number. No statement is mistaken for another one of its line.
    """
    for way, other in (("stepIn", "next"), ("continue", "continue")):
        client = Client(program, room)
        client.launched(modules=["kinds"], cwd=str(room), stopOnEntry=True)
        lines = [8, 10, 11, 15, 16, 17, 18, 23, 24, 25, 27, 31, 35, 38, 42, 43, 49, 52] if way == other else []
        client.ask("setBreakpoints", source={"path": str(room / "kinds.c")}, breakpoints=[{"line": it} for it in lines])
        client.ask("configurationDone")
        wrong, halts = [], 0
        while line := stands_at(client):
            halts += 1
            number = next(((name, it) for name, it in client.values().items() if it.lstrip("-").isdecimal()), ("7", "7"))
            told = client.ask("evaluate", expression=f"{number[0]} - 1 + 1", frameId=1, context="watch")
            if not told["success"] or told["body"]["result"] != number[1]:
                wrong.append((line, number, told))
            client.ask(way if halts % 3 else other)
        yield f"each line by {way}", halts > 20 and not wrong, halts, wrong[:3]


def before_jumps(program, room):
    """Expressions in front of what holds none itself, and names that have no values yet."""
    client = Client(program, room)
    client.launched(modules=["kinds"], cwd=str(room))
    for line, wanted in (
        (11, {"n * 2": "0", "k + 5": "5"}), (23, {"x + v.v[2]": "9"}), (25, {"text[1]": "98", "x + 1": "1"}), (38, {"i * 5": "5"}),
        (17, {"x + text[2]": "99", "v.a": None}), (16, {"b[1] + y": "8", "text[0]": None}), (49, {"z[1] - t": "-127", "q[0]": None}), (52, {"t - 1": "128"}),
    ):
        client.ask("setBreakpoints", source={"path": str(room / "kinds.c")}, breakpoints=[{"line": line}])
        client.ask("restart" if client.is_begun else "configurationDone")
        client.is_begun = True
        client.event("stopped")
        for text, value in wanted.items():
            told = client.ask("evaluate", expression=text, frameId=1, context="watch")
            came = told["body"]["result"] if told["success"] else None
            yield f"{text} at line {line}", came == value and (told["success"] or "gets its first values on this line" in told["message"]), told


def in_third_part(program, room):
    """An undefined step in the third part of a `for` stands at the `for`; its values are as its last line was begun."""
    client = Client(program, room)
    client.launched(modules=["third"], cwd=str(room))
    client.ask("configurationDone")
    yield "the report", client.event("stopped")["text"] == "violation U3 in main at third:9 object 3 offset 0 size 4"
    yield "the line", client.frames() == [("main", "third.c", 6)]
    told = client.ask("scopes", frameId=1)["body"]["scopes"]
    yield "the scopes", [it["name"] for it in told] == ["Function, as line 9 was begun", "Module, as line 9 was begun"], told
    yield "the values", client.values() == {"a": "null", "p": "dead object 3 + 0"}
    told = client.ask("evaluate", expression="a == 0", frameId=1, context="watch")
    yield "an expression", told["success"] and told["body"]["result"] == "1", told
    told = client.ask("evaluate", expression="p->v", frameId=1, context="watch")
    yield "no value", told.get("message") == "it has no value: violation U3 in main at third:9 object 3 offset 4 size 4", told


def call_in_third_part(program, room):
    """A call that is made in the third part of a `for` stands at the `for`; its values are as its last line was begun."""
    client = Client(program, room)
    client.launched(modules=["outer"], cwd=str(room))
    client.ask("setFunctionBreakpoints", breakpoints=[{"name": "up"}])
    client.ask("configurationDone")
    client.event("stopped")
    yield "the lines", client.frames() == [("outer:up", "outer.c", 2), ("main", "outer.c", 9)], client.frames()
    told = client.ask("scopes", frameId=2)["body"]["scopes"]
    yield "the scopes of the outer call", [it["name"] for it in told] == ["Function, as line 11 was begun", "Module, as line 11 was begun"], told
    told = client.ask("evaluate", expression="n + i + 5", frameId=2, context="watch")
    yield "an expression in it", told["success"] and told["body"]["result"] == "5", told
    client.ask("stepOut")
    client.event("stopped")
    # the loop's test is next
    yield "out", client.frames() == [("main", "outer.c", 9)], client.frames()


def conditions(program, room):
    """A breakpoint with a condition is refused, and not taken without it."""
    client = Client(program, room)
    client.launched(modules=["loop", "reply"], cwd=str(room))
    told = client.ask("setBreakpoints", source={"path": str(room / "loop.c")}, breakpoints=[
        {"line": 6, "condition": "i == 2"}, {"line": 7}, {"line": 6, "hitCondition": "3"}, {"line": 6, "logMessage": "i"}])["body"]
    yield "lines", [it["verified"] for it in told["breakpoints"]] == [False, True, False, False] and \
        told["breakpoints"][0]["message"] == "a breakpoint with a condition is not taken"
    told = client.ask("setFunctionBreakpoints", breakpoints=[{"name": "reply", "condition": "n == 2"}])["body"]
    yield "functions", [it["verified"] for it in told["breakpoints"]] == [False]
    client.ask("configurationDone")
    yield "only the other one stops", client.event("stopped")["text"] == "at loop:7"


def restarts(program, room):
    """A run begins again from the files as they are, with its breakpoints."""
    client = Client(program, room)
    client.launched(modules=["loop", "reply"], cwd=str(room))
    client.ask("setFunctionBreakpoints", breakpoints=[{"name": "reply"}])
    client.ask("setBreakpoints", source={"path": str(room / "loop.c")}, breakpoints=[{"line": 7}])
    client.ask("configurationDone")
    client.event("stopped")
    text = (room / "loop.c").read_text()
    (room / "loop.c").write_text(text.replace("{\n    int i", "{\n\n    int i").replace("i < 4", "i < 1"))
    yield "restart", client.ask("restart")["success"]
    # the call moved down to line 7
    yield "the line again", client.event("stopped")["text"] == "at loop:7" and client.values() == {"i": "0", "sum": "0"}
    client.ask("continue")
    yield "the function again", client.event("stopped")["text"] == "entered reply" and client.values() == {"n": "0"}
    client.ask("setBreakpoints", source={"path": str(room / "loop.c")}, breakpoints=[])
    client.ask("continue")
    yield "the end", client.event("exited") == {"exitCode": 0}
    client = Client(program, room)
    client.launched(modules=["loop", "reply"], cwd=str(room), stopOnEntry=True)
    client.ask("configurationDone")
    client.event("stopped")
    (room / "loop.c").write_text("int main(void)\n{\n    return x;\n}\n")
    told = client.ask("restart")
    yield "a text that is refused", not told["success"] and told["message"] == "load loop: refused C5 X6 loop.c:3" and client.event("terminated") == {}
    (room / "loop.c").write_text(text)


def changes(program, room):
    """Modules are changed at a stop: the active call finishes its text, and later ones take the new one."""
    for file, words, frames in (("mended.c", "edit reply mended.c", [("reply", "mended.c", 1)]), (None, "swap reply object", [("reply (compiled)", "reply.c", 1)])):
        client = Client(program, room)
        client.launched(modules=["loop", "reply"], cwd=str(room))
        client.ask("setFunctionBreakpoints", breakpoints=[{"name": "reply"}])
        client.ask("configurationDone")
        client.event("stopped")
        client.ask("continue")
        client.event("stopped")
        told = client.ask("evaluate", expression=words, context="repl")
        yield words, told["success"] and told["body"]["result"] == ("edited reply" if file else "reply object"), told
        client.ask("continue")
        yield f"a call behind {words}", client.event("stopped")["text"] == "entered reply" and client.frames()[:1] == frames
        client.ask("setFunctionBreakpoints", breakpoints=[])
        client.ask("continue")
        # 0 + 1 + 12 + 13, or 0 + 1 + 2 + 3
        yield f"the end behind {words}", client.event("exited") == {"exitCode": 26 if file else 6}
    client = Client(program, room)
    client.launched(modules=["loop", "reply"], cwd=str(room))
    client.ask("setFunctionBreakpoints", breakpoints=[{"name": "reply"}])
    client.ask("configurationDone")
    client.event("stopped")
    for words in ("edit reply wrong.c", "edit absent", "swap reply slow", "edit reply absent.c"):
        told = client.ask("evaluate", expression=words, context="repl")
        yield words, told["body"]["result"] == "refused C5 X6 wrong.c:3" if "wrong" in words else not told["success"], told
    client.ask("evaluate", expression="edit reply worse.c", context="repl")
    client.ask("setFunctionBreakpoints", breakpoints=[])
    client.ask("continue")
    yield "an undefined step behind an edit", client.event("stopped")["text"] == "violation U8 in reply at reply:4 left 2 right 0"
    yield "its calls", client.frames() == [("reply", "worse.c", 4), ("main", "loop.c", 6)] and client.values() == {"n": "2", "two": "2"}
    told = client.ask("evaluate", expression="n - two", frameId=1, context="watch")
    yield "no replay of two texts", not told["success"] and "were changed" in told["message"], told


def born_before_change(program, room):
    """Of an object that was born before modules were changed nothing is claimed."""
    client = Client(program, room)
    client.launched(modules=["held", "reply"], cwd=str(room))
    client.ask("setFunctionBreakpoints", breakpoints=[{"name": "reply"}])
    client.ask("configurationDone")
    client.event("stopped")
    client.ask("evaluate", expression="swap reply object", context="repl")
    client.ask("continue")
    yield "an undefined step behind a change", client.event("stopped")["text"] == "violation U2 in main at held:7 object 2 offset 4 size 4"
    told = client.ask("exceptionInfo", threadId=1)["body"]["details"]["stackTrace"]
    yield "its object", "-- the birth of object 2 was not found: it was born before the modules were changed" in told, told


def aborted(program, room):
    """A failed assertion stops as an exception, with its calls."""
    client = Client(program, room)
    client.launched(modules=["even"], cwd=str(room))
    client.ask("configurationDone")
    stopped = client.event("stopped")
    yield "a failed assertion", stopped["reason"] == "exception" and stopped["description"] == "an assertion failed, or abort was called"
    yield "its calls", client.frames() == [("even:half", "even.c", 4), ("main", "even.c", 9)] and client.values() == {"n": "7"}
    client.ask("continue")
    yield "the end", client.event("terminated") == {}


def denied(program, room):
    """What cannot be done, and sessions that end early."""
    client = Client(program, room)
    client.ask("initialize", adapterID="saber")
    for given, reason in (({"modules": ["absent"]}, f"there is no file {room / 'absent.c'}"), ({"modules": []}, "launch: no modules are named"),
                          ({"modules": ["wrong"]}, "load wrong: refused C5 X6 wrong.c:3"), ({"modules": ["stack"]}, "run: refused C13")):
        told = client.ask("launch", cwd=str(room), **given)
        yield reason, not told["success"] and told["message"] == reason
    told = client.ask("dance")
    yield "no request", not told["success"] and told["message"] == "there is no request dance"
    yield "the editor ends", client.status() == 0
    early = room / "early.sh"
    early.write_text("#!/bin/sh\necho 'saber: no memory' >&2\nexit 6\n")
    early.chmod(0o755)
    client = Client(early, room)
    client.ask("initialize", adapterID="saber")
    told = client.ask("launch", cwd=str(room), modules=["spin"])
    yield "a session that ends", not told["success"] and told["message"].startswith("the session ended early with status 6")


def hostile(program, room):
    """Hostile sources: a run that is looked at as another one is, or a refusal that says what and where; and the session goes on."""
    for name, (text, refusal) in common.HOSTILE.items():
        (room / f"{name}.c").write_text(text)
        client = Client(program, room)
        client.ask("initialize", adapterID="saber")
        told = client.ask("launch", modules=[name], cwd=str(room), stopOnEntry=True)
        if refusal:
            yield name, not told["success"] and re.fullmatch(f"load {name}: {refusal}", told["message"]), told
        else:
            client.ask("setBreakpoints", source={"path": str(room / f"{name}.c")}, breakpoints=[{"line": 2}])
            client.ask("configurationDone")
            # its first statement
            client.event("stopped")
            client.ask("next")
            client.event("stopped")
            told = client.ask("evaluate", expression="6 * 7", frameId=1, context="watch")
            yield name, told["success"] and told["body"]["result"] == "42", told
            client.ask("setBreakpoints", source={"path": str(room / f"{name}.c")}, breakpoints=[])
            client.ask("continue")
            yield f"the end of {name}", client.event("exited") == {"exitCode": 0}
        client.ask("disconnect")
        yield f"the editor ends {name}", client.status() == 0
    client = Client(program, room)
    client.launched(modules=["wide"], cwd=str(room))
    client.ask("setBreakpoints", source={"path": str(room / "wide.c")}, breakpoints=[{"line": 4}])
    client.ask("configurationDone")
    client.event("stopped")
    told = client.ask("evaluate", expression="s + 1", frameId=1, context="watch")
    yield "a line with too much on it", not told["success"] and "too much stands on the line" in told["message"], told
    yield "a name on it", client.ask("evaluate", expression="s", frameId=1, context="watch")["body"]["result"] == "0"
    client = Client(common.spinning(room), room)
    client.ask("initialize", adapterID="saber")
    told = client.ask("launch", modules=["cut"], cwd=str(room))
    yield "a program that does not answer", told.get("message") == "load cut: no answer after 5 s of processor time", told


def replayed(program, room):
    """Sends what real clients sent; each answer has to hold what was answered then. A text ROOM stands for the folder."""
    for path in sorted(common.HERE.glob("*.dap")):
        lines = [json.loads(it) for it in path.read_text().replace("ROOM", str(room)).splitlines() if not it.startswith("#")]
        client, failed = Client(program, room), []
        for line in lines:
            if "sent" in line:
                client.send(line["sent"])
            elif not holds(client._any(), line["told"]):
                failed.append(line["told"])
                break
        if failed:
            print(f"not told: {failed[0]}")
        yield path.name, lines and not failed


def holds(told, wanted):
    """Whether a message has all that is wanted of it, whatever it has besides."""
    if isinstance(wanted, dict):
        return isinstance(told, dict) and all(holds(told.get(name), it) for name, it in wanted.items())
    if isinstance(wanted, list):
        return isinstance(told, list) and len(told) == len(wanted) and all(holds(a, b) for a, b in zip(told, wanted))
    return told == wanted


if __name__ == "__main__":
    os.environ["PYTHONDONTWRITEBYTECODE"] = "1"
    sys.exit(common.checked(__doc__, [breakpoints, expressions, each_statement, before_jumps, in_third_part, call_in_third_part, conditions, restarts, changes, born_before_change, aborted, pauses, long_steps, denied, hostile, replayed], FILES))
