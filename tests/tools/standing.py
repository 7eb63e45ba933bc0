#!/usr/bin/env python3
"""Checks at which lines the tools say that calls stand: random loops, in which each call passes the line on which it is written.

usage: tests/tools/standing.py PROGRAM

Calls stand in statements, in controlling expressions and in the third parts of `for`, by name and over a pointer, and one function is called at many places.
At each entry of a function the lines that are named for its caller have to hold the line that was passed; most often it is the only one. The last line is
'N passed, M failed'.
"""
import random
import re
import sys

import common

sys.path.insert(0, str(common.TOOLS))
sys.dont_write_bytecode = True

from saber_lines import Lines  # noqa: E402
from saber_session import Session  # noqa: E402

PROGRAMS, HALTS, DEPTH = 12, 200, 4
CALLEES = ("g", "h", "k", "(*pointer)")
HEAD = ["static int g(int n) { return n & 1; }", "static int h(int n) { return n & 1; }", "static int k(int n) { return n & 1; }", "static int (*pointer)(int) = h;",
        "int main(void)", "{", f"    int x = 0, {', '.join(f'i{it} = 0' for it in range(2 * DEPTH))};"]


class Writer:
    """Writes a program, a line at a time."""

    def __init__(self, seed):
        self._random, self.lines = random.Random(seed), list(HEAD)
        for _ in range(4):
            self._statement(1)
        self.lines += ["    return x - x;", "}"]

    def _add(self, depth, text):
        self.lines.append("    " * depth + text)

    def _call(self):
        """A call that passes the line that is written next."""
        return f"{self._random.choice(CALLEES)}({len(self.lines) + 1})"

    def _statement(self, depth):
        simple = ("_expression", "_expression", "_empty")
        kinds = simple if depth > DEPTH else (*simple, "_loop", "_loop", "_loop", "_while", "_do", "_choice", "_switch", "_block")
        getattr(self, self._random.choice(kinds))(depth)

    def _expression(self, depth):
        self._add(depth, self._random.choice(("", "x += ", "x++, ")) + self._call() + ";")

    def _empty(self, depth):
        self._add(depth, ";")

    def _loop(self, depth):
        name = f"i{depth}"
        third = self._random.choice((f"{name}++", f"{name}++, {self._call()}", f"x += {self._call()}, {name}++"))
        test = self._random.choice((f"{name} < 2", f"{self._call()} >= 0 && {name} < 2"))
        has_block = self._random.random() < 0.7
        self._add(depth, f"for ({name} = 0; {test}; {third})" + " {" * has_block)
        if not has_block:
            self._statement(depth + 1)
            return
        for _ in range(self._random.randrange(3)):
            self._statement(depth + 1)
        if self._random.random() < 0.3:
            self._add(depth + 1, f"if ({self._call()} > 0)")
            self._add(depth + 2, "continue;")
        self._add(depth, "}")

    def _while(self, depth):
        self._add(depth, f"while (i{depth}++ < 2 && {self._call()} >= 0)")
        self._statement(depth + 1)

    def _do(self, depth):
        self._add(depth, "do {")
        self._statement(depth + 1)
        self._add(depth, f"}} while ({self._call()} >= 0 && i{depth}++ < 2);")

    def _choice(self, depth):
        self._add(depth, f"if ({self._call()} > 0) {{")
        self._statement(depth + 1)
        self._add(depth, "} else")
        self._statement(depth + 1)

    def _switch(self, depth):
        self._add(depth, f"switch ({self._call()}) {{")
        self._add(depth, "case 0:")
        self._statement(depth + 1)
        self._add(depth, self._random.choice(("    break;", "default:", "case 1:")))
        self._statement(depth + 1)
        self._add(depth, "}")

    def _block(self, depth):
        self._add(depth, "{")
        self._add(depth + 1, f"int y = {self._call()};")
        self._add(depth + 1, "x += y;")
        self._statement(depth + 1)
        self._add(depth, "}")


def calls_of(session, lines):
    """The line that each call passes, and those that are named for it."""
    answer = session.ask("run")
    for _ in range(HALTS):
        if not answer.text.startswith("entered "):
            return
        caller = lines.standing(session.ask("where").lines)[1]
        yield int(session.ask("print n").text.split(" = ")[1]), [int(it) for it in re.findall(r"loops:(\d+)", caller)]
        answer = session.ask("cont")


def stands(program, room):
    """Each program's calls."""
    exact = total = 0
    for seed in range(PROGRAMS):
        (room / "loops.c").write_text("\n".join(Writer(seed).lines) + "\n")
        with Session(program, room, ("--turns", "100000000")) as session:
            taken = session.ask_all(["load loops", *(f"stop in loops:{it}" for it in "ghk")])[0].text
            found = list(calls_of(session, Lines(room)))
        wrong = [it for it in found if it[0] not in it[1]]
        exact, total = exact + sum(len(named) == 1 for _, named in found), total + len(found)
        yield f"program {seed}", taken == "loaded loops" and not wrong, taken, wrong[:3]
    yield "most are exact", total > 20 * PROGRAMS and exact > 0.7 * total, exact, total


if __name__ == "__main__":
    sys.exit(common.checked(__doc__, [stands], {}))
