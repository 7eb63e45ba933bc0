#!/usr/bin/env python3
"""Evaluates made expressions, and compares each with a program whose `main` returns it.

usage: tests/evaluating.py PROGRAM [SEED]

A module has objects and functions, and each expression is made of them. `eval` has to tell the value with which a
module ends that declares them and has a `main` that returns the expression: where both are interpreted, and, for an
expression whose value is defined, where the first is compiled, and where both are. Of an undefined step rule and
operands have to be the same.
The last line is 'N passed, M failed'.
"""
import pathlib
import random
import subprocess
import sys
import tempfile

COUNT = 200
SEED = 20

SHARED = """struct item { int n; unsigned char small; struct item *next; };
extern int zero, one, big, table[5];
extern unsigned int wide;
extern short narrow;
extern signed char tiny;
extern struct item first, *head;
int twice(int n);
int sum(int a, int b);
unsigned int half(unsigned int n);
int counted(void);
struct item *after(struct item *i);
"""

MODULE = """#include "w.h"
#include <stdio.h>
int zero = 0, one = 1, big = 2147483647, table[5] = {3, 1, 4, 1, 5};
unsigned int wide = 4294967295u;
short narrow = -300;
signed char tiny = -7;
static struct item third = {30, 200, 0};
static struct item second = {20, 9, &third};
struct item first = {10, 255, &second}, *head = &first;
static int count;
int twice(int n) { return n * 2; }
int sum(int a, int b) { if (b == 3) printf("sum %d", a); return a + b; }
unsigned int half(unsigned int n) { return n / 2; }
int counted(void) { return ++count; }
struct item *after(struct item *i) { return i->next; }
"""

LEAVES = ["0", "1", "2", "7", "31", "255", "2147483647", "4294967295u", "'a'", "zero", "one", "big", "wide", "narrow",
          "tiny", "first.n", "first.small", "head->n", "head->next->small", "counted()", "sizeof(struct item)",
          "sizeof table", "table[2]", "*table", "sizeof \"abc\""]
PLACES = ["one", "wide", "narrow", "tiny", "table[1]", "first.n", "first.small", "head->next->n"]
BINARY = ["+", "-", "*", "/", "%", "<<", ">>", "&", "|", "^", "<", ">", "<=", ">=", "==", "!=", "&&", "||", ","]
TYPES = ["int", "char", "unsigned char", "short", "unsigned short", "unsigned int", "long"]


def made(dice, depth):
    """An expression of integer type."""
    if depth == 0 or dice.random() < 0.15:
        return dice.choice(LEAVES)

    def part():
        return made(dice, depth - 1)

    def item():
        return dice.choice(["head", "&first", "after(head)", f"(({part()}), head)", f"after(after({dice.choice(['head', '&first'])}))"])
    return dice.choice([
        lambda: f"({part()} {dice.choice(BINARY)} {part()})",
        lambda: f"({part()} {dice.choice(BINARY)} {part()})",
        lambda: f"{dice.choice('-+~!')}({part()})",
        lambda: f"({part()} ? {part()} : {part()})",
        lambda: f"(({dice.choice(TYPES)}){part()})",
        lambda: f"({dice.choice(PLACES)} {dice.choice(['=', '+=', '-=', '*=', '|=', '<<='])} {part()})",
        lambda: f"{dice.choice(['++', '--'])}{dice.choice(PLACES)}",
        lambda: f"{dice.choice(PLACES)}{dice.choice(['++', '--'])}",
        lambda: f"table[{part()} % 5]",
        lambda: f"({item()})->n",
        lambda: f"({item()})->small",
        lambda: f"twice({part()})",
        lambda: f"sum({part()}, {part()})",
        lambda: f"half({part()})",
        lambda: f"(&table[{dice.randrange(6)}] - table)",
    ])()


def told(lines, word):
    """What is told of an end: a number behind this word, or a rule with its operands."""
    last = lines[-1][2:].split()
    shown = lines[:-1]
    if last[0] == word:
        return shown, "value", last[1:]
    if last[0] == "violation":
        return shown, last[1], last[6:]
    return shown, " ".join(last), []


def answers(program, folder, commands):
    """For each command the lines of its answer, the program's own in front."""
    ran = subprocess.run([program], input="".join(it + "\n" for it in commands), capture_output=True, text=True, cwd=folder, timeout=300)
    found, lines = [], []
    for line in ran.stdout.splitlines():
        lines.append(line)
        if line.startswith("> "):
            found.append(lines)
            lines = []
    if ran.returncode or len(found) != len(commands):
        sys.exit(f"FAIL {len(found)} answers to {len(commands)} commands, status {ran.returncode}\n0 passed, 1 failed")
    return found


def compared(program, folder, chosen, compiled, both):
    """The results of both for these expressions, by number."""
    commands = ["load w"] + (["compile w", "swap w object"] if compiled else [])
    at = {}
    for k, e in chosen.items():
        commands += [f"load p{k}"] + ([f"compile p{k}", f"swap p{k} object"] if both else [])
        at[k] = len(commands)
        commands += ["run", f"unload p{k}", f"eval w {e}"]
    found = answers(program, folder, commands)
    return {k: (told(found[n], "exit"), told(found[n + 2], "value")) for k, n in at.items()}


def main(program, seed=SEED):
    dice = random.Random(int(seed))
    chosen = {k: made(dice, dice.randrange(1, 5)) for k in range(COUNT)}
    chosen = {k: e for k, e in chosen.items() if len(e) < 900}
    passed = failed = 0
    with tempfile.TemporaryDirectory() as room:
        folder = pathlib.Path(room)
        (folder / "w.h").write_text(SHARED)
        (folder / "w.c").write_text(MODULE)
        for k, e in chosen.items():
            (folder / f"p{k}.c").write_text(f"#include \"w.h\"\nint main(void) {{ return ({e}); }}\n")
        for name, compiled, both in [("source", False, False), ("mixed", True, False), ("object", True, True)]:
            results = compared(program, folder, chosen, compiled, both)
            for k, (ran, evaluated) in results.items():
                if ran == evaluated:
                    passed += 1
                else:
                    failed += 1
                    print(f"FAIL {name}: {chosen[k]}: main {ran}, eval {evaluated}")
            # compiled code is not checked: only what is defined can be compared
            chosen = {k: e for k, e in chosen.items() if results[k][0][1] == "value"}
    print(f"{len(chosen)} of {COUNT} have a value")
    print(f"{passed} passed, {failed} failed")
    return failed


if __name__ == "__main__":
    if len(sys.argv) < 2:
        sys.exit(__doc__)
    sys.exit(1 if main(str(pathlib.Path(sys.argv[1]).resolve()), *sys.argv[2:]) else 0)
