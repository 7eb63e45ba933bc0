#!/usr/bin/env python3
"""Hostile commands and files, on the built program: each gets a named answer, and the session goes on.

usage: tests/hostile.py PROGRAM
"""
import os
import random
import re
import shutil
import subprocess
import sys
import tempfile

HERE = os.path.dirname(os.path.abspath(__file__))
PROGRAM = os.path.abspath(sys.argv[1])
KIND = rb"X([1-8]|(9|10) [a-z]+)"
LISTED = [b"> module m source", b"> fun 39 main", b"> idle"]
TEXT = b"""/* Copies a text to memory of its own. */
#include <stdlib.h>
#include <string.h>

static int copies = 'a' - 97;

char *copy(const char *s)
{
    char *p = malloc(strlen(s) + 1);

    if (p)
        strcpy(p, s); /* the last byte, '\\0',
                         too */
    copies++;
    return p;
}
"""
PIECE = re.compile(rb"/\*.*?(?P<closed>\*/|\Z)|(?P<directive>#[^\n]*)|'(\\.|[^'\\\n])'|\w+|\S", re.S)
DIRECTIVES = (b"#", b"#include <stdlib.h>", b"#include <string.h>")
faults = 0
checks = 0


def check(name, holds, told=""):
    global faults, checks
    checks += 1
    if not holds:
        faults += 1
    print("%s %s %s" % ("ok  " if holds else "FAIL", name, told))


def run(folder, commands, words=()):
    return subprocess.run([PROGRAM, *words], input=commands, capture_output=True, cwd=folder)


def random_bytes(folder):
    source = random.Random(1989)
    commands = bytes(source.randrange(256) for _ in range(200000))
    lines = [line for line in commands.split(b"\n") if line.split(None) or line.strip(b" \t\r")]
    answered = [line for line in lines if not line.strip(b" \t\r").startswith(b"#") and line.strip(b" \t\r")]
    ran = run(folder, commands)
    said = ran.stdout.splitlines()
    check("random bytes", ran.returncode == 0 and len(said) == len(answered), "%d lines, %d answers" % (len(answered), len(said)))
    check("random bytes are refused", all(line.startswith(b"> refused C") for line in said))


def long_lines(folder):
    at_limit = run(folder, b"x" * 1048576 + b"\nquit\n")
    check("a line of 1 MiB", at_limit.stdout == b"> refused C1\n> bye\n" and at_limit.returncode == 0)
    known = run(folder, b"load " + b"x" * 1048571 + b"\nquit\n")
    check("a command of 1 MiB", known.stdout == b"> refused C2\n> bye\n" and known.returncode == 0)
    beyond = run(folder, b"x" * 1048577 + b"\nquit\n")
    check("a byte more", beyond.stdout == b"" and beyond.returncode == 5)


def many_stops(folder):
    count = 20000
    commands = b"load m\n" + b"stop in f\n" * count + b"delete %d\n" % count + b"delete %d\n" % count + b"stop at m:1\nrun\nlist\n"
    said = run(folder, commands).stdout.splitlines()
    wanted = [b"> loaded m"] + [b"> stop %d in f" % (k + 1) for k in range(count)]
    wanted += [b"> deleted %d" % count, b"> refused C18 %d" % count, b"> stop %d at m:1" % (count + 1), b"> at m:1"]
    check("%d stops" % count, said[: len(wanted)] == wanted)
    check("all of them listed", len([line for line in said if line.startswith(b"> stop ") and line.endswith(b" in f")]) == 2 * count - 1)


def wanted_of(front):
    """The kind and the line with which a front of TEXT has to be refused, or nothing where it is a unit. It is one where its comments,
    directives and brackets are closed and its last token ends a declaration or a function. The line is that of what is not closed, or
    of the last token."""
    depth, last, line = 0, b";", 0
    for piece in PIECE.finditer(front):
        text, here = piece.group(), 1 + front.count(b"\n", 0, piece.start())
        if piece["closed"] == b"":
            return b"X1", b"%d" % here
        if piece["directive"] and text.rstrip() not in DIRECTIVES:
            return b"X2", b"%d" % here
        if not piece["closed"] and not piece["directive"]:
            depth += (text in b"({") - (text in b")}")
            last, line = text, here
    if depth == 0 and last in (b";", b"}"):
        return None
    return b"(X5|X9 [a-z]+)", b"%d" % line


def is_loaded(k, lines):
    return lines == [b"> loaded p%d" % k, b"> unloaded p%d" % k, *LISTED]


def is_refused(k, lines, kind=KIND, line=rb"\d+"):
    return re.fullmatch(rb"> refused C5 %s p%d\.c:%s" % (kind, k, line), lines[0]) and lines[1:] == [b"> refused C3", *LISTED]


def fronts_loaded(folder, text):
    """What is said of each front of a text: as it is loaded, as it is taken away, and then by `list`."""
    for k in range(len(text) + 1):
        with open(os.path.join(folder, "p%d.c" % k), "wb") as file:
            file.write(text[:k])
    ran = run(folder, b"load m\n" + b"".join(b"load p%d\nunload p%d\nlist\n" % (k, k) for k in range(len(text) + 1)))
    said = ran.stdout.splitlines()[1:]
    whole = ran.returncode == 0 and len(said) == 5 * len(text) + 5
    return [said[5 * k : 5 * k + 5] for k in range(len(text) + 1)] if whole else []


def prefixes(folder):
    example = os.path.join(HERE, "..", "examples", "queue")
    for name in os.listdir(example):
        if name.endswith(".h"):
            shutil.copy(os.path.join(example, name), folder)
    with open(os.path.join(example, "queue.c"), "rb") as file:
        text = file.read()
    answers = fronts_loaded(folder, text)
    named = [k for k, lines in enumerate(answers) if is_loaded(k, lines) or is_refused(k, lines)]
    check("each prefix of a module", len(named) == len(text) + 1, "%d prefixes" % len(named))
    check("the module itself", named and is_loaded(len(text), answers[-1]))


def fronts(folder):
    wanted = [wanted_of(TEXT[:k]) for k in range(len(TEXT) + 1)]
    answers = fronts_loaded(folder, TEXT)
    right = [k for k, lines in enumerate(answers) if (is_refused(k, lines, *wanted[k]) if wanted[k] else is_loaded(k, lines))]
    check("each front of a text", len(right) == len(wanted), "%d fronts, %d of them units" % (len(right), wanted.count(None)))


def vanishing_files(folder):
    shutil.copy(os.path.join(folder, "m.c"), os.path.join(folder, "gone.c"))
    session = subprocess.Popen([PROGRAM], stdin=subprocess.PIPE, stdout=subprocess.PIPE, cwd=folder)

    def ask(command):
        session.stdin.write(command + b"\n")
        session.stdin.flush()
        return session.stdout.readline()

    first = ask(b"load gone")
    os.remove(os.path.join(folder, "gone.c"))
    second = ask(b"edit gone")
    third = ask(b"run")
    session.communicate(b"quit\n")
    check("a file that vanishes", (first, second, third) == (b"> loaded gone\n", b"> refused C8 gone.c\n", b"> exit 0\n"))


def object_prefixes(folder):
    path = os.path.join(folder, "m.o")
    session = subprocess.Popen([PROGRAM], stdin=subprocess.PIPE, stdout=subprocess.PIPE, cwd=folder)

    def ask(command):
        session.stdin.write(command + b"\n")
        session.stdin.flush()
        return session.stdout.readline()

    ask(b"load m")
    ask(b"compile m")
    whole = open(path, "rb").read()
    wrong = []
    for length in range(len(whole)):
        with open(path, "wb") as file:
            file.write(whole[:length])
        if ask(b"swap m object") != b"> refused C9 %d\n" % length or ask(b"run") != b"> exit 0\n":
            wrong.append(length)
    with open(path, "wb") as file:
        file.write(whole)
    last = (ask(b"swap m object"), ask(b"run"))
    session.communicate(b"quit\n")
    os.remove(path)
    check("each front of an object", len(whole) > 52 and not wrong, "%d fronts %s" % (len(whole), wrong[:9]))
    check("the object itself", last == (b"> m object\n", b"> exit 0\n"))


def main():
    with tempfile.TemporaryDirectory() as folder:
        with open(os.path.join(folder, "m.c"), "w") as file:
            file.write("int main(void) { return 0; }\n")
        random_bytes(folder)
        long_lines(folder)
        many_stops(folder)
        prefixes(folder)
        fronts(folder)
        vanishing_files(folder)
        object_prefixes(folder)
    print("%d passed, %d failed" % (checks - faults, faults))
    sys.exit(1 if faults else 0)


main()
