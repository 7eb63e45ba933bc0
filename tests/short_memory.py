#!/usr/bin/env python3
"""Memory is refused to the built program, one allocation after another. Each time the session goes on as it has to.

usage: tests/short_memory.py PROGRAM [--stride N] [--first N] [--folder FOLDER]

The session is that of FOLDER, and else that of `examples/library`: five modules are loaded, four of them are compiled and run so, one is
interpreted again, edited, and compiled again. In run N the Nth allocation of the program fails, and all others succeed. A library with
a `malloc` and a `realloc` of its own, made here by `cc`, stands before the C library's for that. N goes from 1 on, or from the number
behind `--first`, in strides of 1, or of the number behind `--stride`, up to the last allocation of the session.

Each line that is written has to be the next one of `expected`, or `> no memory`. A command that is answered so is given once more,
and has to have its right answer then, as if nothing had been. Only a run that `step`, `next` or `cont` let go on may be over.
A session may also end with status 6 and its word. Anything else is a fault: another line, another status, a signal, a session that
does not end in 60 seconds.

The last line is 'N passed, M failed'. Where there is no compiler the script says so and tries nothing.
"""
import argparse
import pathlib
import re
import shutil
import subprocess
import sys
import tempfile
import threading

LIBRARY = pathlib.Path(__file__).resolve().parent.parent / "examples" / "library"
SECONDS = 60
SHORT = b"> no memory\n"
OVER = b"> refused C12\n"
WALKS = (b"step", b"next", b"cont")
CALL = re.compile(rb"> \S+ (at \w+:\d+|in \w+ object block \d+)\n")
STATES = (b"> idle\n", b"> stopped\n", b"> paused\n", b"> ended\n")
REFUSING = """
#include <errno.h>
#include <stdio.h>
#include <stdlib.h>
#include <unistd.h>

extern void *__libc_malloc(size_t n);
extern void *__libc_realloc(void *p, size_t n);
static unsigned long made;

static int is_refused(void)
{
    static unsigned long wanted;
    const char *text;

    if (made == 0 && (text = getenv("REFUSED")) != 0)
        wanted = strtoul(text, 0, 10);
    return ++made == wanted;
}

void *malloc(size_t n)
{
    if (!is_refused())
        return __libc_malloc(n);
    errno = ENOMEM;
    return 0;
}

void *realloc(void *p, size_t n)
{
    if (!is_refused())
        return __libc_realloc(p, n);
    errno = ENOMEM;
    return 0;
}

__attribute__((destructor)) static void tell(void)
{
    char text[32];
    int n = sprintf(text, "allocations %lu\\n", made);

    if (write(2, text, n) != n)
        _exit(1);
}
"""


def made_library(room):
    """The library that refuses, or nothing where there is no compiler."""
    source, made = pathlib.Path(room, "refusing.c"), pathlib.Path(room, "refusing.so")
    source.write_text(REFUSING)
    try:
        subprocess.run(["cc", "-shared", "-fPIC", "-w", "-o", made, source], check=True, capture_output=True)
    except (OSError, subprocess.CalledProcessError):
        return None
    return made


def answer(command, lines):
    """How many of the lines are the answer to a command: a program's own lines stand before the first that begins with `> `."""
    word = command.split()[0]
    if word == b"list":
        return next(k for k, line in enumerate(lines) if line in STATES) + 1
    if word == b"where":
        return next(k for k, line in enumerate([*lines, b""]) if not CALL.fullmatch(line))
    return next(k for k, line in enumerate(lines) if line.startswith(b"> ")) + 1


def dialogue(folder):
    """Each command of the session that has an answer, with its answer's lines."""
    lines = (folder / "expected").read_bytes().splitlines(True)
    for command in (folder / "commands").read_bytes().splitlines(True):
        if command.strip() and not command.startswith(b"#"):
            count = answer(command, lines)
            yield command, lines[:count]
            lines = lines[count:]


class Wrong(Exception):
    """A line or an end that may not be."""


class Over(Exception):
    """The session ended."""


class Lost(Exception):
    """The run is over, and with it what the session has to show."""


def asked(child, command, right, other=None):
    """Whether the command had its right answer, and not `no memory`. Another answer may say that the run is over."""
    try:
        child.stdin.write(command)
        child.stdin.flush()
    except BrokenPipeError:
        raise Over from None
    rest = list(right)
    while rest:
        line = child.stdout.readline()
        if line == SHORT:
            return False
        if line == other:
            raise Lost
        if line == rest[0]:
            rest.pop(0)
        elif not line.endswith(b"\n") and rest[0].startswith(line):
            raise Over
        elif rest[0].startswith(line[:-1]) and child.stdout.readline() == SHORT:
            return False
        else:
            raise Wrong(f"{command.decode().strip()}: {line!r} in place of {rest[0]!r}")
    return True


def talked(child, talk):
    """Whether all commands had their right answers at once. Once more is enough for each."""
    at_once = True
    for command, right in talk:
        if not asked(child, command, right):
            at_once = False
            if not asked(child, command, right, OVER if command.split()[0] in WALKS else None):
                raise Wrong(f"{command.decode().strip()}: no memory once more")
    return at_once


def tried(program, library, folder, talk, number):
    """What comes of a session in which one allocation fails: `whole`, `answered` or `ended`, and how many allocations it makes."""
    with tempfile.TemporaryDirectory() as room:
        shutil.copytree(folder, room, dirs_exist_ok=True)
        child = subprocess.Popen([program], cwd=room, stdin=subprocess.PIPE, stdout=subprocess.PIPE, stderr=subprocess.PIPE,
                                 env={"LD_PRELOAD": str(library), "REFUSED": str(number)})
        watch = threading.Timer(SECONDS, child.kill)
        watch.start()
        try:
            kind = "whole" if talked(child, talk) else "answered"
        except Lost:
            kind = "answered"
        except Over:
            kind = "ended"
        finally:
            rest, said = child.communicate()
            watch.cancel()
        made = int(re.search(rb"^allocations (\d+)$", said, re.M).group(1)) if child.returncode >= 0 else 0
        if rest or child.returncode != (6 if kind == "ended" else 0) or (kind == "ended") != (b"saber: no memory\n" in said):
            raise Wrong(f"ended with status {child.returncode}, {said!r}, {rest!r}")
        return kind, made


def main():
    parser = argparse.ArgumentParser(description=__doc__, formatter_class=argparse.RawDescriptionHelpFormatter)
    parser.add_argument("program", type=pathlib.Path)
    parser.add_argument("--stride", type=int, default=1)
    parser.add_argument("--first", type=int, default=1)
    parser.add_argument("--folder", type=pathlib.Path, default=LIBRARY)
    asks = parser.parse_args()
    program, folder = asks.program.resolve(), asks.folder.resolve()
    talk = list(dialogue(folder))
    counts = {"whole": 0, "answered": 0, "ended": 0}
    failed = 0
    with tempfile.TemporaryDirectory() as room:
        library = made_library(room)
        if library is None:
            print("skipped: no C compiler is here (cc)")
            return 0
        _, made = tried(program, library, folder, talk, 0)
        print(f"{made} allocations in a session that is refused none")
        for number in range(asks.first, made + 1, asks.stride):
            try:
                kind, _ = tried(program, library, folder, talk, number)
                counts[kind] += 1
                if kind == "whole":
                    print(f"allocation {number}: as if it had not been refused")
            except Wrong as why:
                failed += 1
                print(f"FAIL allocation {number}: {why}")
    print(f"{counts['answered']} sessions with one answer `no memory`, {counts['ended']} that ended, {counts['whole']} as if none were refused")
    print(f"{sum(counts.values())} passed, {failed} failed")
    return 1 if failed or not sum(counts.values()) else 0


if __name__ == "__main__":
    sys.exit(main())
