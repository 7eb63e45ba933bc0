#!/usr/bin/env python3
"""Talks with the built program over two pipes: answers come before the next command, and a run's bytes before its end.

usage: tests/talk.py PROGRAM

Each command is sent only once the answer to the one before it was read. A program then writes 5,000 bytes without a line feed
and loops: the first 4,096 of them have to come while it still runs. The last line is 'N passed, M failed'.
"""
import os
import pathlib
import select
import subprocess
import sys
import tempfile

SECONDS = 60
TALK = [("load m", b"> loaded m\n"), ("stop in f", b"> stop 1 in f\n"), ("run", b"> entered f\n"),
        ("print a", b"> a = 4097\n"), ("delete 1", b"> deleted 1\n"), ("# nothing", b""), ("list", None)]
TEXT = """#include <stdio.h>
int f(int a) { return a; }
int main(void) {
    int i;
    f(4097);
    for (i = 0; i < 5000; i++)
        putchar('x');
    for (;;)
        ;
}
"""


def read(pipe, enough):
    """What a pipe holds once it is enough, or what came in time."""
    held = b""
    while not enough(held):
        ready, _, _ = select.select([pipe], [], [], SECONDS)
        more = os.read(pipe.fileno(), 65536) if ready else b""
        if not more:
            break
        held += more
    return held


def talks(child):
    """Whether each answer comes before the next command is sent, and the bytes of a run before its end."""
    def send(line):
        child.stdin.write(line.encode() + b"\n")
        child.stdin.flush()

    for command, answer in TALK:
        send(command)
        if answer is None:
            held = read(child.stdout, lambda text: text.endswith(b"\n> stopped\n"))
            yield "list", held.startswith(b"> module m source\n") and held.endswith(b"\n> stopped\n")
        elif answer:
            yield command, read(child.stdout, lambda text: text.endswith(b"\n")) == answer
    send("cont")
    held = read(child.stdout, lambda text: len(text) >= 4096)
    yield "bytes of a run that goes on", len(held) >= 4096 and held == b"x" * len(held)


def main():
    if len(sys.argv) != 2:
        sys.exit(__doc__)
    program = pathlib.Path(sys.argv[1]).resolve()
    passed, failed = 0, 0
    with tempfile.TemporaryDirectory() as room:
        pathlib.Path(room, "m.c").write_text(TEXT)
        child = subprocess.Popen([program, "--turns", "1000000000"], cwd=room, stdin=subprocess.PIPE, stdout=subprocess.PIPE)
        try:
            for name, right in talks(child):
                passed, failed = passed + right, failed + (not right)
                if not right:
                    print(f"FAIL {name}")
        finally:
            child.kill()
            child.wait()
    print(f"{passed} passed, {failed} failed")
    return 1 if failed or not passed else 0


if __name__ == "__main__":
    sys.exit(main())
