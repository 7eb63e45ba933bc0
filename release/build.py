#!/usr/bin/env python3
"""Proves and builds the program: the libraries one after another from the bottom up, then sc_cli.

usage: release/build.py [COMMAND WORD..]      runs the command at the end, if one is named

A library whose sources have not changed is taken as it is. Ctrl-C ends everything that was started; what is built
stays, and the next call goes on from there. `rt lib` locks every crate below while it runs, so calls side by side in
one tree wait for each other. Each call uses the processors that memory allows.
"""
import ctypes
import os
import pathlib
import re
import shutil
import signal
import subprocess
import sys
import time

ROOT = pathlib.Path(__file__).resolve().parent.parent
TOP = "sc_cli"
# A library that took less was there already.
SECONDS_OF_A_LOOK = 20
PR_SET_PDEATHSIG = 1


def needs():
    """The libraries of this repository that each crate names."""
    found = {}
    for line in (ROOT / "crates.txt").read_text().splitlines():
        name, colon, below = line.split("#")[0].partition(":")
        if colon:
            found[name.split()[0]] = below.split()
    return {name: [it for it in below if it in found] for name, below in found.items()}


def in_order(known, top):
    """The libraries below a crate, each behind those that it stands on."""
    order = []

    def visit(name):
        for it in known[name]:
            if it not in order:
                visit(it)
        if name not in order:
            order.append(name)

    visit(top)
    return order[:-1]


def minutes_of(names):
    """Processor minutes of each crate, as docs/PERFORMANCE.md has them."""
    rows = re.findall(r"^\| `(sc_\w+)` \| ([\d.]+)", (ROOT / "docs" / "PERFORMANCE.md").read_text(), re.M)
    known = {}
    for name, minutes in rows:
        known.setdefault(name, float(minutes))
    return {name: known.get(name, 2.0) for name in names}


def tell(text):
    print(f"saber: {text}", file=sys.stderr, flush=True)


def end_with_parent():
    ctypes.CDLL(None).prctl(PR_SET_PDEATHSIG, signal.SIGTERM)


def call(words, name):
    """Runs rt in a crate's folder, its log in out/build.log, and returns whether it succeeded."""
    folder = ROOT / "crates" / name
    (folder / "out").mkdir(exist_ok=True)
    with open(folder / "out" / "build.log", "w") as log:
        ran = subprocess.Popen(["rt", *words], cwd=folder, stdin=subprocess.DEVNULL, stdout=log, stderr=log,
                               start_new_session=True, preexec_fn=end_with_parent)
        try:
            return ran.wait() == 0
        except KeyboardInterrupt:
            # what rt starts ends with rt
            os.killpg(ran.pid, signal.SIGTERM)
            try:
                ran.wait(10)
            except subprocess.TimeoutExpired:
                os.killpg(ran.pid, signal.SIGKILL)
                ran.wait()
            raise


def estimate(left, spent, done):
    """What is told of the time that is left: by the pace so far, if there is one."""
    if done > 0:
        return f"about {round(left * spent / done / 60) + 1} minutes left at this pace"
    return f"between {round(left / (os.cpu_count() or 1))} and {round(left)} minutes left"


def build():
    names = in_order(needs(), TOP)
    minutes = minutes_of([*names, TOP])
    left, spent, done, begin = sum(minutes.values()), 0.0, 0.0, time.time()
    tell(f"{len(names)} libraries are proved and built, and then the program; {estimate(left, spent, done)}")
    for at, name in enumerate([*names, TOP], 1):
        start = time.time()
        if not call(["run"] if name == TOP else ["lib"], name):
            tell(f"{name} was not built; see crates/{name}/out/build.log")
            return 1
        took = time.time() - start
        left -= minutes[name]
        if took > SECONDS_OF_A_LOOK:
            spent, done = spent + took, done + minutes[name]
        rest = f"; {estimate(left, spent, done)}" if left > 0.1 else ""
        tell(f"{at} of {len(names) + 1} built after {(time.time() - begin) / 60:.0f} minutes ({name}){rest}")
    os.utime(ROOT / "crates" / TOP / "out" / TOP)
    return 0


def stop(*_):
    raise KeyboardInterrupt


def main():
    if not shutil.which("rt"):
        tell("rt is not installed here, so nothing can be proved or built")
        return 1
    for it in (signal.SIGINT, signal.SIGTERM, signal.SIGHUP):
        signal.signal(it, stop)
    try:
        status = build()
    except KeyboardInterrupt:
        tell("ended; what is built stays, and the next call goes on from there")
        return 130
    if status == 0 and len(sys.argv) > 1:
        os.execvp(sys.argv[1], sys.argv[1:])
    return status


if __name__ == "__main__":
    sys.exit(main())
