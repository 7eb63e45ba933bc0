#!/usr/bin/env python3
"""The examples run in a fresh copy, and change none of its files.

usage: tests/tools/examples.py PROGRAM

Each folder of examples is copied without the objects that earlier runs left there, and its `commands` are run; what they
tell is compared by tests/programs.py. A file that was there has to be as it was, and a new one has to be an object, which
.gitignore leaves out of version control. The last line is 'N passed, M failed'.
"""
import functools
import shutil
import subprocess
import sys

import common


def runs(program, room, folder):
    """One example."""
    shutil.copytree(folder, room, dirs_exist_ok=True, ignore=shutil.ignore_patterns("*.o"))
    for commands in sorted(room.glob("commands*")):
        before = {it.name: it.read_bytes() for it in room.iterdir()}
        subprocess.run([program], input=commands.read_bytes(), capture_output=True, cwd=room, timeout=120)
        after = {it.name: it.read_bytes() for it in room.iterdir()}
        changed = [it for it in before if after.get(it) != before[it]]
        added = [it for it in after if it not in before and not it.endswith(".o")]
        yield f"{folder.name} {commands.name}", not changed and not added, changed, added


def left_out(program, room):
    """Objects are left out of version control."""
    yield ".gitignore", "*.o" in (common.ROOT / ".gitignore").read_text().splitlines()


if __name__ == "__main__":
    folders = sorted(it for it in (common.ROOT / "examples").iterdir() if it.is_dir())
    sys.exit(common.checked(__doc__, [left_out, *(functools.partial(runs, folder=it) for it in folders)], {}))
