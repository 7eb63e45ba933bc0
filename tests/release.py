#!/usr/bin/env python3
"""Holds release/saber to the stored transcripts, and to the program that was built.

usage: tests/release.py PROGRAM

It has to be whole, and of the sources of this tree and of this toolchain: release/renew.sh makes it so, also where only
laws have changed, so that `./saber` of a fresh checkout says nothing but answers. It is compared with the built program,
without symbols, and gives every stored transcript: those of tests/programs.py, tests/violations.py and tests/tour.py. If
the two programs differ it is said where; the transcripts decide then.
The last line is 'N passed, M failed'.
"""
import hashlib
import pathlib
import re
import subprocess
import sys
import tempfile

ROOT = pathlib.Path(__file__).resolve().parent.parent
FOLDER = ROOT / "release"


def noted():
    lines = (FOLDER / "SOURCES").read_text().splitlines() if (FOLDER / "SOURCES").is_file() else []
    return dict(it.split(" ", 1) for it in lines if " " in it)


def first_difference(one, other):
    at = next((i for i, (a, b) in enumerate(zip(one, other)) if a != b), min(len(one), len(other)))
    return f"first at byte {at + 1}; {len(one)} and {len(other)} bytes"


def faults(known):
    """What is wrong with the release: it is damaged, or of another toolchain or other sources."""
    if hashlib.sha256((FOLDER / "saber").read_bytes()).hexdigest() != known.get("program"):
        yield "release/saber is not the program that release/SOURCES names"
    toolchain = subprocess.run(["rt", "version"], capture_output=True, text=True).stdout.strip()
    if toolchain != known.get("toolchain"):
        yield f"release/saber is of another toolchain ({known.get('toolchain')}): release/renew.sh makes it anew"
    elif subprocess.run([FOLDER / "sum.sh", toolchain], capture_output=True, text=True).stdout.strip() != known.get("sources"):
        yield "release/saber is of other sources: release/renew.sh makes it anew"


def compared(program):
    """What the comparison with the built program says."""
    with tempfile.TemporaryDirectory() as room:
        stripped = pathlib.Path(room, "saber")
        subprocess.run([FOLDER / "strip.sh", program, stripped], check=True)
        built, released = stripped.read_bytes(), (FOLDER / "saber").read_bytes()
    if built == released:
        return "release/saber is byte for byte the program that was built"
    return f"release/saber and the built program differ, {first_difference(released, built)}: transcripts decide"


def main():
    if len(sys.argv) != 2:
        sys.exit(__doc__)
    known, released = noted(), FOLDER / "saber"
    if not known or not released.is_file():
        print("FAIL: release/saber or release/SOURCES is missing\n0 passed, 1 failed")
        return 1
    wrong = list(faults(known))
    for fault in wrong:
        print(f"FAIL: {fault}")
    print(compared(pathlib.Path(sys.argv[1]).resolve()))
    passed, failed = int(not wrong), len(wrong)
    for script in ("programs.py", "violations.py", "tour.py"):
        ran = subprocess.run([ROOT / "tests" / script, released], capture_output=True, text=True)
        print(ran.stdout, end="")
        sums = re.search(r"(\d+) passed, (\d+) failed\n\Z", ran.stdout)
        passed += int(sums[1]) if sums else 0
        failed += int(sums[2]) if sums else 1
    print(f"{passed} passed, {failed} failed")
    return 1 if failed else 0


if __name__ == "__main__":
    sys.exit(main())
