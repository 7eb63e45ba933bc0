#!/usr/bin/env python3
"""Compares what C programs write, and how they end, with what a compiler's programs do.

usage: tests/compare_runs.py PROGRAM FOLDER..

PROGRAM is the built saber. Each FOLDER holds the modules of one program as .c files, or folders of such. A file `commands` beside
them says by its `load` lines which files are modules, and by `run FILE` what the program reads; without it every .c file
is a module, and nothing is read. The same modules go through `gcc -m32 -funsigned-char -fwrapv`, whose types have the same sizes.
From its output and exit status follows what saber has to write: that output, a line feed where it does not end with
one, and `> exit N`. An exit status of the compiler's program is known modulo 256.

A program counts as one of: agree; differ; refused (saber takes no such module); undefined (saber names an undefined step or
a limit, so that no compiler can be asked); foreign (gcc does not take it, or its program crashes); long (one of the two did not end).
Each program that differs is printed. The last line is the sum; the script ends with 1 if a program differs. Where gcc makes
no program of 32 bits, it says so and compares nothing.
"""
import pathlib
import re
import shutil
import subprocess
import sys
import tempfile

COMPILER = ["gcc", "-m32", "-std=c89", "-funsigned-char", "-fwrapv", "-w"]
SECONDS = 20
KINDS = ["agree", "differ", "refused", "undefined", "foreign", "long"]


def compiles_here():
    """Whether the compiler makes programs of 32 bits that run here."""
    with tempfile.TemporaryDirectory() as room:
        source, made = pathlib.Path(room, "m.c"), pathlib.Path(room, "m")
        source.write_text("#include <stdio.h>\nint main(void) { return sizeof(long) != 4; }\n")
        try:
            subprocess.run([*COMPILER, "-o", made, source], check=True, capture_output=True)
            return subprocess.run([made]).returncode == 0
        except (OSError, subprocess.CalledProcessError):
            return False


def programs(folder):
    """The folders below this one, or itself, that hold a program."""
    if any(folder.glob("*.c")):
        return [folder]
    return [one for it in sorted(folder.iterdir()) if it.is_dir() for one in programs(it)]


def parts(folder):
    """The modules of a program, and the file that it reads."""
    commands = folder / "commands"
    if not commands.is_file():
        return sorted(it.stem for it in folder.glob("*.c")), None
    text = commands.read_text()
    read = re.search(r"^run (\S+)$", text, re.M)
    return re.findall(r"^load (\S+)$", text, re.M), read and read.group(1)


def wanted(room, modules, read):
    """What a program of the compiler writes and its exit status, or why there is none."""
    made = pathlib.Path(room, "compiled program")
    files = [f"{module}.c" for module in modules]
    built = subprocess.run([*COMPILER, "-o", made, *files], cwd=room, capture_output=True)
    if built.returncode != 0:
        return "foreign"
    given = pathlib.Path(room, read).read_bytes() if read else b""
    try:
        told = subprocess.run([made], cwd=room, input=given, stdout=subprocess.PIPE,
                              stderr=subprocess.DEVNULL, timeout=SECONDS)
    except subprocess.TimeoutExpired:
        return "long"
    return "foreign" if told.returncode < 0 else (told.stdout, told.returncode)


def written(program, room, modules, read):
    """What saber writes, or why there is nothing to compare."""
    loads = [f"load {module}\n" for module in modules]
    commands = "".join([*loads, f"run {read}\n" if read else "run\n", "quit\n"])
    try:
        told = subprocess.run([program, "--turns", "1000000000"], input=commands.encode(), cwd=room,
                              stdout=subprocess.PIPE, stderr=subprocess.DEVNULL, timeout=SECONDS)
    except subprocess.TimeoutExpired:
        return "long"
    if re.search(rb"^> refused ", told.stdout, re.M):
        return "refused"
    if re.search(rb"^> (violation|stack full|birth limit) ?.*\n> bye\n\Z", told.stdout, re.M):
        return "undefined"
    return told.stdout


def expected(modules, output, status, given):
    """The transcript that saber has to write, with its own exit status where that is the compiler's modulo 256."""
    end = re.search(rb"> exit (\d+)\n> bye\n\Z", given)
    number = int(end.group(1)) if end and int(end.group(1)) % 256 == status else status
    loads = "".join(f"> loaded {module}\n" for module in modules).encode()
    line = b"" if not output or output.endswith(b"\n") else b"\n"
    return loads + output + line + f"> exit {number}\n> bye\n".encode()


def compared(program, folder):
    """How a program counts, and what is said of it."""
    modules, read = parts(folder)
    with tempfile.TemporaryDirectory() as room:
        shutil.copytree(folder, room, dirs_exist_ok=True)
        given = written(program, room, modules, read)
        if isinstance(given, str):
            return given, ""
        told = wanted(room, modules, read)
    if isinstance(told, str):
        return told, ""
    right = expected(modules, *told, given)
    if given == right:
        return "agree", ""
    pairs = zip(right.splitlines() + [b""], given.splitlines() + [b""])
    first = next(((a, b) for a, b in pairs if a != b), (b"", b""))
    return "differ", f"gcc {first[0][:100]!r} saber {first[1][:100]!r}"


def main():
    if len(sys.argv) < 3:
        sys.exit(__doc__)
    if not compiles_here():
        print("skipped: gcc makes no programs of 32 bits here (package gcc-multilib)")
        return 0
    program = pathlib.Path(sys.argv[1]).resolve()
    counts = dict.fromkeys(KINDS, 0)
    for folder in sys.argv[2:]:
        for one in programs(pathlib.Path(folder).resolve()):
            kind, why = compared(program, one)
            counts[kind] += 1
            if why:
                print(f"differs: {one.parent.name}/{one.name}: {why}")
    print(", ".join(f"{counts[kind]} {kind}" for kind in KINDS))
    return 1 if counts["differ"] else 0


if __name__ == "__main__":
    sys.exit(main())
