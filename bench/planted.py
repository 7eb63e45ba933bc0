#!/usr/bin/env python3
"""Plants faults in libraries, one at a time, and shows which of them saber-run and other tools find, as a table in Markdown.

usage: bench/planted.py PROGRAM FOLDER.. [FAULT..]

A folder holds the sources of one of the libraries that bench/planted/faults.py names, as `apt-get source` gives them; its name begins with the library's.
Nothing is fetched, and the folders are only read. Wanted are gcc, clang, valgrind and tcc; what is not there has an empty column.
R: at a line where a step is undefined. e: at another line. x: a crash or an abort without a place, or no end. -: nothing. What a tool reports of the library
without any fault does not count. FAULT names faults that are tried alone.
"""
import concurrent.futures
import os
import pathlib
import re
import resource
import shutil
import subprocess
import sys
import tempfile

HERE = pathlib.Path(__file__).resolve().parent
TOOLS = HERE.parent / "tools"
sys.path.insert(0, str(HERE / "planted"))
sys.dont_write_bytecode = True

from faults import LIBRARIES  # noqa: E402

COMPILED = {
    "memcheck": (["gcc", "-g", "-O0"], ["valgrind", "-q"]),
    "ASan, UBSan": (["gcc", "-g", "-O0", "-fsanitize=address,undefined", "-fno-sanitize=shift"], []),
    "MSan": (["clang", "-g", "-O0", "-fsanitize=memory"], []),
    "tcc -b": (["tcc", "-b", "-g"], []),
}
COLUMNS = ("saber-run", *COMPILED)
REPORT = "ERROR: |runtime error|WARNING: MemorySanitizer|RUNTIME ERROR|BCHECK|^==\\d+== "
PLACE = re.compile(r"([\w-]+\.[ch]):(\d+)")
# the most seconds of processor time of a command
LIMIT = 60


def run(words, **more):
    """What a command tells, and its status, which is below 0 for one that takes too long."""
    ran = subprocess.run([str(it) for it in words], capture_output=True, preexec_fn=lambda: resource.setrlimit(resource.RLIMIT_CPU, (LIMIT, LIMIT)), **more)
    return (ran.stdout + b"\n" + ran.stderr).decode(errors="replace"), ran.returncode


class Tree:
    """A library whose headers are made in a room, and what each tool makes of it once and keeps there for all faults."""

    def __init__(self, library, sources, room, program):
        self.library, self.room, self.program = library, room, program
        self.files = [sources / it for it in library.files] + [HERE / "planted" / library.driver]
        folders = [room / "made", *(sources / it for it in library.folders), *dict.fromkeys(it.parent for it in self.files)]
        self.folders = folders
        self.words = [f"-I{it}" for it in folders] + [f"-D{it}" for it in library.defines]
        (room / "made").mkdir()
        for name, text in library.made.items():
            (room / "made" / name).parent.mkdir(parents=True, exist_ok=True)
            (room / "made" / name).write_text(text)
        for name, target in library.links.items():
            (room / "made" / name).symlink_to(sources / target)

    def with_fault(self, fault):
        """The files, with a copy of the one that has the fault in its place."""
        at = self.library.files.index(fault.file)
        copy = self.room / fault.name / self.files[at].name
        if not copy.exists():
            text = self.files[at].read_text(encoding="latin-1")
            for old, new in fault.edits:
                if old not in text:
                    sys.exit(f"{fault.name}: {self.files[at]} does not have {old!r}")
                text = text.replace(old, new, 1)
            copy.parent.mkdir(exist_ok=True)
            copy.write_text(text, encoding="latin-1")
        return [*self.files[:at], copy, *self.files[at + 1:]]

    def wanted(self, fault):
        """The lines on which a step is undefined, as (file, line)."""
        found = set()
        for file in self.with_fault(fault):
            whole = file.read_text(encoding="latin-1")
            found |= {(file.name, whole[:whole.index(it)].count("\n") + 1) for it in fault.at if it in whole}
        if not found:
            sys.exit(f"{fault.name}: no file has {fault.at}")
        return found

    def first_place(self, told):
        """The first place in a file of the library that a report names."""
        names = {it.name for it in self.files} | {it.name for folder in self.folders for it in folder.glob("*.h")}
        places = ((found[1], int(found[2])) for found in PLACE.finditer(told))
        return next((it for it in places if it[0] in names), None)

    def reported(self, tool, fault):
        """What a tool reports of the library with a fault, or with none: places in their order, or `crash`."""
        return self.interpreted(fault) if tool == "saber-run" else self.compiled(tool, fault)

    def compiled(self, tool, fault):
        """The place that a compiled program's tool names first."""
        build, runner = COMPILED[tool]
        if not shutil.which(build[0]) or runner and not shutil.which(runner[0]):
            return ["absent"]
        kept = self.room / re.sub(r"\W", "", tool)
        kept.mkdir(exist_ok=True)
        objects = []
        for file in self.with_fault(fault) if fault else self.files:
            objects.append((kept / file.stem if file in self.files else file.parent / f"{file.stem}-{kept.name}").with_suffix(".o"))
            if not objects[-1].exists():
                self.must([*build, "-w", "-funsigned-char", *self.words, "-c", file, "-o", objects[-1]])
        program = kept / (fault.name if fault else "none")
        self.must([*build, *objects, "-o", program, "-lm"])
        told, status = run([*runner, program], env={**os.environ, "ASAN_OPTIONS": "detect_leaks=0"}, cwd=kept)
        begun = re.search(REPORT, told, re.M)
        place = self.first_place(told[told.rfind("\n", 0, begun.start()) + 1:]) if begun else None
        return [place] if place else ["crash"] if begun or status < 0 or status == 134 else []

    def interpreted(self, fault):
        """The places of all undefined steps that saber-run lists."""
        kept, prep = self.room / "prepared", [TOOLS / "saber-prep", "--quiet", *self.library.words, *self.words]
        if not fault:
            self.must([*prep, "-o", kept, *self.files])
            return self.listed(kept)
        folder = self.room / fault.name / "prepared"
        shutil.copytree(kept, folder)
        edited = next(it for it in self.with_fault(fault) if it not in self.files)
        self.must([*prep, "-o", folder, edited])
        return self.listed(folder)

    def listed(self, folder):
        words = [TOOLS / "saber-run", "--program", self.program, "--go-on", "--brief", *sorted(folder.glob("*.c"))]
        told = self.must(words, (0, 1, 3))
        steps = re.findall(r"^  U\d+ (\S+):(\d+) in ", told, re.M)
        return [(pathlib.Path(file).name, int(line)) for file, line in steps] or (["crash"] if "\n> crashed" in told else [])

    def must(self, words, statuses=(0,)):
        """What a command tells that has to end well."""
        told, status = run(words)
        if status not in statuses:
            raise RuntimeError(f"{self.library.name}: {' '.join(map(str, words))}: status {status}\n{told}")
        return told


def verdict(found, wanted, without):
    """R, e, x or -, and the place of what was reported."""
    if found == ["absent"]:
        return ""
    found = [it for it in found if it not in without]
    right = next((it for it in found if it in wanted), None)
    if right or found:
        place = right or found[0]
        return "x" if place == "crash" else f"{'R' if right else 'e'} {place[0]}:{place[1]}"
    return "-"


def table(rows):
    """The table, with a sum of what each tool found."""
    yield "| Fault | File | Kind | " + " | ".join(COLUMNS) + " |"
    yield "|---|---|---|" + "---|" * len(COLUMNS)
    for fault, verdicts in rows:
        yield f"| {fault.name} | {fault.file.rpartition('/')[2]} | {fault.kind} | " + " | ".join(verdicts) + " |"
    counts = []
    for column in zip(*(it for _, it in rows)):
        letters = [it[:1] for it in column]
        counts.append(f"{letters.count('R')} / {letters.count('e') + letters.count('x')} / {letters.count('-')}")
    yield "| **right / elsewhere / silent** | | | " + " | ".join(counts) + " |"


def rows_of(library, sources, program, chosen, workers):
    """Each fault of a library that is tried, with the verdicts of all tools."""
    faults = [it for it in library.faults if not chosen or it.name in chosen]
    with tempfile.TemporaryDirectory(prefix="planted-") as room:
        tree = Tree(library, sources, pathlib.Path(room).resolve(), program) if faults else None
        without = {tool: workers.submit(tree.reported, tool, None) for tool in COLUMNS if faults}
        for tool, it in without.items():
            print(f"{library.name} without a fault, {tool}: {it.result()}", file=sys.stderr, flush=True)
        for fault in faults:
            tree.with_fault(fault)
        found = {(fault, tool): workers.submit(tree.reported, tool, fault) for fault in faults for tool in COLUMNS}
        for fault in faults:
            verdicts = [verdict(found[fault, tool].result(), tree.wanted(fault), without[tool].result()) for tool in COLUMNS]
            print(f"{fault.name}: {', '.join(verdicts)}", file=sys.stderr, flush=True)
            yield fault, verdicts


def main():
    if len(sys.argv) < 3:
        sys.exit(__doc__)
    program, named = pathlib.Path(sys.argv[1]).resolve(), sys.argv[2:]
    folders = [pathlib.Path(it).resolve() for it in named if os.path.isdir(it)]
    chosen, rows = {it for it in named if not os.path.isdir(it)}, []
    with concurrent.futures.ThreadPoolExecutor(2) as workers:
        for library in LIBRARIES:
            for sources in [it for it in folders if it.name.startswith(library.name)][:1]:
                rows += rows_of(library, sources, program, chosen, workers)
    print("\n".join(table(rows)))


if __name__ == "__main__":
    main()
