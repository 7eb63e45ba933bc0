"""The words of the command line, and what is told of the files that are written."""
from __future__ import annotations

import argparse
import pathlib
import sys
from dataclasses import dataclass

from .notes import Failure, Notes
from .project import Project, module_names
from .source import Options
from .telling import lines_of

TEXT = """Writes a form of each C file that `load` takes, with the line numbers of the original, to a folder."""
STATUS = """exit status: 0 each file is written and nothing is left that is named `not taken`; 1 such constructs are left;
2 wrong words, or a file that cannot be read or written; 3 a file that the preprocessor or the parser refuses;
4 a file of which too much is made, or for too long"""


@dataclass(frozen=True)
class Words:
    options: Options
    output: pathlib.Path
    files: list[pathlib.Path]
    verbose: bool
    quiet: bool


def add_options(parser: argparse.ArgumentParser) -> None:
    """Adds the words that change what is made of a file."""
    parser.add_argument("-I", dest="folders", action="append", default=[], metavar="DIR", help="a folder of headers")
    parser.add_argument("-D", dest="defines", action="append", default=[], metavar="X[=Y]", help="a macro")
    parser.add_argument("--narrow", action="store_true", help="read integers of 64 bits as 32, and say so")
    parser.add_argument("--integers", action="store_true", help="read floating types and constants as integers, and say so")
    parser.add_argument("--leave-out", action="store_true", help="leave out functions in which something is not taken; a run that calls one ends with U17")
    parser.add_argument("--arguments", default="", metavar="WORDS", help="the words that main(argc, argv) gets behind the name")


def options_of(found: argparse.Namespace) -> Options:
    """Those words as they were given."""
    return Options(found.narrow, found.leave_out, tuple(found.arguments.split()), tuple(found.folders), tuple(found.defines), integers=found.integers)


def words_of(given: list[str]) -> Words:
    parser = argparse.ArgumentParser(prog="saber-prep", description=TEXT, epilog=STATUS)
    parser.add_argument("files", nargs="+", metavar="FILE.c", type=pathlib.Path, help="the files; each becomes a module")
    parser.add_argument("-o", dest="output", default="prepared", type=pathlib.Path, metavar="DIR", help="the folder that is written (default: prepared)")
    parser.add_argument("--verbose", action="store_true", help="tell each place, and each plain rewriting too")
    parser.add_argument("--quiet", action="store_true", help="tell only what is not taken")
    add_options(parser)
    found = parser.parse_args(given)
    return Words(options_of(found), found.output, found.files, found.verbose, found.quiet)


def main(given: list[str] | None = None) -> int:
    words = words_of(sys.argv[1:] if given is None else given)
    project, status, modules = Project(words.options, words.output), 0, []
    for file, name in zip(words.files, module_names(words.files)):
        try:
            modules.append((file, name, project.write(file, name)))
        except Failure as fault:
            print(f"saber-prep: {fault}", file=sys.stderr)
            status = max(status, fault.status)
    for line in lines_of(project, words.quiet, words.verbose):
        print(line, file=sys.stderr)
    if not words.quiet:
        for module in modules:
            print(made_of(*module))
    return max(status, support(words, project), 1 if project.has_problems else 0)


def made_of(file: pathlib.Path, name: str, notes: Notes) -> str:
    """The name of a file's module, and how often each plain rewriting was made."""
    counts = ", ".join(f"{word} {count}" if count > 1 else word for word, count in notes.counted().items())
    return f"{file}: module {name}" + (f" ({counts})" if counts else "")


def support(words: Words, project: Project) -> int:
    """Writes the support modules that the files need; answers the exit status for them."""
    try:
        for file in project.support():
            if not words.quiet:
                print(f"{file.name}: module {file.stem}, which the others need")
    except Failure as fault:
        print(f"saber-prep: {fault}", file=sys.stderr)
        return fault.status
    return 0
