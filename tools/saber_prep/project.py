"""The files of one call: each is written as a module, and what is told of them, and who reaches whom, is kept for all."""
from __future__ import annotations

import pathlib
import re
from dataclasses import dataclass, field

from .layout import LONGEST_NAME, MOST_TOKENS, laid_out, map_of, shortened
from .notes import Failure, Note, Notes, Weight
from .passes import unit_of
from .reach import learned
from .source import MOST_BYTES, Options
from .support import names_defined, names_used, needed, without
from .tree import read_file
from .unit import Unit

LONGEST = 31


def module_names(files: list[pathlib.Path]) -> list[str]:
    """The name of each file's module: letters, digits and `_`, at most 31, each of them once."""
    names: list[str] = []
    for file in files:
        name = re.sub(r"\W", "_", file.name.rsplit(".", 1)[0], flags=re.A)
        name = name if name[:1].isalpha() else "m" + name
        name = name[:LONGEST]
        number = 2
        while name in names:
            tail = f"_{number}"
            name = name[: LONGEST - len(tail)] + tail
            number += 1
        names.append(name)
    return names


def tell_limits(unit: Unit, size: int, tokens: int) -> None:
    """Names what `load` refuses of the text as a whole, and the names that were too long for it."""
    for what, count, most in (("bytes", size, MOST_BYTES), ("tokens", tokens, MOST_TOKENS)):
        if count > most:
            unit.notes.add(Note(Weight.PROBLEM, str(unit.source.path), 1, f"{count} {what} are written", f"load takes {most}; cut the file into two"))
    long = {}
    for place, token in enumerate(unit.tokens):
        item = unit.in_item(place) if len(token.text) > LONGEST_NAME and token.is_name() else None
        if item is not None and item.kept:
            long.setdefault(token.text, token.origin)
    for name, origin in long.items():
        short = shortened(name)
        unit.notes.add(Note(Weight.TOLD, origin.file, origin.line, f"the name {name} is too long", f"it is called {short}", "long name"))


@dataclass
class Project:
    """What is written to a folder, and what is known of all of it. `own` are external functions of modules that are not written here."""

    options: Options
    output: pathlib.Path
    own: set[str] = field(default_factory=set)
    used: set[str] = field(default_factory=set)
    notes: list[Note] = field(default_factory=list)
    users: dict[str, set[str]] = field(default_factory=dict)
    exported: set[str] = field(default_factory=set)

    def write(self, file: pathlib.Path, name: str) -> Notes:
        """Makes one module of a file, and gives what is to be told of it; a file that cannot be worked on is a Failure."""
        read_file(file)
        target = self.output / f"{name}.c"
        if target.exists() and not (self.output / f"{name}.map.json").exists():
            raise Failure(f"{target}: it is there, and was not written by saber-prep; give another folder by -o", 2)
        unit = unit_of(file, self.options)
        lines = laid_out(unit)
        text = lines.text().encode("latin-1")
        tell_limits(unit, len(text), lines.tokens)
        try:
            self.output.mkdir(parents=True, exist_ok=True)
            target.write_bytes(text)
            (self.output / f"{name}.map.json").write_text(map_of(unit, name, lines, self.output))
        except OSError as fault:
            raise Failure(f"{target}: {fault.strerror}", 2) from None
        self.used |= names_used(unit)
        self.own |= names_defined(unit)
        learned(unit, self.users, self.exported)
        self.notes += unit.notes.notes
        return unit.notes

    def support(self) -> list[pathlib.Path]:
        """Writes the support modules that the files need, and names their files."""
        written = []
        for file in needed(self.used, self.own):
            text, target = file.read_text(), self.output / file.name
            front = text[: text.index("*/")]
            if target.exists() and not target.read_text(errors="replace").startswith(front):
                raise Failure(f"{target}: it is there, and was not written by saber-prep; give another folder by -o", 2)
            self.output.mkdir(parents=True, exist_ok=True)
            target.write_text(without(text, self.own))
            written.append(target)
        return written

    @property
    def has_problems(self) -> bool:
        """Whether something is left that `load` refuses."""
        return any(it.weight is Weight.PROBLEM for it in self.notes)
