"""What the user is told: each rewriting that changes what can be seen, and each construct that stays."""
from __future__ import annotations

import enum
from dataclasses import dataclass, field


class Weight(enum.Enum):
    """How much a note matters, and the word that stands before it. The weightiest stands last."""

    PLAIN = "note"
    TOLD = "told"
    INTEGER = "AS INTEGER"
    NARROW = "NARROWED"
    LEFT_OUT = "LEFT OUT"
    PROBLEM = "not taken"


class Failure(Exception):
    """A file that cannot be worked on; the text says what and where, `status` is the exit status."""

    def __init__(self, text: str, status: int):
        super().__init__(text)
        self.status = status


@dataclass(frozen=True)
class Note:
    """One note: the place in the user's own text, the construct, and what to do.

    Notes of one `kind` are told by one line with their number; `owner` is the key of the function that it stands in.
    """

    weight: Weight
    file: str
    line: int
    construct: str
    advice: str = ""
    kind: str = ""
    owner: str = ""

    def text(self) -> str:
        tail = f": {self.advice}" if self.advice else ""
        return f"{self.file}:{self.line}: {self.weight.value}: {self.construct}{tail}"

    @property
    def group(self) -> tuple:
        """What it has in common with the notes that are told with it."""
        return self.weight, self.kind or self.construct


@dataclass
class Notes:
    """The notes of one file, each of them once."""

    notes: dict[Note, None] = field(default_factory=dict)

    def add(self, note: Note) -> None:
        self.notes.setdefault(note)

    def of(self, weight: Weight) -> list[Note]:
        return [it for it in self.notes if it.weight is weight]

    def counted(self) -> dict[str, int]:
        """How often each plain rewriting was made."""
        counts: dict[str, int] = {}
        for note in self.of(Weight.PLAIN):
            counts[note.construct] = counts.get(note.construct, 0) + 1
        return counts
