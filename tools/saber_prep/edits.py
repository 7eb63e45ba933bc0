"""Edits of a list of tokens. A part of the text may be moved, and the edits inside of it move with it."""
from __future__ import annotations

from dataclasses import dataclass, field
from typing import Union

from .source import Origin, Token


@dataclass(frozen=True)
class Span:
    """The tokens from `first` to `last`, edited; `moved` ones take the place of what they replace."""

    first: int
    last: int
    moved: bool = False


class Verbatim(str):
    """One token of the output, which may hold blanks."""


Part = Union[str, Span]  # a string that is no Verbatim is cut at its blanks


@dataclass(eq=False)
class Replacement:
    first: int
    last: int
    parts: list[Part]


@dataclass(frozen=True)
class Piece:
    """A token of the output, and where it stands for."""

    text: str
    origin: Origin


@dataclass
class Edits:
    tokens: list[Token]
    replacements: dict[int, list[Replacement]] = field(default_factory=dict)
    in_front: dict[int, list[list[Part]]] = field(default_factory=dict)
    behind: dict[int, list[list[Part]]] = field(default_factory=dict)

    def replace(self, first: int, last: int, *parts: Part) -> None:
        """Puts parts in the place of tokens. Of several over the same tokens the later one is the outer one."""
        there = self.replacements.setdefault(first, [])
        there.append(Replacement(first, last, list(parts)))
        there.sort(key=lambda it: it.last)

    def delete(self, first: int, last: int | None = None) -> None:
        self.replace(first, first if last is None else last)

    def wrap(self, first: int, last: int, before: str, after: str) -> None:
        self.replace(first, last, before, Span(first, last), after)

    def put_before(self, place: int, *parts: Part) -> None:
        self.in_front.setdefault(place, []).append(list(parts))

    def put_behind(self, place: int, *parts: Part) -> None:
        """Puts parts behind a token; the first that was put stands first."""
        self.behind.setdefault(place, []).append(list(parts))

    def render(self, first: int, last: int) -> list[Piece]:
        """The edited tokens of a stretch."""
        out: list[Piece] = []
        self._stretch(out, first, last, [], None)
        return out

    def made(self, place: int, parts: list[Part]) -> list[Piece]:
        """Parts that stand for a token, without it and what was put beside it."""
        out: list[Piece] = []
        self._parts(out, [parts], place, [], None)
        return out

    def _stretch(self, out: list[Piece], first: int, last: int, active: list[Replacement], anchor: Origin | None) -> None:
        place = first
        while place <= last:
            begins = any(it.first == place for it in active)
            if not begins:
                self._parts(out, self.in_front.get(place, []), place, active, anchor)
            chosen = self._outermost(place, last, active)
            if chosen is None:
                token = self.tokens[place]
                out.append(Piece(token.text, anchor or token.origin))
                end = place
            else:
                self._parts(out, [chosen.parts], place, active + [chosen], anchor)
                end = chosen.last
            if not any(it.last == end for it in active):
                self._parts(out, self.behind.get(end, []), end, active, anchor)
            place = end + 1

    def _outermost(self, place: int, last: int, active: list[Replacement]) -> Replacement | None:
        """The widest replacement that begins here and is not being made already; of equals the latest."""
        there = self.replacements.get(place)
        if there is None:
            return None
        fitting = [it for it in there if it.last <= last and it not in active]
        fitting = [it for it in fitting if not any(outer.first == it.first and outer.last < it.last for outer in active)]
        return fitting[-1] if fitting else None

    def _parts(self, out: list[Piece], lists: list[list[Part]], place: int, active: list[Replacement], anchor: Origin | None) -> None:
        here = anchor or self.tokens[place].origin
        for parts in lists:
            for part in parts:
                if isinstance(part, Verbatim):
                    out.append(Piece(part, here))
                elif isinstance(part, str):
                    out.extend(Piece(it, here) for it in part.split(" ") if it)
                else:
                    self._stretch(out, part.first, part.last, active, here if part.moved else anchor)
                    if out and not part.moved:
                        here = out[-1].origin
