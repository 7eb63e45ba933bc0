"""Writes the tokens to lines: those of the user's file to their own, functions of headers behind the last, with a map."""
from __future__ import annotations

import json
import os
import pathlib
import re
import string
import zlib
from dataclasses import dataclass, field

from .edits import Piece
from .unit import Item, Unit


# what `load` takes, by docs/PREPROCESSING.md
LONGEST_NAME = 63
MOST_TOKENS = 1_000_000
NAME = re.compile(r"[A-Za-z_]\w*")
LETTERS = string.ascii_letters + "_"
QUOTES = "\"'"
# tokens that no other one grows into
ALONE = frozenset("()[]{};,?")


@dataclass
class Lines:
    """The lines of the output, and the place that each stands for."""

    texts: list[list[str]] = field(default_factory=lambda: [[]])
    places: dict[int, tuple[str, int]] = field(default_factory=dict)

    def put(self, line: int, text: str) -> None:
        """Puts a token, or several with blanks between them, behind what a line has."""
        while len(self.texts) <= line:
            self.texts.append([])
        self.texts[line] += [shortened(it) for it in ([text] if text[:1] in QUOTES else text.split())]

    @property
    def last(self) -> int:
        return len(self.texts) - 1

    def text(self) -> str:
        return "".join(joined(it) + "\n" for it in self.texts[1:])

    @property
    def tokens(self) -> int:
        return sum(map(len, self.texts))


def shortened(token: str) -> str:
    """A name as `load` takes it: one above its limit keeps its front, and gets a number that is made of all of it."""
    if len(token) <= LONGEST_NAME or not NAME.fullmatch(token):
        return token
    return f"{token[:LONGEST_NAME - 9]}_{zlib.crc32(token.encode()):08x}"


def joined(tokens: list[str]) -> str:
    """Tokens as one text, with blanks only where two of them would else be read as others."""
    parts, before = [], ""
    for token in tokens:
        if before and needs_blank(before, token):
            parts.append(" ")
        parts.append(token)
        before = token
    return "".join(parts)


def needs_blank(left: str, right: str) -> bool:
    """Whether two tokens would be read otherwise without a blank between them."""
    if left in ALONE or right in ALONE:
        return False
    if is_word(left):
        return is_word(right) or right[0] in QUOTES or left[0] not in LETTERS and right[0] in "+-."
    if is_word(right):
        return left == "." and right[0].isdigit()
    return left[0] not in QUOTES or right[0] in QUOTES


def is_word(token: str) -> bool:
    """Whether a token is a name, a word of the language or a number."""
    return token[0].isalnum() or token[0] in "_$" or token[0] == "." and token[1:2].isdigit()


def laid_out(unit: Unit) -> Lines:
    """The output: declarations in the order of the text, functions of headers at the end."""
    lines = Lines()
    current = 1
    for declaration in unit.prelude:
        lines.put(1, declaration)
    late: list[list[Piece]] = []
    for item in unit.items:
        if not item.kept:
            continue
        function = item.function
        if item.header and function is not None:
            pieces = header_function(unit, item, late)
        else:
            pieces = unit.edits.render(item.first, item.last)
        for piece in pieces:
            current = max(current, piece.origin.own)
            lines.put(current, piece.text)
    source = str(unit.source.path)
    for line in range(1, max(lines.last, unit.source.last_line) + 1):
        lines.places[line] = (source, line)
    lines.put(max(lines.last, unit.source.last_line), "")
    for pieces in late:
        append(lines, pieces)
    for parts in unit.tail:
        append(lines, unit.edits.made(len(unit.tokens) - 1, parts))
    return lines


def header_function(unit: Unit, item: Item, late: list[list[Piece]]) -> list[Piece]:
    """The declaration of a function that a header defines; the definition goes to the end, where its lines are its own."""
    function = item.function
    body = function.body()
    static = item.is_static() and "static" not in unit.texts(function.first, function.place)
    front = [Piece("static", unit.origin(item.first))] if static else []
    late.append(front + unit.edits.render(function.first, body.last))
    # what stands in front of the function in the same item is a tag or a type, and stays where it is
    head = unit.edits.render(item.first, body.first - 1)
    return front + head + [Piece(";", unit.origin(body.first - 1))]


def append(lines: Lines, pieces: list[Piece]) -> None:
    """Puts tokens behind the last line; a new line of their file is a new line."""
    before = None
    for piece in pieces:
        place = (piece.origin.file, piece.origin.line)
        if place != before:
            before = place
            lines.put(lines.last + 1, piece.text)
            lines.places[lines.last] = place
        else:
            lines.put(lines.last, piece.text)


def map_of(unit: Unit, module: str, lines: Lines, folder: pathlib.Path) -> str:
    """The map in JSON: ranges of lines of the output with the file and the line where each begins.

    A file is named from the folder of the map, so that the whole may be moved.
    """
    ranges: list[dict] = []
    seen: dict[str, str] = {}
    for line in range(1, lines.last + 1):
        path, at = lines.places.get(line, (str(unit.source.path), line))
        file = seen.setdefault(path, os.path.relpath(path, folder))
        if ranges and ranges[-1]["file"] == file and ranges[-1]["line"] + line - ranges[-1]["first"] == at:
            ranges[-1]["last"] = line
        else:
            ranges.append({"first": line, "last": line, "file": file, "line": at})
    made = {"version": 1, "module": module, "source": os.path.relpath(unit.source.path, folder), "output": module + ".c", "ranges": ranges}
    return json.dumps(made, indent=1) + "\n"
