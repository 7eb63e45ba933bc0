"""Words that the core does not have, and constants that it writes otherwise."""
from __future__ import annotations

import re

from .edits import Verbatim
from .notes import Weight
from .unit import Unit

DROPPED = {
    "inline": "inline", "__inline": "inline", "__inline__": "inline",
    "restrict": "restrict", "__restrict": "restrict", "__restrict__": "restrict",
    "__extension__": "__extension__", "_Noreturn": "_Noreturn",
    "__volatile__": "volatile", "__volatile": "volatile", "volatile": "volatile",
    "_Thread_local": "_Thread_local", "__thread": "__thread", "_Atomic": "_Atomic",
}
TOLD = {"volatile", "_Thread_local", "__thread", "_Atomic"}
WITH_BRACKETS = {"__attribute__", "__attribute", "__declspec", "_Alignas"}
ASSEMBLER = {"asm", "__asm", "__asm__"}
RENAMED = {"__signed__": "signed", "__signed": "signed", "__const": "const", "__const__": "const", "__builtin_offsetof": "__offsetof"}
ESCAPES = re.compile(r"\\e")
BINARY = re.compile(r"0[bB]([01]+)([uUlL]*)$")


def drop_words(unit: Unit) -> None:
    """Takes away the words that only speak to a compiler's optimiser, or that the core has no meaning for."""
    statements = [it for root in unit.nodes for it in root.walk() if it.kind in ("GCCAsmStmt", "FileScopeAsmDecl")]
    place = 0
    while place < len(unit.tokens):
        text = unit.text(place)
        end = place
        if text in DROPPED:
            drop_word(unit, place, DROPPED[text])
        elif text in WITH_BRACKETS and unit.text(place + 1) == "(":
            end = unit.closing(place + 1)
            unit.edits.delete(place, end)
            unit.note(Weight.PLAIN, place, text)
        elif text in ASSEMBLER and not any(it.first <= place <= it.last for it in statements):
            end = label_end(unit, place)
        elif text in RENAMED:
            unit.edits.replace(place, place, RENAMED[text])
        elif text == "," and unit.text(place + 1) == "...":
            unit.edits.delete(place, place + 1)
            end = place + 1
        elif text == "[" and unit.text(place + 1) in ("static", "const"):
            unit.edits.delete(place + 1)
        else:
            rewrite_constant(unit, place)
        place = end + 1


def label_end(unit: Unit, place: int) -> int:
    """Drops the name that a declaration gets in the object, as in `int f(void) __asm__("g");`."""
    if unit.text(place + 1) != "(":
        return place
    end = unit.closing(place + 1)
    unit.edits.delete(place, end)
    unit.note(Weight.PLAIN, place, "name for the assembler")
    return end


def drop_word(unit: Unit, place: int, word: str) -> None:
    unit.edits.delete(place)
    if word in TOLD:
        unit.note(Weight.TOLD, place, word, "the word is dropped; the program is read as if nothing else changed the object")
    else:
        unit.note(Weight.PLAIN, place, word)


def rewrite_constant(unit: Unit, place: int) -> None:
    """Binary numbers, the escape for ESC, and strings with a `u8` before them."""
    text = unit.text(place)
    if text[0] in "\"'" and "\\e" in text:
        unit.edits.replace(place, place, Verbatim(re.sub(r"\\(e|.)", lambda it: "\\033" if it[1] == "e" else it[0], text)))
    elif text.startswith('u8"'):
        unit.edits.replace(place, place, Verbatim(text[2:]))
    else:
        found = BINARY.match(text)
        if found:
            unit.edits.replace(place, place, hex(int(found[1], 2)) + found[2])
            unit.note(Weight.PLAIN, place, "binary constant")


def literals(unit: Unit) -> None:
    """Wide characters, constants of several characters, and the name of the function."""
    for node in unit.inner_first():
        if node.kind == "CharacterLiteral" and odd_character(unit.text(node.first)):
            unit.edits.replace(node.first, node.last, str(node.data.get("value", 0)))
            unit.note(Weight.PLAIN, node.first, "wide or long character constant")
        elif node.kind == "UnaryExprOrTypeTraitExpr" and node.name == "alignof":
            meant = node.data.get("argType") or node.inner[0].data.get("type", {})
            written = meant.get("qualType", "")
            unit.edits.replace(node.first, node.last, f"{unit.alignment(written, meant.get('desugaredQualType', written))}u")
            unit.note(Weight.PLAIN, node.first, "_Alignof")
        elif node.kind == "PredefinedExpr" and node.inner:
            value = node.inner[0].data.get("value", '""')
            unit.edits.replace(node.first, node.last, Verbatim(value))
            unit.note(Weight.PLAIN, node.first, "__func__")
        elif node.kind == "StringLiteral" and unit.text(node.first)[0] in "LuU" and '"' in unit.text(node.first):
            if unit.text(node.first).startswith("u8"):
                continue
            wide_string(unit, node)


def odd_character(text: str) -> bool:
    if text[0] in "LuU":
        return True
    inside = re.sub(r"\\(?:x[0-9a-fA-F]+|[0-7]{1,3}|.)", "c", text[1:-1])
    return len(inside) > 1


def wide_string(unit: Unit, node) -> None:
    """Writes a wide string as the list of its numbers; elsewhere as an array of its own."""
    size = re.search(r"\[(\d+)\]", node.type)
    text = "".join(it.text[it.text.index('"') + 1 : -1] for it in unit.tokens[node.first : node.last + 1])
    numbers = [number_of(it) for it in re.findall(r"\\x[0-9a-fA-F]+|\\[0-7]{1,3}|\\.|.", text)] + [0]
    items = "{ " + " , ".join(map(str, numbers[: int(size[1]) if size else None])) + " }"
    parent = node.parent
    if parent is not None and parent.kind in ("VarDecl", "InitListExpr"):
        unit.edits.replace(node.first, node.last, items)
    else:
        name = unit.name("wide")
        unit.need(f"static const int {name} [ ] = {items} ;")
        unit.edits.replace(node.first, node.last, f"( ( int * ) {name} )")
    unit.note(Weight.PLAIN, node.first, "wide string")


SIMPLE = {"n": 10, "t": 9, "r": 13, "a": 7, "b": 8, "f": 12, "v": 11, "e": 27}


def number_of(text: str) -> int:
    """The number of a character as it is written in a string."""
    if text.startswith("\\x"):
        return int(text[2:], 16)
    if text[0] == "\\" and text[1].isdigit():
        return int(text[1:], 8)
    if text[0] == "\\":
        return SIMPLE.get(text[1], ord(text[1]))
    return ord(text)
