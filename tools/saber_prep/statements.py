"""Declarations behind statements and in `for`, ranges of cases, and `return` with a void value."""
from __future__ import annotations

import re

from .edits import Part, Span
from .initialisers import assignments, initialiser, is_computed, text_copied
from .notes import Weight
from .tree import Node, end_of
from .unit import Unit

LABELS = ("LabelStmt", "CaseStmt", "DefaultStmt")


def statements(unit: Unit) -> None:
    """Brings the declarations of each function to the beginnings of blocks."""
    for root in unit.nodes:
        for node in root.walk():
            if id(node) in unit.flattened:
                continue
            if node.kind == "CompoundStmt":
                block(unit, node)
            elif node.kind == "ForStmt" and node.inner and node.inner[0].kind == "DeclStmt":
                loop(unit, node)
            elif node.kind == "CaseStmt" and node.data.get("isGNURange"):
                case_range(unit, node)
            elif node.kind == "ReturnStmt" and node.inner and node.inner[0].type == "void":
                unit.edits.replace(node.first, node.last, "{", Span(node.inner[0].first, node.inner[0].last), "; return ; }")
                unit.edits.delete(node.last + 1)
                unit.note(Weight.PLAIN, node.first, "return of a void value")


def block(unit: Unit, node: Node) -> None:
    """One block. Behind statements a declaration opens a block of its own, or goes to the front if a label follows."""
    opened = 0
    seen = False
    for number, child in enumerate(node.inner):
        if child.kind != "DeclStmt":
            seen = True
        elif seen and any(it.kind in LABELS for it in node.inner[number:]):
            assign_in_place(unit, node, child)
        else:
            if seen:
                unit.edits.put_before(child.first, "{")
                opened += 1
                unit.note(Weight.PLAIN, child.first, "declaration behind a statement")
            seen = declaration(unit, child)
    for _ in range(opened):
        unit.edits.put_before(node.last, "}")


def declaration(unit: Unit, node: Node) -> bool:
    """A declaration that stays; answers whether assignments stand behind it."""
    parts: list[Part] = []
    for variable in node.inner:
        if is_computed(unit, variable):
            value = initialiser(variable)
            unit.edits.replace(value.first, value.last, "{ 0 }")
            give_size(unit, variable)
            parts += assignments(unit, variable.name, value, zeros=False)
            without_const(unit, node, variable)
            unit.note(Weight.PLAIN, value.first, "list that is computed")
    if parts:
        unit.edits.put_behind(node.last, *parts)
    return bool(parts)


def give_size(unit: Unit, variable: Node) -> None:
    """An array that took its size from its initialiser gets it written."""
    place = variable.place + 1
    found = re.search(r"\[(\d+)\]", variable.type)
    if found and unit.text(place) == "[" and unit.text(place + 1) == "]":
        unit.edits.put_behind(place, found[1])


def without_const(unit: Unit, node: Node, variable: Node) -> None:
    """An object that gets its value by assignment is not constant."""
    for place in range(node.first, max(variable.place, node.first)):
        if unit.text(place) == "const":
            unit.edits.delete(place)


def equals_sign(unit: Unit, variable: Node) -> int:
    """The `=` in front of an initialiser."""
    place = initialiser(variable).first
    while unit.text(place) != "=" and place > variable.place:
        place -= 1
    return place


def assign_in_place(unit: Unit, outer: Node, node: Node, whole: Node | None = None) -> None:
    """Declares at the front of a block, and assigns in the place of the declaration.

    `whole` is the function, if the block is not the one that the declaration stands in: then a name that means something
    else anywhere in it gets another one.
    """
    if any(it.kind != "VarDecl" or it.data.get("storageClass") in ("static", "extern") for it in node.inner):
        unit.edits.put_behind(outer.first, Span(node.first, node.last - 1, moved=True), ";")
        unit.edits.replace(node.first, node.last, ";")
        return
    parts: list[Part] = []
    front: list[Part] = []
    begin = node.first
    for variable in node.inner:
        name = name_at_front(unit, outer, node, variable, whole)
        value = initialiser(variable)
        if value is None:
            continue
        front.append(Span(begin, equals_sign(unit, variable) - 1, moved=True))
        begin = value.last + 1
        give_size(unit, variable)
        parts += set_by(unit, name, variable, value)
        if variable.type.startswith("const ") and "*" not in variable.type or variable.type.endswith("const"):
            without_const(unit, node, variable)
    if begin <= node.last - 1:
        front.append(Span(begin, node.last - 1, moved=True))
    unit.edits.put_behind(outer.first, *front, ";")
    unit.edits.replace(node.first, node.last, *(parts or [";"]))
    unit.note(Weight.PLAIN, node.first, "declaration behind a statement")


def set_by(unit: Unit, name: str, variable: Node, value: Node) -> list[Part]:
    """The statements that give an object its first value."""
    if value.kind == "InitListExpr":
        return assignments(unit, name, value, zeros=True)
    if value.kind == "StringLiteral" and variable.plain.endswith("]"):
        return text_copied(unit, name, value)
    return [name, "=", Span(value.first, value.last), ";"]


def name_at_front(unit: Unit, outer: Node, node: Node, variable: Node, whole: Node | None) -> str:
    """The name of an object at the front: another one if its own means something else in between."""
    between = list(range(outer.first, node.first))
    if whole is not None:
        own = next(it for it in node.above() if it.kind in ("CompoundStmt", "ForStmt"))
        between = [it for it in range(whole.place, whole.last) if not own.first <= it <= own.last]
    if not any(unit.text(it) == variable.name and unit.text(it - 1) not in (".", "->") for it in between):
        return variable.name
    name = unit.name(variable.name)
    unit.edits.replace(variable.place, variable.place, name)
    for it in outer.walk():
        if it.kind == "DeclRefExpr" and it.target == variable.id:
            unit.edits.replace(it.first, it.last, name)
    unit.note(Weight.TOLD, variable.place, f"the inner object {variable.name}", f"it is called {name}", "inner object")
    return name


def loop(unit: Unit, node: Node) -> None:
    """`for (int i = 0; ..)` becomes `{ int i = 0; for (; ..) }`."""
    declared = node.inner[0]
    unit.edits.replace(node.first, declared.last, "{", Span(declared.first, declared.last), "for ( ;")
    unit.edits.put_behind(end_of(node), "}")
    if declaration(unit, declared):
        unit.note(Weight.PROBLEM, declared.first, "list that is computed in the head of `for`", "declare it before the loop")
    unit.note(Weight.PLAIN, node.first, "declaration in `for`")


def case_range(unit: Unit, node: Node) -> None:
    """`case 1 ... 4:` becomes four labels."""
    first, last = (value_of(it) for it in node.inner[:2])
    if first is None or last is None or last - first > 255:
        unit.note(Weight.PROBLEM, node.first, "range of cases", "write the labels, or an `if`")
        return
    labels = " : case ".join(str(it) for it in range(first, last + 1))
    unit.edits.replace(node.first, node.inner[1].last, f"case {labels}")
    unit.note(Weight.PLAIN, node.first, "range of cases")


def value_of(node: Node) -> int | None:
    """The value of a constant of the tree."""
    for it in node.walk():
        if it.kind in ("ConstantExpr", "IntegerLiteral", "CharacterLiteral") and "value" in it.data:
            return int(it.data["value"])
    return None
