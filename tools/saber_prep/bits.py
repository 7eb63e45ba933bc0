"""Bit-fields: each becomes a whole member, and each assignment cuts the value to the bits that it had."""
from __future__ import annotations

from .edits import Part, Span
from .notes import Weight
from .tree import Node
from .unit import Unit


def bit_fields(unit: Unit) -> None:
    widths: dict[str, tuple[int, bool]] = {}
    for node in list(unit.declared.values()):
        if node.kind == "FieldDecl" and node.data.get("isBitfield"):
            widths[node.id] = (widen(unit, node), is_signed(unit, node.plain))
    if not widths:
        return
    for node in unit.inner_first():
        target = member(node.inner[0]) if node.inner else None
        if target is None or target.target not in widths:
            continue
        width, signed = widths[target.target]
        if node.kind == "BinaryOperator" and node.data.get("opcode") == "=":
            value = node.inner[1]
            unit.edits.replace(value.first, value.last, *cut(width, signed, [Span(value.first, value.last)]))
        elif node.kind == "CompoundAssignOperator":
            computed(unit, node, width, signed, node.data["opcode"][:-1], [Span(node.inner[1].first, node.inner[1].last)])
        elif node.kind == "UnaryOperator" and node.data.get("opcode") in ("++", "--"):
            computed(unit, node, width, signed, node.data["opcode"][0], ["1"])


def is_signed(unit: Unit, plain: str) -> bool:
    """Whether a bit-field of a type has negative values; one of an enumeration only if a constant has."""
    if not plain.startswith("enum"):
        return "unsigned" not in plain and plain != "_Bool"
    for node in unit.declared.values():
        if node.kind == "EnumDecl" and plain == f"enum {node.name}":
            values = [it.data.get("value", "0") for below in node.inner for it in below.walk() if it.kind == "ConstantExpr"]
            return any(str(it).startswith("-") for it in values)
    return False


def widen(unit: Unit, node: Node) -> int:
    """Drops the width of a bit-field; one without a name goes as a whole."""
    width = node.inner[0] if node.inner else node
    value = next((int(it.data["value"]) for it in width.walk() if "value" in it.data and str(it.data["value"]).isdigit()), 32)
    if node.name:
        unit.edits.delete(width.first - 1, width.last)
        unit.note(Weight.TOLD, node.place, f"the bit-field {node.name}", f"it becomes a whole {node.type}, cut to {value} bits as before; sizeof may differ", "bit-field")
    else:
        end = width.last
        first = node.first
        last = end + 1 if unit.text(end + 1) == ";" else end
        unit.edits.delete(first, last)
    return value


def member(node: Node) -> Node | None:
    while node.kind == "ParenExpr" and node.inner:
        node = node.inner[0]
    return node if node.kind == "MemberExpr" else None


def cut(width: int, signed: bool, value: list[Part]) -> list[Part]:
    """The value in so many bits, as C converts it."""
    mask = (1 << width) - 1
    if width >= 32:
        return ["(", *value, ")"]
    if not signed:
        return ["( (", *value, f") & {mask}u )"]
    half = 1 << (width - 1)
    return ["( ( int ) ( ( (", *value, f") & {mask}u ) ^ {half}u ) - {half} )"]


def computed(unit: Unit, node: Node, width: int, signed: bool, operator: str, by: list[Part]) -> None:
    """`x.f += n` and `x.f++`; the value of the latter is that before."""
    left = node.inner[0]
    if any(it.kind == "CallExpr" or it.data.get("opcode") in ("++", "--", "=") for it in left.walk()):
        unit.note(Weight.PROBLEM, node.first, "change of a bit-field that is computed", "keep a pointer to the structure")
        return
    place = Span(left.first, left.last)
    step: list[Part] = ["(", place, "=", *cut(width, signed, [place, operator, "(", *by, ")"]), ")"]
    if node.data.get("isPostfix"):
        step = cut(width, signed, [*step, "+" if operator == "-" else "-", "1"])
    unit.edits.replace(node.first, node.last, *step)
