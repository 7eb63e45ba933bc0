"""Members of a structure that have no name: each gets one, by its place among such members, the same in all modules."""
from __future__ import annotations

from .notes import Weight
from .tree import Node
from .unit import Unit


def unnamed_members(unit: Unit) -> None:
    for node in list(unit.declared.values()):
        if node.kind == "FieldDecl" and not node.name and node.data.get("isImplicit"):
            inside = next((it for it in node.parent.inner if it.kind == "RecordDecl" and it.first == node.first), None)
            if inside is not None:
                unit.edits.put_behind(inside.last, unit.member_name(node))
                unit.note(Weight.PLAIN, node.first, "member without a name")
        elif node.kind == "MemberExpr" and node.name and is_unnamed(node.inner[0]):
            unit.edits.put_before(node.last, *[f"{it} ." for it in way(unit, node)])


def is_unnamed(node: Node) -> bool:
    return node.kind == "MemberExpr" and not node.name


def way(unit: Unit, node: Node) -> list[str]:
    """The names of the unnamed members on the way to a member, from the outermost."""
    names: list[str] = []
    below = node.inner[0]
    while is_unnamed(below):
        names.append(unit.member_name(unit.declared[below.target]))
        below = below.inner[0]
    return names[::-1]
