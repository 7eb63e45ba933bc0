"""What is left: constructs that the core does not have and that nothing here rewrites, named with their places."""
from __future__ import annotations

import re

from .notes import Weight
from .tree import Node
from .unit import Unit

KINDS = {
    "GCCAsmStmt": ("assembler", "write it in C, or leave it out by #if"),
    "MSAsmStmt": ("assembler", "write it in C, or leave it out by #if"),
    "FileScopeAsmDecl": ("assembler", "write it in C, or leave it out by #if"),
    "StmtExpr": ("statements in an expression", "write a function"),
    "AddrLabelExpr": ("address of a label", "use a switch"),
    "IndirectGotoStmt": ("goto to an address", "use a switch"),
    "GenericSelectionExpr": ("_Generic", "write the case that is meant"),
    "BinaryConditionalOperator": ("?: without its middle", "write the condition twice"),
    "AtomicExpr": ("atomic operation", "write it in plain C"),
}
VARIABLE_SIZE = re.compile(r"\[[^\]\d]")


def problems(unit: Unit) -> None:
    for root in unit.nodes:
        for node in root.walk():
            if node.kind in KINDS:
                unit.note(Weight.PROBLEM, node.first, *KINDS[node.kind])
            elif node.kind == "VarDecl" and VARIABLE_SIZE.search(node.type):
                unit.note(Weight.PROBLEM, node.first, f"the array {node.name} with a size that is computed", "a constant size, or malloc")


def holder(node: Node) -> Node | None:
    """The block in whose list a label stands."""
    above = node.parent
    while above is not None and above.kind in ("LabelStmt", "CaseStmt", "DefaultStmt"):
        above = above.parent
    return above if above is not None and above.kind == "CompoundStmt" else None


def troubled(unit: Unit, first: int, last: int) -> list[str]:
    """What is not taken in a stretch of the file."""
    return sorted({note.construct for place, note in unit.told if first <= place <= last and note.weight is Weight.PROBLEM})


def set_aside(unit: Unit) -> None:
    """Declarations of functions that hold what is not taken stay only where they are used."""
    for item in unit.items:
        if item.function is None and all(it.kind == "FunctionDecl" for it in item.nodes):
            item.optional = bool(troubled(unit, item.first, item.last))


def leave_out(unit: Unit) -> None:
    """Makes a declaration of each definition in which something is not taken. A run that calls it ends with U17."""
    for item in unit.items:
        function = item.function
        reasons = troubled(unit, item.first, item.last) if function is not None else []
        if not reasons:
            continue
        body = function.body()
        item.optional = bool(troubled(unit, item.first, body.first - 1))
        unit.told = [it for it in unit.told if not body.first <= it[0] <= item.last]
        unit.edits.replace(body.first, body.last, ";")
        unit.note(Weight.LEFT_OUT, function.place, f"the function {function.name}", f"{'; '.join(reasons)}. A run that calls it ends with U17")
