"""Jumps into blocks, and cases inside of loops: the statements in between are written as tests and `goto`.

The core has a label only where its block is entered from the front. What stands between a label and the block that also has
the jumps is made one list: a loop becomes labels, a test and a `goto`, and a block's objects become those of the function.
"""
from __future__ import annotations

from .edits import Part, Span
from .notes import Weight
from .problems import holder
from .statements import assign_in_place
from .tree import Node, end_of
from .unit import Unit

LOOPS = ("WhileStmt", "ForStmt", "DoStmt")


def flatten(unit: Unit) -> None:
    for function in unit.functions():
        wanted: dict[int, Node] = {}
        for label, block in misplaced(function):
            for node in label.above():
                if node is block:
                    break
                wanted[id(node)] = node
        if wanted:
            rewrite(unit, function, wanted)


def misplaced(function: Node) -> list[tuple[Node, Node]]:
    """Labels that are reached from outside of their block, each with the block whose list it has to stand in."""
    found = []
    labels = {it.data.get("declId"): it for it in function.walk() if it.kind == "LabelStmt"}
    for node in function.walk():
        if node.kind == "GotoStmt":
            label = labels.get(node.data.get("targetLabelDeclId"))
            if label is not None and holder(label) not in list(node.above()):
                found.append((label, common(label, node)))
        elif node.kind in ("CaseStmt", "DefaultStmt"):
            switch = next((it for it in node.above() if it.kind == "SwitchStmt"), None)
            if switch is not None and holder(node) is not switch.inner[-1]:
                found.append((node, switch.inner[-1]))
    return found


def common(label: Node, jump: Node) -> Node:
    """The innermost block around both."""
    around = [it for it in jump.above() if it.kind == "CompoundStmt"]
    return next(it for it in label.above() if it in around)


def rewrite(unit: Unit, function: Node, wanted: dict[int, Node]) -> None:
    """Inner statements first, so that what stands behind them stands in order."""
    names: dict[int, str] = {}
    for node in wanted.values():
        if node.kind in LOOPS + ("IfStmt", "SwitchStmt"):
            names[id(node)] = unit.name("flat")
    for node in reversed([it for it in function.walk() if id(it) in wanted]):
        if node.kind == "CompoundStmt":
            block(unit, function, node)
        elif id(node) in names:
            MAKERS[node.kind](unit, function, node, names[id(node)])
        elif node.kind not in ("LabelStmt", "CaseStmt", "DefaultStmt"):
            unit.note(Weight.PROBLEM, node.first, "jump into an expression", "write it otherwise")
    leaving(unit, function, names)
    unit.note(Weight.TOLD, function.place, f"jumps into blocks of {function.name}", "its loops around the labels are written with goto", "jumps into blocks")


def leaving(unit: Unit, function: Node, names: dict[int, str]) -> None:
    """`break` and `continue` of the statements that are no more."""
    for node in function.walk():
        if node.kind not in ("BreakStmt", "ContinueStmt"):
            continue
        kinds = LOOPS + (("SwitchStmt",) if node.kind == "BreakStmt" else ())
        owner = next((it for it in node.above() if it.kind in kinds), None)
        if owner is not None and id(owner) in names:
            word = "end" if node.kind == "BreakStmt" else "next"
            unit.edits.replace(node.first, node.last, f"goto {names[id(owner)]}_{word}")


def block(unit: Unit, function: Node, node: Node) -> None:
    """Takes the brackets away; the declarations go to the front of the function."""
    unit.flattened.add(id(node))
    unit.edits.replace(node.first, node.first, ";")
    unit.edits.delete(node.last)
    for child in node.inner:
        if child.kind == "DeclStmt":
            assign_in_place(unit, function.body(), child, whole=function)


def while_loop(unit: Unit, function: Node, node: Node, name: str) -> None:
    condition, body = node.inner[0], node.inner[-1]
    front: list[Part] = [f"{name}_next : ; if ( ! (", Span(condition.first, condition.last), f") ) goto {name}_end ;"]
    unit.edits.replace(node.first, body.first - 1, *front)
    unit.edits.put_behind(end_of(node), f"goto {name}_next ; {name}_end : ;")


def do_loop(unit: Unit, function: Node, node: Node, name: str) -> None:
    body, condition = node.inner[0], node.inner[-1]
    unit.edits.replace(node.first, body.first - 1, f"{name}_again : ;")
    back: list[Part] = [f"{name}_next : ; if (", Span(condition.first, condition.last), f") goto {name}_again ; {name}_end : ;"]
    unit.edits.replace(end_of(body) + 1, end_of(node), *back)


def for_loop(unit: Unit, function: Node, node: Node, name: str) -> None:
    first, _, condition, step, body = node.inner
    parts: list[Part] = []
    if first.kind == "DeclStmt":
        unit.flattened.add(id(node))
        assign_in_place(unit, function.body(), first, whole=function)
        parts.append(Span(first.first, first.last))
    elif first.kind:
        parts += [Span(first.first, first.last), ";"]
    parts.append(f"{name}_again : ;")
    if condition.kind:
        parts += ["if ( ! (", Span(condition.first, condition.last), f") ) goto {name}_end ;"]
    unit.edits.replace(node.first, body.first - 1, *parts)
    back: list[Part] = [f"{name}_next : ;"]
    if step.kind:
        back += [Span(step.first, step.last, moved=True), ";"]
    unit.edits.put_behind(end_of(node), *back, f"goto {name}_again ; {name}_end : ;")


def if_statement(unit: Unit, function: Node, node: Node, name: str) -> None:
    condition, then = node.inner[0], node.inner[1]
    front: list[Part] = ["if ( ! (", Span(condition.first, condition.last), f") ) goto {name}_else ;"]
    unit.edits.replace(node.first, then.first - 1, *front)
    if len(node.inner) > 2:
        unit.edits.replace(end_of(then) + 1, end_of(then) + 1, f"goto {name}_end ; {name}_else : ;")
        unit.edits.put_behind(end_of(node), f"{name}_end : ;")
    else:
        unit.edits.put_behind(end_of(node), f"{name}_else : ;")


def switch_statement(unit: Unit, function: Node, node: Node, name: str) -> None:
    """A switch into whose list something jumps becomes one that only jumps."""
    value, body = node.inner[0], node.inner[-1]
    parts: list[Part] = ["switch (", Span(value.first, value.last), ") {"]
    default = f"{name}_end"
    for number, label in enumerate(cases(body)):
        place = f"{name}_{number}"
        if label.kind == "DefaultStmt":
            default = place
            unit.edits.replace(label.first, label.first + 1, f"{place} : ;")
        else:
            constant = label.inner[0]
            parts += ["case", Span(constant.first, constant.last), f": goto {place} ;"]
            unit.edits.replace(label.first, constant.last + 1, f"{place} : ;")
    unit.edits.replace(node.first, body.first - 1, *parts, f"default : goto {default} ; }}")
    unit.edits.put_behind(end_of(node), f"{name}_end : ;")


def cases(body: Node) -> list[Node]:
    """The labels of one switch."""
    found = []
    for it in body.walk():
        if it.kind in ("CaseStmt", "DefaultStmt"):
            owner = next(above for above in it.above() if above.kind == "SwitchStmt")
            if owner.inner[-1] is body:
                found.append(it)
    return found


MAKERS = {
    "WhileStmt": while_loop, "DoStmt": do_loop, "ForStmt": for_loop, "IfStmt": if_statement, "SwitchStmt": switch_statement,
}
