"""Which exported functions reach a function: by calls, by its address, and over tables of functions, in all files of a call."""
from __future__ import annotations

from .tree import Node
from .unit import Unit


def names_meant(unit: Unit, node: Node) -> set[str]:
    """The functions and objects of file scope that a definition names."""
    found = set()
    for it in node.walk():
        meant = it.data.get("referencedDecl", {}) if it.kind == "DeclRefExpr" else {}
        target = unit.declared.get(it.target)
        is_local = target is not None and target.parent is not None
        if meant.get("kind") in ("FunctionDecl", "VarDecl") and not is_local:
            found.add(meant.get("name", ""))
    return found


def learned(unit: Unit, users: dict[str, set[str]], exported: set[str]) -> None:
    """Adds who names what in a file, and which functions it exports."""
    for item in unit.items:
        for node in item.nodes:
            if node.kind == "VarDecl" or node.kind == "FunctionDecl" and node.body() is not None:
                key = unit.key_of(node.name)
                if node.kind == "FunctionDecl" and key == node.name:
                    exported.add(key)
                for name in names_meant(unit, node):
                    users.setdefault(unit.key_of(name), set()).add(key)


def exported_that_reach(key: str, users: dict[str, set[str]], exported: set[str]) -> list[str]:
    """The exported functions from which a function is reached, itself among them; `main` first."""
    seen, waiting = {key}, [key]
    while waiting:
        for it in users.get(waiting.pop(), ()):
            if it not in seen:
                seen.add(it)
                waiting.append(it)
    return sorted(seen & exported, key=lambda it: (it != "main", it))
