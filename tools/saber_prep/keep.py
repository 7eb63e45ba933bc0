"""Which outer declarations stay: all that the user's own file has, and of headers what is used."""
from __future__ import annotations

from .notes import Weight
from .unit import Item, Unit


def keep_used(unit: Unit) -> None:
    """Drops the unused declarations of headers, unused types and `extern` objects of the file itself, and stray `;`.

    A header may declare what the core does not have; it only matters where it is used.
    """
    needed: set[str] = set()
    again = repeated(unit)
    for item in unit.items:
        item.kept = rooted(item)
        if item.kept:
            needed |= names_in(unit, item)
    provided = {id(it): provides(it) for it in unit.items}
    more = True
    while more:
        more = False
        for item in unit.items:
            if not item.kept and item not in again and provided[id(item)] & needed:
                item.kept = more = True
                needed |= names_in(unit, item)
    dropped = sum(not it.kept for it in unit.items)
    if dropped:
        unit.note(Weight.PLAIN, 0, f"{dropped} unused declarations dropped")


def repeated(unit: Unit) -> list[Item]:
    """Typedefs that were there before: C of 2011 takes them again, and the core does not."""
    seen: set[str] = set()
    found = []
    for item in unit.items:
        names = {it.name for it in item.nodes if it.kind == "TypedefDecl"}
        if names and names <= seen and all(it.kind == "TypedefDecl" for it in item.nodes):
            found.append(item)
        seen |= names
    return found


def rooted(item: Item) -> bool:
    if all(it.kind in ("EmptyDecl", "StaticAssertDecl") for it in item.nodes):
        return False
    if all(it.kind == "TypedefDecl" or it.kind == "VarDecl" and it.data.get("storageClass") == "extern" for it in item.nodes):
        return False  # tests of sizes are often written as such declarations
    if item.optional:
        return False
    if not item.header:
        return True
    return item.defines() and not item.is_static()


def names_in(unit: Unit, item: Item) -> set[str]:
    """The names that stand in an item as it is written out, but for members."""
    names = set()
    before = ""
    for piece in unit.edits.render(item.first, item.last):
        if (piece.text[0].isalpha() or piece.text[0] == "_") and before not in (".", "->"):
            names.add(piece.text)
        before = piece.text
    return names


def provides(item: Item) -> set[str]:
    """The names that an item declares: its own, and tags and enumeration constants inside of it."""
    names = set()
    for root in item.nodes:
        names.add(root.name)
        waiting = [root]
        while waiting:
            node = waiting.pop()
            if node.kind in ("RecordDecl", "EnumDecl", "EnumConstantDecl"):
                names.add(node.name)
            if node.kind != "CompoundStmt":
                waiting.extend(node.inner)
    return names - {""}
