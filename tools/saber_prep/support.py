"""The support modules saberlib and saberio: which of them a program needs, and what it has itself."""
from __future__ import annotations

import pathlib
import re

from .calls import DEFINITION, SUPPORT
from .unit import Unit


def defined_in(text: str) -> set[str]:
    """The functions that a support module defines."""
    return {it[2] for it in DEFINITION.finditer(text)}


def names_used(unit: Unit) -> set[str]:
    """All names in what is written out."""
    names = set(re.findall(r"\w+", " ".join(unit.prelude)))
    for item in unit.items:
        if item.kept:
            names |= {it.text for it in unit.edits.render(item.first, item.last) if it.text[0].isalpha() or it.text[0] == "_"}
    return names


def names_defined(unit: Unit) -> set[str]:
    """The external functions of a file."""
    return {it.name for it in unit.functions() if it.data.get("storageClass") != "static"}


def needed(used: set[str], own: set[str]) -> list[pathlib.Path]:
    """The support modules that a program needs; saberio stands on saberlib."""
    lib, io = SUPPORT
    extra = {"errno", "saber_places"} & used
    if (defined_in(io.read_text()) | {"stdin", "stdout", "stderr"}) & used - own:
        return [lib, io]
    return [lib] if (defined_in(lib.read_text()) & used - own) or extra else []


def without(text: str, own: set[str]) -> str:
    """The text of a support module without the functions that the program has itself; lines stay."""

    def declared(found: re.Match) -> str:
        if found[2] not in own:
            return found[0]
        return found[1] + ";" + "\n" * found[0].count("\n")

    return DEFINITION.sub(declared, text)
