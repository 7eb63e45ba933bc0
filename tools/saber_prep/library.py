"""Functions of the library that a file calls without a header: they are declared as the header has it, before the file is parsed again."""
from __future__ import annotations

import re
from functools import cache

from .notes import Failure, Weight
from .source import INCLUDE, TOKEN, Source, Token
from .tree import Flat, Node, parsed
from .unit import Unit

# what may stand in such a declaration, which goes in front of all others
WORDS = frozenset("void char short int long unsigned signed const size_t".split())


@cache
def declarations() -> dict[str, str]:
    """The declarations of our headers that need no other one, by the function's name."""
    found = {}
    for path in sorted(INCLUDE.rglob("*.h")):
        for text, name in re.findall(r"^((?:\w+ )+\**(\w+)\([^;]*\);)$", path.read_text(), re.M):
            if {*re.findall(r"[A-Za-z_]\w*", text)} - {name} <= WORDS and "long long" not in text:
                found[name] = text.replace("size_t", "unsigned int")
    return found


def declared(source: Source, nodes: list[Node], flat: Flat) -> tuple[list[Node], Flat, dict[str, str]]:
    """The tree with such declarations in front of the file, and these by their names.

    First those are tried too whose own declarations, as `char *getenv();`, say nothing of parameters; they may be of another type.
    """
    own = [it for node in nodes for it in node.walk() if it.kind == "FunctionDecl" and it.place >= 0]
    called = (below for node in nodes for it in node.walk() if it.kind == "CallExpr" and it.inner for below in it.inner[0].walk())
    names = dict.fromkeys(it.data["referencedDecl"].get("name", "") for it in called if it.data.get("referencedDecl", {}).get("kind") == "FunctionDecl")
    for hidden in ({it.name for it in own if not it.type.endswith("()") or it.body() is not None}, {it.name for it in own}):
        wanted = {name: declarations()[name] for name in names if name not in hidden and name in declarations()}
        words = [Token(word, source.tokens[0].origin) for text in wanted.values() for word in TOKEN.findall(text)]
        source.tokens[:0] = words
        try:
            return (*parsed(source), wanted) if wanted else (nodes, flat, {})
        except Failure:
            del source.tokens[: len(words)]
    return nodes, flat, {}


def tell(unit: Unit, put: dict[str, str]) -> None:
    """Tells of the first call of each function that was declared."""
    for name, text in put.items():
        node = next(it for root in unit.nodes for it in root.walk() if it.data.get("referencedDecl", {}).get("name") == name)
        unit.note(Weight.TOLD, node.first, f"call of {name} without a declaration", f"it is declared as {text.rstrip(';')}", "call without a declaration")
