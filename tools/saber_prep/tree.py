"""The syntax tree of a file: clang's, with types, over the tokens of the preprocessed text."""
from __future__ import annotations

import json
import pathlib
import re
import sys
import threading
from dataclasses import dataclass, field
from typing import Callable, Iterator

from .notes import Failure
from .source import TARGET, Source, run

PARSE = [
    "clang", "-x", "c", "-std=gnu99", TARGET, "-funsigned-char", "-fsyntax-only", "-w", "-ferror-limit=1", "-fno-builtin",
    "-fbracket-depth=4096", "-Wno-error=implicit-function-declaration", "-Wno-error=implicit-int", "-Wno-error=int-conversion",
    "-Wno-error=incompatible-pointer-types", "-Wno-error=incompatible-function-pointer-types", "-Wno-error=return-type",
    "-Xclang", "-ast-dump=json", "-",
]


# the most bytes of clang's tree that are read
MOST_TREE = 400 << 20


@dataclass(eq=False)
class Node:
    """A node of the tree. `first` and `last` are numbers of tokens, -1 where clang gives none."""

    kind: str
    name: str
    type: str
    plain: str  # the type without the names of typedefs
    first: int
    last: int
    place: int  # the number of the token that is the declared name
    data: dict
    parent: Node | None = None
    inner: list[Node] = field(default_factory=list)

    def walk(self) -> Iterator[Node]:
        """This node and all below, from the front."""
        waiting = [self]
        while waiting:
            node = waiting.pop()
            yield node
            waiting.extend(reversed(node.inner))

    def above(self) -> Iterator[Node]:
        node = self.parent
        while node is not None:
            yield node
            node = node.parent

    @property
    def id(self) -> str:
        return self.data.get("id", "")

    @property
    def target(self) -> str:
        """The id of the declaration that a name or member stands for."""
        return self.data.get("referencedDecl", {}).get("id", "") or self.data.get("referencedMemberDecl", "")

    def body(self) -> Node | None:
        """The body of a function, if it has one."""
        if self.kind == "FunctionDecl" and self.inner and self.inner[-1].kind != "CompoundStmt":
            return next((it for it in self.inner if it.kind == "CompoundStmt"), None)
        return self.inner[-1] if self.kind == "FunctionDecl" and self.inner else None


def end_of(node: Node) -> int:
    """The last token of a statement, its `;` too."""
    if node.kind in ("CompoundStmt", "NullStmt", "DeclStmt"):
        return node.last
    if node.kind in ("IfStmt", "ForStmt", "WhileStmt", "SwitchStmt", "LabelStmt", "CaseStmt", "DefaultStmt"):
        return end_of(node.inner[-1])
    return node.last + 1


@dataclass
class Flat:
    """The tokens as one text for clang, with the place of each of them."""

    text: str
    at: dict[int, int]
    lines: list[int]
    columns: dict[tuple[int, int], int]


def flat(source: Source) -> Flat:
    """Writes the tokens out; a new line of the user's text is a new line here."""
    parts: list[str] = []
    at: dict[int, int] = {}
    lines: list[int] = []
    columns: dict[tuple[int, int], int] = {}
    offset = begun = 0
    before = None
    for number, token in enumerate(source.tokens):
        if before is None or (token.origin.file, token.origin.line) != before:
            if before is not None:
                parts.append("\n")
                offset += 1
            before = (token.origin.file, token.origin.line)
            lines.append(number)
            begun = offset
        at[offset] = number
        columns[(len(lines), offset - begun + 1)] = number
        parts.append(token.text + " ")
        offset += len(token.text) + 1
    return Flat("".join(parts) + "\n", at, lines, columns)


def parsed(source: Source) -> tuple[list[Node], Flat]:
    """The declarations of a file. A text that clang refuses is a failure."""
    text = flat(source)
    ran = run(PARSE, text.text.encode("latin-1"), source.path, MOST_TREE)
    if ran.returncode != 0:
        raise Failure(error_of(ran.stderr.decode("latin-1"), source, text), 3)
    nodes = deep(lambda: roots(ran.stdout.decode("utf-8", "replace"), text))
    return nodes, text


def error_of(text: str, source: Source, made: Flat) -> str:
    found = re.search(r"^<stdin>:(\d+):\d+: (?:fatal )?error: (.*)$", text, re.M)
    if found is None:
        return f"{source.path}: clang gives up"
    line = min(int(found[1]), len(made.lines)) - 1
    origin = source.tokens[made.lines[line]].origin
    advice = "; config.h was not there, and an empty one was taken: give the folder of yours by -I" if source.lacks_config else ""
    return f"{origin.file}:{origin.line}: {found[2]}{advice}"


def deep(work: Callable):
    """Does work that nests deeply, as long expressions and many `else if` do."""
    done: list = []

    def body() -> None:
        try:
            done.append((work(), None))
        except BaseException as fault:  # handed on to the caller below
            done.append((None, fault))

    limit = sys.getrecursionlimit()
    sys.setrecursionlimit(200_000)
    threading.stack_size(512 * 1024 * 1024)
    thread = threading.Thread(target=body)
    thread.start()
    thread.join()
    sys.setrecursionlimit(limit)
    result, fault = done[0]
    if fault is not None:
        raise fault
    return result


def roots(text: str, made: Flat) -> list[Node]:
    """The nodes of the declarations outside of functions."""
    nodes = [node_of(it, made, None) for it in json.loads(text).get("inner", [])]
    return [it for it in nodes if it.first >= 0 and it.kind != "BuiltinType"]


def offset_of(place: dict) -> int:
    return place.get("offset", place.get("expansionLoc", {}).get("offset", -1))


def node_of(data: dict, made: Flat, parent: Node | None) -> Node:
    reach = data.get("range", {})
    kind_of_type = data.get("type", {})
    written = kind_of_type.get("qualType", "")
    node = Node(
        data.get("kind", ""),
        data.get("name", "") if isinstance(data.get("name", ""), str) else "",
        written,
        kind_of_type.get("desugaredQualType", written),
        made.at.get(offset_of(reach.get("begin", {})), -1),
        made.at.get(offset_of(reach.get("end", {})), -1),
        made.at.get(offset_of(data.get("loc", {})), -1),
        data,
        parent,
    )
    filled = data.get("array_filler")
    below = filled[1:] if filled else data.get("inner", [])
    node.inner = [node_of(it, made, node) for it in below if isinstance(it, dict)]
    return node


def read_file(path: pathlib.Path) -> None:
    """Refuses what is no readable file, before anything is run on it."""
    if not path.exists():
        raise Failure(f"{path}: there is no such file", 2)
    if not path.is_file():
        raise Failure(f"{path}: this is no file", 2)
    try:
        path.read_bytes()
    except OSError as fault:
        raise Failure(f"{path}: {fault.strerror}", 2) from None
