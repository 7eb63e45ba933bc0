"""A file at work: its tokens, tree, edits and notes, and the questions that the passes ask."""
from __future__ import annotations

import re
from dataclasses import dataclass, field, replace
from functools import cached_property

from .edits import Edits, Part
from .notes import Note, Notes, Weight
from .source import INCLUDE, Options, Origin, Source, Token
from .tree import Flat, Node

QUALIFIERS = re.compile(r"\b(?:const|volatile|restrict|__restrict|_Atomic)\b")
UNNAMED = re.compile(r"\((?:unnamed|anonymous)(?: \w+)? at <stdin>:(\d+):(\d+)\)")


@dataclass(eq=False)
class Item:
    """A declaration or definition outside of functions, from its first token to the one before the next."""

    first: int
    last: int
    nodes: list[Node]
    header: bool
    kept: bool = False
    optional: bool = False  # it holds what is not taken, and stays only if it is used

    @property
    def function(self) -> Node | None:
        """The function that is defined here."""
        return next((it for it in self.nodes if it.kind == "FunctionDecl" and it.body() is not None), None)

    def is_static(self) -> bool:
        return any(it.data.get("storageClass") == "static" or it.data.get("inline") for it in self.nodes)

    def defines(self) -> bool:
        """Whether a function or object gets its body or its bytes here."""
        objects = any(it.kind == "VarDecl" and it.data.get("storageClass") != "extern" for it in self.nodes)
        return objects or self.function is not None


@dataclass
class Unit:
    source: Source
    options: Options
    nodes: list[Node]
    flat: Flat
    notes: Notes
    edits: Edits = field(init=False)
    items: list[Item] = field(default_factory=list)
    declared: dict[str, Node] = field(default_factory=dict)
    records: dict[str, Node] = field(default_factory=dict)
    prelude: list[str] = field(default_factory=list)  # declarations in front of everything
    tail: list[list[Part]] = field(default_factory=list)  # functions behind everything
    told: list[tuple[int, Note]] = field(default_factory=list)
    flattened: set[int] = field(default_factory=set)  # blocks and loops that are no more
    fresh: int = 0

    def __post_init__(self) -> None:
        self.edits = Edits(self.tokens)
        self.items = items_of(self)
        for root in self.nodes:
            for node in root.walk():
                self.declared.setdefault(node.id, node)
        self._learn_records()

    @property
    def tokens(self) -> list[Token]:
        return self.source.tokens

    def text(self, place: int) -> str:
        return self.tokens[place].text if 0 <= place < len(self.tokens) else ""

    def texts(self, first: int, last: int) -> str:
        return " ".join(it.text for it in self.tokens[first : last + 1])

    def origin(self, place: int) -> Origin:
        return self.tokens[max(0, min(place, len(self.tokens) - 1))].origin

    def note(self, weight: Weight, place: int, construct: str, advice: str = "", kind: str = "") -> None:
        """Tells of a place; what becomes of it is known when it is known which declarations stay."""
        origin = self.origin(place)
        self.told.append((place, Note(weight, origin.file, origin.line, construct, advice, kind)))

    def settle_notes(self) -> None:
        """Keeps the notes of what is written out, but for those inside of the tool's own headers."""
        kept = [it for it in self.items if it.kept]
        for place, note in self.told:
            if note.file.startswith(str(INCLUDE)):
                continue
            left_out = note.weight is Weight.LEFT_OUT
            own = left_out and not self.origin(place).header
            if place == 0 or own or any(it.first <= place <= it.last for it in kept):
                self.notes.add(replace(note, owner=self.owner_of(place)) if left_out else note)

    def spelled(self, type_text: str) -> str:
        """A type as the output has it, with blanks between its tokens."""
        words = re.findall(r"\w+|\S", type_text)
        text = " ".join(it for it in words if it not in ("volatile", "restrict", "__restrict"))
        text = text.replace("_Bool", "unsigned char").replace(", . . .", "")
        return text.replace("long long", "long") if self.options.narrow else text

    def in_item(self, place: int) -> Item | None:
        return next((it for it in self.items if it.first <= place <= it.last), None)

    def closing(self, place: int) -> int:
        """The bracket that closes the one at `place`."""
        depth = 0
        for number in range(place, len(self.tokens)):
            text = self.tokens[number].text
            depth += text in ("(", "[", "{")
            depth -= text in (")", "]", "}")
            if depth == 0:
                return number
        return len(self.tokens) - 1

    def name(self, stem: str) -> str:
        """A name that the file does not have."""
        self.fresh += 1
        return f"saber_{stem}_{self.fresh}"

    def need(self, declaration: str) -> None:
        """Puts a declaration in front of the file, once."""
        if declaration not in self.prelude:
            self.prelude.append(declaration)

    def inner_first(self) -> list[Node]:
        """All nodes, those below before those above: of edits over the same tokens the later one is the outer one."""
        return [it for root in self.nodes for it in reversed(list(root.walk()))]

    @cached_property
    def _function_types(self) -> dict[str, str]:
        """The types of functions that have a name, by it."""
        return {it.name: it.plain for it in self.declared.values() if it.kind == "TypedefDecl" and re.match(r"[^(]*\((?!\*)", it.plain)}

    def written_out(self, type_text: str) -> str:
        """A type; one of pointers to functions of a named type as if it were written without the name."""
        text = QUALIFIERS.sub(" ", type_text).strip()
        named = self._function_types.get(text[:-1].strip()) if text.endswith("*") else None
        return named.replace("(", "(*)(", 1) if named else type_text

    @cached_property
    def statics(self) -> set[str]:
        """The names of file scope that are the file's own."""
        return {it.name for it in self.nodes if it.data.get("storageClass") == "static" or it.kind == "FunctionDecl" and it.data.get("inline")}

    def key_of(self, name: str) -> str:
        """A name of file scope: the same in all files for what is external, and the file's own for what is static."""
        return f"{self.source.path}:{name}" if name in self.statics else name

    def owner_of(self, place: int) -> str:
        """The key of the function or object in whose definition a token stands."""
        item = self.in_item(place)
        nodes = item.nodes if item is not None else []
        node = next((it for it in nodes if it.kind in ("FunctionDecl", "VarDecl") and it.first <= place <= it.last), None)
        return self.key_of(node.name) if node is not None else ""

    def functions(self) -> list[Node]:
        return [it for it in self.nodes if it.kind == "FunctionDecl" and it.body() is not None]

    def _learn_records(self) -> None:
        names: dict[str, str] = {}
        for node in self.declared.values():
            if node.kind == "RecordDecl" and node.data.get("completeDefinition"):
                if node.name:
                    self.records.setdefault(f"{node.data.get('tagUsed')} {node.name}", node)
            if node.kind == "TypedefDecl":
                names[node.name] = node.plain
        for node in self.declared.values():
            if node.kind == "TypedefDecl":
                record = self._owned(node)
                if record is not None:
                    self.records.setdefault(node.name, record)

    def _owned(self, node: Node) -> Node | None:
        """The structure that a typedef is a name of, not a pointer to it."""
        for below in node.inner:
            if below.kind in ("PointerType", "FunctionProtoType", "ConstantArrayType", "ParenType"):
                return None
        for below in node.inner:
            for it in below.walk():
                for key in ("ownedTagDecl", "decl"):
                    found = self.declared.get(it.data.get(key, {}).get("id", ""))
                    if found is not None and found.kind == "RecordDecl":
                        return self._complete(found)
        return None

    def _complete(self, record: Node) -> Node:
        if record.data.get("completeDefinition") or not record.name:
            return record
        return self.records.get(f"{record.data.get('tagUsed')} {record.name}", record)

    def record_of(self, type_text: str) -> Node | None:
        """The structure or union that a type is."""
        text = " ".join(QUALIFIERS.sub(" ", type_text).split())
        if text.endswith(("*", "]", ")")) and not UNNAMED.search(text):
            return None
        found = UNNAMED.search(text)
        if found is not None:
            if text.endswith(("*", "]")):
                return None
            place = self.flat.columns.get((int(found[1]), int(found[2])), -1)
            return next((it for it in self.declared.values() if it.kind == "RecordDecl" and it.place == place), None)
        return self.records.get(text)

    def is_record(self, node: Node) -> bool:
        return self.record_of(node.type) is not None or self.record_of(node.plain) is not None

    def alignment(self, type_text: str, plain: str) -> int:
        """The bytes to which a type is aligned: its size, and of a structure the largest of its members."""
        text = QUALIFIERS.sub(" ", plain).split("[")[0].strip()
        if text.endswith(("*", ")")) and not UNNAMED.search(text):
            return 4
        record = self.record_of(type_text.split("[")[0]) or self.record_of(text)
        if record is not None:
            return max((self.alignment(it.type, it.plain) for it in self.fields(record)), default=1)
        return 1 if "char" in text or text == "_Bool" else 2 if "short" in text else 4

    def member_name(self, member: Node) -> str:
        """The name of a member; one without a name gets one by its place among those."""
        if member.name:
            return member.name
        others = [it for it in member.parent.inner if it.kind == "FieldDecl" and not it.name and it.data.get("isImplicit")]
        return f"saber_part_{others.index(member) + 1}"

    def fields(self, record: Node) -> list[Node]:
        return [it for it in record.inner if it.kind == "FieldDecl" and (it.name or not it.data.get("isBitfield"))]


def items_of(unit: Unit) -> list[Item]:
    """Cuts the file into its outer declarations."""
    groups: list[Item] = []
    for node in sorted(unit.nodes, key=lambda it: (it.first, -it.last)):
        if groups and node.first <= groups[-1].last:
            groups[-1].nodes.append(node)
            groups[-1].last = max(groups[-1].last, node.last)
        else:
            groups.append(Item(node.first, node.last, [node], False))
    for number, item in enumerate(groups):
        following = groups[number + 1].first if number + 1 < len(groups) else len(unit.tokens)
        item.last = following - 1
        item.header = unit.origin(item.first).header
    return groups
