"""Initialisers with designators, compound literals, and lists that are computed in a function."""
from __future__ import annotations

import re

from .edits import Part, Span
from .notes import Weight
from .tree import Node
from .types import named
from .unit import UNNAMED, Unit

QUALIFIED = re.compile(r"\bconst\b(?=[^*]*$)")
PLAIN_LEAVES = {"IntegerLiteral", "CharacterLiteral", "StringLiteral", "ImplicitValueInitExpr", "UnaryExprOrTypeTraitExpr", "OffsetOfExpr", "FloatingLiteral"}
THROUGH = {"ImplicitCastExpr", "CStyleCastExpr", "ParenExpr", "ConstantExpr", "ArraySubscriptExpr"}


def is_static(node: Node) -> bool:
    """Whether an object lives for the whole run."""
    if node.kind != "VarDecl":
        return False
    return node.data.get("storageClass") in ("static", "extern") or not any(it.kind == "CompoundStmt" for it in node.above())


def is_constant(unit: Unit, node: Node) -> bool:
    """Whether a list may hold this expression, by the rules of 1989."""
    if node.kind in PLAIN_LEAVES:
        return True
    if node.kind == "DeclRefExpr":
        return constant_name(unit, node)
    if node.kind == "MemberExpr":
        return not node.data.get("isArrow") and is_constant(unit, node.inner[0])
    if node.kind == "ImplicitCastExpr" and node.data.get("castKind") == "LValueToRValue":
        return False
    if node.kind == "UnaryOperator" and node.data.get("opcode") in ("+", "-", "~", "!", "&"):
        return is_constant(unit, node.inner[0])
    if node.kind == "BinaryOperator" and not node.data.get("opcode", "=").endswith("=") and node.data.get("opcode") != ",":
        return all(is_constant(unit, it) for it in node.inner)
    if node.kind in THROUGH or node.kind in ("InitListExpr", "ConditionalOperator", "BinaryOperator"):
        return node.data.get("opcode") not in ("=", ",") and all(is_constant(unit, it) for it in node.inner)
    return False


def constant_name(unit: Unit, node: Node) -> bool:
    """A name in a constant: an enumeration constant, a function, or an object whose address is meant."""
    kind = node.data.get("referencedDecl", {}).get("kind")
    if kind in ("EnumConstantDecl", "FunctionDecl"):
        return True
    target = unit.declared.get(node.target)
    return target is not None and is_static(target)


def has_designators(unit: Unit, node: Node) -> bool:
    """Whether a list names its members, or is `{}`."""
    before = ""
    for place in range(node.first, node.last + 1):
        text = unit.text(place)
        if before in ("{", ",") and text in (".", "["):
            return True
        if before in ("{", ",") and unit.tokens[place].is_name() and unit.text(place + 1) == ":":
            return True
        if before == "{" and text == "}":
            return True
        before = text
    return False


def is_left_out(item: Node) -> bool:
    """Whether a list leaves a member out, which is zero then."""
    return item.kind == "ImplicitValueInitExpr" or item.first < 0


def written(unit: Unit, node: Node) -> list[Part]:
    """A list in the order of its members, without designators."""
    parts: list[Part] = ["{"]
    items = list(node.inner)
    while len(items) > 1 and is_left_out(items[-1]) and "[" not in node.type:
        items.pop()
    for number, item in enumerate(items):
        if number:
            parts.append(",")
        if is_left_out(item):
            parts.append("{ 0 }" if unit.is_record(item) or item.plain.endswith("]") else "0")
        elif item.kind == "InitListExpr":
            parts += written(unit, item)
        else:
            parts.append(Span(item.first, item.last))
    if not items:
        parts.append("0")
    return parts + ["}"]


def first_members_only(unit: Unit, node: Node) -> bool:
    """Whether each union in a list is initialised by its first member."""
    for it in node.walk():
        if it.kind == "InitListExpr" and "field" in it.data:
            record = unit.record_of(it.type) or unit.record_of(it.plain)
            members = unit.fields(record) if record is not None else []
            if members and members[0].id != it.data["field"].get("id"):
                return False
    return True


def assignments(unit: Unit, path: str, node: Node, zeros: bool, constant: bool = False) -> list[Part]:
    """The statements that do what a list does to the object `path`; with `zeros` also for what it leaves out.

    A `constant` object is a member that may not be assigned by its name, or a part of one.
    """
    parts: list[Part] = []
    for (below, fixed), item in zip(paths(unit, path, node), node.inner):
        fixed = fixed or constant
        if is_left_out(item):
            parts += zeroed(unit, below, item, fixed) if zeros else []
        elif item.kind == "InitListExpr":
            parts += assignments(unit, below, item, zeros, fixed)
        elif item.kind == "StringLiteral" and item.plain.endswith("]"):
            parts += text_copied(unit, f"( ( char * ) {below} )" if fixed else below, item, below)
        else:
            parts += [assigned(unit, below, item, fixed), "=", Span(item.first, item.last), ";"]
    return parts


def assigned(unit: Unit, path: str, item: Node, constant: bool) -> str:
    """How a place is written in front of `=`: a constant one by its address."""
    if not constant:
        return path
    if UNNAMED.search(item.type):
        unit.note(Weight.PROBLEM, item.first, "a constant member without a name for its type", "give the type a name")
    return f"* ( {named(unit.spelled(QUALIFIED.sub('', item.type)), '*')} ) & {path}"


def text_copied(unit: Unit, to: str, node: Node, path: str = "") -> list[Part]:
    """The statements that copy a string into an array of characters `path`, which is written `to`, with zeros behind it."""
    path = path or to
    unit.need("void * memcpy ( void * , const void * , unsigned int ) ;")
    unit.need("void * memset ( void * , int , unsigned int ) ;")
    span = Span(node.first, node.last)
    text = "".join(it.text[it.text.index('"') + 1 : -1] for it in unit.tokens[node.first : node.last + 1])
    length = len(re.findall(r"\\x[0-9a-fA-F]+|\\[0-7]{1,3}|\\.|.", text)) + 1
    room = re.search(r"\[(\d+)\]", node.plain)
    if room is not None and length > int(room[1]):
        return [f"memcpy ( {to} ,", span, f", sizeof ( {path} ) ) ;"]
    return [f"memset ( {to} , 0 , sizeof ( {path} ) ) ; memcpy ( {to} ,", span, f", {length} ) ;"]


def paths(unit: Unit, path: str, node: Node) -> list[tuple[str, bool]]:
    """How the places of a list are reached from the object, and whether each is a constant member."""
    if node.plain.endswith("]") or node.type.endswith("]"):
        return [(f"{path} [ {number} ]", False) for number in range(len(node.inner))]
    if "field" in node.data:
        member = unit.declared.get(node.data["field"].get("id", ""))
        name = unit.member_name(member) if member is not None else node.data["field"].get("name")
        return [(f"{path} . {name}", member is not None and is_constant_member(member))]
    record = unit.record_of(node.type) or unit.record_of(node.plain)
    if record is None:
        return [(path, False)]
    return [(f"{path} . {unit.member_name(it)}", is_constant_member(it)) for it in unit.fields(record)]


def is_constant_member(member: Node) -> bool:
    """Whether a member may not be assigned: the word stands for it, and not for what it points to."""
    text = member.plain.split("[")[0]
    if "(*" in text:
        return "(*const" in text.replace(" ", "")
    return "const" in (text.rsplit("*", 1)[1] if "*" in text else text).split()


def zeroed(unit: Unit, path: str, item: Node, constant: bool) -> list[Part]:
    """Statements that make an object zero."""
    if unit.record_of(item.type) is None and unit.record_of(item.plain) is None and not item.plain.endswith("]"):
        return [f"{assigned(unit, path, item, constant)} = 0 ;"]
    unit.need("void * memset ( void * , int , unsigned int ) ;")
    return [f"memset ( {'( void * )' if constant else ''} & {path} , 0 , sizeof ( {path} ) ) ;"]


def initialiser(node: Node) -> Node | None:
    """The initialiser of an object."""
    return node.inner[-1] if node.kind == "VarDecl" and "init" in node.data and node.inner else None


def is_computed(unit: Unit, node: Node) -> bool:
    """Whether the list of an object of a function has to become assignments."""
    value = initialiser(node)
    if value is None or value.kind != "InitListExpr" or is_static(node):
        return False
    if not node.plain.endswith("]") and not unit.is_record(node):
        return False
    return not is_constant(unit, value) or not first_members_only(unit, value)


def constant_lists(unit: Unit) -> None:
    """Puts the lists of designators into the order of the members, where nothing is computed."""
    for node in list(unit.declared.values()):
        value = initialiser(node)
        if value is None or is_computed(unit, node):
            continue
        if value.kind == "CompoundLiteralExpr" and is_static(node):
            if not value.type.endswith("]"):
                unit.edits.replace(value.first, value.last, *written(unit, value.inner[0]))
            else:
                unit.edits.replace(value.first, value.inner[0].first - 1)
            continue
        if value.kind == "InitListExpr" and has_designators(unit, value):
            if not first_members_only(unit, value):
                construct = "a union initialised by another member than its first"
                unit.note(Weight.PROBLEM, value.first, construct, "assign it in a function, or put that member first")
            unit.edits.replace(value.first, value.last, *written(unit, value))
            unit.note(Weight.PLAIN, value.first, "designators")


def compound_literals(unit: Unit) -> None:
    """Gives each compound literal an object: of the file outside of functions, of the function inside."""
    for node in unit.inner_first():
        if node.kind != "CompoundLiteralExpr":
            continue
        owner = next((it for it in node.above() if it.kind == "VarDecl"), None)
        if owner is not None and is_static(owner):
            if owner.inner[-1] is not node:
                outer_literal(unit, node)
        else:
            inner_literal(unit, node)


def type_tokens(unit: Unit, node: Node) -> Span:
    return Span(node.first + 1, node.inner[0].first - 2, moved=True)


def outer_literal(unit: Unit, node: Node) -> None:
    if not unit.is_record(node) and not node.type.endswith("]"):
        unit.edits.replace(node.first, node.last, "(", Span(node.inner[0].inner[0].first, node.inner[0].inner[0].last), ")")
        return
    parent = node.parent
    if parent is not None and parent.kind == "InitListExpr":
        unit.edits.replace(node.first, node.last, *written(unit, node.inner[0]))
        return
    name = unit.name("literal")
    item = unit.in_item(node.first)
    before = ["static", declared_as(unit, node, name), "=", *written(unit, node.inner[0]), ";"]
    unit.edits.put_before(item.first, *flattened(before))
    unit.edits.replace(node.first, node.last, name)
    unit.note(Weight.PLAIN, node.first, "compound literal")


def declared_as(unit: Unit, node: Node, name: str) -> list[Part]:
    """The declaration of an object with the type of a literal."""
    span = type_tokens(unit, node)
    for place in range(span.first, span.last + 1):
        if unit.text(place) == "[":
            size = node.type[node.type.index("[") :]
            return [Span(span.first, place - 1, moved=True), name, " ".join(size.replace("[", "[ ").replace("]", " ]").split())]
    return [span, name]


def flattened(parts: list) -> list[Part]:
    out: list[Part] = []
    for part in parts:
        out += part if isinstance(part, list) else [part]
    return out


def inner_literal(unit: Unit, node: Node) -> None:
    function = next((it for it in node.above() if it.kind == "FunctionDecl"), None)
    if function is None:
        unit.note(Weight.PROBLEM, node.first, "compound literal in a declaration", "give it a name")
        return
    if not unit.is_record(node) and not node.type.endswith("]"):
        value = node.inner[0].inner[0]
        cast = Span(node.first, node.inner[0].first - 1)
        unit.edits.replace(node.first, node.last, "(", cast, "(", Span(value.first, value.last), ") )")
        return
    name = unit.name("literal")
    span = type_tokens(unit, node)
    for place in range(span.first, span.last + 1):
        if unit.text(place) == "const":
            unit.edits.delete(place)
    unit.edits.put_behind(function.body().first, *flattened([declared_as(unit, node, name), ";"]))
    steps = assignments(unit, name, node.inner[0], zeros=True)
    parts: list[Part] = ["("]
    parts += [it.replace(";", ",") if isinstance(it, str) else it for it in steps]
    unit.edits.replace(node.first, node.last, "( *", *parts, f"& {name} ) )")
    unit.note(Weight.PLAIN, node.first, "compound literal")
