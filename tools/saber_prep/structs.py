"""Structures as parameters and results: a pointer to one is passed instead, and the callee copies."""
from __future__ import annotations

from collections.abc import Iterator

from .calls import callee
from .edits import Part, Span
from .initialisers import is_constant_member
from .notes import Weight
from .oldstyle import parameters_at
from .tree import Node
from .unit import UNNAMED, Unit

STORAGE = {"static", "extern", "inline", "__inline", "__inline__", "__extension__", "_Noreturn"}
QUALIFIERS = {"const", "volatile", "register"}
RESULT = "saber_result"


def structures(unit: Unit) -> None:
    """Rewrites declarations, definitions, returns and calls; all modules get the same form."""
    for node in unit.nodes:
        if node.kind == "FunctionDecl" and node.place >= 0:
            declaration(unit, node)
    for node in unit.declared.values():
        if node.kind in ("FieldDecl", "VarDecl", "ParmVarDecl", "TypedefDecl") and node.place >= 0 and node.name:
            pointed(unit, node)
    for node in unit.inner_first():
        if node.kind == "CallExpr":
            call(unit, node)


def gives_structure(unit: Unit, node: Node) -> bool:
    result = node.type[: node.type.index("(")].strip() if "(" in node.type else ""
    return bool(result) and unit.record_of(result) is not None


def taken(unit: Unit, node: Node) -> list[Node]:
    return [it for it in node.inner if it.kind == "ParmVarDecl" and unit.is_record(it)]


def declaration(unit: Unit, node: Node) -> None:
    opening = parameters_at(unit, node)
    body = node.body()
    if gives_structure(unit, node):
        if opening < 0:
            unit.note(Weight.PROBLEM, node.place, f"{node.name} gives a structure", "give it a pointer to one to fill")
            return
        result(unit, node, opening)
        if body is not None:
            returns(unit, body, has_constant_member(unit, unit.record_of(node.type[: node.type.index("(")].strip())))
        unit.note(Weight.PLAIN, node.place, "structure as a result")
    for parameter in taken(unit, node):
        pointer(unit, parameter, body)
        unit.note(Weight.PLAIN, node.place, "structure as a parameter")


def pointed(unit: Unit, node: Node) -> None:
    """The parameters in a declaration of a pointer to functions, or of a type of functions."""
    opening = node.place + 1
    while unit.text(opening) in (")", "["):
        opening = unit.closing(opening) + 1 if unit.text(opening) == "[" else opening + 1
    if unit.text(opening) != "(" or "(" not in node.type:
        return
    if gives_structure(unit, node):
        unit.note(Weight.PROBLEM, node.place, "structure as a result through a pointer to functions", "give it a pointer to one to fill")
    unnamed(unit, opening)


def unnamed(unit: Unit, opening: int) -> None:
    """`( struct s x , int )` becomes `( const struct s * , int )`; a parameter that is such a pointer itself has a list of its own."""
    for first, last in listed(unit, opening):
        at = first
        while unit.text(at) in QUALIFIERS:
            at += 1
        end = at + (unit.text(at) in ("struct", "union"))
        inner = next((it for it in range(end + 1, last + 1) if unit.text(it) == "("), -1)
        if inner >= 0 and unit.text(unit.closing(inner) + 1) == "(":
            unnamed(unit, unit.closing(inner) + 1)
        elif all(unit.text(it).isidentifier() for it in range(end, last + 1)) and unit.record_of(unit.texts(at, end)) is not None:
            unit.edits.replace(first, last, "const", Span(at, end), "*")
            unit.note(Weight.PLAIN, first, "structure as a parameter")


def listed(unit: Unit, opening: int) -> Iterator[tuple[int, int]]:
    """The first and the last token of each parameter behind a bracket."""
    first = place = opening + 1
    closing = unit.closing(opening)
    while place < closing:
        if unit.text(place) in ("(", "["):
            place = unit.closing(place)
        elif unit.text(place) == ",":
            yield first, place - 1
            first = place + 1
        place += 1
    if first < closing:
        yield first, closing - 1


def result(unit: Unit, node: Node, opening: int) -> None:
    """`struct s f(int)` becomes `void f(struct s *, int)`."""
    first = node.first
    while unit.text(first) in STORAGE:
        first += 1
    spelled = unit.texts(first, node.place - 1)
    unit.edits.replace(first, node.place - 1, "void")
    closing = unit.closing(opening)
    front = f"{spelled} * {RESULT}"
    if closing == opening + 1 or unit.texts(opening + 1, closing - 1) == "void":
        unit.edits.replace(opening, closing, f"( {front} )")
    else:
        unit.edits.put_behind(opening, front, ",")


def returns(unit: Unit, body: Node, constant: bool) -> None:
    """Fills what the caller's pointer points to; bytes are copied where a `constant` member forbids an assignment."""
    for node in body.walk():
        if node.kind == "ReturnStmt" and node.inner:
            value = node.inner[0]
            span = Span(value.first, value.last)
            step: list[Part] = [f"* {RESULT} =", span, ";"]
            if constant:
                unit.need("void * memcpy ( void * , const void * , unsigned int ) ;")
                step = [f"memcpy ( {RESULT} , & (", span, f") , sizeof ( * {RESULT} ) ) ;"]
                if not has_address(value):
                    unit.note(Weight.PROBLEM, node.first, "a computed structure with a constant member as a result", "keep it in an object first")
            unit.edits.replace(node.first, node.last, "{", *step, "return ; }")
            unit.edits.delete(node.last + 1)


def has_constant_member(unit: Unit, record: Node | None) -> bool:
    """Whether a structure, or a structure inside of it, has a member that may not be assigned."""
    if record is None:
        return False
    return any(is_constant_member(it) or has_constant_member(unit, unit.record_of(it.type.split("[")[0]) or unit.record_of(it.plain.split("[")[0]))
               for it in unit.fields(record))


def has_address(value: Node) -> bool:
    """Whether an expression stands for an object."""
    while value.kind in ("ImplicitCastExpr", "ParenExpr") and value.inner:
        value = value.inner[0]
    return value.data.get("valueCategory") == "lvalue"


def pointer(unit: Unit, parameter: Node, body: Node | None) -> None:
    """`struct s x` becomes `const struct s *`, and the body begins with a copy."""
    words = [unit.text(it) for it in range(parameter.first, parameter.last + 1)]
    front = "" if "const" in words else "const"
    if not parameter.name:
        unit.edits.replace(parameter.first, parameter.last, front, Span(parameter.first, parameter.last), "*")
        return
    given = f"saber_given_{parameter.name}"
    specifiers = Span(parameter.first, parameter.place - 1)
    unit.edits.replace(parameter.first, parameter.place, front, specifiers, "*", given)
    if body is not None:
        moved = Span(parameter.first, parameter.place - 1, moved=True)
        unit.edits.put_behind(body.first, moved, f"{parameter.name} = * {given} ;")


def call(unit: Unit, node: Node) -> None:
    named = callee(node)
    target = unit.declared.get(named.target) if named is not None else None
    passed = [it for it in node.inner[1:] if unit.is_record(it)]
    gives = unit.is_record(node)
    if not passed and not gives:
        return
    function = next((it for it in node.above() if it.kind == "FunctionDecl"), None)
    if gives and (target is None or target.kind != "FunctionDecl" or UNNAMED.search(node.type)):
        unit.note(Weight.PROBLEM, node.first, "structure as a result through a pointer to functions", "give it a pointer to one to fill")
        return
    if function is None:
        return
    for argument in passed:
        address(unit, function, argument)
    if gives:
        name = unit.name("result")
        unit.edits.put_behind(function.body().first, f"{unit.spelled(node.type)} {name} ;")
        opening = node.inner[0].last + 1
        comma = "," if len(node.inner) > 1 else ""
        inside: list[Part] = [Span(opening + 1, node.last)]
        unit.edits.replace(node.first, node.last, "( * (", Span(node.first, opening), f"& {name} {comma}", *inside, f", & {name} ) )")


def address(unit: Unit, function: Node, argument: Node) -> None:
    """The address of an argument, of a copy where it has none."""
    span = Span(argument.first, argument.last)
    if has_address(argument):
        unit.edits.replace(argument.first, argument.last, "& (", span, ")")
        return
    name = unit.name("copy")
    unit.edits.put_behind(function.body().first, f"{unit.spelled(argument.type.replace('const ', ''))} {name} ;")
    unit.edits.replace(argument.first, argument.last, f"( {name} =", span, f", & {name} )")
