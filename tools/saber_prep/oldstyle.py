"""Definitions of the old style, `int f(a) int a; { .. }`, and declarations without a type word."""
from __future__ import annotations

from .edits import Part, Span
from .notes import Weight
from .tree import Node
from .unit import Unit

SPECIFIERS = set(
    "void char short int long signed unsigned float double struct union enum const volatile static extern register auto typedef _Bool inline".split()
)
PROMOTED = {it: "int" for it in ("char", "signed char", "unsigned char", "short", "unsigned short", "_Bool")}
NARROW = tuple(PROMOTED)


def old_style(unit: Unit) -> None:
    """Gives each definition of the old style a prototype, in the place of its list of names."""
    for function in unit.functions():
        opening = parameters_at(unit, function)
        if opening < 0:
            continue
        closing = unit.closing(opening)
        body = function.body().first
        between = [unit.text(it) for it in range(closing + 1, body)]
        if ";" in between or bare_names(function, opening, closing):
            rewrite(unit, function, opening, closing, body)
        elif closing == opening + 1 and function.name != "main":
            unit.edits.put_behind(opening, "void")


def bare_names(function: Node, opening: int, closing: int) -> bool:
    """Whether a list of parameters has names without types."""
    parameters = [it for it in function.inner if it.kind == "ParmVarDecl"]
    return bool(parameters) and all(opening < it.first == it.place == it.last < closing for it in parameters)


def empty_parentheses(unit: Unit) -> None:
    """`int f();` says nothing of parameters; it gets those of another declaration of the function."""
    whole: dict[str, Node] = {}
    for node in unit.nodes:
        if node.kind == "FunctionDecl" and any(it.kind == "ParmVarDecl" for it in node.inner):
            whole[node.name] = node
    for node in unit.declared.values():
        if node.kind != "FunctionDecl" or node.data.get("isImplicit") or node.body() is not None or node.name not in whole:
            continue
        opening = parameters_at(unit, node)
        if opening >= 0 and unit.text(opening + 1) == ")":
            types = [unit.spelled(it.plain) for it in whole[node.name].inner if it.kind == "ParmVarDecl"]
            types = [PROMOTED.get(it, it) if ";" in old_list(unit, whole[node.name]) else it for it in types]
            unit.edits.put_behind(opening, " , ".join(types))
            unit.note(Weight.PLAIN, node.place, "declaration without parameters")


def old_list(unit: Unit, node: Node) -> list[str]:
    """What stands between the list of names and the body of a definition."""
    opening = parameters_at(unit, node)
    if opening < 0 or node.body() is None:
        return []
    return [unit.text(it) for it in range(unit.closing(opening) + 1, node.body().first)]


def parameters_at(unit: Unit, function: Node) -> int:
    """The bracket behind the function's name."""
    place = function.place + 1
    while unit.text(place) == ")":
        place += 1
    return place if unit.text(place) == "(" else -1


def rewrite(unit: Unit, function: Node, opening: int, closing: int, body: int) -> None:
    parameters = [it for it in function.inner if it.kind == "ParmVarDecl"]
    parts: list[Part] = ["("]
    entry: list[str] = []
    for number, parameter in enumerate(parameters):
        if number:
            parts.append(",")
        if opening < parameter.first < closing:
            parts += ["int", parameter.name]
        elif parameter.plain in NARROW:
            parts += ["int", parameter.name]
            spelled = "unsigned char" if parameter.plain == "_Bool" else parameter.plain
            entry.append(f"{parameter.name} = ( {spelled} ) {parameter.name} ;")
        else:
            parts += parameter_parts(unit, parameter, parameters, body)
    parts.append(")")
    unit.edits.replace(opening, body - 1, *parts)
    unit.note(Weight.PLAIN, function.place, "definition of the old style")
    if entry:
        narrow_at_entry(unit, function, entry)


def narrow_at_entry(unit: Unit, function: Node, entry: list[str]) -> None:
    """A parameter of the old style that is narrower than `int` is passed as an `int`, and made narrow at once."""
    last_declaration = function.body().first
    for child in function.body().inner:
        if child.kind != "DeclStmt":
            break
        last_declaration = child.last
    unit.edits.put_behind(last_declaration, *entry)


def parameter_parts(unit: Unit, parameter: Node, parameters: list[Node], body: int) -> list[Part]:
    """The specifiers of a parameter's declaration and its own declarator."""
    together = [it for it in parameters if it.first == parameter.first]
    begin = declarator_of(unit, parameter.first, {it.name for it in together})
    specifiers = Span(parameter.first, begin - 1, moved=True)
    declarators = cut_at_commas(unit, begin, body)
    mine = next((it for it in declarators if it[0] <= parameter.place <= it[1]), (parameter.place, parameter.place))
    return [specifiers, Span(mine[0], mine[1], moved=True)]


def declarator_of(unit: Unit, place: int, names: set[str]) -> int:
    """Where the first declarator of a declaration begins."""
    seen = False
    while True:
        text = unit.text(place)
        if text in ("*", "(") or (text in names and seen):
            return place
        if text in ("struct", "union", "enum"):
            place += 1
        elif text in ("__attribute__", "__attribute"):
            place = unit.closing(place + 1)
        seen = True
        place += 1


def cut_at_commas(unit: Unit, begin: int, end: int) -> list[tuple[int, int]]:
    """The declarators of one declaration, up to its `;`."""
    found = []
    place = first = begin
    while place < end:
        text = unit.text(place)
        if text in ("(", "["):
            place = unit.closing(place)
        elif text in (",", ";"):
            found.append((first, place - 1))
            first = place + 1
            if text == ";":
                break
        place += 1
    return found


def implicit_int(unit: Unit) -> None:
    """Writes the `int` that a declaration without a type word means."""
    for item in unit.items:
        for node in item.nodes:
            if node.kind not in ("FunctionDecl", "VarDecl") or node.place < 0:
                continue
            words = [unit.text(it) for it in range(node.first, node.place)]
            if all(it in ("static", "extern", "const", "register", "*", "inline", "volatile") for it in words):
                unit.edits.put_before(node.first + sum(it != "*" for it in words), "int")
                unit.note(Weight.PLAIN, node.place, "declaration without a type word")
