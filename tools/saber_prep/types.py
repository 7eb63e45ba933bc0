"""Integers of 64 bits, `_Bool`, `typeof`, other names for functions, open arrays and unnamed members."""
from __future__ import annotations

import re

from .edits import Part, Span
from .integers import is_floating_constant
from .notes import Weight
from .oldstyle import SPECIFIERS
from .tree import Node
from .unit import Unit

LONG_CONSTANT = re.compile(r"(0[xX][0-9a-fA-F]+|\d+)([uUlL]*)$")
FUNCTION_TYPE = re.compile(r"[^()]*\((?!\*)")
WIDE_TYPES = ("long long", "unsigned long long")
NARROW_ADVICE = "values above 32 bits are lost"
WIDE_ADVICE = "--narrow reads it as 32 bits; or leave it out"
FLOATING_ADVICE = "--integers reads it as an integer; or leave it out"
MOST = 4294967295


def wide_integers(unit: Unit) -> None:
    """With --narrow reads integers of 64 bits as 32, and says so at each place; else names them."""
    names = {it.name for it in unit.nodes if it.kind == "TypedefDecl" and it.plain in WIDE_TYPES}
    for place, token in enumerate(unit.tokens):
        if token.text == "long" and unit.text(place + 1) == "long":
            if unit.options.narrow:
                unit.edits.delete(place + 1)
            wide(unit, place, "long long")
        elif token.text in names and unit.text(place - 1) not in (".", "->"):
            wide(unit, place, token.text)
        elif token.text[0].isdigit():
            constant(unit, place, token.text)


def wide(unit: Unit, place: int, name: str) -> None:
    if unit.options.narrow:
        unit.note(Weight.NARROW, place, f"{name} is read with 32 bits", NARROW_ADVICE, "integers of 64 bits")
    else:
        unit.note(Weight.PROBLEM, place, f"{name}, an integer of 64 bits", WIDE_ADVICE, "integers of 64 bits")


def constant(unit: Unit, place: int, text: str) -> None:
    """A constant with `LL`, or one that needs 64 bits."""
    found = LONG_CONSTANT.match(text)
    if found is None:
        return
    digits, suffix = found[1], found[2].lower()
    octal = len(digits) > 1 and digits[0] == "0" and digits[1] not in "xX"
    try:
        value = int(digits, 8 if octal else 0)
    except ValueError:
        return
    if "ll" not in suffix and value <= MOST:
        return
    if not unit.options.narrow:
        unit.note(Weight.PROBLEM, place, f"{text}, a constant of 64 bits", WIDE_ADVICE, "constants of 64 bits")
        return
    kept = value & MOST
    tail = ("u" if "u" in suffix else "") + "l"
    unit.edits.replace(place, place, (hex(kept) if digits[:2].lower() == "0x" else str(kept)) + tail)
    lost = f"it becomes {kept}" if kept != value else NARROW_ADVICE
    unit.note(Weight.NARROW, place, f"{text} is read with 32 bits", lost, "constants of 64 bits" if kept == value else "")


def wide_shifts(unit: Unit) -> None:
    """With --narrow a shift by 32 or more gives what it gives for 64 bits of which the upper half is 0 (or the sign)."""
    if not unit.options.narrow:
        return
    for node in unit.inner_first():
        operator = node.data.get("opcode", "")
        if node.kind in ("BinaryOperator", "CompoundAssignOperator") and operator[:2] in ("<<", ">>") and node.inner[0].plain in WIDE_TYPES:
            shift(unit, node, operator)


def shift(unit: Unit, node: Node, operator: str) -> None:
    left, right = node.inner
    value, count = Span(left.first, left.last), Span(right.first, right.last)
    keeps_sign = operator[0] == ">" and left.plain == "long long"
    assigns = operator.endswith("=")
    sign = operator if keeps_sign else ("&=" if assigns else "&")
    far: list[Part] = ["(", *(["(", value, ")"] if not assigns else [value]), sign, "31" if keeps_sign else "0", ")"]
    known = next((int(it.data["value"]) for it in [strip(right)] if it.kind == "IntegerLiteral"), None)
    if known is not None and known < 32:
        return
    if known is not None:
        unit.edits.replace(node.first, node.last, *far)
    elif is_pure(right) and (not assigns or is_pure(left)):
        near: list[Part] = ["(", value, ")", operator, "(", count, ")"] if not assigns else [value, operator, "(", count, ")"]
        unit.edits.replace(node.first, node.last, "( (", count, ") > 31 ?", *far, ": (", *near, ") )")
    unit.note(Weight.NARROW, node.first, f"a shift {operator} of 64 bits", "the upper 32 bits are read as 0, or as the sign", "shifts of 64 bits")


def strip(node: Node) -> Node:
    while node.kind in ("ParenExpr", "ImplicitCastExpr", "ConstantExpr") and node.inner:
        node = node.inner[0]
    return node


def is_pure(node: Node) -> bool:
    """Whether an expression may be computed twice."""
    return not any(it.kind in ("CallExpr", "CompoundAssignOperator") or it.data.get("opcode") in ("++", "--", "=") for it in node.walk())


def floating(unit: Unit) -> None:
    """Names floating types and constants, which nothing here can stand for."""
    for place, token in enumerate(unit.tokens):
        if token.text in ("float", "double"):
            unit.note(Weight.PROBLEM, place, token.text, FLOATING_ADVICE, "floating types")
        elif is_floating_constant(token.text):
            unit.note(Weight.PROBLEM, place, f"floating constant {token.text}", FLOATING_ADVICE, "floating constants")


def booleans(unit: Unit) -> None:
    """`_Bool` is an `unsigned char` that gets 0 or 1 by each conversion."""
    for place, token in enumerate(unit.tokens):
        if token.text == "_Bool":
            unit.edits.replace(place, place, "unsigned char")
            unit.note(Weight.PLAIN, place, "_Bool")
    for node in unit.inner_first():
        if node.kind in ("ImplicitCastExpr", "CStyleCastExpr") and node.data.get("castKind") in ("IntegralToBoolean", "PointerToBoolean"):
            inner = node.inner[-1]
            if not is_truth(inner):
                unit.edits.wrap(inner.first, inner.last, "( (", ") != 0 )")


def is_truth(node: Node) -> bool:
    """Whether an expression is 0 or 1 by itself."""
    while node.kind in ("ParenExpr", "ImplicitCastExpr") and node.inner:
        node = node.inner[0]
    if node.kind == "IntegerLiteral":
        return node.data.get("value") in ("0", "1")
    if node.kind == "UnaryOperator":
        return node.data.get("opcode") == "!"
    if node.plain == "_Bool":
        return True
    return node.kind == "BinaryOperator" and node.data.get("opcode") in ("==", "!=", "<", ">", "<=", ">=", "&&", "||")


def type_of(unit: Unit) -> None:
    """Writes the type that `typeof` means, where it stands before a name, `*` and a name, or a type, or alone in a cast or before an object."""
    casts = {it.first: it for it in unit.declared.values() if it.kind == "CStyleCastExpr"}
    objects = {it.place: it for it in unit.declared.values() if it.kind == "VarDecl"}
    for place, token in enumerate(unit.tokens):
        if token.text not in ("typeof", "__typeof", "__typeof__") or unit.text(place + 1) != "(":
            continue
        end = unit.closing(place + 1)
        used = casts.get(place - 1) if unit.text(end + 1) == ")" else objects.get(end + 1) if unit.text(place - 1) not in ("const", "volatile") else None
        meant = meant_type(unit, place + 2, end - 1) or used and plain_type(used)
        declared = next((it for it in unit.nodes if it.kind == "FunctionDecl" and it.first <= place < it.place), None)
        if meant is None:
            unit.note(Weight.PROBLEM, place, "typeof", "write the type")
        elif declared is not None and any(unit.is_record(it) for it in declared.inner):
            unit.note(Weight.PROBLEM, place, "typeof of a function with structures", "write its declaration")
        elif declared is not None and FUNCTION_TYPE.match(meant):
            unit.edits.replace(place, declared.place, function_named(unit.spelled(meant), declared.name))
            unit.note(Weight.PLAIN, place, "typeof")
        else:
            unit.edits.replace(place, end, unit.spelled(meant))
            unit.note(Weight.PLAIN, place, "typeof")


def plain_type(node: Node) -> str | None:
    """The type of a cast or an object, if it can be written in front."""
    return None if "[" in node.plain or "(" in node.plain else node.plain


def meant_type(unit: Unit, first: int, last: int) -> str | None:
    """The type of a name, of `*` and a name, or the type that stands there."""
    texts = [unit.text(it) for it in range(first, last + 1)]
    while len(texts) > 2 and texts[0] == "(" and texts[-1] == ")":
        texts, first = texts[1:-1], first + 1
    if texts[0] in SPECIFIERS or any(it.kind == "TypedefDecl" and it.name == texts[0] for it in unit.nodes):
        return " ".join(texts)
    stars = len(texts) - 1
    if texts[:-1] != ["*"] * stars:
        return None
    seen = [it for it in unit.declared.values() if it.kind in ("VarDecl", "ParmVarDecl", "FunctionDecl") and it.name == texts[-1] and it.place < first]
    if not seen:
        return None
    text = max(seen, key=lambda it: it.place).plain
    for _ in range(stars):
        text = text.rstrip()
        if not text.endswith("*"):
            return None
        text = text[:-1]
    return text


def function_named(text: str, name: str) -> str:
    """The declaration of a function from its type, `int (char *)`."""
    place = text.index("(")
    return f"{text[:place]} {name} {text[place:]}"


def named(text: str, name: str) -> str:
    """The declaration of an object from its type."""
    if "( *" in text:
        return text.replace("( *", f"( * {name} ", 1)
    if "[" in text:
        place = text.index("[")
        return f"{text[:place]} {name} {text[place:]}"
    return f"{text} {name}"


def aliases(unit: Unit) -> None:
    """A function that is another name of one gets a body that calls it."""
    for node in unit.nodes:
        if node.kind != "FunctionDecl" or not any(it.kind == "AliasAttr" for it in node.inner):
            continue
        item = unit.in_item(node.first)
        found = re.search(r'(?:__alias__|alias) \( "(\w+)" \)', unit.texts(item.first, item.last))
        wanted = found[1] if found else ""
        target = next((it for it in unit.nodes if it.kind == "FunctionDecl" and it.name == wanted), None)
        if target is None or not FUNCTION_TYPE.match(target.plain):
            unit.note(Weight.PROBLEM, node.place, "another name for a function", "write a function that calls it")
            continue
        unit.tail.append(forwarding(unit, node.name, target))
        unit.note(Weight.PLAIN, node.place, "another name for a function")


def forwarding(unit: Unit, name: str, target: Node) -> list[Part]:
    """A function that calls another; structures go over pointers, as in all functions."""
    result = unit.spelled(target.plain[: target.plain.index("(")])
    listed, given = [], []
    if unit.record_of(result) is not None:
        listed, given, result = [f"{result} * a"], ["a"], "void"
    for number, parameter in enumerate(it for it in target.inner if it.kind == "ParmVarDecl"):
        spelled = unit.spelled(parameter.plain)
        passed = f"const {spelled.removeprefix('const ')} *" if unit.is_record(parameter) else spelled
        listed.append(named(passed, f"a{number}"))
        given.append(f"a{number}")
    call = f"{target.name} ( {' , '.join(given)} ) ;"
    return [f"{result} {name} ( {' , '.join(listed) or 'void'} ) {{ {'' if result == 'void' else 'return '}{call} }}"]


def open_arrays(unit: Unit) -> None:
    """`char data[]` or `[0]` at the end of a structure becomes an array of one element."""
    for node in unit.declared.values():
        if node.kind == "FieldDecl" and node.type.endswith(("[]", "[0]")):
            place = node.place + 1
            if unit.text(place) == "[" and unit.text(place + 1) in ("]", "0"):
                unit.edits.replace(place, unit.closing(place), "[ 1 ]")
                unit.note(Weight.TOLD, node.place, f"the open array {node.name}", "it has one element, so sizeof of the structure may be larger", "open array")
