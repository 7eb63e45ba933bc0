"""Conversions of pointers that compilers take with a warning, and arithmetic on `void *`."""
from __future__ import annotations

import re

from .edits import Span
from .initialisers import is_static
from .notes import Weight
from .tree import Node
from .unit import QUALIFIERS, UNNAMED, Unit

VOID = re.compile(r"^(?:const |volatile )*void \*")


def pointee(text: str) -> str | None:
    """What a pointer points to; none for pointers to functions and what is no pointer."""
    text = text.strip()
    while text.endswith(("const", "restrict", "volatile")):
        text = text[: text.rindex(" ")].rstrip() if " " in text else text.rsplit("*", 1)[0] + "*"
    return text[:-1].strip() if text.endswith("*") and "(*" not in text else None


def casts(unit: Unit) -> None:
    for node in unit.inner_first():
        kind = node.data.get("castKind")
        if node.kind == "ImplicitCastExpr" and kind in ("BitCast", "NoOp"):
            implicit(unit, node)
        elif kind in ("IntegralToPointer", "PointerToIntegral"):
            between_numbers(unit, node, kind)
        elif node.kind == "CStyleCastExpr" and kind == "BitCast":
            functions(unit, node)


def implicit(unit: Unit, node: Node) -> None:
    """Writes a cast where a pointer becomes one to another type, or loses `const`."""
    source, wanted = unit.written_out(node.inner[0].plain), unit.written_out(node.plain)
    if is_null(node.inner[0]):
        return
    if is_function(source) != is_function(wanted):
        functions(unit, node)
        return
    if is_function(source) or is_function(wanted):
        if source != wanted:
            cast_to(unit, node)
        return
    left, right = pointee(wanted), pointee(source)
    if left is None or right is None:
        return
    loses = "const" in outer_qualifiers(right) and "const" not in outer_qualifiers(left)
    bare_left, bare_right = bare(left), bare(right)
    differs = bare_left != bare_right and "void" not in (bare_left, bare_right)
    if loses or differs and node.data.get("castKind") == "BitCast":
        cast_to(unit, node)


def is_null(node: Node) -> bool:
    """Whether an expression is the constant 0, or that as a `void *`."""
    while node.kind in ("ParenExpr", "CStyleCastExpr", "ImplicitCastExpr") and node.inner:
        node = node.inner[0]
    return node.kind == "IntegerLiteral" and node.data.get("value") == "0"


def cast_to(unit: Unit, node: Node) -> None:
    if UNNAMED.search(node.type):
        unit.note(Weight.PROBLEM, node.first, "conversion to a type without a name", "give the type a name")
        return
    if any(it.kind == "CompoundStmt" for it in node.above()) or node.parent is not None:
        unit.edits.wrap(node.first, node.last, f"( ( {unit.spelled(node.type)} ) (", ") )")
        unit.note(Weight.TOLD, node.first, f"conversion from {node.inner[0].type} to {node.type}", "a cast is written", "conversion of pointers")


def outer_qualifiers(text: str) -> str:
    """The qualifiers of the type itself: those in front, or behind the last `*`."""
    return text.rsplit("*", 1)[1] if "*" in text else " ".join(QUALIFIERS.findall(text))


def bare(text: str) -> str:
    return " ".join(QUALIFIERS.sub(" ", text).split())


def is_function(text: str) -> bool:
    return "(*" in text and ")(" in text.replace(" ", "")


def between_numbers(unit: Unit, node: Node, kind: str) -> None:
    """A cast between pointers and numbers is in no core text, but for the constant 0."""
    inner = node.inner[-1]
    while inner.kind in ("ParenExpr", "ImplicitCastExpr") and inner.inner:
        inner = inner.inner[0]
    if kind == "IntegralToPointer" and inner.kind == "IntegerLiteral" and inner.data.get("value") == "0":
        return
    if kind == "IntegralToPointer" and small_number(unit, node, inner):
        return
    if is_function(unit.written_out(node.plain)) or is_function(unit.written_out(node.inner[-1].plain)) or not in_function(node):
        what = "number to pointer" if kind == "IntegralToPointer" else "pointer to number"
        unit.note(Weight.PROBLEM, node.first, f"conversion from {what}", "keep the pointer")
        return
    value = node.inner[-1]
    if kind == "IntegralToPointer":
        unit.need("void * saber_place ( unsigned long ) ;")
        unit.edits.replace(node.first, node.last, f"( ( {unit.spelled(node.type)} ) saber_place (", Span(value.first, value.last), ") )")
        unit.note(Weight.LEFT_OUT, node.first, "a pointer made of a number", "null, 1 to 255 and -1 have places in saberlib; a run that makes another one ends there")
    else:
        unit.need("unsigned long saber_place_number ( const void * ) ;")
        unit.edits.replace(node.first, node.last, f"( ( {unit.spelled(node.type)} ) saber_place_number (", Span(value.first, value.last), ") )")
        unit.note(Weight.LEFT_OUT, node.first, "the address of an object as a number", "a run that asks for one ends in saberlib; a test of alignment has often a macro that switches it off")


def in_function(node: Node) -> bool:
    """Whether an expression is computed in a run, and is no constant of a static object."""
    owner = next((it for it in node.above() if it.kind in ("VarDecl", "CompoundStmt")), None)
    return owner is not None and (owner.kind == "CompoundStmt" or not is_static(owner))


def small_number(unit: Unit, node: Node, inner: Node) -> bool:
    """A number from -1 to 255 that is kept in a pointer gets a place of its own in saberlib."""
    sign = ""
    if inner.kind == "UnaryOperator" and inner.data.get("opcode") == "-":
        sign, inner = "-", inner.inner[0]
    if inner.kind != "IntegerLiteral" or pointee(unit.written_out(node.plain)) is None:
        return False
    value = int(sign + inner.data.get("value", "999"))
    if not -1 <= value <= 255:
        return False
    unit.need("extern char saber_places [ 257 ] ;")
    unit.edits.replace(node.first, node.last, f"( ( {unit.spelled(node.type)} ) ( saber_places + {value % 257} ) )")
    unit.note(Weight.TOLD, node.first, f"the number {value} as a pointer", "it is a place in saberlib, other than all objects and null", "number as a pointer")
    return True


def functions(unit: Unit, node: Node) -> None:
    """A cast between a function's address and an object's."""
    source, wanted = unit.written_out(node.inner[-1].plain), unit.written_out(node.plain)
    if is_function(source) != is_function(wanted) and not is_null(node.inner[-1]):
        unit.note(Weight.PROBLEM, node.first, "conversion between a function's address and an object's", "keep it in a pointer to functions")


def is_void_pointer(node: Node) -> bool:
    return VOID.match(node.plain) is not None and pointee(node.plain) is not None and bare(pointee(node.plain)) == "void"


def void_arithmetic(unit: Unit) -> None:
    """Arithmetic on `void *` counts bytes for many compilers; here a cast says so."""
    for node in unit.inner_first():
        if node.kind == "BinaryOperator" and node.data.get("opcode") in ("+", "-"):
            binary(unit, node)
        elif node.kind == "CompoundAssignOperator" and is_void_pointer(node.inner[0]):
            moved(unit, node, node.inner[0], node.data["opcode"][0], node.inner[1])
        elif node.kind == "UnaryOperator" and node.data.get("opcode") in ("++", "--") and is_void_pointer(node.inner[0]):
            moved(unit, node, node.inner[0], node.data["opcode"][0], None)


def binary(unit: Unit, node: Node) -> None:
    pointers = [it for it in node.inner if is_void_pointer(it)]
    for it in pointers:
        unit.edits.wrap(it.first, it.last, "( char * ) (", ")")
    if pointers and is_void_pointer(node):
        unit.edits.wrap(node.first, node.last, "( ( void * ) (", ") )")
    if pointers:
        unit.note(Weight.TOLD, node.first, "arithmetic on void *", "it counts bytes")


def moved(unit: Unit, node: Node, left: Node, sign: str, by: Node | None) -> None:
    """`p += n` and `++p`; the value of `p++` is that before."""
    if any(it.kind in ("CallExpr", "CompoundAssignOperator") or it.data.get("opcode") in ("++", "--", "=") for it in left.walk()):
        unit.note(Weight.PROBLEM, node.first, "arithmetic on void *", "use a char * of its own")
        return
    amount = [Span(by.first, by.last)] if by is not None else ["1"]
    step = ["(", Span(left.first, left.last), "= ( char * ) (", Span(left.first, left.last), f") {sign} (", *amount, ") )"]
    if node.data.get("isPostfix") and node.parent is not None and node.parent.kind not in ("CompoundStmt", "ForStmt"):
        back = "-" if sign == "+" else "+"
        step = ["( ( void * ) ( ( char * )", *step, f"{back} 1 ) )"]
    unit.edits.replace(node.first, node.last, *step)
    unit.note(Weight.TOLD, node.first, "arithmetic on void *", "it counts bytes")
