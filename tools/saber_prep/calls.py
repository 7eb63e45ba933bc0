"""Calls with a variable number of arguments, library functions that the core lacks, and calls without a declaration."""
from __future__ import annotations

import re

from .edits import Part, Span, Verbatim
from .notes import Weight
from .source import INCLUDE
from .tree import Node
from .unit import Unit

CORE = set(
    "putchar puts printf getchar malloc calloc realloc free atoi abs rand srand exit memcpy memmove memset memcmp strlen strcpy strncpy "
    "strcat strcmp strncmp strchr strrchr isalnum isalpha iscntrl isdigit isgraph islower isprint ispunct isspace isupper isxdigit "
    "tolower toupper _assert_fail".split()
)
DEFINITION = re.compile(r"^((?!static )[a-z][^\n;{]*?\b(\w+)\([^\n;]*\))\n\{\n(?:.*\n)*?\}\n", re.M)
SUPPORT = [INCLUDE.parent / "saberlib.c", INCLUDE.parent / "saberio.c"]
FRAME = [
    "void saber_open ( void ) ;", "void saber_number ( unsigned long ) ;", "void saber_pointer ( const void * ) ;",
    "void saber_close ( void ) ;", "unsigned long saber_close_number ( unsigned long ) ;", "void * saber_close_pointer ( const void * ) ;",
]
FORMAT = re.compile(r"%([-+ #0]*(?:\*|\d+)?)(\.(?:\*|\d*))?(hh|ll|[jztqL])?([a-zA-Z%])")
# conversions that the core's printf does not have
LACKING = re.compile(r"%[-+ #0]*(?:\*|\d+)?(?:\.(?:\*|\d*))?(?:hh|ll|[hljztqL])?([pnaAeEfFgG])")
FORMATTED = {"printf": 0, "fprintf": 1, "sprintf": 1, "snprintf": 2, "vprintf": 0, "vfprintf": 1, "vsprintf": 1, "vsnprintf": 2}


def supported() -> set[str]:
    """The functions of the support modules."""
    return {it[2] for file in SUPPORT for it in DEFINITION.finditer(file.read_text())}


def callee(node: Node) -> Node | None:
    """The name that a call calls, if it is one."""
    below = node.inner[0] if node.inner else None
    while below is not None and below.kind in ("ImplicitCastExpr", "ParenExpr") and below.inner:
        below = below.inner[0]
    return below if below is not None and below.kind == "DeclRefExpr" else None


def calls(unit: Unit) -> None:
    """Rewrites each call that the core cannot take as it stands."""
    own = {it.name for it in unit.functions()}
    for node in unit.inner_first():
        if node.kind != "CallExpr":
            continue
        named = callee(node)
        name = named.data["referencedDecl"].get("name", "") if named is not None else ""
        if name in FORMATTED:
            formats(unit, node, FORMATTED[name])
        if not (name == "printf" and name not in own) and is_variadic(node):
            variadic(unit, node)


def is_variadic(node: Node) -> bool:
    """Whether the called function takes more arguments than it names."""
    return ", ...)" in function_type(node)


def function_type(node: Node) -> str:
    below = node.inner[0]
    text = below.plain if "(" in below.plain else below.type
    return text


def fixed_count(text: str) -> int:
    """The number of named parameters in a type as `int (*)(const char *, int, ...)`."""
    depth = count = 0
    begin = text.rindex("(", 0, matching(text))
    for letter in text[begin:]:
        depth += letter in "(["
        depth -= letter in ")]"
        count += letter == "," and depth == 1
    return count


def matching(text: str) -> int:
    """Where the list of parameters at the end of a type begins, behind its bracket."""
    depth = 0
    for place in range(len(text) - 1, -1, -1):
        depth += text[place] == ")"
        depth -= text[place] == "("
        if depth == 0:
            return place + 1
    return len(text)


def variadic(unit: Unit, node: Node) -> None:
    """The arguments behind the named ones go to a list of saberlib, then the call is made, then they are taken back."""
    fixed = fixed_count(function_type(node))
    named, further = node.inner[1 : fixed + 1], node.inner[fixed + 1 :]
    if not named:
        return
    for declaration in FRAME:
        unit.need(declaration)
    parts: list[Part] = ["( saber_open ( ) ,"]
    for argument in further:
        if argument.plain in ("double", "float", "long double") or unit.is_record(argument):
            unit.note(Weight.PROBLEM, argument.first, "floating or structure argument behind the named ones", "leave it out, or pass a pointer")
        pass_on = "saber_pointer (" if is_pointer(argument) else "saber_number ("
        parts += [pass_on, Span(argument.first, argument.last), ") ,"]
    call = Span(node.first, named[-1].last)
    if node.type == "void":
        parts += [call, ") , saber_close ( ) )"]
    elif is_pointer(node):
        parts += [f"( {unit.spelled(node.type)} ) saber_close_pointer (", call, ") ) )"]
    else:
        parts += [f"( {unit.spelled(node.type)} ) saber_close_number (", call, ") ) )"]
    unit.edits.replace(node.first, node.last, *parts)
    unit.note(Weight.PLAIN, node.first, "call with a variable number of arguments")


def is_pointer(node: Node) -> bool:
    text = node.plain.rstrip()
    return text.endswith(("*", "]", "*const", "* const")) or "(*" in text


def formats(unit: Unit, node: Node, place: int) -> None:
    """Writes the lengths that the core's `printf` lacks as those that it has."""
    if place + 1 >= len(node.inner):
        return
    for it in node.inner[place + 1].walk():
        if it.kind != "StringLiteral" or it.first < 0:
            continue
        for token in range(it.first, it.last + 1):
            text = unit.text(token)
            better = FORMAT.sub(lambda it: better_conversion(it, unit.options.integers), text)
            for found in LACKING.finditer(better.replace("%%", "")):
                unit.note(Weight.TOLD, token, f"%{found[1]} in a format", "printf has no such conversion here, and a run that comes there ends")
            if better != text:
                unit.edits.replace(token, token, Verbatim(better))
                unit.note(Weight.PLAIN, token, "length in a format")


def better_conversion(found: re.Match, integers: bool) -> str:
    """A conversion that the core has; with `integers` one of a floating number is that of a long, without digits behind the point."""
    before, digits, given, kind = found[1], found[2] or "", found[3], found[4]
    if integers and kind in "aAeEfFgG":
        return f"%{before}{digits if '*' in digits else ''}ld"
    length = "l" if given in ("ll", "q", "j") else ""
    better = "d" if kind == "i" else kind
    if given is None and better == kind:
        return found[0]
    return f"%{before}{digits}{length}{better}"


def undeclared(unit: Unit) -> None:
    """Declares each function that is called before any declaration: as it is defined below, or as its first call has it."""
    first: dict[str, Node] = {}
    for it in unit.nodes:
        if it.kind == "FunctionDecl" and it.place >= 0:
            first.setdefault(it.name, it)
    done: set[str] = set()
    for node in (it for root in unit.nodes for it in root.walk()):
        named = callee(node) if node.kind == "CallExpr" else None
        if named is None or named.data["referencedDecl"].get("kind") != "FunctionDecl":
            continue
        name = named.data["referencedDecl"].get("name", "")
        there = first.get(name)
        if name in done or name.startswith("__builtin") or there is not None and there.place < node.first:
            continue
        done.add(name)
        types = [it.plain for it in (there.inner if there else node.inner[1:]) if there is None or it.kind == "ParmVarDecl"]
        result = unit.spelled(there.plain[: there.plain.index("(")]) if there else "int"
        listed = " , ".join(unit.spelled(it) for it in types) or "void"
        unit.edits.put_before(unit.in_item(node.first).first, f"{result} {name} ( {listed} ) ;")
        unit.note(Weight.TOLD, node.first, f"call of {name} without a declaration", f"it is declared as {result} {name}({listed})", "call without a declaration")


def main_with_arguments(unit: Unit) -> None:
    """`main(int argc, char **argv)` gets a caller without parameters, with the words of `--arguments`."""
    for function in unit.functions():
        parameters = [it for it in function.inner if it.kind == "ParmVarDecl"]
        if function.name != "main":
            continue
        if not parameters:
            if function.type.startswith("void"):
                unit.note(Weight.PROBLEM, function.place, "main without a result", "write int main(void)")
            continue
        for node in unit.declared.values():
            if node.kind == "FunctionDecl" and node.name == "main":
                unit.edits.replace(node.place, node.place, "saber_main")
        words = (unit.source.path.stem,) + unit.options.arguments
        count = len(words)
        lines = [f"int main ( void ) {{ static char * words [ {count + 1} ] ;"]
        parts: list[Part] = list(lines)
        for number, word in enumerate(words):
            escaped = word.replace("\\", "\\\\").replace('"', '\\"')
            parts += [f"static char word_{number} [ ] =", Verbatim(f'"{escaped}"'), ";"]
        parts += [f"words [ {number} ] = word_{number} ;" for number in range(count)]
        given = [str(count), "words", "words + " + str(count)][: len(parameters)]
        parts.append(f"return saber_main ( {' , '.join(given)} ) ; }}")
        unit.tail.append(parts)
        unit.note(Weight.TOLD, function.place, "main with parameters", f"it gets {count} words; --arguments gives others")


def names_of_library(unit: Unit) -> None:
    """Tells of definitions that have the name of a library function, and of library functions that nobody has."""
    given = supported()
    own = {it.name for it in unit.functions()}
    for function in unit.functions():
        if function.name in CORE and function.data.get("storageClass") != "static":
            unit.note(Weight.PROBLEM, function.place, f"definition of the library's {function.name}", f"give -D{function.name}=own_{function.name} for all files")
    told = set()
    for node in unit.inner_first():
        if node.kind != "DeclRefExpr" or node.data.get("referencedDecl", {}).get("kind") != "FunctionDecl":
            continue
        name = node.data["referencedDecl"].get("name", "")
        target = unit.declared.get(node.target)
        header = target is not None and unit.origin(target.first).file.startswith(str(INCLUDE))
        if name == "printf" and not (node.parent is not None and node.parent.parent is not None and callee(node.parent.parent) is node):
            unit.note(Weight.PROBLEM, node.first, "printf as a value", "write a function that calls it")
        if header and name not in CORE | given | own and name not in told:
            told.add(name)
            unit.note(Weight.TOLD, node.first, f"{name} is in no library here", "a run that calls it ends with U17; give a module that defines it")
