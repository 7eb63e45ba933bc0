#!/usr/bin/env python3
"""Runs tables of values that other programs gave through programs of C, and compares.

usage: tests/tables.py PROGRAM

- tests/vectors/numbers.txt, classes.txt: what a C library's printf and ctype calls give (made by number.sh).
- tests/vectors/operators.txt: what a C compiler's operators and conversions give, or the rule that they break (made by arith.sh).
- tests/vectors/compatible.txt: which types are compatible, by the C standard; its head says how types are written there.
The last line is 'N passed, M failed'.
"""
import pathlib
import re
import subprocess
import sys
import tempfile

VECTORS = pathlib.Path(__file__).resolve().parent / "vectors"
SECONDS = 120
CLASS_CALLS = ["isalnum", "isalpha", "iscntrl", "isdigit", "isgraph", "islower", "isprint", "ispunct", "isspace", "isupper", "isxdigit"]
BINARY = {"Add": "+", "Sub": "-", "Mul": "*", "Div": "/", "Rem": "%", "Shl": "<<", "Shr": ">>", "And": "&", "Or": "|", "Xor": "^",
          "Lt": "<", "Gt": ">", "Le": "<=", "Ge": ">=", "Eq": "==", "Ne": "!="}
UNARY = {"Neg": "-b", "Not": "~b", "Truth": "a ? 1 : 0", "Inc": "++a", "Dec": "--a"}
BASES = {"v": "void", "c": "char", "a": "signed char", "u": "unsigned char", "h": "short", "i": "int", "l": "long"}


def rows(name):
    """The lines of a table that are no comment."""
    return [line for line in (VECTORS / name).read_text().splitlines() if not line.startswith("#")]


def answers(program, modules, commands):
    """What the program writes, line by line, where these modules are its files."""
    with tempfile.TemporaryDirectory() as folder:
        for name, text in modules.items():
            pathlib.Path(folder, name + ".c").write_text(text)
        ran = subprocess.run([program], input="".join(line + "\n" for line in commands), capture_output=True, text=True,
                             cwd=folder, timeout=SECONDS, check=True)
    return ran.stdout.splitlines()


def printed(program, text):
    """The lines that one program prints before it ends."""
    return answers(program, {"m": text}, ["load m", "run"])[1:-1]


def differences(wanted, came, shown):
    """A line for each value that is not the wanted one, and for values that are missing."""
    found = [f"{shown[k]}: {came[k]}, and not {wanted[k]}" for k in range(min(len(wanted), len(came))) if wanted[k] != came[k]]
    if len(wanted) != len(came):
        found.append(f"{len(came)} values, and not {len(wanted)}")
    return found


def numbers(program):
    """What printf writes for each format and number."""
    cases = [line.split("|")[:3] for line in rows("numbers.txt")]
    calls = []
    for form, value, _ in cases:
        kind = ("" if form[-1] in "di" else "unsigned ") + ("long" if "l" in form else "int")
        calls.append(f'    printf("{form}|\\n", ({kind}){value}u);')
    text = "#include <stdio.h>\nint main(void)\n{\n" + "\n".join(calls) + "\n    return 0;\n}\n"
    return len(cases), differences([f"{text}|" for *_, text in cases], printed(program, text), [form for form, *_ in cases])


def classes(program):
    """The classes of each character, as bits."""
    sums = "\n".join(f"        bits |= ({call}(c) != 0) << {k};" for k, call in enumerate(CLASS_CALLS))
    text = ("#include <ctype.h>\n#include <stdio.h>\nint main(void)\n{\n    int c, bits;\n    for (c = 0; c < 256; ++c) {\n"
            f"        bits = 0;\n{sums}\n        printf(\"%d\\n\", bits);\n    }}\n    return 0;\n}}\n")
    wanted = []
    for line in rows("classes.txt"):
        first, last, bits = map(int, line.split())
        wanted += [str(bits)] * (last - first + 1)
    return len(wanted), differences(wanted, printed(program, text), range(256))


def operator_rows():
    """The operator, the type, the operands and the result of each line of the table."""
    for line in rows("operators.txt"):
        if not line.startswith("Convert"):
            op, *kind, left, right, result = line.split()
            yield op, " ".join(kind), int(left, 16), int(right, 16), result


def expression(op):
    return UNARY.get(op) or f"a {BINARY[op]} b"


def results(program):
    """The result of each operation that has one."""
    cases = [case for case in operator_rows() if not case[4].startswith("U")]
    lines = [f'    {{ {kind} a, b; a = ({kind}){left}u; b = ({kind}){right}u; printf("%x\\n", (unsigned)({expression(op)})); }}'
             for op, kind, left, right, _ in cases]
    text = "#include <stdio.h>\nint main(void)\n{\n" + "\n".join(lines) + "\n    return 0;\n}\n"
    return len(cases), differences([case[4] for case in cases], printed(program, text), [case[:4] for case in cases])


def signed(bits):
    return bits - 2 ** 32 if bits >= 2 ** 31 else bits


def told_operands(op, kind, left, right):
    """The operands as a report names them: 0 on the left of the unary minus, 1 on the right of ++ and --."""
    left, right = {"Neg": (0, right), "Inc": (left, 1), "Dec": (left, 1)}.get(op, (left, right))
    return (left, right) if "unsigned" in kind else (signed(left), signed(right))


def breaches(program):
    """The report of each operation that breaks a rule."""
    cases = [case for case in operator_rows() if case[4].startswith("U")]
    modules, commands, wanted = {}, [], []
    for k, (op, kind, left, right, rule) in enumerate(cases):
        modules[f"m{k}"] = (f"int main(void)\n{{\n    {kind} a, b;\n    a = ({kind}){left}u;\n    b = ({kind}){right}u;\n"
                            f"    {expression(op)};\n    return 0;\n}}\n")
        commands += [f"load m{k}", "run", f"unload m{k}"]
        first, second = told_operands(op, kind, left, right)
        wanted += [f"> loaded m{k}", f"> violation {rule} in main at m{k}:6 left {first} right {second}", f"> unloaded m{k}"]
    return len(cases), differences(wanted, answers(program, modules, commands), [case[:4] for case in cases for _ in range(3)])


def conversions(program):
    """The value of each number in each type."""
    cases = [re.fullmatch(r"Convert (.*) (\w+) (\w+)", line) for line in rows("operators.txt") if line.startswith("Convert")]
    lines = [f'    printf("%x\\n", (unsigned)({case[1]})0x{case[2]}u);' for case in cases]
    text = "#include <stdio.h>\nint main(void)\n{\n" + "\n".join(lines) + "\n    return 0;\n}\n"
    return len(cases), differences([case[3] for case in cases], printed(program, text), [case[0] for case in cases])


def grouped(declarator):
    return f"({declarator})" if declarator.startswith("*") else declarator


def declared(short, declarator, structures):
    """The C declaration of a declarator with the type that is written so."""
    constant = ""
    for at in range(len(short) - 1, -1, -1):
        letter, before = short[at], short[:at]
        if letter == "k":
            constant = "const "
        elif letter == "*":
            declarator, constant = f"*{constant}{declarator}", ""
        elif letter.isdigit():
            declarator = f"{grouped(declarator)}[{letter if letter != '0' else ''}]"
        elif letter == "g":
            declarator = f"{grouped(declarator)}(void)"
        elif letter in "fd":
            parameter = declared(before, "", structures).strip()
            parameters = parameter if letter == "f" else f"{parameter}, {parameter}"
            return f"int {grouped(declarator)}({parameters})"
        else:
            return f"{constant}{BASES.get(letter) or structures['xyz'.index(letter)]} {declarator}"
    raise ValueError(short)


def structures_of(text):
    """The C text of the structures of a unit, and how each is named in a declaration."""
    lines, names = [], []
    for k, part in enumerate(text.split()):
        head, _, members = part.partition(":")
        word, tag = ("union", head[1:]) if head.startswith("+") else ("struct", head)
        names.append(f"{word} {tag}" if tag else f"unnamed{k}")
        body = "".join(f" {declared(kind, name, names)};" for name, kind in (member.split("=") for member in members.split(",") if member))
        if tag:
            lines.append(f"{word} {tag}{f' {{{body} }}' if members else ''};")
        else:
            lines.append(f"typedef {word} {{{body} }} unnamed{k};")
    return "\n".join(lines) + "\n", names


def one_module_cases():
    """Pointers to two types are declared for one name: the second declaration is refused where the types are not compatible."""
    head, names = structures_of(":a=i :a=i")
    for line in rows("compatible.txt"):
        first, second, *rest = line.split("|")
        if len(rest) == 1:
            for one, other in ((first, second), (second, first)):
                text = head + "".join(f"extern {declared(kind + '*', 'it', names)};\n" for kind in (one, other))
                yield f"{one} and {other}", text, rest[0] == "yes"


def in_one_module(program):
    """Whether two types of one unit are compatible, asked both ways."""
    cases = list(one_module_cases())
    modules = {f"m{k}": text for k, (_, text, _) in enumerate(cases)}
    came = answers(program, modules, [line for k in range(len(cases)) for line in (f"load m{k}", f"unload m{k}")])
    wanted = []
    for k, (_, _, good) in enumerate(cases):
        wanted += [f"> loaded m{k}", f"> unloaded m{k}"] if good else [f"> refused C5 X7 m{k}.c:4", "> refused C3"]
    return len(cases), differences(wanted, came, [shown for shown, *_ in cases for _ in range(2)])


def across_modules(program):
    """Whether types of two units are compatible, asked both ways: a name has one of them in one module, and the other in another."""
    modules, commands, wanted, shown = {}, [], [], []
    for k, line in enumerate(line for line in rows("compatible.txt") if line.count("|") == 4):
        *units, answer = line.split("|")
        for side, (structures, kind) in zip("ab", (units[:2], units[2:])):
            head, names = structures_of(structures)
            modules[f"{side}{k}"] = f"{head}extern {declared(kind, 'it', names)};\n"
        for one, other in (("a", "b"), ("b", "a")):
            commands += [f"load {one}{k}", f"load {other}{k}", "list", "unload " + other + str(k), "unload " + one + str(k)]
            good = answer == "yes"
            wanted += [f"> loaded {one}{k}", f"> loaded {other}{k}" if good else f"> refused C7 it {one}{k}", f"> module {one}{k} source",
                       *([f"> module {other}{k} source"] if good else []), "> idle", f"> unloaded {other}{k}" if good else "> refused C3", f"> unloaded {one}{k}"]
    came = answers(program, modules, commands)
    return len(wanted), differences(wanted, came, wanted)


def main():
    program = pathlib.Path(sys.argv[1]).resolve()
    failed = 0
    checks = [numbers, classes, results, breaches, conversions, in_one_module, across_modules]
    for check in checks:
        count, wrong = check(program)
        failed += bool(wrong)
        print(f"{check.__doc__.splitlines()[0]} {count} values, {len(wrong)} otherwise")
        for line in wrong[:10]:
            print(f"    {line}")
    print(f"{len(checks) - failed} passed, {failed} failed")
    return failed > 0


if __name__ == "__main__":
    sys.exit(main())
