"""The lines of a module on which a statement begins, as docs/COMMANDS.md says where a line is reached, and what is called there.

The text is preprocessed by `gcc -E` and parsed by pycparser, which knows where each statement stands. What a header
gives lies on the line of its #include, as it does for the program.
"""
import re
import subprocess
import tempfile
from dataclasses import dataclass
from pathlib import Path

from saber_search import at_line
from saber_session import Trouble, refused
from saber_source import TOKEN, block_around, lines_of
from saber_statements import loops_around

# The types and macros of the library's headers; what they declare is of no use to a parser.
SIZES = "typedef unsigned int size_t;\n#define NULL 0\n"
HEADERS = {
    "stddef.h": "typedef int ptrdiff_t;\n",
    "stdio.h": "#define EOF (-1)\n",
    "stdlib.h": "#define RAND_MAX 2147483647\n#define EXIT_SUCCESS 0\n#define EXIT_FAILURE 1\n",
    "string.h": "",
    "ctype.h": "",
    "assert.h": "#undef assert\n#define assert(x) ((void) (x))\n",
    "limits.h": "".join(f"#define {it} 1\n" for it in """CHAR_BIT SCHAR_MIN SCHAR_MAX UCHAR_MAX CHAR_MIN CHAR_MAX MB_LEN_MAX SHRT_MIN
                    SHRT_MAX USHRT_MAX INT_MIN INT_MAX UINT_MAX LONG_MIN LONG_MAX ULONG_MAX""".split()),
}
WITH_SIZES = ("stddef.h", "stdio.h", "stdlib.h", "string.h")
# what may stand in front of the first name or constant of an expression
FRONTS = ("(", "*", "&", "-", "+", "!", "~", "sizeof")


@dataclass(frozen=True)
class Piece:
    """A statement without those in it, or the third part of a `for`: where it stands, and the lines one of which was begun last as it is carried out.

    `called` are the functions that it calls by their names; `is_open` tells whether it calls others, over pointers.
    """
    line: int
    begun: frozenset
    called: frozenset
    is_open: bool


@dataclass(frozen=True)
class Function:
    """A function's name, the line of its name, the lines on which its statements begin, and that of the first one.

    `parameters` and `objects` are the names of what is born as it is entered, in the order of births: its parameters, and
    the objects of its outermost block. `pieces` are what it carries out.
    `first` is 0 if that line may be reached more often than the function is entered: a loop, or more than one statement.
    """
    name: str
    line: int
    lines: frozenset
    first: int
    parameters: tuple
    objects: tuple
    pieces: tuple


@dataclass(frozen=True)
class Text:
    """What a module's text defines: its functions and the lines of all their statements in their order, and the names that stand for values and not only in calls."""
    functions: tuple
    lines: tuple
    values: frozenset


def functions_in(folder, name):
    """The functions that the module's text in a folder defines, in their order."""
    return text_in(folder, f"{name}.c").functions


def text_in(folder, file):
    """What the text in a file of the folder defines."""
    try:
        from pycparser import c_parser
    except ImportError:
        raise refused("pycparser is not installed (Debian: python3-pycparser)") from None
    text = preprocessed(folder, file)
    try:
        unit = c_parser.CParser().parse(text, file)
    except Exception as error:  # its class has moved between versions
        raise refused(f"pycparser cannot read {file}: {error}") from error
    statements = Statements(text, frozenset(it.name for it in unit.ext if is_object(it)))
    functions = tuple(statements.function(it) for it in unit.ext if type(it).__name__ == "FuncDef")
    values = frozenset(it.name for it in parts_of(unit, is_value_of) if type(it).__name__ == "ID")
    return Text(functions, tuple(sorted(set().union(*(it.lines for it in functions)))), values)


class Lines:
    """The lines of modules on which statements begin, or all lines where a text cannot be parsed here; and where calls stand."""

    def __init__(self, folder):
        self._folder, self._known, self._files, self._stands = folder, {}, {}, {}

    def edited(self, name, file):
        """Takes another file of the folder as the text of a module."""
        self._known.pop(file, None)
        self._files[name] = file
        self._stands.clear()

    def _known_of(self, file):
        """What the text of a file defines; nothing where it cannot be parsed here."""
        if file not in self._known:
            try:
                self._known[file] = text_in(self._folder, file)
            except Trouble:
                self._known[file] = None
        return self._known[file]

    def _file(self, name):
        return self._files.get(name, f"{name}.c")

    def of(self, name):
        """The lines of a module, in their order."""
        known = self._known_of(self._file(name))
        return known.lines if known else range(1, len(self._text(name)) + 1)

    def around(self, name, line):
        """Those of the definition that a line belongs to."""
        block = block_around(self._text(name), line)
        return [it for it in self.of(name) if it in block]

    def _text(self, name):
        return lines_of(self._folder / self._file(name))

    def standing(self, calls, called=()):
        """The calls as `where` shows them, each where it stands; the innermost one has called one of the named functions, if any are named.

        `where` shows the line that a call began last, and the third part of a `for` begins none. A call is in one if the statements on the line
        do not call what it has called. Where both may have called it, both lines are named.
        """
        names = [tuple(called), *((it.split()[0].rpartition(":")[2],) for it in calls)]
        return tuple(self._stands.get(it) or self._stands.setdefault(it, self._found(*it)) for it in zip(calls, names))

    def _found(self, call, called):
        found = called and re.fullmatch(r"\S+ at (\w+):(\d+)", call)
        if not found or not any("(" in [it.text for it in loop.parts[2]] for loop in loops_around(self._text(found[1]), int(found[2]))):
            return call
        line, known = int(found[2]), self._known_of(self._file(found[1]))
        pieces = [it for function in known.functions for it in function.pieces if line in it.begun] if known else []
        callers = [it for it in pieces if it.called.intersection(called) or it.is_open and any(map(self._is_value, called))]
        first, *others = sorted({it.line for it in callers}, key=lambda it: (it != line, it)) or [line]
        return at_line(call, first) + "".join(f" or {found[1]}:{it}" for it in others)

    def _is_value(self, name):
        """Whether a function's name may stand for a pointer to it somewhere."""
        named = {it for it in self._folder.glob("*.[ch]") if re.search(rf"\b{name}\b(?!\s*\()", "\n".join(lines_of(it)))}
        in_header = any(it.suffix == ".h" for it in named)
        texts = [self._known_of(it.name) for it in self._folder.glob("*.c") if in_header or it in named]
        return any(it is None or name in it.values for it in texts)


def preprocessed(folder, file):
    """The preprocessed text of a file, with every text of a header on the line of its #include."""
    with tempfile.TemporaryDirectory() as room:
        for header, text in HEADERS.items():
            Path(room, header).write_text(("#ifndef SABER_SIZES\n#define SABER_SIZES\n" + SIZES + "#endif\n" if header in WITH_SIZES else "") + text)
        words = ["gcc", "-E", "-std=c89", "-undef", "-nostdinc", "-w", "-I", room, "-D__offsetof=__builtin_offsetof",
                 "-Doffsetof=__builtin_offsetof", file]
        try:
            made = subprocess.run(words, cwd=folder, capture_output=True)
        except OSError as error:
            raise refused(f"gcc, which preprocesses the text, cannot be run: {error.strerror}") from error
    if made.returncode:
        said = made.stderr.decode(errors="replace").splitlines()
        raise refused(f"gcc cannot preprocess {file}: {said[0] if said else made.returncode}")
    return own_lines(made.stdout.decode("latin-1"), file)


def own_lines(text, file):
    """A preprocessed text in which each line of another file lies on the line of the file's own #include."""
    out, line, is_own, held = [], 1, True, []
    for it in text.split("\n"):
        mark = re.match(r'# (\d+) "(.*?)"', it)
        if mark:
            is_own = mark[2] == file
            if is_own:
                out += [f'# {line} "{file}"', " ".join(held)] if held else []
                held, line = [], int(mark[1])
                out.append(f'# {line} "{file}"')
        elif is_own:
            out.append(it)
            line += 1
        else:
            held.append(it)
    return "\n".join(out)


class Statements:
    """Finds the first tokens of statements. A node of the parser may begin behind them, as behind a bracket."""

    def __init__(self, text, pointers=frozenset()):
        """`pointers` are names of objects at file scope: a call of one is over a pointer."""
        self._tokens, self._at, self._pointers = [], {}, pointers
        line = 1
        for it in text.split("\n"):
            mark = re.match(r"# (\d+) ", it)
            if mark:
                line = int(mark[1])
                continue
            column = 1
            for token in TOKEN.findall(it):
                if not token.isspace():
                    self._at[line, column] = len(self._tokens)
                    self._tokens.append((token, line))
                column += len(token)
            line += 1

    def function(self, node):
        """What is to be known of a definition."""
        items = node.body.block_items or []
        lines = [line for it in items for line in self._statement(it)]
        pointers = self._pointers | {it.name for it in parts_of(node) if is_object(it)}
        begin = next((it for it in items if any(True for _ in self._statement(it))), None)
        is_once = begin is not None and type(begin).__name__ not in ("For", "While", "DoWhile", "Label", "Compound")
        first = lines[0] if is_once and lines.count(lines[0]) == 1 else 0
        return Function(node.decl.name, self._name_line(node.decl), frozenset(lines), first,
                        tuple(it.name for it in getattr(node.decl.type.args, "params", None) or [] if getattr(it, "name", None)),
                        tuple(it.name for it in items if is_born(it)),
                        tuple(it for item in items for it in self._pieces(item, pointers)))

    def _statement(self, node):
        """The lines that a statement or declaration reaches, its parts among them, in their order."""
        yield from self._lines_of_one(node)
        for it in statements_in(node):
            yield from self._statement(it)

    def _pieces(self, node, pointers):
        """What a statement or declaration carries out, its parts among it."""
        for line in self._lines_of_one(node):
            yield Piece(line, frozenset([line]), *called_in(expressions_of(node), pointers))
        if type(node).__name__ == "For" and node.next is not None:
            yield Piece(node.coord.line, frozenset(self._statement(node)), *called_in([node.next], pointers))
        for it in statements_in(node):
            yield from self._pieces(it, pointers)

    def _lines_of_one(self, node):
        """The lines of a statement alone, or of the initialised declarator."""
        kind = type(node).__name__
        if kind in ("Compound", "Label", "Case", "Default", "Typedef", "Pragma"):
            return []
        if kind == "Decl":
            is_reached = node.init is not None and not {"static", "extern"} & set(node.storage)
            return [self._name_line(node)] if is_reached else []
        if kind == "DoWhile":
            return [self._before(node.cond, ("while",))]
        if kind == "For":
            return [node.coord.line] if node.init is not None or node.cond is not None else []
        if kind in ("If", "While", "Switch", "Return", "Break", "Continue", "Goto", "EmptyStatement"):
            return [node.coord.line]
        return [self._first_line(node)]

    def _start(self, node):
        """The index of the first token that some part of an expression has; none where the parser gives no place."""
        places = [(it.coord.line, it.coord.column) for it in parts_of(node) if it.coord is not None]
        return min((self._at[it] for it in places if it in self._at), default=None)

    def _first_line(self, node):
        """The line of an expression's first token."""
        at = self._start(node)
        if at is None:
            return node.coord.line
        while at > 0 and self._tokens[at - 1][0] in FRONTS:
            at -= 1
        return self._tokens[at][1]

    def _before(self, node, words):
        """The line of the last of these words before an expression."""
        at = self._start(node)
        while at is not None and at > 0 and self._tokens[at][0] not in words:
            at -= 1
        return self._tokens[at][1] if at else node.coord.line

    def _name_line(self, declaration):
        """The line of the name that a declaration declares."""
        at = self._at.get((declaration.coord.line, declaration.coord.column))
        while at is not None and at < len(self._tokens) and self._tokens[at][0] != declaration.name:
            at += 1
        return self._tokens[at][1] if at is not None and at < len(self._tokens) else declaration.coord.line


def is_object(node):
    """Whether a node declares an object."""
    return type(node).__name__ == "Decl" and bool(node.name) and type(node.type).__name__ != "FuncDecl"


def is_born(node):
    """Whether an item of a block is the declaration of an object that is born with the block."""
    return is_object(node) and not {"static", "extern"} & set(node.storage)


def statements_in(node):
    """The statements and declarations right in a statement."""
    for part in ("block_items", "iftrue", "iffalse", "stmt", "stmts"):
        inner = getattr(node, part, None)
        yield from inner if isinstance(inner, list) else [inner] if inner is not None else []


def expressions_of(node):
    """What a statement or declaration evaluates itself, without the third part of a `for`."""
    kind = type(node).__name__
    if kind in ("If", "While", "DoWhile", "Switch"):
        return [node.cond]
    if kind == "For":
        return [it for it in (node.init, node.cond) if it is not None]
    return [] if kind in ("Compound", "Label", "Case", "Default") else [node]


def called_in(expressions, pointers):
    """The names of the functions that expressions call, and whether they call others over pointers."""
    callees = [it.name for expression in expressions for it in parts_of(expression) if type(it).__name__ == "FuncCall"]
    names = {it.name if type(it).__name__ == "ID" else None for it in callees}
    return frozenset(names - pointers - {None}), bool(names & {None, *pointers})


def parts_of(node, is_wanted=lambda node, part: True):
    """A node and all below it, in the order of the text, but for those parts of a node that are not wanted, and what is below them."""
    waiting = [node]
    while waiting:
        at = waiting.pop()
        yield at
        waiting += [it for part, it in reversed(at.children()) if is_wanted(at, part)]


def is_value_of(node, part):
    """Whether a part of a node is no mere name of a function that is called, or of a member."""
    left = {"FuncCall": "name", "StructRef": "field"}.get(type(node).__name__)
    return part != left or type(getattr(node, part)).__name__ != "ID"
