"""A copy of the texts of modules, in which a run shows what each call of the heap's functions gave or gave back.

No command tells which object a call of `malloc` gave. In the copy each call of `malloc`, `calloc`, `realloc` and `free`
keeps its operands in an object that `print` shows, and then calls an empty function, at which the run stops. Where such a
function's name stands for a pointer to it, the pointer is to a function of the copy that does the same. And the third part
of a `for` around the line of a report calls an empty function too. The copy has one line more at the top of each module,
one static object more behind all others, and the parameters of its own functions, which are called through pointers.
"""
import re
from bisect import bisect_right
from dataclasses import dataclass

from saber_session import Module, View
from saber_source import TOKEN
from saber_statements import loops_around

NAME = "saber_heap"
ADDED_LINES = 1
CALLS = ("malloc", "calloc", "realloc", "free")
# the functions to which a pointer is taken, with the number of their parameters
COPIED = {"saber_of_malloc": 1, "saber_of_calloc": 2, "saber_of_realloc": 2, "saber_of_free": 1}
# The library's functions are declared again, since a text that declares them itself may not include <stdlib.h> too.
HEADER = """extern void *malloc(unsigned int), *calloc(unsigned int, unsigned int), *realloc(void *, unsigned int);
extern void free(void *);
extern void *saber_of_malloc(unsigned int), *saber_of_calloc(unsigned int, unsigned int), *saber_of_realloc(void *, unsigned int);
extern void saber_of_free(void *);
struct saber_heap { void *self, *block, *old, *own; unsigned int size, items, caller, third; };
extern struct saber_heap saber_heap;
extern void saber_born(void), saber_dies(void), saber_third(void);
#define saber_malloc(n) (saber_heap.size = (n), saber_heap.items = 1, saber_heap.caller = 0, saber_heap.block = malloc(saber_heap.size), saber_born(), saber_heap.block)
#define saber_calloc(n, s) (saber_heap.items = (n), saber_heap.size = (s), saber_heap.caller = 1, saber_heap.block = calloc(saber_heap.items, saber_heap.size), saber_born(), saber_heap.block)
#define saber_realloc(p, n) (saber_heap.old = (p), saber_heap.size = (n), saber_heap.items = 1, saber_dies(), saber_heap.caller = 2, saber_heap.block = realloc(saber_heap.old, saber_heap.size), saber_born(), saber_heap.block)
#define saber_free(p) (saber_heap.old = (p), saber_dies(), free(saber_heap.old))
"""
MODULE = """#include "saber_heap.h"
struct saber_heap saber_heap = {&saber_heap};
void saber_born(void) { }
void saber_dies(void) { }
void saber_third(void) { }
void *saber_of_malloc(unsigned int n) { saber_heap.own = &n; return saber_malloc(n); }
void *saber_of_calloc(unsigned int n, unsigned int s) { saber_heap.own = &n; return saber_calloc(n, s); }
void *saber_of_realloc(void *p, unsigned int n) { saber_heap.own = &p; return saber_realloc(p, n); }
void saber_of_free(void *p) { saber_heap.own = &p; saber_free(p); }
"""


@dataclass(frozen=True)
class Block:
    """What was seen of a heap block. `born` and `died` are calls as `where` shows them; `died` is empty for one that lives."""
    size: int
    caller: str
    born: tuple
    died: tuple = ()


class Numbers:
    """Which objects of the user's run those of the copy are: without the added one and the parameters that were added so far."""

    def __init__(self):
        self._own, self._first, self._sums = None, [], [0]

    def begin(self, births):
        """Takes the count of births as `main` is entered: the added object is the last one then."""
        self._own = self._own or births

    def note(self, heap, calls):
        """Takes what the added object shows at an event, with the calls there."""
        self._own = number_of(heap[0])
        added = COPIED.get(calls[1].split()[0] if len(calls) > 1 else "")
        first = added and number_of(heap[3])
        if added and first not in self._first[-1:]:
            self._first.append(first)
            self._sums.append(self._sums[-1] + added)

    def original(self, number):
        """The number in the user's run of an object of the copy, and also of a count of births."""
        is_behind = self._own is not None and number >= self._own
        return number - is_behind - self._sums[bisect_right(self._first, number)]

    def text(self, text):
        """A value that `print` shows in the copy, as it is in the user's run."""
        found = re.sub(r"\bobject (\d+)", lambda it: f"object {self.original(int(it[1]))}", text)
        return re.sub(r"\bfunction saber_of_(\w+)", r"function \1", found)


def number_of(value):
    """The number of the live object to whose beginning a pointer leads, as `print` shows it; 0 for another value."""
    found = re.fullmatch(r"object (\d+) \+ 0", value)
    return int(found[1]) if found else 0


def renamed(text, left=()):
    """A text in which the names of the heap's functions are those of the copy, but for those that are left.

    Strings, comments, members and declarations stay.
    """
    tokens, before = TOKEN.findall(text), ["", "", ""]
    for at, token in enumerate(tokens):
        if token in CALLS and token not in left:
            behind = next((tokens[it] for it in range(at + 1, len(tokens)) if not tokens[it].isspace()), "")
            if not is_declared_behind(*before, behind):
                tokens[at] = f"saber_{token}" if behind == "(" else f"saber_of_{token}"
        if not token.isspace() and not token.startswith("/*"):
            before = [*before[1:], token]
    return "".join(tokens)


def is_declared_behind(third, second, first, behind):
    """Whether a function's name behind these tokens is no use: that of a member, or in a declaration."""
    if (second, first, behind) == ("(", "*", ")"):
        return third == "*" or is_type_like(third)
    return first in (".", "->", "*") or is_type_like(first)


def is_type_like(token):
    """Whether a token may end a type in front of a declarator."""
    return token.isidentifier() and token not in ("return", "else", "do")


def marked(text, line):
    """A text in which the third part of each `for` around a line tells its line and calls an empty function."""
    lines = text.split("\n")
    for it in sorted(loops_around(lines, line) if line else [], key=lambda loop: -loop.parts[2][0].at):
        at = it.parts[2][0].at
        text = f"{text[:at]}{NAME}.third = {it.line}, saber_third(), {text[at:]}"
    return text


class HeapCopy(View):
    """A view in which the texts are the copy of those of another that is described above. The line, of a module, is that of a report, or 0."""
    added_lines = ADDED_LINES

    def __init__(self, view, module="", line=0):
        modules = view.again()
        super().__init__([*modules, Module(NAME, view.folder / f"{NAME}.c")], view.given)
        texts = {path.name: path.read_bytes().decode("latin-1") for path in self.folder.iterdir()
                 if path.suffix in (".c", ".h") and path.is_file()}
        own = {f"{it.name}.c" for it in modules}
        # where a macro of such a name is made, what it says there is called
        left = {found for name, text in texts.items() if name in own or name.endswith(".h")
                for found in re.findall(r"(?m)^[ \t]*#[ \t]*define[ \t]+(\w+)", text) if found in CALLS}
        for name, text in texts.items():
            first = f'#include "{NAME}.h"\n' if name.endswith(".c") else ""
            text = marked(text, line) if name == f"{module}.c" else text
            self.replace(name, (first + renamed(text, left)).encode("latin-1"))
        self.replace(f"{NAME}.h", HEADER.encode())
        self.replace(f"{NAME}.c", MODULE.encode())


def as_in_original(line):
    """A line of `where` of the copy, with the line's number in the user's file."""
    return re.sub(r"(?<= at )(\w+):(\d+)$", lambda it: f"{it[1]}:{int(it[2]) - ADDED_LINES}", line)


def calls_in_original(lines):
    """The calls of the copy without those of its own functions."""
    return tuple(as_in_original(it) for it in lines if f" at {NAME}:" not in it)
