"""Evaluates an expression where a run stands, in a replay on a copy of one module's text.

No command evaluates an expression in the midst of a run. In the copy the statement that is next at that place has a test of
a constant in front, and behind it the expression. The replay goes to the place by the same commands; there the constant is
edited, and the run goes on up to a function behind the expression. A function before it shows that nothing else is next. The
user's own run stays where it is.
"""
import re

from saber_moved import Moved
from saber_replay import go_again, has_changes, without_stops
from saber_search import Lost, violation_of
from saber_session import Module, View, loaded
from saber_source import TOKEN, block_around, lines_of, names_in, parts_of
from saber_spots import spots_at
from saber_statements import HEADS, tokens_of

NAME = "saber_look"
SHAPE = "struct saber_look { void *self; int is_busy; unsigned long same; long number; int is_unsigned; const void *pointer; void (*function)(void); const int *on; }"
MODULE = "const int saber_on = %d;\n" + SHAPE + " saber_look = {&saber_look};\nint saber_here(void) { return 0; }\nint saber_next(void) { return 0; }\n"
DECLARED = f"extern const int saber_on; extern {SHAPE} saber_look; extern int saber_here(void), saber_next(void); "
# how a value of each kind is kept, and which members of the object tell it
KINDS = (
    ("saber_look.same = ({0}), saber_look.number = saber_look.same, saber_look.is_unsigned = (1 ? -1 : ({0})) > 0", "number"),
    ("saber_look.pointer = ({0})", "pointer"),
    ("saber_look.function = (void (*)(void)) ({0})", "function"),
)
# a structure is copied to an object of its type, which `print` shows
STRUCTURE = "saber_value = ({0}), saber_look.pointer = &saber_value"
LAST_KINDS = (("saber_look.pointer = &({0})", "place"), ("(void) ({0})", "nothing"))
# so many types are tried, and no more behind so many seconds of processor time
MOST_TYPES = 64
MOST_SECONDS = 10
NULLS = ("0", "NULL")
# the turns that an expression may take
TURNS = 4_000_000


class Elsewhere(Lost):
    """A spot is not what is next, or takes no probe for this expression."""


def edits(text, spot, module, probe):
    """The ways to put a probe in front of a spot, each as pairs of a place in the text and what is written there, and what is moved by it.

    No line may be reached more often by it, since a replay counts the halts at lines; what is moved is counted anew.
    """
    statement = spot.statement
    if spot.declarator:
        return [(it, Moved()) for it in before_value(text, spot.declarator.value, probe)]
    if statement.kind in HEADS or statement.kind == "do":
        count = 2 if statement.kind == "for" else 1
        return [([(part[0].at, f"{probe}, ") for part in statement.parts[:count] if part], Moved())]
    if statement.kind == ";":
        return [([(statement.first.at, probe)], Moved())]
    if statement.kind == "simple":
        return [([(statement.first.at, f"{probe}, ")], Moved())]
    return [(Moved.changes(statement, probe), Moved(module, statement.line))]


def before_value(text, value, probe):
    """The ways to put a probe in front of a value that is converted to another type."""
    same = text[value[0].at:value[-1].end].replace("\\\n", "").replace("\n", " ")
    # a null pointer constant is none behind a test
    nulls = [[(value[0].at, f"{probe} ? (void *) 0 : (void *) ")]] if same in NULLS else []
    return [[(value[0].at, f"{probe} ? ({same}) : ("), (value[-1].end, ")")], *nulls]


def written(text, changes):
    """A text with pieces put in at places."""
    for at, piece in sorted(changes, reverse=True):
        text = text[:at] + piece + text[at:]
    return text


def is_whole(expression):
    """Whether the signs of a text may be those of one expression: brackets are closed, and nothing ends it."""
    depth = 0
    for token in TOKEN.findall(expression):
        depth += (token in "([") - (token in ")]")
        if depth < 0 or token in (";", "{", "}", "#", "\n", "\\", '"', "'", "`", "@", "$") or token.startswith("/*"):
            return False
    return depth == 0 and bool(expression.strip())


class Look(View):
    """A view whose texts are those of another, in one of which a probe for an expression stands before a spot."""

    def __init__(self, view, module, line):
        super().__init__([*view.again(), Module(NAME, view.folder / f"{NAME}.c")], view.given)
        self.module, self._lines = module, lines_of(view.folder / f"{module}.c")
        block = block_around(self._lines, line)
        self.spots, self._first = spots_at(self._lines, line), next((it.at for it in tokens_of(self._lines) if it.line in block), 0)
        self.replace(f"{NAME}.c", (MODULE % 0).encode())
        self.replace(f"{NAME}_on.c", (MODULE % 1).encode())

    def texts(self, spot, expression):
        """Texts of the module that may be taken, the member in which each keeps the value, and what is moved in it."""
        text = "\n".join(self._lines)
        # what a structure is copied to stands in the module, and the function at which it is shown too
        copies = ((STRUCTURE, f"{it}", f"static {it} saber_value; static int saber_shown(void) {{ return saber_here(); }} ") for it in self._types())
        for store, member, more in (*((*it, "") for it in KINDS), *copies, *((*it, "") for it in LAST_KINDS)):
            here = "saber_shown" if more else "saber_here"
            probe = f"(saber_on && !saber_look.is_busy ? (saber_look.is_busy = 1, saber_look.on = &saber_on, saber_next(), {store.format(expression)}, {here}()) : 0)"
            for changes, moved in edits(text, spot, self.module, probe):
                yield written(text, [*changes, (self._first, DECLARED + more)]), "structure" if more else member, moved

    def _types(self):
        """The names of structures and unions in the text and in the headers beside it."""
        texts = ["\n".join(self._lines), *("\n".join(lines_of(it)) for it in sorted(self.folder.glob("*.h")))]
        tags = (f"{it[1]} {it[2]}" for text in texts for it in re.finditer(r"\b(struct|union)\s+([A-Za-z_]\w*)\s*\{", text))
        names = (it[1] for text in texts for it in re.finditer(r"\}\s*([A-Za-z_]\w*)\s*;", text))
        return list(dict.fromkeys((*tags, *names)))[:MOST_TYPES]

    def choose(self, setup, spot, expression):
        """Takes the first text that is not refused; gives the member that keeps the value, and what is moved."""
        hidden = [it for it in names_in([expression]) if it in spot.names]
        if hidden:
            raise Elsewhere(f"{hidden[0]} gets its first values on this line: step on to see them, or use its name alone")
        why, spent = "", 0
        for text, member, moved in self.texts(spot, expression):
            self.replace(f"{self.module}.c", text.encode(errors="surrogateescape"))
            with setup.empty() as session:
                answer = loaded(session, f"load {self.module}")
                spent += session.seconds()
            if not answer.is_refused:
                return member, moved
            why = why or moved.original(answer.text)
            if spent > MOST_SECONDS:
                break
        raise Elsewhere(f"{expression} is no expression here ({why})")


def evaluated(setup, commands, calls, expression):
    """The value of an expression where a run stands, to which commands led, and where these calls are active."""
    found = re.fullmatch(r"(\S+) at (\w+):(\d+)", calls[0]) if calls else None
    if not found:
        raise Lost("the innermost call is compiled code")
    if not is_whole(expression):
        raise Lost(f"{expression} is no expression")
    if not setup.view or has_changes(commands):
        raise Lost("the modules were changed while this run stood, so that names alone can be shown")
    with Look(setup.view, found[2], int(found[3])) as view:
        own = setup.over(view)
        for spot in view.spots:
            if len(view.spots) == 1 or is_next(view, own, spot, commands, calls):
                return evaluated_before(view, own, spot, commands, calls, expression)
    raise Lost("what is next here is not seen in the text: a macro has written it, too much stands on the line, or nothing stands behind values in braces")


def is_next(view, setup, spot, commands, calls):
    """Whether a spot is what is next."""
    try:
        return bool(evaluated_before(view, setup, spot, commands, calls, "0"))
    except Elsewhere:
        return False


def evaluated_before(view, setup, spot, commands, calls, expression):
    """The value, if this spot is what is next."""
    member, moved = view.choose(setup, spot, expression)
    with setup.start(turns=TURNS) as session:
        halt = go_again(session, moved.commands(commands), moved.passed)
        where = tuple(map(moved.original, session.ask("where").lines))
        if where != tuple(calls) or halt.startswith("entered ") != spot.is_entry:
            raise Elsewhere("the run did not come to this place again")
        return value_of(session, member, view.module, moved, spot.passes)


def value_of(session, member, module, moved, passes):
    """Lets the expression be evaluated, and gives its value or why it has none."""
    stop = f"{module}:saber_shown" if member == "structure" else "saber_here"
    without_stops(session)
    session.ask_all([f"edit {NAME} {NAME}_on.c", "stop in saber_next", f"stop in {stop}"])
    walked = [session.ask("step").text for _ in range(passes + 1)]
    if [it == "entered saber_next" for it in walked] != [False] * passes + [True]:
        raise Elsewhere("what is next here is not seen in the text: a macro has written it")
    added = added_objects(members_of(session))
    text = moved.original(session.ask("cont").text)
    if violation_of(text):
        raise Lost(f"it has no value: {in_run(text, added) if member != 'structure' else text.partition(' object ')[0]}")
    if text != f"entered {stop}":
        raise Lost(f"it was not evaluated: {text}")
    _, _, same, number, is_unsigned, pointer, function, _ = members_of(session)
    if member == "structure":
        shown = session.ask("print saber_value").text.partition(" = ")[2]
        return in_run(shown, (*added, int(pointer.split()[1])))
    shown = {"number": same if is_unsigned == "1" else number, "pointer": pointer, "function": function,
             "place": f"a structure at {pointer}", "nothing": "no value"}[member]
    return in_run(shown, added)


def members_of(session):
    """The members of the added object."""
    answer = session.ask(f"print {NAME}")
    if answer.is_refused:
        raise Lost(f"the name {NAME} is taken")
    return parts_of(answer.text.partition(" = ")[2])


def added_objects(members):
    """The numbers of the objects that the copy adds: the two of its module, behind all others as the run begins, and the constant's next one."""
    last, on = int(members[0].split()[1]), int(members[-1].split()[1])
    return last - 1, last, on


def in_run(text, added):
    """A text with the numbers of objects that the user's run has, which lacks the added ones."""
    def original(found):
        number = int(found[1])
        return f"object {number - sum(it < number for it in added)}"
    return re.sub(r"\bobject (\d+)", original, text)
