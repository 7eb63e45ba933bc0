"""Explains how a run ended: the calls, the values on the line, and the life of the object that the report names."""
import re
from dataclasses import dataclass, replace
from functools import cached_property

from saber_follow import Scene, follow
from saber_lines import Lines, functions_in
from saber_search import START, Leg, Lost, Search, Step, at_line, halt_of, violation_of
from saber_session import FAULTS, Trouble
from saber_source import names_in
from saber_statements import loops_around

RULES = {
    "U1": "a byte that is read was never written",
    "U2": "the bytes are not inside the object",
    "U3": "the object is dead",
    "U4": "an access through null",
    "U5": "a pointer leaves its object",
    "U6": "pointers into different objects are ordered or subtracted",
    "U7": "a signed result is out of range",
    "U8": "the divisor is zero",
    "U9": "a shift by less than 0 or more than 31",
    "U10": "the offset is no multiple of the access's size",
    "U11": "a constant object or a string literal is written",
    "U12": "a call of what is no function, or of a function of another type",
    "U13": "the value of a call that gave none is used",
    "U14": "what is freed is no live heap block",
    "U15": "a pointer's bytes are read as a number, or a number's as a pointer",
    "U16": "an argument of a library function is out of its range",
    "U17": "no module defines what is used",
    "U18": "source and target overlap",
}
STATIC = "an object of static storage duration or a string literal"
# an interpreted call as `where` shows it: its function's name, and the module
CALL = re.compile(r"(?:\w+:)?(\w+) at (\w+):(\d+)")
# how a failed assertion and `abort` end a run
ABORTED = "exit 134"
MOST_STEPS = 60_000
# lines of `where` that a search by steps reads
MOST_CALLS = 2_000_000


@dataclass(frozen=True)
class Birth:
    """Where an object of static or automatic storage duration, or a literal, was born. `calls` is empty for static ones."""
    kind: str
    calls: tuple = ()
    left: str = ""
    name: str = ""


class Explanation:
    """Finds what is to be told of a run that ended so. `setup` starts the run again."""

    def __init__(self, setup, sources, text):
        self.setup, self.sources, self.text = setup, sources, text
        self.violation = violation_of(text)

    @property
    def can_be_told(self):
        """Whether there is more to tell of this end of a run than its text."""
        return self.text.startswith(FAULTS) or self.is_aborted

    @property
    def is_aborted(self):
        """Whether the run ended as by `abort`: also by an assertion that failed."""
        return self.text == ABORTED

    @cached_property
    def search(self):
        return Search(self.setup)

    @cached_property
    def _followed(self):
        """What one replay shows of a violation, or nothing."""
        seen = self.violation
        if not seen or not (seen.line or seen.numbers):
            return None
        return follow(self.setup, seen, list(dict.fromkeys([*self._names, *self._names_of_thirds])), self.search.functions)

    @cached_property
    def _names(self):
        """The names on the line of a violation."""
        seen = self.violation
        return names_in(self.sources.statement(seen.module, seen.line)) if seen and seen.line else []

    @cached_property
    def _loops(self):
        """The `for` statements around the line of a violation that have a third part."""
        seen = self.violation
        return loops_around(self.sources.lines(seen.module), seen.line) if seen and seen.line else []

    @property
    def _names_of_thirds(self):
        return names_in(it.text for loop in self._loops for it in loop.parts[2])

    def thirds(self):
        """The `for` statements in whose third part a violation may have come, and whether one of them is the place."""
        if not self._loops or not self._followed or self._followed.third is None:
            return self._loops, False
        found = [it for it in self._loops if it.line == self._followed.third]
        return found, bool(found)

    @property
    def third(self):
        """The line of the `for` in whose third part the run ended; 0 where it ended in none, or where that is not known."""
        found, is_third = self.thirds()
        return found[0].line if is_third else 0

    @cached_property
    def _lines(self):
        """The lines of the modules, if they are those with which the run began."""
        return Lines(self.setup.view.folder) if self.setup.view else None

    def _standing(self, calls, *called):
        """Calls where they stand; the innermost one has called one of these functions, if it is known."""
        return self._lines.standing(calls, called) if self._lines else calls

    def _ended_at(self, calls, values):
        """The scene where the run ended. One that could not enter a function has called it."""
        entered = re.fullmatch(r"stack full entering (\S+)", self.text)
        shown = self._standing(calls, *([entered[1].rpartition(":")[2]] if entered else []))
        return Scene((at_line(shown[0], self.third), *shown[1:]) if self.third else shown, tuple(values), calls)

    @cached_property
    def _legs(self):
        """The way to where the run ended: before the line of a violation, or to the last entry of a function."""
        seen = self.violation
        line = f"at {seen.module}:{seen.line}" if seen and seen.line else None
        if self._followed and self._followed.passes:
            return (Leg((line,), self._followed.passes),)
        stops = (*(f"in {it}" for it in self.search.functions), *([line] if line else []))
        track = self.search.approach(stops, lambda halt: False)
        if track.halts[-1].text != self.text:
            raise Lost("the run does not end so again")
        wanted = line or (f"entered {seen.key}" if seen else None)
        return track.legs_to(last_before_the_end(track.halts, wanted))

    @cached_property
    def _steps_to_the_end(self):
        """How many lines are reached behind the last entry of a function, where the program ended itself; 0 where they are too many."""
        way, count = self.search.way(self._legs), 0
        with way.session:
            way.set_stops(())
            for answer, _ in way.go(MOST_STEPS, command="step"):
                if answer.text == self.text:
                    return count
                count += 1
        return 0

    def arrive(self):
        """A way to where the run ended."""
        way = self.search.way(self._legs)
        if self.is_aborted:
            way.set_stops(())
            for _ in way.go(self._steps_to_the_end, command="step"):
                pass
        return way

    def when(self):
        """Of which moment the calls are, if it is not the line of a violation."""
        if self.is_aborted and self._steps_to_the_end:
            return ", at the last line that was reached"
        return "" if self.violation and self.violation.line else ", as the last function was entered"

    def scene(self):
        """The calls and the values where the run ended."""
        if self._followed and self._followed.scene:
            shown = self._names_of_thirds if self.third else self._names
            values = (it for it in self._followed.scene.values if it.partition(" = ")[0] in shown)
            return self._ended_at(self._followed.scene.calls, values)
        with self.arrive().session as session:
            calls = session.ask("where").lines
            found = CALL.match(calls[0]) if self.is_aborted else None
            names = names_in(self.sources.statement(found[2], int(found[3]))) if found else self._names
            told = session.ask_all([f"print {it}" for it in names])
        return self._ended_at(calls, (it.text for it in told if " = " in it.text))

    def block(self, number):
        """The heap block of this number, if it is known to be one."""
        found = self._followed.blocks.get(number) if self._followed else None
        return found and replace(found, born=self._standing(found.born, found.caller), died=self._standing(found.died, "free", "realloc"))

    def birth(self, number, is_dead):
        """Where an object that is no heap block was born, and for a dead one when its call was left."""
        entries = self._followed and self._followed.entries.get(number)
        found = entries and self._birth_by_entry(number, *entries)
        found = found if found and not is_dead else self._birth_by_steps(number, is_dead)
        return replace(found, calls=self._standing(found.calls))

    def _birth_by_entry(self, number, before, after):
        """The birth of an object that was born as the run began or as a function was entered, by entries around it; else nothing."""
        if not before:
            return Birth(STATIC) if after and after.halt.text == "entered main" else None
        for step, is_parameter in ((after, True), (before, False)):
            found = step and CALL.match(step.calls[0])
            function = found and self._function(found[2], found[1])
            if not function:
                continue
            names = function.parameters if is_parameter else function.objects
            at = number - step.halt.births - 1 + (len(names) if is_parameter else 0)
            if 0 <= at < len(names):
                key = step.calls[0].split()[0]
                kind = f"a parameter of {key}" if is_parameter else f"an object of {key}'s outermost block"
                return Birth(kind, step.calls, "", names[at])
        return None

    def _birth_by_steps(self, number, is_dead):
        """The same by a search of its own, from the last entry before the birth on."""
        stops = tuple(f"in {it}" for it in self.search.functions)
        track = self.search.approach(stops, lambda halt: halt.births >= number)
        if track.halts[-1].births < number:
            raise Lost("the object was not born again")
        if track.halts[-2] is START:
            if not self.setup.view:
                raise Lost("it was born before the modules were changed, or soon behind that")
            return Birth(STATIC)
        legs = track.legs_to(len(track.halts) - 2)
        before, after, count = self._steps(legs, stops, number, track.halts[-2])
        inner = after.calls
        # a call of the library in between may have been one that gives a block
        is_no_block = before.halt.library == after.halt.library
        left = self._left(legs, stops, count + 1, inner) if is_dead and is_no_block else ""
        is_deeper = len(inner) > len(before.calls)
        kind = kind_of(before.halt.text, after.halt.text, is_deeper, (*before.calls[:1], *inner[:1]), is_no_block)
        name = self._name(kind, number, before.halt, after.halt, inner[0])
        return Birth(kind, inner if is_deeper else before.calls, left, name)

    def _function(self, module, name):
        """What the text of a module tells of a function, if it can be read."""
        if not self.setup.view:
            return None
        try:
            return next((it for it in functions_in(self.setup.view.folder, module) if it.name == name), None)
        except Trouble:
            return None

    def _name(self, kind, number, before, after, call):
        """The name of a parameter or an object of a function's outermost block; empty where it is not known.

        They are born in the order of the text: the parameters as the function is entered, the objects behind that.
        """
        found = CALL.match(call)
        if not found or not kind.startswith(("a parameter of ", "an object of ")):
            return ""
        function = self._function(found[2], found[1])
        if not function:
            return ""
        is_parameter = kind.startswith("a parameter of ")
        names = function.parameters if is_parameter else function.objects
        at = number - 1 - (after.births - len(names) if is_parameter else before.births)
        return names[at] if 0 <= at < len(names) and (is_parameter or "outermost" in kind) else ""

    def _steps(self, legs, stops, number, before):
        """The steps around the object's birth from a halt on, and how many lie before it."""
        way, count, lines = self.search.way(legs, True), 0, 0
        with way.session:
            before = Step(before, way.session.ask("where").lines)
            way.set_stops(stops)
            for answer, (report, where) in way.go(MOST_STEPS, ("report 1", "where"), "step"):
                step, lines = Step(halt_of(answer, report), where.lines), lines + len(where.lines)
                if step.halt.births >= number:
                    return before, step, count
                if lines > MOST_CALLS:
                    break
                before, count = step, count + 1
        raise Lost(f"the object's birth was not reached within {count} lines")

    def _left(self, legs, stops, count, inner):
        """The last line of a call, which stands so many steps behind a halt, before it was left; empty if it never was."""
        way, last = self.search.way(legs), inner[:1]
        with way.session:
            way.set_stops(stops)
            for _ in way.go(count, command="step"):
                pass
            way.set_stops(())
            for answer, (where,) in way.go(MOST_STEPS, ("where",), "next"):
                if where.is_refused or answer.is_refused:
                    return ""
                if len(where.lines) < len(inner):
                    return last[0] if last else ""
                last = where.lines[:1]
        return ""


def last_before_the_end(halts, wanted):
    """The last halt at the wanted place in the call that was active at the end; any last halt if no place is wanted."""
    end = halts[-1]
    for at in range(len(halts) - 2, -1, -1):
        if not wanted or (halts[at].text == wanted and halts[at].depth == end.depth):
            return at
    raise Lost("the run does not come to the place again")


def kind_of(before, after, is_deeper, calls, is_no_block):
    """What kind of object was born between two halts, as far as they and the innermost calls there tell it."""
    function = calls[-1].split()[0] if calls else "main"
    heap = "" if is_no_block else "a heap block or "
    if any(" object block " in it for it in calls):
        return heap + "a parameter or an object of a block"
    if after.startswith("entered "):
        return heap + f"a parameter of {after[8:]}"
    if before.startswith("entered "):
        return f"an object of {function}'s outermost block"
    if is_deeper:
        return heap + f"a parameter of {function} or an object of its outermost block"
    return heap + "an object of a block"
