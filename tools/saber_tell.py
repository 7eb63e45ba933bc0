"""Writes what was found about the end of a run, with the places of the user's files."""
import re

from saber_report import RULES
from saber_search import Lost

MOST_CALLS = 20
MOST_VALUE = 120


class Teller:
    """Writes what was found, with the places of the user's files."""

    def __init__(self, sources, sink):
        self.sources, self._sink = sources, sink

    def say(self, text):
        """Writes a line at once, since a search may take seconds."""
        print(text, file=self._sink, flush=True)

    def call(self, line):
        """A call, with the text of its source line, or of each line at which it may stand."""
        found = re.search(r" at (\w+:\d+(?: or \w+:\d+)*)$", line)
        places = [(it[1], int(it[2])) for it in re.finditer(r"(\w+):(\d+)", found[1])] if found else []
        if not any(number for _, number in places):
            return line
        told = (self.sources.place(*it) for it in places)
        return f"{line:<32} " + " or ".join(f"{it.file}:{it.line}: {it.text}" for it in told)

    def calls(self, lines, indent="    "):
        shown = list(lines)
        if len(shown) > MOST_CALLS:
            half = MOST_CALLS // 2
            shown = [*shown[:half], f".. {len(shown) - MOST_CALLS} more calls ..", *shown[-half:]]
        for line in shown:
            self.say(indent + self.call(line))

    def report(self, explanation):
        """What the rule means, and the source line; those of a `for` in whose third part the run ended, or may have ended."""
        violation, (thirds, is_third) = explanation.violation, explanation.thirds()
        self.say(f"-- {violation.rule}: {RULES[violation.rule]}")
        if not violation.line:
            self.say(f"-- the line is in compiled code of {violation.module}; leave it in source form to see it")
            return
        place = self.sources.place(violation.module, violation.line)
        if not is_third:
            self.say(f"-- at {place.file}:{place.line}")
            self._lines(violation.module, violation.line, len(self.sources.statement(violation.module, violation.line)))
        for loop in thirds:
            head = self.sources.place(violation.module, loop.line)
            self.say(f"-- {'' if is_third else 'or '}at {head.file}:{head.line}, in the third part of the `for`, behind line {place.line}")
            self._lines(violation.module, loop.line, loop.parts[2][-1].line - loop.line + 1)

    def _lines(self, module, first, count):
        for at in range(count):
            self.say(f"    {self.sources.place(module, first + at).text}")

    def scene(self, scene, when, line=0):
        """The calls and values; `when` tells of which moment they are, and `line` the line before which the values are so."""
        self.say("-- calls, the innermost one first" + when)
        self.calls(scene.calls)
        if scene.values:
            self.say(f"-- values, before {f'line {line}' if line else 'this line'} is carried out")
            for it in scene.values:
                self.say("    " + (it if len(it) <= MOST_VALUE else it[:MOST_VALUE] + " .."))

    def block(self, number, block, is_dead):
        self.say(f"-- object {number} is a heap block of {block.size} bytes, which {block.caller} gave here")
        self.calls(block.born)
        if block.died:
            self.say("-- and it died here")
            self.calls(block.died)
        elif is_dead:
            self.say("-- and where it died was not seen")

    def birth(self, number, birth, is_dead):
        name = f"{birth.name}, " if birth.name else ""
        self.say(f"-- object {number} is {name}{birth.kind}" + (", born here" if birth.calls else ""))
        self.calls(birth.calls)
        if is_dead and birth.left:
            self.say("-- and it died as its block was left, at the latest behind this line")
            self.calls([birth.left])
        elif is_dead:
            self.say("-- and where it died was not seen")


def explain(explanation, teller):
    """Tells all that can be found; what cannot is said too."""
    violation = explanation.violation
    if violation:
        teller.report(explanation)
    elif explanation.is_aborted:
        teller.say("-- a failed assertion and abort end so")
    try:
        place = teller.sources.place(violation.module, violation.line) if explanation.third else None
        teller.scene(explanation.scene(), explanation.when(), place.line if place else 0)
    except Lost as reason:
        teller.say(f"-- the calls were not found: {reason}")
    for number in violation.numbers if violation else ():
        explain_object(explanation, teller, number)


def explain_object(explanation, teller, number):
    """Tells the life of an object that the report names."""
    is_dead = explanation.violation.rule == "U3" or f"dead object {number}" in explanation.text
    try:
        block = explanation.block(number)
        if block:
            teller.block(number, block, is_dead)
        else:
            teller.birth(number, explanation.birth(number, is_dead), is_dead)
    except Lost as reason:
        teller.say(f"-- the birth of object {number} was not found: {reason}")
