"""Looks at a run that stands: its calls, and names and expressions in each of them.

`print` knows the names of the innermost call alone. For an outer one a replay stops at the line of that call, and the last
halt there with the same calls around it, before the place at which the run stands, is the wanted one.
"""
import re

from saber_look import evaluated
from saber_replay import SLICE, has_changes, repeat
from saber_search import COUNTS, OVER, Lost, at_line
from saber_search import SLICE as SLICE_OF_NOTES

# So many passes of the line are gone through, and so many calls are read there.
MOST_PASSES = 20_000
MOST_CALLS = 500_000


def lines_begun(report):
    """How many lines were begun, as a counting probe tells it."""
    return int(dict(COUNTS.findall(report.text))["at"])


def place_of_outer(setup, commands, calls, at):
    """The commands that lead from a new session to where a call, of those to which other commands led, last began its line."""
    found = re.fullmatch(r"\S+ at (\w+:\d+)", calls[at])
    if not found:
        raise Lost("the call is in compiled code")
    if not setup.view or has_changes(commands):
        raise Lost("the modules were changed while this run stood")
    with setup.start("--count", turns=SLICE) as session:
        end = lines_begun(repeat(session, commands).ask("report 1"))
    return commands_to(setup, f"at {found[1]}", end, tuple(calls[at:]))


def commands_to(setup, stop, end, calls):
    """The commands to the last halt at a stop with these calls, up to a number of lines."""
    last, count, read, command = 0, 0, 0, setup.run
    with setup.start("--count", turns=SLICE_OF_NOTES) as session:
        session.ask(f"stop {stop}")
        while count < MOST_PASSES and read < MOST_CALLS:
            answer, command = session.ask(command), "cont"
            if answer.text.startswith(OVER) or lines_begun(session.ask("report 1")) > end:
                break
            if not answer.text.startswith("paused"):
                where = session.ask("where").lines
                count, read = count + 1, read + len(where)
                last = count if where == calls else last
        else:
            raise Lost("its line was begun too often to find the last time")
    if not last:
        raise Lost("its line was not found again")
    return (f"stop {stop}", setup.run, *["cont"] * (last - 1))


class Looker:
    """A session that stands at a place of a run, and what leads there: a setup and commands.

    Of a run whose modules were changed only names of the innermost call are known. `lines` are those of the modules. `third` is the line of
    the `for` in whose third part the run ended; its values are as its last line was begun.
    """

    def __init__(self, setup, session, commands, lines, is_changed=False, third=0):
        self._setup, self.session, self._commands, self._lines, self._is_changed = setup, session, tuple(commands), lines, is_changed
        self._third, self._ways, self._asides = third, {}, {}

    def close(self):
        """Ends the sessions that stand in outer calls; the given one stays."""
        for it in self._asides.values():
            it.close()
        self._asides = {}

    def calls(self):
        """The active calls as `where` shows them, the innermost one first; none where the run shows none."""
        answer = self.session.ask("where")
        return () if answer.is_refused else answer.lines

    def shown(self):
        """The active calls; one in the third part of a `for` is at the line of the `for`, if the modules are those with which the run began."""
        is_changed = self._is_changed or has_changes(self._commands)
        calls = self.calls() if is_changed else self._lines.standing(self.calls())
        return (at_line(calls[0], self._third), *calls[1:]) if self._third and calls else calls

    def begun(self, at):
        """The line as which was begun the values of a call are; 0 where the run stands before it."""
        found = re.fullmatch(r"\S+ at \w+:(\d+)", self.calls()[at])
        return int(found[1]) if found and (at or self._third) else 0

    def values(self, names, at=0):
        """The values of those names that stand for objects in a call: 0 is the innermost one; outer ones are as they last began a line."""
        told = self._aside(at).ask_all([f"print {it}" for it in names])
        return dict(it.text.split(" = ", 1) for it in told if " = " in it.text)

    def evaluate(self, expression, at=0):
        """The value of an expression in a call."""
        return evaluated(self._setup, self._way_to(at), self.calls()[at:], expression)

    def _way_to(self, at):
        """The commands that lead to where a call last began its line."""
        if self._is_changed:
            raise Lost("the modules were changed while this run stood, so that only names of the innermost call can be shown")
        if at and at not in self._ways:
            self._ways[at] = place_of_outer(self._setup, self._commands, self.calls(), at)
        return self._ways[at] if at else self._commands

    def _aside(self, at):
        """A session that stands where a call last began its line."""
        if at and at not in self._asides:
            self._asides[at] = repeat(self._setup.start(turns=SLICE), self._way_to(at))
        return self._asides[at] if at else self.session
