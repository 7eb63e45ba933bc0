"""A text in which a statement stands on a line of its own, so that another one can go before it.

Commands of a run are translated for that text, and what a session over it tells is translated back.
"""
import re
from dataclasses import dataclass

# The line of the statement is that of what stands before it, and the other one, the statement, and what stands behind follow.
ADDED = 3


@dataclass(frozen=True)
class Moved:
    """The module and the line of the statement. Nothing is moved where the line is 0."""
    module: str = ""
    line: int = 0

    @staticmethod
    def changes(statement, other):
        """What is put into the text, as pairs of a place and a piece."""
        return [(statement.first.at, "{\n" + other + ";\n"), (statement.last.end, "\n}")]

    @property
    def passed(self):
        """The halt at the statement itself, which a walk goes through, since the other one stands for it."""
        return f"at {self.module}:{self.line + 2}" if self.line else ""

    def commands(self, given):
        """Commands that lead to the place to which the given ones lead in the user's text."""
        made, numbers, count = [], {}, 0
        for command in given:
            words = command.split()
            if words[0] == "stop":
                stops = self._stops(command)
                numbers[str(len(numbers) + 1)] = range(count + 1, count + len(stops) + 1)
                made, count = made + stops, count + len(stops)
            elif words[0] == "delete":
                made += [f"delete {it}" for it in numbers[words[1]]]
            else:
                made.append(command)
        return made

    def _stops(self, command):
        """The stops for one of the user's text."""
        found = self.line and re.fullmatch(rf"stop at {self.module}:(\d+)", command)
        if not found or int(found[1]) < self.line:
            return [command]
        added = (0, 1, ADDED) if int(found[1]) == self.line else (ADDED,)
        return [f"stop at {self.module}:{int(found[1]) + it}" for it in added]

    def original(self, text):
        """What was told, with the lines of the user's text."""
        def line_of(found):
            line = int(found[2])
            return found[1] + str(line if line <= self.line else max(self.line, line - ADDED))
        return re.sub(rf"\b({self.module}(?:\.c)?:)(\d+)\b", line_of, text) if self.line else text
