"""Runs a module compiled while some lines of others are carried out, and interpreted before and behind them.

Compiled code tests nothing, so a run goes on behind an undefined step in what such a line calls, and all else is watched. A module
goes over between its forms at a stop: a session halts before the line, changes the form, goes on to the next line of that call
or of one further out, and changes it back. Whoever asks the session sees none of these halts.
"""
import re
from dataclasses import dataclass, field, replace

from saber_lines import Lines
from saber_replay import is_go
from saber_search import OVER
from saber_session import Session, Setup, Trouble

# So often the lines are carried out in one session. Each change of a form takes longer than the one before: 10 take a tenth of a second, and 50 four.
MOST_TIMES = 32


@dataclass(frozen=True)
class Aside:
    """A line of a module, and a module that runs compiled while it is carried out; `third` is the line of the `for` whose third part follows and calls it."""
    module: str
    line: int
    callee: str
    third: int = field(default=0, compare=False)

    @property
    def stop(self):
        return f"at {self.module}:{self.line}"


class TooOften(Trouble):
    """A line that is carried out more often than a session can follow; `callees` are the modules that it is for."""

    def __init__(self, callees):
        super().__init__(f"{', '.join(callees)} is called there too often", 3)
        self.callees = callees


class AsideSession(Session):
    """A session that carries lines out with other modules compiled."""

    def __init__(self, *words):
        super().__init__(*words)
        self._callees, self._stops, self._helpers, self._lines, self._times = {}, {}, [], None, 0
        # how many calls are active where a line is carried out, 0 where none is; and whether a walk comes to its end
        self._depth, self._walks, self._swapped = 0, False, ()

    def set_aside(self, asides, lines):
        """Takes the lines, before a run begins; `lines` are those of the modules on which statements begin."""
        self._lines = lines
        for it in asides:
            self._callees.setdefault(it.stop, []).append(it.callee)
        super().ask_all([*(f"compile {it}" for it in dict.fromkeys(it.callee for it in asides)), *(f"stop {it}" for it in self._callees)])

    def ask(self, command, show=None):
        is_walk = command in ("step", "next")
        answer = super().ask(self._as_given(command), show)
        if is_go(command):
            while not self._is_halt(answer.text, is_walk):
                answer = super().ask(self._as_given("cont"), show)
        elif command.startswith("stop ") and not answer.is_refused:
            self._stops[answer.text.split()[1]] = command[5:]
        elif command.startswith("delete "):
            self._stops.pop(command.split()[1], None)
        return answer

    def ask_all(self, commands):
        return [self.ask(it) for it in commands]

    def _as_given(self, command):
        """The command that is given for one."""
        if command != "cont" or not self._depth:
            return command
        if self._walks:
            return "next"
        self._help()
        return command

    def _is_halt(self, text, is_walk):
        """Whether a halt is one for whoever asks; changes forms where a line begins or has ended."""
        if text.startswith((*OVER, "paused")):
            self._walks = False
            return True
        if self._depth and self._active() <= self._depth:
            self._shut()
        if self._depth:
            self._walks = False
        elif text in self._callees:
            self._open(self._callees[text])
        return is_walk or text.replace("entered ", "in ") in self._stops.values()

    def _active(self):
        return len(super().ask("where").lines)

    def _open(self, callees):
        self._times += 1
        if self._times > MOST_TIMES:
            raise TooOften(callees)
        super().ask_all([f"swap {it} object" for it in callees])
        self._depth, self._walks, self._swapped = self._active(), True, callees

    def _shut(self):
        super().ask_all([*(f"delete {it}" for it in self._helpers), *(f"swap {it} source" for it in self._swapped)])
        self._depth, self._helpers = 0, []

    def _help(self):
        """Stops at all lines to which the call of the line, or one further out, may come, where a walk was broken off."""
        calls = super().ask("where").lines[-self._depth:] if not self._helpers else ()
        places = [found for it in calls if (found := re.fullmatch(r"\S+ at (\w+):(\d+)", it))]
        stops = dict.fromkeys(f"at {it[1]}:{line}" for it in places for line in self._lines.around(it[1], int(it[2])))
        self._helpers += [it.text.split()[1] for it in super().ask_all([f"stop {it}" for it in stops]) if not it.is_refused]


@dataclass(frozen=True)
class AsideSetup(Setup):
    """A setup whose sessions carry some lines out with other modules compiled."""
    asides: tuple = ()

    kind = AsideSession

    def over(self, view):
        return replace(self, view=view, asides=tuple(replace(it, line=it.line + view.added_lines) for it in self.asides))

    def start(self, *options, **more):
        session = super().start(*options, **more)
        session.set_aside(self.asides, Lines(self.view.folder))
        return session
