"""A run that is stopped, looked at and gone on with, in slices, so that it can be paused.

While a run goes on a session answers nothing, and where its turns are used up it takes no stop and shows no call. So the
commands that led to the present place are kept: a run is the same each time, and a new session comes to a place near the
one where it was paused by entries of functions and by lines.
"""
import re
from dataclasses import dataclass

from saber_lines import Lines
from saber_outer import Looker
from saber_replay import SLICE, has_changes, setup_of
from saber_search import OVER, functions_of

# A place that was seen so often is no rare one.
OFTEN = 3
# a depth that no stack reaches
ANY = 1 << 30


@dataclass(frozen=True)
class Frame:
    """A call: its function's key, its module and line. The line of compiled code is that of a block of it."""
    key: str
    module: str
    line: int
    is_object: bool


def frame_of(text):
    """The call that a line of `where` tells; of more lines than one at which it may stand the first is taken."""
    found = re.fullmatch(r"(\S+) at (\w+):(\d+)(?: or .*)?", text)
    if found:
        return Frame(found[1], found[2], int(found[3]), False)
    found = re.fullmatch(r"(\S+) in (\w+) object block (\d+)", text)
    return Frame(found[1], found[2], int(found[3]), True) if found else None


class Echo:
    """Keeps what was shown, and takes it off what a repeated run writes again.

    A stop puts a line feed behind bytes that end within a line, so that one more or less is no difference.
    """

    def __init__(self, show, shown=b""):
        self._show, self._shown, self._at = show, bytearray(shown), 0

    def begin_again(self):
        self._at = 0

    def __call__(self, told):
        for at, byte in enumerate(told):
            while self._at < len(self._shown) and self._shown[self._at] != byte and self._shown[self._at] == 10:
                self._at += 1
            if self._at == len(self._shown):
                self._shown += told[at:]
                self._at = len(self._shown)
                self._show(bytes(told[at:]))
                return
            if self._shown[self._at] == byte:
                self._at += 1


@dataclass(frozen=True)
class Goal:
    """What a go is for: its first command, and the stops that are set for it alone.

    A halt at such a stop while more than `depth` calls are active is passed.
    """
    first: str
    depth: int = 0
    helpers: tuple = ()


class Debuggee:
    """The program that is debugged. `show` gets the bytes that it writes, each once, but for those that were shown before.

    It is stopped, or between two slices of a go, or over.
    """

    def __init__(self, setup, show, shown=b""):
        self._setup, self._echo, self.lines = setup, Echo(show, shown), Lines(setup.view.folder)
        self.session = setup.start(turns=SLICE)
        self.functions = functions_of(self.session)
        self._objects = {it.name for it in setup.view.modules if it.is_object}
        # the commands that led to the last halt, and the present go with its slices
        self._past, self._goal, self._slices = [], None, 0
        self._numbers, self.is_over, self.is_changed = {}, False, False
        self._looker, self._third = None, 0

    def close(self):
        self._look_no_more()
        self.session.close()

    def _look_no_more(self):
        if self._looker:
            self._looker.close()
        self._looker = None

    @property
    def looker(self):
        """What looks at the run where it stands."""
        if not self._looker or self._looker.session is not self.session:
            self._look_no_more()
            self._looker = Looker(self._setup, self.session, self._past, self.lines, self.is_changed, self._third)
        return self._looker

    def take(self, past):
        """Does what led to a place of a run, with stops that stay."""
        for command in past:
            text = self._ask_whole(command).text
            self._past.append(command)
            found = re.match(r"stop (\d+) (.*)", text)
            if found:
                self._numbers[found[2]] = found[1]
            elif command.startswith("delete "):
                self._numbers = {stop: it for stop, it in self._numbers.items() if it != command.split()[1]}
            self.is_over = self.is_over or text.startswith(OVER)

    @property
    def is_going(self):
        return self._goal is not None

    def set_stops(self, wanted):
        """Sets just these stops, each as `in F` or `at M:N`."""
        for stop in [it for it in self._numbers if it not in wanted]:
            self._change(f"delete {self._numbers.pop(stop)}")
        for stop in wanted:
            if stop not in self._numbers:
                found = re.match(r"stop (\d+) ", self._change(f"stop {stop}").text)
                if found:
                    self._numbers[stop] = found[1]

    def _change(self, command):
        self._past.append(command)
        return self.session.ask(command)

    def begin(self, command):
        """Begins a go: `run`, `cont`, `step`, `next`, or `out`, which leaves the present call."""
        self._look_no_more()
        if command == "out":
            frames = self._frames()
            self._go_by_stops(frames[1:], len(frames) - 1)
        else:
            self._goal, self._slices = Goal(self._setup.run if command == "run" else command), 0

    def slice(self):
        """Goes on for one slice. Gives the halt's text, or nothing if the run goes on."""
        command = "cont" if self._slices else self._goal.first
        text = self.session.ask(command, self._echo).text
        if text.startswith("paused"):
            if command in ("step", "next"):
                self._walk_by_stops()
            else:
                self._slices += 1
            return None
        self._past.append(self._goal.first)
        self.is_over = text.startswith(OVER)
        if not self.is_over and not self._is_reached(text):
            self._goal, self._slices = Goal("cont", self._goal.depth, self._goal.helpers), 0
            return None
        self._end_goal()
        return text

    def _is_reached(self, text):
        """Whether a halt ends the go."""
        is_helper = text.replace("entered ", "in ") in self._goal.helpers
        return not is_helper or len(self._frames()) <= self._goal.depth

    def _end_goal(self):
        helpers, self._goal, self._slices = self._goal.helpers, None, 0
        self.set_stops([it for it in self._numbers if it not in helpers])

    def _walk_by_stops(self):
        """A walk that took more than a slice is lost. It is begun again, by stops at all lines of the calls' functions."""
        is_step = self._goal.first == "step"
        self._come_again()
        frames = self._frames()
        self._go_by_stops(frames, ANY if is_step else len(frames), self.functions if is_step else ())

    def _go_by_stops(self, frames, depth, functions=()):
        """Begins a go that ends in one of these calls or functions, where no more than so many calls are active."""
        wanted = dict.fromkeys([f"at {it.module}:{line}" for it in frames if not it.is_object for line in self.lines.around(it.module, it.line)])
        wanted |= dict.fromkeys(f"in {it}" for it in functions)
        helpers = tuple(it for it in wanted if it not in self._numbers)
        self.set_stops([*self._numbers, *helpers])
        self._goal, self._slices = Goal("cont", depth, helpers), 0

    def _come_again(self):
        """A new session at the last halt."""
        self.session.close()
        self.session = self._setup.start(turns=SLICE)
        self._echo.begin_again()
        for command in self._past:
            self._ask_whole(command)

    def _ask_whole(self, command):
        """Where a go comes to, over as many slices as it takes; or the answer of another command."""
        answer = self.session.ask(command, self._echo)
        while answer.text.startswith("paused"):
            answer = self.session.ask("cont", self._echo)
        return answer

    def pause(self):
        """Stops a go at this moment or shortly before it; gives the halt's text if it comes to its end or a stop before."""
        if not self._slices and (text := self.slice()) is not None:
            return text
        if not self._slices:
            self._end_goal()
            return ""
        goal, own = self._goal, [it for it in self._numbers if it not in self._goal.helpers]
        text = self._creep(goal.first, self._slices, own)
        if not text:
            # this loop is where it was: the last place before it that was seen rarely, and then any place
            self._come_again()
            self.set_stops([*own, *self._everywhere(own)])
            text = self._ask_whole("cont").text
            self._past.append("cont")
            self.is_over = text.startswith(OVER)
            text = text if self.is_over or text.replace("entered ", "in ") in own else ""
        self._goal, self._slices = None, 0
        self.set_stops(own)
        return text

    def _creep(self, command, slices, own):
        """Goes on from the last halt for so many slices, with stops at all places that were seen rarely so far.

        Gives the halt's text if the run is over before, or comes to one of the user's own stops.
        """
        self._come_again()
        self.set_stops([*own, *self._everywhere(own)])
        seen, begun = {}, command
        while slices > 0:
            text = self.session.ask(command, self._echo).text
            command = "cont"
            if text.startswith("paused"):
                slices -= 1
                continue
            self._past.append(begun)
            begun, stop = command, text.replace("entered ", "in ")
            self.is_over = text.startswith(OVER)
            if self.is_over or stop in own:
                return text
            seen[stop] = seen.get(stop, 0) + 1
            if seen[stop] == OFTEN:
                self.set_stops([it for it in self._numbers if it != stop])
        return ""

    def _everywhere(self, own):
        """Stops at all functions and lines but for the user's own."""
        stops = [f"in {it}" for it in self.functions]
        for module in self._setup.view.modules:
            if module.name not in self._objects:
                stops += [f"at {module.name}:{line}" for line in self.lines.of(module.name)]
        return [it for it in stops if it not in own]

    def change(self, words, text=None):
        """Changes a module at a stop, by the words of `swap` or `edit`; `text` is the text that `edit` takes. Gives the answer."""
        self._look_no_more()
        command, name, form = words[0], words[1], (words[2:] or [""])[0]
        if command == "edit":
            file = f"saber_{len(self._past)}_{form}"[-63:]
            self._setup.view.replace(file, text)
            told = self._change_by(f"edit {name} {file}")
            if not told.startswith("refused "):
                self.lines.edited(name, file)
                self._objects.discard(name)
            return told.replace(file, form)
        if form in ("object", "fast"):
            told = self._change_by(f"compile {name}" + (" fast" if form == "fast" else ""))
            if told.startswith("refused "):
                return told
        told = self._change_by(" ".join(words))
        if not told.startswith("refused "):
            (self._objects.discard if form == "source" else self._objects.add)(name)
        return told

    def _change_by(self, command):
        """Gives a command that is done again in each replay, if it is not refused."""
        answer = self.session.ask(command)
        if not answer.is_refused:
            self._past.append(command)
            self.functions = functions_of(self.session)
        return answer.text

    def setup(self):
        """A setup that repeats this run."""
        return setup_of(self._setup, self._past)

    def look_from(self, way, third):
        """Looks at the run from another session from now on: one on a way that stands where the run ended, perhaps in the third part of a `for`."""
        self._look_no_more()
        self._third = third
        self.session.close()
        self.is_changed = has_changes(self._past)
        self.session, self._past = way.session, way.commands

    def frames(self):
        """The active calls where they stand, the innermost one first; none where the run shows none."""
        return [it for it in map(frame_of, self.looker.shown()) if it]

    def _frames(self):
        """The same in the midst of a go, each at the line that it began last."""
        answer = self.session.ask("where")
        return [] if answer.is_refused else [it for it in map(frame_of, answer.lines) if it]


def stands_again(debuggee, past, command, seconds):
    """Brings a debuggee to about where a run was that took so much processor time for a go, behind the commands before it.

    Gives the text with which the go came to a halt before, or nothing.
    """
    debuggee.take(past)
    begun, text = debuggee.session.seconds(), None
    debuggee.begin(command)
    while text is None and debuggee.session.seconds() - begun < seconds:
        text = debuggee.slice()
    return debuggee.pause() if text is None else text
