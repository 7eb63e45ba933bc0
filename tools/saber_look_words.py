"""The words of a prompt that look at a run: where it stands, or by a replay where it ended."""
import re
import sys

from saber_debug import Debuggee, frame_of, stands_again
from saber_outer import Looker
from saber_report import Explanation
from saber_search import OVER, Lost
from saber_session import Module, Trouble
from saber_source import Sources, block_around, names_in
from saber_tell import Teller, explain
from saber_words import help_lines

NAME = re.compile(r"[A-Za-z_]\w*")


def say(text):
    print(text, flush=True)


class Looks:
    """Looks at the last run of a shell.

    `ending` is the text with which it ended, if it did. A run that ended by a fault, or was ended by Ctrl-C, is looked at
    by another session, which a replay brings to that place.
    """

    def __init__(self, shell):
        self._shell, self._looker, self._own, self._explained, self._at, self.ending = shell, None, None, None, 0, ""

    # what a run comes to

    def forget(self):
        """Forgets the place at which the run stood."""
        if self._looker:
            self._looker.close()
        if self._own:
            self._own.close()
        self._looker = self._own = self._explained = None
        self._at, self.ending = 0, ""

    def halted(self, text):
        """Takes the answer to a go."""
        self.forget()
        self.ending = text if text.startswith(OVER) else ""

    @property
    def is_over(self):
        """Whether the run ended, by itself or by Ctrl-C."""
        return bool(self.ending or self._own)

    @property
    def is_aside(self):
        """Whether the run is looked at by a replay: it ended by a fault, or by Ctrl-C."""
        return bool(self._own) or bool(self._shell.run and self.ending and self._explanation().can_be_told)

    def _explanation(self):
        self._explained = self._explained or Explanation(self._shell.run.setup(), self._sources(), self.ending)
        return self._explained

    def _sources(self):
        return Sources([Module(name, self._shell.texts.path(name)) for name in self._shell.texts.modules])

    def _look(self):
        """What looks at the place where the run stands or ended."""
        shell = self._shell
        if not self._looker and self.is_aside:
            say("-- the run is repeated up to where it ended")
            way = self._explanation().arrive()
            self._own = way.session
            self._looker = Looker(shell.run.base, way.session, way.commands, shell.run.lines, shell.run.is_changed, self._explanation().third)
        elif not self._looker and shell.run and not self.ending:
            self._looker = Looker(shell.run.base, shell.session, shell.run.commands, shell.run.lines, shell.run.is_changed)
        if not self._looker or not self._looker.calls():
            raise Lost("no run stands here")
        return self._looker

    def interrupted(self, command, output, seconds):
        """Shows what a run that was ended by Ctrl-C had printed, and where it stood."""
        run = self._shell.run
        if command not in ("run", "cont", "step", "next") or not run:
            return
        if run.is_changed:
            say("-- where it stood is not looked for, since modules were changed while it stood before")
            return
        say("-- the run is repeated up to where it stood; Ctrl-C gives that up")
        try:
            self._repeat(run, "run" if command == "run" else "cont", output, seconds)
        except KeyboardInterrupt:
            self.forget()
            say("\n-- given up")
        except (Lost, Trouble) as reason:
            self.forget()
            say(f"-- it was not found: {reason}")

    def _repeat(self, run, command, output, seconds):
        debuggee = Debuggee(run.base, self._show, run.output + output)
        self._own = debuggee
        text = stands_again(debuggee, run.commands, command, seconds)
        self._looker = debuggee.looker
        if debuggee.is_over:
            say(f"-- it came to an end: {text}")
            self.forget()
            return
        say("-- it stood here, or came by here last")
        self._calls(self._looker)

    def _show(self, told):
        sys.stdout.buffer.write(told)
        sys.stdout.buffer.flush()

    # the words

    def own(self, words, line):
        """Does a line of the prompt's own words."""
        does = getattr(self, f"_do_{words[0]}")
        try:
            does(words[1:], line.strip()[len(words[0]):].strip())
        except (Lost, Trouble) as reason:
            say(f"-- {reason}")
        except KeyboardInterrupt:
            say("\n-- given up")

    def as_the_program(self, words):
        """Answers `where` and `print` where the run ended, as the program answers them where a run stands."""
        try:
            told = self._look().session.ask(" ".join(words))
            say("\n".join(f"> {it}" for it in told.lines))
        except (Lost, Trouble) as reason:
            say(f"-- the place was not found: {reason}")
        except KeyboardInterrupt:
            say("\n-- given up")

    def _do_help(self, _, __):
        say("\n".join(help_lines()))

    def _do_p(self, words, text):
        if not words:
            raise Lost("p takes a name or an expression")
        looker = self._look()
        value = looker.values([text], self._at).get(text) if NAME.fullmatch(text) else None
        value = looker.evaluate(text, self._at) if value is None else value
        say(f"{text} = {value}" + self._when(looker))

    def _when(self, looker):
        """Of which moment the values of an outer call are."""
        line = looker.begun(self._at)
        return f"   (as line {line} was begun)" if line else ""

    def _do_bt(self, _, __):
        self._calls(self._look())

    def _calls(self, looker):
        teller = Teller(self._sources(), sys.stdout)
        for at, line in enumerate(looker.shown()):
            teller.say(f"#{at}{'*' if at == self._at else ' '} {teller.call(line)}")

    def _do_up(self, words, _):
        self._move(int(words[0]) if words and words[0].isdecimal() else 1)

    def _do_down(self, words, _):
        self._move(-int(words[0]) if words and words[0].isdecimal() else -1)

    def _move(self, by):
        calls = self._look().shown()
        self._at = max(0, min(self._at + by, len(calls) - 1))
        say(f"#{self._at}* {Teller(self._sources(), sys.stdout).call(calls[self._at])}")

    def _do_info(self, words, _):
        if words != ["locals"]:
            raise Lost("info locals shows the names of the function; list shows the rest")
        looker = self._look()
        frame = frame_of(looker.calls()[self._at])
        if frame.is_object:
            raise Lost("the call is in compiled code")
        lines = self._sources().lines(frame.module)
        block = block_around(lines, frame.line)
        found = looker.values(names_in(lines[block.start - 1:block.stop - 1]), self._at)
        say("\n".join(f"{name} = {value}" for name, value in found.items()) + self._when(looker) if found else "-- no names")

    def _do_why(self, _, __):
        if not self.is_aside or not self.ending:
            raise Lost("no run ended by an undefined step, a crash, a full stack, abort or a failed assertion")
        if self._shell.run.is_changed:
            raise Lost("the modules were changed while the run stood; where and print show the place")
        explain(self._explanation(), Teller(self._sources(), sys.stdout))

    def _do_finish(self, _, __):
        if self.is_aside:
            raise Lost("the run is over")
        calls = self._look().calls()
        frames = [it for it in map(frame_of, calls[1:]) if it]
        lines = {f"at {it.module}:{line}" for it in frames if not it.is_object for line in self._shell.run.lines.around(it.module, it.line)}
        if not lines:
            raise Lost("this is the outermost call" if not frames else "the calls around are compiled")
        text, numbers = "", []
        for stop in sorted(lines - set(self._shell.journal.stops.values())):
            numbers.append(self._shell.give(f"stop {stop}", False).split()[1])
        helpers = lines - {it for number, it in self._shell.journal.stops.items() if str(number) not in numbers}
        while (text := self._shell.give("cont", False)) is not None and text in helpers:
            if len(self._shell.session.ask("where").lines) < len(calls):
                break
        for number in numbers:
            if text is not None:
                self._shell.give(f"delete {number}", False)
        say(f"> {text}" if text is not None else "")

    def remark(self, words):
        """Says of a stop that was taken if nothing is there for it."""
        if words[1] == "in":
            keys = [it.split()[2] for it in self._shell.session.ask("list").lines if it.startswith("fun ")]
            near = [it for it in keys if it.partition(":")[2] == words[2]]
            if words[2] not in keys:
                say(f"-- no module defines {words[2]} yet" + (f"; there is {' and '.join(near)}" if near else ""))
            return
        name, _, line = words[2].partition(":")
        if name in self._shell.texts.modules and self._shell.texts.modules[name][2] != "source":
            say(f"-- {name} runs compiled, so a stop at its lines never comes")
        elif name in self._shell.texts.modules:
            self._remark_line(name, int(line))

    def _remark_line(self, name, line):
        found = self._shell.lines_of(name)
        if line not in found:
            below = next((it for it in sorted(found) if it > line), None)
            say(f"-- nothing stands on line {line} of {name}, so that this stop never comes" + (f"; the next such line is {below}" if below else ""))
