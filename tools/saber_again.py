"""What a session at a prompt has done: the lines that made it, and those of its last run, so that both can be done again."""
from dataclasses import dataclass, field, replace
from functools import cached_property

from saber_lines import Lines
from saber_replay import CHANGES, has_changes, is_go, setup_of
from saber_session import Module, Setup, View

# the number of a stop that is taken away stays free by one that never comes
NOWHERE = "in saber_nowhere"


@dataclass
class Journal:
    """The accepted lines that made the session what it is, without those that later ones undid; and its stops by number."""
    lines: list = field(default_factory=list)
    stops: dict = field(default_factory=dict)
    last_stop: int = 0

    def note(self, line, answer):
        """Notes a line that was answered so, if it changed modules, forms, stops or probes."""
        words = line.split()
        if not words or answer.startswith("refused ") or answer == "no memory":
            return
        if words[0] in ("unload", "edit", "swap"):
            undone = {"unload": ("load", "edit", "swap"), "edit": ("edit", "swap"), "swap": ("swap",)}[words[0]]
            self.lines = [it for it in self.lines if it.split()[0] not in undone or it.split()[1] != words[1]]
        if words[0] == "stop":
            self.last_stop = int(answer.split()[1])
            self.stops[self.last_stop] = " ".join(words[1:])
        elif words[0] == "delete":
            self.stops.pop(int(words[1]), None)
        elif words[0] in ("load", "edit", "drop") or (words[0] == "swap" and words[2] in ("object", "fast")):
            self.lines.append(" ".join(words))

    def stop_lines(self):
        """Lines that set the stops in a new session, each with its number."""
        lines = []
        for number in range(1, self.last_stop + 1):
            lines += [f"stop {self.stops[number]}"] if number in self.stops else [f"stop {NOWHERE}", f"delete {number}"]
        return lines

    def play(self, session):
        """Gives the lines to a new session; yields those that are refused now, with their answers."""
        for line in self.lines:
            answer = session.ask(line).text
            if answer.startswith("refused "):
                yield f"{line}: {answer}"
        for line in self.stop_lines():
            answer = session.ask(line).text
            if answer.startswith("refused "):
                yield f"{line}: {answer}"
                number = session.ask(f"stop {NOWHERE}").text.split()[1]
                session.ask(f"delete {number}")


@dataclass
class Texts:
    """The modules of a session in their order: the file, the text that was translated, and the form of each."""
    folder: object
    modules: dict = field(default_factory=dict)

    def note(self, words):
        """Takes an accepted line that changed a module."""
        command, name = words[:2]
        if command == "unload":
            self.modules.pop(name, None)
        elif command == "swap":
            self.modules[name] = (*self.modules[name][:2], words[2])
        else:
            path = self.folder / (words[2] if len(words) > 2 else f"{name}.c")
            self.modules[name] = (path, read(path), "source")

    def path(self, name):
        """The file of a module's text."""
        return self.modules[name][0]

    def view(self, given):
        """A view of the modules in their present forms and texts."""
        made = [Module(name, path, form != "source", form == "fast") for name, (path, _, form) in self.modules.items()]
        view = View(made, given, self.folder)
        for name, (_, text, _) in self.modules.items():
            view.replace(f"{name}.c", text)
        return view


def read(path):
    """A file's bytes; none where it cannot be read any more."""
    try:
        return path.read_bytes()
    except OSError:
        return b""


class Run:
    """The last run of a session: what it began with, the commands since, and what the program wrote."""

    def __init__(self, program, options, texts, journal, line):
        words = line.split()
        self._program, self._options, self._given = program, options, words[1] if len(words) > 1 else None
        self._texts = replace(texts, modules=dict(texts.modules))
        self.commands, self.output = journal.stop_lines(), b""

    @cached_property
    def view(self):
        """A view of the texts with which the run began, and of those that came since."""
        return self._texts.view(self._given)

    @cached_property
    def lines(self):
        return Lines(self.view.folder)

    @property
    def base(self):
        """The setup with which the run began."""
        return Setup(self._program, self.view, self._options)

    @property
    def is_changed(self):
        """Whether modules were changed while the run stood."""
        return has_changes(self.commands)

    def close(self):
        if "view" in vars(self):
            self.view.close()

    def setup(self):
        """A setup that repeats the run up to its last go."""
        return setup_of(self.base, self.commands)

    def note(self, line, texts):
        """Takes an accepted line, in the form in which a replay gives it."""
        words = line.split()
        if words[0] == "run":
            self.commands.append(self.base.run)
        elif is_go(line) or words[0] in ("stop", "delete", "unload"):
            self.commands.append(" ".join(words))
        elif words[0] in CHANGES:
            self._change(words, texts)

    def _change(self, words, texts):
        command, name = words[:2]
        if command == "swap":
            self.commands += [f"compile {name}{' fast' if words[2] == 'fast' else ''}"] if words[2] != "source" else []
            self.commands.append(" ".join(words))
            return
        path, text, _ = texts.modules[name]
        file = f"saber_{len(self.commands)}_{path.name}"[-63:] if command == "edit" else f"{name}.c"
        self.view.replace(file, text)
        self.lines.edited(name, file)
        self.commands.append(f"edit {name} {file}" if command == "edit" else f"load {name}")
