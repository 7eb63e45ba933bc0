"""Comes to a place of a run again, by the commands that led there. A run is the same each time."""
from dataclasses import dataclass

from saber_search import Lost
from saber_session import GOES, MOST_TURNS

CHANGES = ("load", "unload", "swap", "edit")
# A walk by lines is lost where the turns of a slice end it, so a repeated one gets more than it can have had.
SLICE = 4_000_000


def is_go(command):
    return command.split()[0] in GOES


def has_changes(commands):
    """Whether the modules were changed while a run stood."""
    first = next((at for at, it in enumerate(commands) if is_go(it)), len(commands))
    return any(it.split()[0] in CHANGES for it in commands[first:])


def go_again(session, commands, passed=""):
    """Gives a session the commands, each go over as many slices as it takes; gives the last halt. A walk goes through the halt that is passed."""
    halt = ""
    for command in commands:
        answer = session.ask(command)
        while answer.text.startswith("paused") or answer.text == passed:
            answer = session.ask(command if answer.text == passed else "cont")
        if answer.is_refused:
            raise Lost(f"{command}: {answer.text}")
        halt = answer.text if is_go(command) else halt
    return halt


def repeat(session, commands):
    """Gives a new session the commands. A session that is refused one is closed."""
    try:
        go_again(session, commands)
    except BaseException:
        session.close()
        raise
    return session


def without_stops(session):
    """Takes all stops of a session away."""
    session.ask_all([f"delete {it.split()[1]}" for it in session.ask("list").lines if it.startswith("stop ")])
    return session


@dataclass(frozen=True)
class Changed:
    """A setup of a run whose modules were changed while it stood: its sessions do again what led to the run's last go."""
    base: object
    past: tuple

    # no text that a replay could be made of is that of the whole run
    view = None

    @property
    def program(self):
        return self.base.program

    @property
    def options(self):
        return self.base.options

    @property
    def _before(self):
        """What came before the last go."""
        last = max(at for at, it in enumerate(self.past) if is_go(it))
        return self.past[:last]

    @property
    def run(self):
        return "cont" if any(map(is_go, self._before)) else self.base.run

    def start(self, *options, turns=MOST_TURNS):
        """A session that stands before the last go, without stops."""
        return without_stops(repeat(self.base.start(*options, turns=max(turns, SLICE)), self._before))


def setup_of(base, past):
    """A setup that repeats a run to which these commands led: the given one, if the run's modules stayed as they were."""
    return Changed(base, tuple(past)) if has_changes(past) else base
