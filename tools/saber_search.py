"""Finds places of a run again. A run is the same each time, so a place is how often a session went on with which stops.

A search goes from entry to entry of functions first, since those are few, and from the last entry before the wanted
event by lines. Where the entries are too many for one session it begins with those functions that are entered rarely.
"""
import re
from dataclasses import dataclass

# Each halt takes two commands and thereby four lines, and a session takes 1,000,000.
MOST_HALTS = 200_000
# So many are tried before it is begun with the rare ones.
FIRST_HALTS = 30_000
BATCH = 100
# A probe keeps the notes of a go until the go halts, so sessions with one go in slices, of which a processor's cache has room for the notes.
SLICE = 400_000
OVER = ("exit ", "violation ", "crashed ", "stack full", "birth limit", "refused ", "no memory")
COUNTS = re.compile(r"(\w+) (\d+)")


class Lost(Exception):
    """A place was not found within what one session takes."""


@dataclass(frozen=True)
class Halt:
    """Where a run halted, how many objects were born, how many calls were active, and how many went to the library."""
    text: str
    births: int
    depth: int
    library: int = 0

    @property
    def is_over(self):
        return self.text.startswith(OVER)


@dataclass(frozen=True)
class Leg:
    """A part of a way: the stops that are set, and how many of their halts are passed."""
    stops: tuple
    count: int


# before the first halt of a run
START = Halt("", 0, 0)


@dataclass(frozen=True)
class Track:
    """The halts with some stops up to an event. The first one is where the legs end, and the last one is past the event."""
    legs: tuple
    stops: tuple
    halts: tuple

    def legs_to(self, at):
        """The legs to one of the halts."""
        return (*self.legs, Leg(self.stops, at)) if at else self.legs


@dataclass(frozen=True)
class Violation:
    """The parts of a report that a search needs. `line` is 0 in compiled code; `numbers` are those of its objects."""
    rule: str
    key: str
    module: str
    line: int
    numbers: tuple


def violation_of(text):
    """The violation that an answer tells, or nothing."""
    found = re.match(r"violation (U\d+) in (\S+) at (\w+):(\d+)(.*)", text)
    if not found:
        return None
    numbers = dict.fromkeys(int(it) for it in re.findall(r"\bobject (\d+)", found[5]))
    return Violation(found[1], found[2], found[3], int(found[4]), tuple(numbers))


def at_line(call, line):
    """A call as `where` shows it, at another line."""
    return re.sub(r":\d+$", f":{line}", call)


def halt_of(answer, report):
    """A halt, by the answer that tells it and a counting probe's report."""
    counts = {kind: int(number) for kind, number in COUNTS.findall(report.text)}
    return Halt(answer.text, counts["birth"], counts["enter"] - counts["leave"], counts["lib"])


@dataclass(frozen=True)
class Step:
    """A halt of a run, and the calls there."""
    halt: Halt
    calls: tuple


def functions_of(session):
    """The keys of the functions that the modules define."""
    return [it.split()[2] for it in session.ask("list").lines if it.startswith("fun ")]


class Way:
    """A session on its way: the stops that it has, and its next command to go on. `commands` are those that led to where it is."""

    def __init__(self, setup, is_counting):
        self._setup, self._numbers, self.commands = setup, [], []
        options, turns = (("--count",), SLICE) if is_counting else ((), 10 ** 9)
        self.session, self._began, self._halted = setup.start(*options, turns=turns), False, False

    def set_stops(self, stops):
        """Takes the former stops away and sets these."""
        commands = [f"delete {it}" for it in self._numbers] + [f"stop {it}" for it in stops]
        self.commands += commands
        told = self.session.ask_all(commands)[len(self._numbers):]
        self._numbers = [found[1] for it in told if (found := re.match(r"stop (\d+) ", it.text))]

    def go(self, count, then=(), command="cont"):
        """Goes on up to `count` halts; yields each one's answer and those to the commands `then` behind it."""
        while count > 0:
            group = [command, *then]
            wanted = min(count, BATCH)
            commands = group * wanted
            if not self._began:
                commands[0], self._began = self._setup.run, True
            told = self.session.ask_all(commands)
            for at in range(0, len(told), len(group)):
                if told[at].text.startswith("paused"):
                    continue
                self.commands.append(command if self._halted else self._setup.run)
                count, self._halted = count - 1, True
                yield told[at], told[at + 1:at + len(group)]
                if told[at].text.startswith(OVER):
                    return

    def follow(self, legs):
        """Goes a way that was gone before."""
        for leg in legs:
            self.set_stops(leg.stops)
            for _ in self.go(leg.count):
                pass


class Search:
    """Searches one run, over as many sessions as it takes."""

    def __init__(self, setup):
        self.setup = setup
        with setup.start() as session:
            self.functions = functions_of(session)

    def way(self, legs, is_counting=False):
        """A way that went these legs."""
        way = Way(self.setup, is_counting)
        way.follow(legs)
        return way

    def halts(self, legs, stops, is_past, most):
        """Up to `most` halts behind a way with these stops, the last one past the wanted event; whether that was reached."""
        found = []
        way = self.way(legs, True)
        with way.session:
            way.set_stops(stops)
            for answer, (report,) in way.go(most, ("report 1",)):
                found.append(halt_of(answer, report))
                if found[-1].is_over or is_past(found[-1]):
                    return found, True
        return found, False

    def approach(self, stops, is_past):
        """A track with these stops that reaches the event; it begins late enough in the run for one session."""
        found, is_reached = self.halts((), stops, is_past, FIRST_HALTS)
        if is_reached:
            return Track((), stops, (START, *found))
        rare = rarer(stops, found)
        legs, start = (), START
        if rare:
            track = self.approach(rare, is_past)
            legs, start = track.legs_to(len(track.halts) - 2), track.halts[-2]
        found, is_reached = self.halts(legs, stops, is_past, MOST_HALTS)
        if not is_reached:
            raise Lost(f"it was not reached within {MOST_HALTS} halts")
        return Track(legs, stops, (start, *found))


def rarer(stops, halts):
    """The stops whose halts are few among those that were seen: together a twentieth of them."""
    seen = dict.fromkeys(stops, 0)
    for halt in halts:
        where = halt.text.replace("entered ", "in ")
        seen[where] = seen.get(where, 0) + 1
    rare, total = [], 0
    for stop in sorted(seen, key=seen.get):
        total += seen[stop]
        if total * 20 > len(halts):
            break
        rare.append(stop)
    return [it for it in stops if it in rare]
