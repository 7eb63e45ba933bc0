"""Follows a run once more up to its undefined step: where it ended, and the life of the objects that the report names.

One replay on the copy of the texts that `saber_heap` makes tells all of it. It halts at each event of the heap, as a
function is entered, and each time the line of the report or the third part of a `for` around it is reached; what was
seen at the last halt on the line is the scene of the end. Where the replay does not end with the same report, nothing
is claimed.
"""
from collections import Counter
from dataclasses import dataclass, field, replace

from saber_heap import ADDED_LINES, CALLS, NAME, Block, HeapCopy, Numbers, calls_in_original, number_of
from saber_search import BATCH, OVER, Lost, Step, Way, halt_of, violation_of
from saber_session import MOST_LINES, Trouble

EVENTS = ("in saber_born", "in saber_dies")
THIRD = "in saber_third"
# So many passes of a line are waited for, and so many calls are read there; a search by entries finds the others.
MOST_PASSES = 20_000
MOST_CALLS = 500_000
# The same for all entries of functions, and for those of one.
MOST_ENTRIES = 10_000
MOST_OF_ONE = 200


@dataclass(frozen=True)
class Scene:
    """A place of a run: the calls, the innermost one first, and the values of names there; `begun` are the calls at the lines that they began last."""
    calls: tuple
    values: tuple = ()
    begun: tuple = ()


@dataclass
class Followed:
    """What a replay showed. `blocks` are heap blocks, by the number of the object.

    `entries` are the last entry of a function before the birth of an object and the first one behind it, as Steps, of those
    that were waited for; the former is nothing for what is born as the run begins, and the latter where none came. There is no scene, and `passes`, the count
    of passes of the line at which it stands, is 0, where the line was reached too often, or where its function was active
    more than once, so that the last pass may be that of an inner call. `third` is the line of the `for` in whose third part
    the run ended, 0 if it ended in none, and nothing where that is not known.
    """
    blocks: dict = field(default_factory=dict)
    entries: dict = field(default_factory=dict)
    scene: Scene = None
    passes: int = 0
    third: int = None


def follow(setup, violation, names, functions):
    """What a replay shows of this violation, of these names on its line, and of entries of these functions.

    Nothing where it ends in another way.
    """
    if not setup.view:
        return None
    try:
        with HeapCopy(setup.view, violation.module, violation.line) as view:
            return Follower(violation, functions).followed(setup.over(view), names)
    except (Trouble, Lost):
        return None


def members(answer):
    """The members of the object that the copy adds, as `print` shows them."""
    if answer.is_refused:
        raise Lost("the copy's object is hidden")
    return answer.text.partition(" = ")[2].strip("{}").split(", ")


class Follower:
    """What was seen so far of a replay on the copy."""

    def __init__(self, violation, functions):
        self._violation = violation
        self._line = f"at {violation.module}:{violation.line + ADDED_LINES}" if violation.line else None
        self._numbers, self._caller = Numbers(), ""
        self._stops_in = {f"in {it}": it for it in functions} if violation.numbers else {}
        self._passes = self._thirds = self._calls = self._calls_of_entries = 0
        self._entered, self._last, self._seen = Counter(), None, Followed()

    def followed(self, setup, names):
        """What the replay of a setup over the copy shows, or nothing."""
        asked = ("report 1", "print saber_heap", "where", *(f"print {it}" for it in names))
        # births are counted for the report's objects alone, since a probe makes a run dearer
        way, stops = Way(setup, bool(self._violation.numbers)), ()
        with way.session:
            while way.session.lines < MOST_LINES - 4 * BATCH * len(asked):
                if stops != self._stops():
                    stops = self._stops()
                    way.set_stops(stops)
                for answer, told in way.go(BATCH, asked):
                    if answer.text.startswith(OVER):
                        return self._whole() if self._is_same(violation_of(answer.text)) else None
                    self._halted(answer, *told)
        return None

    def _is_same(self, other):
        """Whether a report of the copy is that of the user's texts. One in a function of the copy is its caller's."""
        own = self._violation
        if not other or own.rule != other.rule or tuple(map(self._numbers.original, other.numbers)) != own.numbers:
            return False
        if other.module == NAME:
            return self._caller in (f"{own.key} at {own.module}:{own.line}", f"{own.key} in {own.module} object")
        return (own.key, own.module, own.line and own.line + ADDED_LINES) == (other.key, other.module, other.line)

    def _whole(self):
        """What was seen up to the end of the run."""
        for number in self._violation.numbers:
            self._seen.entries.setdefault(number, (self._last, None))
        return self._seen

    def _stops(self):
        """Where the replay is to halt from now on."""
        is_few = self._entered.total() <= MOST_ENTRIES and self._calls_of_entries <= MOST_CALLS
        rare = (stop for stop, key in self._stops_in.items() if is_few and self._entered[key] <= MOST_OF_ONE)
        return (*EVENTS, *rare, *((self._line, THIRD) if self._line and not self._is_hot() else ()))

    def _is_hot(self):
        return self._passes > MOST_PASSES or self._thirds > MOST_PASSES or self._calls > MOST_CALLS

    def _halted(self, answer, report, heap, where, *values):
        """Takes what was told at one halt."""
        calls, stop = calls_in_original(where.lines), answer.text.replace("entered ", "in ")
        if stop.startswith("in ") and stop not in (*EVENTS, THIRD):
            halt = halt_of(answer, report)
            self._numbers.begin(halt.births)
            self._entry(stop[3:], Step(replace(halt, births=self._numbers.original(halt.births)), calls))
            return
        parts = members(heap)
        self._numbers.note(parts, where.lines)
        if stop in EVENTS:
            self._caller = calls[0].partition(" block ")[0]
            self._event(stop, parts, calls)
        elif stop == THIRD:
            self._third(int(parts[7]), calls)
        else:
            self._pass(calls, [it.text for it in values])

    def _entry(self, key, step):
        """A function was entered."""
        self._entered[key] += 1
        self._calls_of_entries += len(step.calls)
        for number in self._violation.numbers:
            if step.halt.births >= number:
                self._seen.entries.setdefault(number, (self._last, step))
        self._last = step

    def _pass(self, calls, values):
        """The line was reached, perhaps by another function of the line."""
        self._passes, self._calls = self._passes + 1, self._calls + len(calls)
        is_sure = self._is_sure(calls)
        if calls[0].split()[0] == self._violation.key or self._is_hot():
            values = tuple(self._numbers.text(it) for it in values if " = " in it)
            self._seen.scene = Scene(calls, values) if is_sure else None
            self._seen.passes = self._passes if is_sure else 0
            self._seen.third = 0 if is_sure else None

    def _third(self, line, calls):
        """The third part of a `for` around the line is carried out."""
        self._thirds, self._calls = self._thirds + 1, self._calls + len(calls)
        self._seen.third = line if self._is_sure(calls) else None
        if self._is_hot():
            self._seen.scene, self._seen.passes = None, 0

    def _is_sure(self, calls):
        """Whether the call at a halt is the one that the report means, as far as this goes by the calls."""
        keys = [it.split()[0] for it in calls]
        return keys.count(keys[0]) == 1 and not self._is_hot()

    def _event(self, event, parts, calls):
        """A block was given, or is to be given back."""
        _, given, old, _, size, items, caller, _ = parts
        if event == "in saber_dies":
            self._change(old, died=calls)
            return
        if int(caller) == CALLS.index("realloc") and given == "null" and int(size):
            # no memory was left, and the old block lives
            self._change(old, died=())
        number = self._numbers.original(number_of(given))
        if number in self._violation.numbers and number not in self._seen.blocks:
            self._seen.blocks[number] = Block(int(size) * int(items), CALLS[int(caller)], calls)

    def _change(self, pointer, **what):
        """Notes what became of the block to which a pointer leads."""
        number = self._numbers.original(number_of(pointer))
        if number in self._seen.blocks:
            self._seen.blocks[number] = replace(self._seen.blocks[number], **what)
