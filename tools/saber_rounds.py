"""Runs a program again and again, each time with less that is watched, until it ends by itself.

Compiled code tests nothing, so behind the undefined step of a report its module runs compiled: while the line is carried out
that called it, if that is a line of interpreted code and is carried out seldom enough; else from the start on. The rest is
watched further on.
"""
import dataclasses
import re

from saber_aside import Aside, TooOften
from saber_debug import Echo, frame_of
from saber_follow import Scene
from saber_once import run_once, show_bytes
from saber_report import RULES
from saber_session import status_of

# So many lines are carried out aside for one module, before all of it is given up.
MOST_LINES = 8


@dataclasses.dataclass(frozen=True)
class Step:
    """An undefined step that a run took: its report, its place in the user's file, the scene there, and its calls as they are told.

    `reported` is the place that the report tells: another one where the step is in the third part of a `for`. Both are nothing where
    they are not known.
    """
    violation: object
    place: object
    reported: object
    scene: Scene = Scene(())
    told: tuple = ()

    @property
    def name(self):
        """Its rule and place, as a line of a file of known steps has them."""
        at = f"{self.place.file}:{self.place.line}" if self.place else self.violation.key
        return f"{self.violation.rule} {at}"

    @property
    def aside(self):
        """The innermost interpreted line that led into the step's own call, as one to be carried out aside; nothing where there is none."""
        for begun, call in zip(self.scene.begun[1:], self.scene.calls[1:]):
            if found := re.fullmatch(r"\S+ at (\w+):(\d+)", begun):
                third = frame_of(call).line
                return Aside(found[1], int(found[2]), self.violation.module, third if third != int(found[2]) else 0)
        return None


def step_of(explanation):
    """The step in which a run ended."""
    seen = explanation.violation
    if not seen.line:
        return Step(seen, None, None)
    own, place = explanation.third or seen.line, explanation.sources.place
    return Step(seen, place(seen.module, own), place(seen.module, seen.line))


class Rounds:
    """The rounds of a run. `given` are the words of the command line, `known` the steps that do not count; `ended` is called as a round ends."""

    def __init__(self, given, modules, known, ended):
        self._given, self._modules, self._known, self._ended = given, modules, known, ended
        self._echo, self.steps, self._reported = Echo(show_bytes), [], []
        self._text, self._is_over, self._last = "", False, None
        self._compiled, self._asides, self._sources = [it.name for it in modules if it.is_object], [], None

    def run(self):
        """Does all rounds, tells of each, and gives the exit status; what was found is told also where a round fails."""
        try:
            status = self._rounds()
        finally:
            self._tell()
        if any(not self._is_known(it) for it in self.steps):
            return 1
        return status if self._text else 3

    def _rounds(self):
        """Runs the program until it ends, or until it is not to go on; the status of the last run."""
        while True:
            self._echo.begin_again()
            try:
                status = run_once(self._given, self._modules, self._echo, self._is_passed, self._take, tuple(self._asides))
            except TooOften as reason:
                self._give_up(reason.callees, f"-- {reason}: ")
                continue
            if self._text.startswith("refused C13"):
                print("-- no module has a main: give the file of a driver too, or words by which its main is not left out")
            if self._text or not self._goes_on():
                self._is_over = True
                return status

    def _is_passed(self, explanation):
        """Whether the end of a round is not explained: a step that is known or was listed before, or each by --brief."""
        self._ended()
        if explanation.violation is None:
            return self._given.brief
        step = step_of(explanation)
        return self._given.brief or self._is_known(step) or self._is_listed(step)

    def _is_known(self, step):
        return any(it.is_of(step) for it in self._known)

    def _is_listed(self, step):
        return any(it.name == step.name for it in self.steps)

    def _take(self, explanation, teller):
        """Takes what is to be told at the end of a round."""
        self._sources = teller.sources
        if explanation.violation is None:
            self._text = explanation.text
            return
        step = step_of(explanation)
        goes_on = self._given.go_on or self._is_known(step)
        scene = explanation.found_scene() if goes_on or not self._given.brief else Scene(())
        told = () if self._given.brief or self._is_known(step) else tuple(map(teller.call, scene.calls))
        self._last = dataclasses.replace(step, scene=scene, told=told)
        if self._is_listed(step):
            print("-- this one is in the list already")
        else:
            self.steps.append(self._last)

    def _goes_on(self):
        """Has what the last report is about run compiled, if the run is to go on and can."""
        is_known, name = self._is_known(self._last), self._last.violation.module
        if is_known:
            print("-- this one is known")
        if not (self._given.go_on or is_known):
            return False
        if name in self._compiled:
            print(f"-- the run cannot go on behind this one: {name} is compiled already", flush=True)
            return False
        aside = self._last.aside
        if aside and aside not in self._asides and [it.callee for it in self._asides].count(name) < MOST_LINES:
            self._asides.append(aside)
            print(f"-- {name} runs compiled while {self._called(aside)} is carried out, and is not watched there; the program is run again", flush=True)
        else:
            self._give_up([name], "-- ")
        return True

    def _called(self, aside):
        place, third = (self._sources.place(aside.module, it) for it in (aside.line, aside.third))
        return f"{place.file}:{place.line}" + (f" with the third part of {third.file}:{third.line}" if aside.third else "")

    def _give_up(self, names, why):
        """Has modules run compiled from the start on, and with them those that ran so only where their lines were carried out."""
        names = list(names)
        while more := [it.callee for it in self._asides if it.module in names and it.callee not in names]:
            names += dict.fromkeys(more)
        are = "run compiled from here on, and are" if len(names) > 1 else "runs compiled from here on, and is"
        print(f"{why}{', '.join(names)} {are} no longer watched; the program is run again", flush=True)
        self._compiled += names
        self._reported += names
        self._asides = [it for it in self._asides if it.callee not in names]
        self._modules = [dataclasses.replace(it, is_object=it.name in self._compiled) for it in self._modules]

    def _tell(self):
        """The list of all steps, and what was not watched to the end."""
        if not (self._given.go_on or self._known) or not self.steps:
            return
        print(f"-- {len(self.steps)} undefined steps, in the order of their reports" if len(self.steps) > 1 else "-- 1 undefined step")
        for step in self.steps:
            rule = step.violation.rule
            print(f"  {'known: ' if self._is_known(step) else ''}{step.name} in {step.violation.key}: {RULES[rule]}")
            for call in step.told:
                print("      " + call)
        self._tell_unwatched()
        end = self._text or ("it ended in the last step of the list" if self._is_over else "it was not brought to its end")
        print(f"-- the last run: {end}", flush=True)

    def _tell_unwatched(self):
        for name in dict.fromkeys(it.callee for it in self._asides):
            places = ", ".join(self._called(it) for it in self._asides if it.callee == name)
            print(f"-- {name} was not watched while these lines were carried out: {places}")
        if self._reported:
            print(f"-- not watched behind their reports: {', '.join(self._reported)}")
        before = [it for it in self._compiled if it not in self._reported]
        if before:
            print(f"-- not watched at all: {', '.join(before)}")
