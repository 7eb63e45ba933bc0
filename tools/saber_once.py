"""Runs modules, shows what the program writes, and explains how the run ended."""
import os
import sys
import time

from saber_aside import AsideSetup
from saber_debug import Debuggee, stands_again
from saber_follow import Scene
from saber_report import Explanation
from saber_search import Lost
from saber_session import Setup, Trouble, View, find_program, sizes_of, status_of
from saber_source import Sources
from saber_tell import Teller, explain


def show_bytes(told):
    sys.stdout.buffer.write(told)
    sys.stdout.buffer.flush()


def ran(setup, sources, turns, show):
    """How the run ended. If Ctrl-C ends it, it is told where it stood, and that ends the work."""
    shown = bytearray()

    def keep(told):
        shown.extend(told)
        show(told)
    with setup.start(turns=turns) as session:
        try:
            return session.ask(setup.run, keep).text
        except KeyboardInterrupt:
            seconds = session.seconds()
    print("\n-- ended by Ctrl-C; the run is repeated up to where it stood", flush=True)
    debuggee = Debuggee(setup, show_bytes, bytes(shown))
    try:
        text, teller = stands_again(debuggee, (), "run", seconds), Teller(sources, sys.stdout)
        if debuggee.is_over:
            teller.say(f"-- it came to an end: {text}")
        else:
            teller.scene(Scene(debuggee.looker.shown()), ", where it stood or came by last")
    finally:
        debuggee.close()
    raise Trouble("the run was ended by Ctrl-C", 3)


class Kept(Explanation):
    """An explanation whose scene is found once."""

    def __init__(self, *words):
        super().__init__(*words)
        self._scene = None

    def scene(self):
        if self._scene is None:
            self._scene = super().scene()
        return self._scene

    def found_scene(self):
        """The calls and values where the run ended; none where they are not found."""
        try:
            return self.scene()
        except Lost:
            return Scene(())


def run_once(given, modules, show=show_bytes, is_known=None, take=None, asides=()):
    """Runs the modules by the words of a command line, tells how the run ended and why, and returns the status.

    An end that `is_known`, as its explanation shows it, is not explained. `take` is given the explanation and the teller
    before the files of the run are gone. `asides` are lines that are carried out with other modules compiled.
    """
    with View(modules, given.input) as view:
        words = find_program(given.program), view, sizes_of(vars(given))
        setup = AsideSetup(*words, asides) if asides else Setup(*words)
        sources = Sources(modules)
        text = ran(setup, sources, given.turns, show)
        print("> " + text, flush=True)
        began = time.monotonic()
        explanation, teller = Kept(setup, sources, text), Teller(sources, sys.stdout)
        is_passed = bool(is_known and is_known(explanation))
        if explanation.can_be_told and not is_passed:
            explain(explanation, teller)
            print(f"-- found in {time.monotonic() - began:.1f} s", flush=True)
        if take:
            take(explanation, teller)
    return status_of(text)


def guarded(tool, work):
    """The status of a tool's work; what ends it early is told in one line."""
    try:
        return work()
    except Trouble as trouble:
        sys.stdout.flush()
        print(f"{tool}: {trouble}", file=sys.stderr)
        return trouble.status
    except KeyboardInterrupt:
        print(f"{tool}: ended by Ctrl-C", file=sys.stderr)
        return 3
    except BrokenPipeError:
        os.dup2(os.open(os.devnull, os.O_WRONLY), sys.stdout.fileno())
        return 3
    except OSError as error:
        print(f"{tool}: {error.filename or 'a pipe'}: {error.strerror}", file=sys.stderr)
        return 3
