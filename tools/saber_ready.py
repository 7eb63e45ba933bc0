"""Makes the modules of a run of C files: those that `load` takes stay as they are, of the others the pre-pass writes copies."""
import pathlib
import sys
import tempfile

from saber_prep.notes import Failure
from saber_prep.project import Project, module_names
from saber_prep.source import Options
from saber_prep.telling import lines_of
from saber_search import functions_of
from saber_session import Module, Session, Trouble, TwoHeaders, View, loaded, module_of, refused
from saber_source import Sources


# letters of a line that are shown
MOST_SHOWN = 100


class NotReady(Trouble):
    """A file that the pre-pass cannot write so that `load` takes it; `has_words` tells whether words of a command line may help."""

    def __init__(self, text, has_words, status=2):
        super().__init__(text, status)
        self.has_words = has_words


def placed(reason, modules):
    """The refusal of a prepared text, with the place that it has in the user's file."""
    place = Sources(modules).place(reason.module, reason.line)
    text = place.text if len(place.text) <= MOST_SHOWN else place.text[:MOST_SHOWN] + " .."
    return refused(f"{reason}, which is {place.file}:{place.line}: {text}")


def as_they_are(program, files):
    """The modules of those files that `load` takes as they are, by their files, and the functions that these define for others."""
    plain = {it: module_of(it) for it, name in zip(files, module_names(files)) if it.suffix == ".c" and it.stem == name}
    if not plain:
        return {}, set()
    try:
        with View(list(plain.values())) as view, Session(program, view.folder) as session:
            taken = {file: it for file, it in plain.items() if not loaded(session, f"load {it.name}").text.startswith("refused C5 ")}
            return taken, {it for it in functions_of(session) if ":" not in it}
    except TwoHeaders:  # the pre-pass keeps them apart
        return {}, set()


class Ready:
    """The modules of a run, in the order of the files, with the support modules behind them.

    `folder` is where the copies are written; without it they are in one that goes with this object. With `is_all` each file
    is copied. What was done is told to standard error.
    """

    def __init__(self, program, files, options=Options(), folder=None, is_all=False, is_quiet=False, is_verbose=False):
        self._room = tempfile.TemporaryDirectory(prefix="saber-")
        try:
            taken, own = ({}, set()) if is_all else as_they_are(program, files)
            self._project = Project(options, pathlib.Path(folder or self._room.name), own)
            self.modules, failures = self._made(files, taken)
            for line in lines_of(self._project, is_quiet, is_verbose):
                print(line, file=sys.stderr)
            if failures:
                told = list(dict.fromkeys(map(str, failures)))
                raise NotReady("; ".join(told), any("not found" in it for it in told), 4 if any(it.status == 4 for it in failures) else 2)
            if self._project.has_problems:
                raise NotReady("what is named `not taken` cannot be loaded; its lines say which words or edits help", True)
        except BaseException:
            self.close()
            raise

    def _made(self, files, taken):
        """The modules, and what failed."""
        modules, failures = [], []
        for file, name in zip(files, module_names(files)):
            if file in taken:
                modules.append(taken[file])
                continue
            try:
                self._project.write(file, name)
                modules.append(Module(name, self._project.output.resolve() / f"{name}.c"))
            except Failure as fault:
                failures.append(fault)
        try:
            modules += [Module(it.stem, it.resolve()) for it in self._project.support()]
        except Failure as fault:
            failures.append(fault)
        return modules, failures

    def close(self):
        self._room.cleanup()

    def __enter__(self):
        return self

    def __exit__(self, *_):
        self.close()
