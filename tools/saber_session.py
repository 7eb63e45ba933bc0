"""Talks with the program `saber` over two pipes. Every tool of this folder goes through this module.

A session is asked commands and gives an answer for each. Where an answer ends is found by a second command behind each
one: `drop K` with a number that no program can guess is refused in every state and changes nothing.
"""
import ctypes
import os
import pathlib
import random
import re
import select
import shutil
import signal
import subprocess
import tempfile
from dataclasses import dataclass, field, replace

ROOT = pathlib.Path(__file__).resolve().parent.parent
GOES = ("run", "step", "next", "cont", "stepi")
FAULTS = ("violation ", "crashed ", "stack full")
MOST_TURNS = 1_000_000_000
# A session takes 1,000,000 command lines; some are kept for the commands around a search.
MOST_LINES = 990_000
# A batch has to fit into the pipe, so that neither side waits for the other.
MOST_IN_A_BATCH = 500
# The seconds of processor time in which a text has to be translated; one of the greatest size takes a few.
MOST_SECONDS = 5
# the largest file that the program reads
MOST_BYTES = 8_388_608
PR_SET_PDEATHSIG = 1
MODULE = re.compile(r"[A-Za-z][A-Za-z0-9_]{0,30}")
FILE = re.compile(r"[A-Za-z0-9_][A-Za-z0-9_.-]{0,62}")


class Trouble(Exception):
    """What ends a tool: one line that says what and where, and the tool's exit status; `hint` names what may help."""
    hint = ""

    def __init__(self, text, status):
        super().__init__(text)
        self.status = status


class Early(Trouble):
    """A session that ended: its exit status, its last line on standard error, and what it told since the last answer."""

    def __init__(self, status, said, told):
        super().__init__(f"the session ended early with status {status}: {said or 'nothing was said'}", 3)
        self.program_status, self.said, self.told = status, said, told


class NotTaken(Trouble):
    """A text of a module that `load` does not take: the module's name, and the file and the line of the refusal."""
    hint = "; saber-run prepares such a file, runs it and explains, and saber-prep writes it in the core"

    def __init__(self, command, answer):
        super().__init__(f"{command}: {answer}", 2)
        self.module = command.split()[1]
        self.file, _, line = answer.split()[-1].rpartition(":")
        self.line = int(line) if line.isdigit() else 0


class TooLong(Trouble):
    """A text on which the program works for too long."""

    def __init__(self, text):
        super().__init__(text, 4)


class TwoHeaders(Trouble):
    """Headers of one name in two folders of modules."""


def refused(text):
    """Trouble with what the user gave: status 2."""
    return Trouble(text, 2)


@dataclass(frozen=True)
class Answer:
    """The answer to one command: its lines without `> `, and the bytes that the program wrote before it."""
    lines: tuple
    output: bytes = b""

    @property
    def text(self):
        """The last line of the answer, which tells where a run stopped; empty for a command without an answer."""
        return self.lines[-1] if self.lines else ""

    @property
    def is_refused(self):
        return self.text.startswith("refused ") or self.text == "no memory"


def status_of(text):
    """The exit status of a tool that runs modules once: 0, 1 for a fault of the program, 2 for a refusal, 3 for the rest."""
    if text == "exit 0":
        return 0
    if text.startswith(FAULTS):
        return 1
    return 2 if text.startswith("refused ") else 3


def add_words_of_a_run(parser):
    """Adds the words of a tool that runs modules once to its command line."""
    parser.add_argument("modules", nargs="*", metavar="MODULE|FILE.c", help="a module M of the file M.c, in the order of loading")
    parser.add_argument("--object", action="append", default=[], metavar="M",
                        help="run module M as compiled code, without checks (may stand more than once)")
    add_limits(parser)


def add_limits(parser):
    """Adds the words for a run's input, for its limits and for the program."""
    parser.add_argument("-i", "--input", metavar="FILE", help="the file that the program reads as its input")
    parser.add_argument("--turns", type=int, default=MOST_TURNS, metavar="N", help=f"the most turns of the run ({MOST_TURNS})")
    parser.add_argument("--stack", metavar="N", help="bytes of the program's stack (1048576)")
    parser.add_argument("--heap", metavar="N", help="bytes of its heap (4194304)")
    parser.add_argument("--program", metavar="PROGRAM", help="the program saber, in place of the one that belongs to this tool")


def words_of_a_run(parser):
    """The words that were given; a tool ends here where they are wrong."""
    found = parser.parse_intermixed_args()
    if not found.modules and not found.object:
        parser.error("no module is named")
    return within_limits(parser, found)


def within_limits(parser, found):
    """The words, if their limits can be."""
    if not 1 <= found.turns <= MOST_TURNS:
        parser.error(f"--turns takes a number from 1 to {MOST_TURNS}")
    return found


def sizes_of(given):
    """The words of a command line of saber for a run's stack and heap."""
    return tuple(it for name in ("stack", "heap") if given.get(name) is not None for it in (f"--{name}", str(given[name])))


def find_program(named=None):
    """The program that is run: the one named, else $SABER_PROGRAM, else that of this tree, else `saber` of the PATH."""
    given = named or os.environ.get("SABER_PROGRAM")
    if given:
        path = pathlib.Path(given)
        if not os.access(path, os.X_OK) or path.is_dir():
            raise refused(f"there is no program {given}")
        return path.resolve()
    for path in (ROOT / "release" / "saber", ROOT / "crates" / "sc_cli" / "out" / "sc_cli"):
        if os.access(path, os.X_OK):
            return path
    found = shutil.which("saber")
    if not found:
        raise refused("the program saber was not found; name it by SABER_PROGRAM")
    return pathlib.Path(found)


def processor_time(process):
    """The seconds of processor time that a process has taken; 0 where that is not known."""
    try:
        fields = pathlib.Path(f"/proc/{process}/stat").read_text().rpartition(")")[2].split()
        return (int(fields[11]) + int(fields[12])) / os.sysconf("SC_CLK_TCK")
    except (OSError, ValueError, IndexError):
        return 0


def _end_with_parent():
    """Ends a program when its tool dies, also in the middle of a run."""
    ctypes.CDLL(None).prctl(PR_SET_PDEATHSIG, signal.SIGKILL)


def split_answer(command, told):
    """What was told for a command, as an Answer. A go's answer is its last line, which follows the program's bytes."""
    first = command.split()[0] if command.split() else "#"
    if first not in GOES:
        return Answer(tuple(it[2:] if it.startswith("> ") else it for it in told.decode(errors="replace").splitlines()))
    at = told.rfind(b"\n", 0, len(told) - 1) + 1
    return Answer((told[at:].decode(errors="replace").rstrip("\n")[2:],), told[:at])


class Session:
    """One run of the program. `folder` is what its commands read and write; `options` are words of its command line."""

    def __init__(self, program, folder, options=()):
        number = random.randrange(10 ** 8, 10 ** 9)
        self._ask_for_mark = f"\ndrop {number}\n".encode()
        self._mark = f"> refused C17 {number}\n".encode()
        self._held = b""
        self.lines, self._is_bounded = 0, False
        try:
            # in a session of its own, Ctrl-C at the terminal reaches the tool alone
            self.child = subprocess.Popen([program, *options], cwd=folder, stdin=subprocess.PIPE, stdout=subprocess.PIPE,
                                          stderr=subprocess.PIPE, start_new_session=True, preexec_fn=_end_with_parent)
        except OSError as error:
            raise refused(f"{program} cannot be run: {error.strerror}") from error

    def ask(self, command, show=None):
        """The answer to one command; `show` is given the program's bytes while they come, if it is named."""
        self._send([command])
        told, shown = self._told(show)
        answer = split_answer(command, told)
        if show and len(answer.output) > shown:
            show(answer.output[shown:])
        return answer

    def ask_raw(self, command, show):
        """Shows what one command brings, while it comes, and gives the last part of it, which holds the answer."""
        self._send([command])
        told, shown = self._told(show)
        return told[shown:]

    def ask_all(self, commands):
        """The answers to many commands, in their order."""
        answers = []
        for at in range(0, len(commands), MOST_IN_A_BATCH):
            batch = commands[at:at + MOST_IN_A_BATCH]
            self._send(batch)
            answers += [split_answer(command, self._told(None)[0]) for command in batch]
        return answers

    def seconds(self):
        """The processor time that the program took so far."""
        return processor_time(self.child.pid)

    def close(self):
        """Ends the program, whatever it does."""
        self.child.kill()
        self.child.wait()
        for pipe in (self.child.stdin, self.child.stdout, self.child.stderr):
            try:
                pipe.close()
            except OSError:
                pass

    def __enter__(self):
        return self

    def __exit__(self, *_):
        self.close()

    def _send(self, commands):
        self.lines += 2 * len(commands)
        try:
            self.child.stdin.write(b"".join(it.encode(errors="surrogateescape") + self._ask_for_mark for it in commands))
            self.child.stdin.flush()
        except OSError:
            self._early()

    def ask_bounded(self, command):
        """The answer to a command that has to come soon: no hostile text makes a tool wait without end."""
        self._is_bounded = True
        try:
            return self.ask(command)
        finally:
            self._is_bounded = False

    def _wait(self):
        """Waits for more bytes, for a bounded command so long as the program may work on it."""
        before = self.seconds() if self._is_bounded else 0
        while self._is_bounded and not select.select([self.child.stdout], [], [], 1)[0]:
            if self.seconds() - before > MOST_SECONDS:
                raise TooLong(f"no answer after {MOST_SECONDS} s of processor time")

    def _told(self, show):
        """The bytes up to the next mark, which is taken off, and how many of them were shown."""
        shown = begin = 0
        while (at := self._held.find(self._mark, begin)) < 0:
            begin = max(0, len(self._held) - len(self._mark))
            if show:
                shown += self._show(show, shown)
            self._wait()
            more = os.read(self.child.stdout.fileno(), 1 << 16)
            if not more:
                self._early()
            self._held += more
        told, self._held = self._held[:at], self._held[at + len(self._mark):]
        return told, shown

    def _show(self, show, shown):
        """Shows what waits but for up to two last lines that may be an answer and a mark; tells how many bytes that were."""
        lines = self._held[shown:].splitlines(keepends=True)
        for _ in range(2):
            if lines and lines[-1].startswith(b">"):
                lines.pop()
        count = sum(map(len, lines))
        if count:
            show(self._held[shown:shown + count])
        return count

    def _early(self):
        """Raises what is known of a session that ended."""
        status = self.child.wait()
        said = self.child.stderr.read().decode(errors="replace").strip().splitlines()
        raise Early(status, said[-1] if said else "", self._held)


@dataclass(frozen=True)
class Module:
    """A module that is loaded: its name, its file, and whether its object runs, perhaps the faster one."""
    name: str
    path: pathlib.Path
    is_object: bool = False
    is_fast: bool = False


def module_of(word, is_object=False, folder="."):
    """The module that a word names, which is M, M.c or a path to either, from a folder on."""
    path = pathlib.Path(folder, word)
    path = path if path.suffix == ".c" else path.with_name(path.name + ".c")
    if not MODULE.fullmatch(path.stem):
        raise refused(f"{path.stem} is no module's name: a letter and up to 30 letters, digits or underscores")
    if not path.is_file():
        raise refused(f"there is no file {path}")
    return Module(path.stem, path.parent.resolve() / path.name, is_object)


def modules_of(words, objects=(), folder="."):
    """The modules that words name, in their order; `objects` are names or words among them or further ones."""
    forms = {pathlib.Path(it).stem for it in objects}
    names = [pathlib.Path(it).stem for it in words]
    words = [*words, *(it for it in objects if pathlib.Path(it).stem not in names)]
    modules = [module_of(it, pathlib.Path(it).stem in forms, folder) for it in words]
    for at, module in enumerate(modules):
        if any(it.name == module.name for it in modules[:at]):
            raise refused(f"module {module.name} is named twice")
    return modules


def levels_up(folder):
    """How many folders up the texts of a folder include files."""
    found = [0]
    for path in (it for ending in ("*.c", "*.h") for it in folder.glob(ending) if it.is_file()):
        names = re.findall(rb'(?m)^[ \t]*#[ \t]*include[ \t]*"((?:\.\./)+)', path.read_bytes())
        found += [len(it) // 3 for it in names]
    return max(found)


class View:
    """A folder of its own that shows the files of the modules' folders, so that nothing of the user's changes.

    The texts of the modules and the headers stand in it as they are now, so that a run can be repeated after they were edited;
    other files by links. Objects of modules that run as such are not shown: `compile` writes them here.
    """
    INPUT = "saber_input"
    # how many lines the texts of the modules have at their tops that those of the user's files have not
    added_lines = 0

    def __init__(self, modules, given=None, folder="."):
        self._room = tempfile.TemporaryDirectory(prefix="saber-")
        self.folder = self._below(modules[0].path.parent)
        self.modules, self.given, self._shown = modules, None if given is None else pathlib.Path(folder, given).resolve(), {}
        own = {f"{it.name}.c": it.path for it in modules}
        hidden = {self.INPUT, *(f"{it.name}{ending}" for it in modules for ending in (".o", ".fast.o"))}
        for folder in dict.fromkeys(it.path.parent for it in modules):
            for path in folder.iterdir():
                if path.name not in hidden and FILE.fullmatch(path.name):
                    self._show(own.get(path.name, path), path.name in own or path.suffix == ".h")
        if self.given:
            if not self.given.is_file():
                raise refused(f"there is no file {given}")
            (self.folder / self.INPUT).symlink_to(self.given)

    def _below(self, folder):
        """An empty folder above which the files of the real one's parents are seen, as far as #include "../NAME" asks."""
        real, at = folder.resolve(), pathlib.Path(self._room.name)
        for parent in reversed(real.parents[:levels_up(real)]):
            child = real.relative_to(parent).parts[0]
            for path in parent.iterdir():
                if path.name != child:
                    (at / path.name).symlink_to(path)
            at = at / child
            at.mkdir()
        return at

    def _show(self, path, is_text):
        shown, first = self.folder / path.name, self._shown.setdefault(path.name, path)
        if shown.is_symlink() or shown.exists():
            if path.suffix == ".h" and shown.read_bytes() != path.read_bytes():
                raise TwoHeaders(f"{first} and {path} are two headers of one name", 2)
        elif is_text and path.is_file() and path.stat().st_size <= MOST_BYTES and os.access(path, os.R_OK):
            shown.write_bytes(path.read_bytes())
        else:
            shown.symlink_to(path.resolve())

    def again(self):
        """The modules as this view has their texts, for another view."""
        return [replace(it, path=self.folder / f"{it.name}.c") for it in self.modules]

    def replace(self, name, text):
        """Puts a text in the place of what the view shows under a name."""
        (self.folder / name).unlink(missing_ok=True)
        (self.folder / name).write_bytes(text)

    def close(self):
        self._room.cleanup()

    def __enter__(self):
        return self

    def __exit__(self, *_):
        self.close()


@dataclass(frozen=True)
class Setup:
    """What every session of a tool begins with: the program, the view of the files, and the limits' words."""
    program: pathlib.Path
    view: View
    options: tuple = field(default=())

    kind = Session

    @property
    def run(self):
        return f"run {View.INPUT}" if self.view.given else "run"

    def over(self, view):
        """The same over another view."""
        return replace(self, view=view)

    def empty(self, *options, turns=MOST_TURNS):
        """A session without modules."""
        return self.kind(self.program, self.view.folder, (*self.options, "--turns", str(turns), *options))

    def start(self, *options, turns=MOST_TURNS):
        """A session with every module loaded in its form."""
        session = self.empty(*options, turns=turns)
        try:
            for module in self.view.modules:
                load(session, module)
        except BaseException:
            session.close()
            raise
        return session


def loaded(session, command):
    """The answer to a command that translates a text."""
    try:
        return session.ask_bounded(command)
    except TooLong as trouble:
        raise TooLong(f"{command}: {trouble}") from None


def load(session, module):
    """Loads one module in its form, or raises its refusal."""
    ending, form = (" fast", "fast") if module.is_fast else ("", "object")
    for command in (f"load {module.name}", *((f"compile {module.name}{ending}", f"swap {module.name} {form}") if module.is_object else ())):
        answer = loaded(session, command)
        if answer.text.startswith("refused C5 "):
            raise NotTaken(command, answer.text)
        if answer.is_refused:
            raise refused(f"{command}: {answer.text}")
