#!/usr/bin/env python3
"""Walks through three programs by `stepi`, and holds each step to the manual of the machine.

usage: tests/stepping.py PROGRAM

Before and behind each step the registers are shown. Where the step has to lead follows from them and from the text at the address, as
`disas` shows it: behind the instruction, to the target of a jump or a branch, or, behind the `ecall` of a call, to where ra leads, or
into an interpreted call, in which `stepi` is refused. One instruction more was carried out then. Where an interpreted call is innermost
`cont` goes on to the next function that is compiled. In the end the notes of the run are counted as those of one that was not stepped.
The last line is 'N passed, M failed': a step or a count is one.
"""
import pathlib
import re
import shutil
import sys
import tempfile

ROOT = pathlib.Path(__file__).resolve().parent.parent
sys.path.insert(0, str(ROOT / "tools"))

from saber_session import Session  # noqa: E402

# the folder; its modules in the order of loading; those in object form; and what `run` reads
PROGRAMS = (
    ("examples/words", ("input", "table", "main"), ("input", "table", "main"), "poem.txt"),
    ("examples/library", ("text", "pool", "table", "list", "demo"), ("text", "pool", "table", "list"), ""),
    ("tests/programs/traced", ("f", "g"), ("f",), ""),
)
MOST_STEPS = 8_000
STUBS, TEXTS = 0x00010000, 0x00100000
BRANCHES = {
    "beq": lambda a, b: a == b,
    "bne": lambda a, b: a != b,
    "blt": lambda a, b: signed(a) < signed(b),
    "bge": lambda a, b: signed(a) >= signed(b),
    "bltu": lambda a, b: a < b,
    "bgeu": lambda a, b: a >= b,
}


def signed(word):
    return word - (word >> 31 << 32)


class Machine:
    """The registers as `machine` shows them, and how many instructions were carried out."""

    def __init__(self, session):
        lines = session.ask("machine").lines
        self.pc, self.count = int(lines[0].split()[1], 16), int(lines[0].split()[3])
        words = [re.findall(r"x\d+ ([0-9a-f]{8}) \d", it) for it in lines[1:]]
        self.x = [int(it, 16) for line in words for it in line]


class Walk:
    """One program, of which the compiled functions have their stops."""

    def __init__(self, program, room, modules, objects):
        self.session = Session(program, room, ("--count", "--turns", "1000000000"))
        self.texts, self.starts, self.numbers = {}, {}, set()
        for name in modules:
            self.session.ask(f"load {name}")
        for name in objects:
            self.session.ask(f"compile {name}")
            self.session.ask(f"swap {name} object")
        for line in self.session.ask("list").lines:
            if line.startswith("fun "):
                self._read(line.split()[1:])

    def _read(self, known):
        number, key = known
        self.numbers.add(int(number))
        shown = self.session.ask(f"disas {key}")
        if not shown.is_refused:
            lines = [it.split(" ", 2) for it in shown.lines]
            self.texts |= {int(at, 16): text for at, _, text in lines}
            self.starts[int(number)] = int(lines[0][0], 16)
            self.session.ask(f"stop in {key}")

    def next_in_stub(self, m):
        """Behind the first word of a stub is its second one: it leads to the text of a compiled function, or calls one that is none."""
        number, second = divmod(m.pc - STUBS, 8)
        if not second:
            return m.pc + 4
        if number in self.starts:
            return self.starts[number]
        # the call of a function of the library goes on where it returns to, behind its `ecall`
        return m.pc + 4 if number in self.numbers else m.x[1]

    def next_at(self, m):
        """Where the instruction leads that is next."""
        if m.pc < TEXTS:
            return self.next_in_stub(m)
        name, _, operands = self.texts[m.pc].partition(" ")
        parts = operands.split(", ")
        if name in BRANCHES:
            taken = BRANCHES[name](m.x[int(parts[0][1:])], m.x[int(parts[1][1:])])
            return m.pc + int(parts[2]) if taken else m.pc + 4
        if name == "jal":
            return m.pc + int(parts[1])
        if name == "jalr":
            offset, base = re.fullmatch(r"(-?\d+)\(x(\d+)\)", parts[1]).groups()
            return m.x[int(base)] + int(offset) & 0xFFFFFFFE
        return m.pc + 4

    def step(self, m):
        """One step: the answer, the machine behind it, and what is wrong."""
        wanted = self.next_at(m)
        answer = self.session.ask("stepi").text
        after = Machine(self.session)
        if answer.startswith("pc ") and answer != f"pc {wanted:08x}":
            return answer, after, f"{answer} behind {m.pc:08x}, and not {wanted:08x}"
        if answer.startswith(("pc ", "entered ")) and (after.pc, after.count) != (wanted, m.count + 1):
            return answer, after, f"behind {m.pc:08x} the machine is at {after.pc:08x}, with {after.count - m.count} instructions more"
        return answer, after, ""

    def counted(self):
        """The run goes on from stop to stop to its end; how many notes of each kind it made."""
        while self.session.ask("cont").text.startswith("entered "):
            pass
        return self.session.ask("report 1").text


def walked(walk, reads):
    """Yields each step of a walk, with what is wrong with it."""
    answer, steps = walk.session.ask(f"run {reads}").text, 0
    m = Machine(walk.session)
    while steps < MOST_STEPS and answer.startswith(("pc ", "entered ")):
        answer, m, wrong = walk.step(m)
        if answer == "refused C20":
            answer = walk.session.ask("cont").text
            m = Machine(walk.session)
        else:
            steps += 1
            yield wrong


def compare(program, folder, modules, objects, reads):
    with tempfile.TemporaryDirectory() as copy:
        room = pathlib.Path(copy, "room")
        shutil.copytree(ROOT / folder, room)
        if reads:
            # so that the walk is long
            (room / reads).write_bytes((room / reads).read_bytes() * 3)
        walk = Walk(program, room, modules, objects)
        yield from walked(walk, reads)
        stepped = walk.counted()
        walk.session.close()
        whole = Walk(program, room, modules, objects)
        whole.session.ask(f"run {reads}")
        plain = whole.counted()
        whole.session.close()
        yield "" if stepped == plain else f"the notes are {stepped}, and not {plain}"


def main():
    program = pathlib.Path(sys.argv[1]).resolve()
    passed = failed = 0
    for folder, *rest in PROGRAMS:
        for wrong in compare(program, folder, *rest):
            passed, failed = passed + (not wrong), failed + bool(wrong)
            if wrong:
                print(f"{folder}: {wrong}")
    print(f"{passed} passed, {failed} failed")
    sys.exit(failed > 0 or passed <= 10_000)


main()
