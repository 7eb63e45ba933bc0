#!/usr/bin/env python3
"""Checks tools/saber-shell over a pseudo-terminal: prompts, Ctrl-C, history and completion; and over a pipe.

usage: tests/tools/shell.py PROGRAM

What is expected follows from docs/COMMANDS.md. The last line is 'N passed, M failed'.
"""
import os
import pty
import select
import subprocess
import sys
import time

import common

SHELL = common.TOOLS / "saber-shell"
SECONDS = 60
PROMPT = "saber> "
FILES = {
    "loop.c": "#include <stdio.h>\nstatic void spin(void)\n{\n    int i;\n    for (i = 0; i < 5000; i++)\n        putchar('x');\n"
              "    for (;;)\n        ;\n}\nint main(void)\n{\n    spin();\n    return 0;\n}\n",
    "mended.c": "int main(void)\n{\n    return 4;\n}\n",
    "other.c": "int unused;\n",
    "fault.c": "struct pair { int a; int b[2]; };\nstatic int at(struct pair *p, int n)\n{\n    return p->b[n];\n}\nint main(void)\n{\n"
               "    struct pair one = { 1, { 2, 3 } };\n    int i, sum = 0;\n    for (i = 0; i < 3; i++)\n        sum += at(&one, i);\n    return sum;\n}\n",
    "say.c": "#include <stdio.h>\nstatic int turns;\nstatic void spin(int n)\n{\n    while (n)\n        turns = 1;\n}\n"
             "int main(void)\n{\n    puts(\"before\");\n    spin(3);\n    return 0;\n}\n",
    "outer.c": "static int n;\nstatic int up(int i)\n{\n    return i + 1;\n}\nint main(void)\n{\n    int i;\n    for (i = 0; i < 2; i = up(i)) {\n        n += i;\n"
               "        n++;\n    }\n    return n;\n}\n",
    "even.c": "#include <assert.h>\nint main(void)\n{\n    int seven = 7;\n    assert(seven == 8);\n    return 0;\n}\n",
}


class Terminal:
    """A program at a pseudo-terminal of its own, with the keys that are sent to it and what it shows."""

    def __init__(self, words, room):
        environment = {**os.environ, "HOME": str(room), "TERM": "xterm", "INPUTRC": "/dev/null"}
        environment.pop("SABER_PLAIN", None)
        child, self.screen = pty.fork()
        if child == 0:
            os.chdir(room)
            os.execvpe(str(words[0]), [str(it) for it in words], environment)
        self.child, self.held = child, ""

    def keys(self, text):
        os.write(self.screen, text.encode())

    def shown(self, seconds=SECONDS, until=PROMPT):
        """What was shown up to and with a text, or all that came in time."""
        end = time.monotonic() + seconds
        while until not in self.held and (left := end - time.monotonic()) > 0:
            ready, _, _ = select.select([self.screen], [], [], left)
            try:
                more = os.read(self.screen, 1 << 16) if ready else b""
            except OSError:
                more = b""
            if ready and not more:
                break
            self.held += more.decode(errors="replace").replace("\r\n", "\n")
        at = self.held.find(until) + len(until) if until in self.held else len(self.held)
        told, self.held = self.held[:at], self.held[at:]
        return told

    def say(self, line):
        """The answer to a line, without the line and the prompt behind it."""
        self.keys(line + "\n")
        told = self.shown()
        return told.partition("\n")[2].removesuffix(PROMPT)

    def status(self):
        """The exit status, once the program has ended."""
        self.shown(until="\0")
        return os.waitstatus_to_exitcode(os.waitpid(self.child, 0)[1])


def session(program, room):
    """A session whose run is ended by Ctrl-C: names of checks, and whether they hold."""
    terminal = Terminal([SHELL, "--program", program, "--turns", "1000000000"], room)
    yield "a prompt", terminal.shown().endswith(PROMPT)
    for line, answer in (("load loop", "loaded loop"), ("load other", "loaded other"), ("compile other", "compiled other"),
                         ("swap other object", "other object"), ("stop in main", "stop 1 in main"),
                         ("stop in nowhere", "stop 2 in nowhere\n-- no module defines nowhere yet"), ("stop at loop:12", "stop 3 at loop:12"),
                         ("delete 2", "deleted 2"), ("load loop", "refused C4\n-- C4: the module is loaded already; edit gives it a new text"), ("# nothing", None)):
        yield line, terminal.say(line) == (f"> {answer}\n" if answer else "")
    listed = terminal.say("list")
    yield "list", listed.endswith("> stop 1 in main\n> stop 3 at loop:12\n> idle\n")
    yield "a stop", terminal.say("run") == "> entered main\n" and terminal.say("cont") == "> at loop:12\n"
    terminal.keys("cont\n")
    yield "no prompt while a run goes on", PROMPT not in terminal.shown(seconds=1)
    terminal.keys("\x03")
    told = terminal.shown()
    yield "Ctrl-C in a run", "-- the run was ended; modules, forms and stops are kept" in told, told
    yield "where it stood", "#0* loop:spin at loop:" in told and "#1  main at loop:12 " in told, told
    yield "the session is as it was", terminal.say("list") == listed
    yield "the next stop's number", terminal.say("stop in last") == "> stop 4 in last\n-- no module defines last yet\n"
    terminal.keys("lis")
    terminal.shown(until="lis")
    terminal.keys("\x03")
    terminal.shown(until="\n" + PROMPT)
    yield "Ctrl-C at a prompt clears the line", terminal.say("edit loop mended.c") == "> edited loop\n"
    terminal.keys("\x1b[A")
    terminal.shown(until="edit loop mended.c")
    yield "history", terminal.say("") == "> edited loop\n"
    for line, answer in (("delete 1", "deleted 1"), ("delete 3", "deleted 3"), ("run", "exit 4")):
        yield line, terminal.say(line) == f"> {answer}\n"
    terminal.keys("quit\n")
    yield "quit", terminal.status() == 0


def edited_between(program, room):
    """A module whose file is refused when the session is made again."""
    terminal = Terminal([SHELL, "--program", program, "--turns", "1000000000"], room)
    terminal.shown()
    file = room / "again.c"
    file.write_text(FILES["loop.c"])
    yield "load again", terminal.say("load again") == "> loaded again\n"
    yield "stop in again:spin", terminal.say("stop in again:spin") == "> stop 1 in again:spin\n"
    yield "delete", terminal.say("delete 1") == "> deleted 1\n"
    file.write_text("int main(void) { return x; }\n")
    terminal.keys("run\n")
    yield "a run's bytes while it goes on", "x" * 4096 in terminal.shown(until="x" * 4096)
    terminal.keys("\x03")
    told = terminal.shown()
    yield "what is not as it was is said", "-- not as it was: load again: refused C5 X6 again.c:1\n" in told
    yield "the prompt is back", terminal.say("list") == "> idle\n"
    yield "numbers of stops are not used again", terminal.say("stop in f") == "> stop 2 in f\n-- no module defines f yet\n"
    file.unlink()
    terminal.keys("\x04")
    yield "the end of input", terminal.status() == 0


def completion(program, room):
    """Each word is completed by its place; a bell and a second Tab show nothing else."""
    terminal = Terminal([SHELL, "--program", program], room)
    terminal.shown()
    for keys, line, answer in (("lo\tlo\t", "load loop", "> loaded loop\n"), ("sto\ti\tsp\t", "stop in loop:spin", "> stop 1 in loop:spin\n"),
                               ("ed\tl\tm\t", "edit loop mended.c", "> edited loop\n"),
                               ("comp\tl\t", "compile loop", "> compiled loop\n"), ("sw\tl\to\t", "swap loop object", "> loop object\n"),
                               ("sto\ti\tma\t", "stop in main", "> stop 2 in main\n"), ("sto\ta\tl\t5", "stop at loop:5", "> stop 3 at loop:5\n-- loop runs compiled, so a stop at its lines never comes\n"),
                               ("inf\t\t", "info locals", "-- no run stands here\n"),
                               ("xr\tma\t", "xref main", "> def loop:1\n> 1 places\n"),
                               ("wha\tma\t", "whatis main", "> loop function (void) giving int\n"),
                               ("del\t2\t", "delete 2", "> deleted 2\n"), ("unl\tl\t", "unload loop", "> unloaded loop\n")):
        terminal.keys(keys)
        time.sleep(0.6)
        terminal.keys("\n")
        told = terminal.shown().replace("\x07", "")
        # where a module is put in front of what was typed, the line is written again
        yield f"completion of {line}", (told.startswith(line) or "spin" in line) and told.endswith(answer + PROMPT), told
    terminal.keys("\x04")
    yield "the end of the input", terminal.status() == 0


def words(program, room):
    """The prompt's own words, where a run stands and where it ended."""
    terminal = Terminal([SHELL, "--program", program], room)
    terminal.shown()
    told = terminal.say("help")
    yield "help", all(it in told for it in ("load M", "stop in F", "print NAME", "whatis NAME", "p NAME", "info locals", "finish")), told
    for line, answer in (
        ("bt", "-- no run stands here"), ("load fault.c", "> refused C2\n-- C2: load takes the name of a module: load fault"),
        ("lode fault", "> refused C1\n-- C1: there is no such command; help lists them"),
        ("b at", "> refused C1\n-- C1: there is no such command; stop in F, or stop at M:N, does that here"), ("run", "> refused C13\n-- C13: no module defines main"),
        ("load fault", "> loaded fault"), ("stop in at", "> stop 1 in at\n-- no module defines at yet; there is fault:at"),
        ("stop at fault:3", "> stop 2 at fault:3\n-- nothing stands on line 3 of fault, so that this stop never comes; the next such line is 4"),
        ("stop at fault:99", "> stop 3 at fault:99\n-- nothing stands on line 99 of fault, so that this stop never comes"),
        ("stop in fault:at", "> stop 4 in fault:at"), ("run", "> entered fault:at"),
        ("bt", "#0* fault:at at fault:2             fault.c:2: static int at(struct pair *p, int n)\n"
               "#1  main at fault:11                 fault.c:11: sum += at(&one, i);"),
        ("p n", "n = 0"), ("p n * 10 - 1", "n * 10 - 1 = -1"), ("p p->b[1]", "p->b[1] = 3"),
        ("print p->b[1]", "> refused C2\n-- C2: print takes a name alone, and p an expression: p p->b[1]"),
        ("swap fault fast", "> refused C8 fault.fast.o\n-- C8: there is no such file; compile fault fast writes it"),
        ("p m", "-- m is no expression here (refused C5 X6 fault.c:4)"),
        ("up", "#1* main at fault:11                 fault.c:11: sum += at(&one, i);"), ("p one.b[1]", "one.b[1] = 3   (as line 11 was begun)"),
        ("info locals", "one = {1, {2, 3}}\ni = 0\nsum = 0   (as line 11 was begun)"),
        ("down", "#0* fault:at at fault:2             fault.c:2: static int at(struct pair *p, int n)"),
        # the next line behind the call is the loop's test, with sum 2 and i 1
        ("finish", "> at fault:10"), ("p sum + i", "sum + i = 3"), ("finish", "-- this is the outermost call"), ("delete 4", "> deleted 4"),
        # one, i and sum are objects 1 to 3
        ("cont", "> violation U2 in fault:at at fault:4 object 1 offset 12 size 4"),
        ("where", "-- the run is repeated up to where it ended\n> fault:at at fault:4\n> main at fault:11"), ("print n", "> n = 2"),
        ("print sum", "> refused C16 sum"), ("p p->b[n - 1]", "p->b[n - 1] = 3"),
        ("p p->b[n]", "-- it has no value: violation U2 in fault:at at fault:4 object 1 offset 12 size 4"),
        ("up", "#1* main at fault:11                 fault.c:11: sum += at(&one, i);"), ("p sum", "sum = 5   (as line 11 was begun)"),
        ("cont", "> refused C12\n-- C12: not in a run that ended or was paused"), ("p i", "i = 2   (as line 11 was begun)"),
    ):
        came = terminal.say(line)
        yield line, came.replace(" fault.c", "fault.c").replace(" ", "") == (answer + "\n").replace(" ", ""), came
    told = terminal.say("why")
    yield "why", "-- object 1 is one, an object of main's outermost block, born here" in told, told
    yield "another run", terminal.say("reset") == "> reset\n" and terminal.say("bt") == "-- no run stands here\n"
    terminal.keys("\x04")
    yield "the end", terminal.status() == 0


def in_third_part(program, room):
    """A call that is made in the third part of a `for` stands at the `for`."""
    terminal = Terminal([SHELL, "--program", program], room)
    terminal.shown()
    for line in ("load outer", "stop in outer:up", "run"):
        terminal.say(line)
    told = terminal.say("bt")
    yield "bt", "#1  main at outer:9 " in told and "outer.c:9: for (i = 0; i < 2; i = up(i)) {" in told, told
    told = terminal.say("up")
    yield "up", told.startswith("#1* main at outer:9 ") and terminal.say("p n") == "n = 0   (as line 11 was begun)\n", told
    terminal.keys("\x04")
    yield "the end", terminal.status() == 0


def hung(program, room):
    """Ctrl-C of a program that hangs shows what it printed and where it stands; a change while it stood before is no matter."""
    terminal = Terminal([SHELL, "--program", program, "--turns", "1000000000"], room)
    terminal.shown()
    terminal.say("load say")
    terminal.keys("run\n")
    time.sleep(1)
    terminal.keys("\x03")
    told = terminal.shown()
    yield "what it printed", "\nbefore\n" in told, told
    yield "where it stands", "#0* say:spin at say:" in told and "#1  main at say:11 " in told, told
    yield "a value there", terminal.say("p n") == "n = 3\n" and terminal.say("p n + turns") == "n + turns = 4\n"
    yield "the session is kept", terminal.say("list").endswith("> idle\n")
    terminal.say("edit say even.c")
    yield "a failed assertion", terminal.say("run").endswith("> exit 134\n") and terminal.say("p seven").endswith("\nseven = 7\n")
    deep = "(" * 1500 + "seven" + ")" * 1500
    told = terminal.say(f"p {deep}")
    yield "a deep expression", "is no expression here" in told, told
    yield "an edited file's name", "say at" not in (told := terminal.say("bt")) and "main at say:5" in told and "even.c:5: assert" in told, told
    terminal.keys("\x04")
    yield "the end", terminal.status() == 0


def ends(program, room):
    """How it ends where no session can begin, over a pipe, and started by the script `saber`."""
    terminal = Terminal([SHELL, "--program", program, "--nothing"], room)
    told = terminal.shown(until="saber: bad words\n")
    yield "bad words", told.endswith("saber: bad words\n") and PROMPT not in told and terminal.status() == 2
    terminal = Terminal([SHELL, "--program", "absent"], room)
    yield "no program", "saber-shell: there is no program absent\n" in terminal.shown(until="absent\n") and terminal.status() == 2
    terminal = Terminal([common.ROOT / "saber", "--turns", "1000"], room)
    terminal.shown()
    yield "the script", terminal.say("load loop") == "> loaded loop\n" and terminal.say("run").endswith("> paused after 1000 turns\n")
    terminal.keys("\x04")
    yield "the script's end", terminal.status() == 0
    words = [SHELL, "--program", program, "--turns", "7000"]
    piped = subprocess.run(words, cwd=room, input=b"load mended\nrun\nload absent", capture_output=True, timeout=SECONDS)
    yield "a pipe", piped.stdout == b"> loaded mended\n> exit 4\n> refused C8 absent.c\n" and piped.returncode == 0


if __name__ == "__main__":
    sys.exit(common.checked(__doc__, [session, edited_between, completion, words, in_third_part, hung, ends], FILES))
