"""What the tests of the tools have in common: checks that are counted, runs of the tools, of the program and of a compiler."""
import os
import pathlib
import subprocess
import sys
import tempfile

HERE = pathlib.Path(__file__).resolve().parent
ROOT = HERE.parent.parent
TOOLS = ROOT / "tools"
PREP = TOOLS / "saber-prep"
# Hostile sources. Beside each is what `load` answers by docs/LANGUAGE.md, as an expression; nothing where it takes the text.
HOSTILE = {
    "brackets": ("int main(void) { return " + "(" * 3000 + "0" + ")" * 3000 + "; }\n", "refused C5 X10 height brackets.c:1"),
    # nearly as many blocks inside each other as there may be
    "blocks": ("int main(void)\n" + "{" * 120 + " return 0; " + "}" * 120 + "\n", None),
    "wide": ("int main(void)\n{\n    int s = 0;\n    " + "s += 1; " * 20_000 + "\n    return s - s;\n}\n", None),
    "chain": ("int main(void)\n{\n    int s = 0;\n    return s" + " + s" * 198 + ";\n}\n", None),
    "cut": ("int main(void)\n{\n    return 0;\n}", None),
    "bytes": ("".join(map(chr, range(256))), "refused C5 X.* bytes.c:1"),
    "itself": ("#include \"itself.c\"\n", "refused C5 X.* itself.c:1"),
    # the types grow by a factor of eight from one line to the next; what gives them up in time says so
    "types": ("typedef int T0;\n" + "".join(f"typedef void (*T{it})({', '.join([f'T{it - 1}'] * 8)});\n" for it in range(1, 13)) + "extern T12 v;\n",
              "(refused C5 X10 .*|no answer after .*)"),
}
COMPILER = ["gcc", "-m32", "-std=gnu11", "-funsigned-char", "-w"]


def checked(usage, parts, files):
    """Runs the parts of a script, each in a folder of its own with the files, prints what fails and the sum, and gives the exit status.

    The command line names the program. A part is called with it and the folder, and gives for each check its name, whether it holds, and
    perhaps what to show if it does not.
    """
    if len(sys.argv) != 2:
        sys.exit(usage)
    program = pathlib.Path(sys.argv[1]).resolve()
    passed, failed = 0, 0
    for part in parts:
        with tempfile.TemporaryDirectory() as name:
            room = pathlib.Path(name).resolve()
            for file, text in files.items():
                (room / file).parent.mkdir(parents=True, exist_ok=True)
                (room / file).write_text(text)
            for check, right, *told in part(program, room):
                passed, failed = passed + bool(right), failed + (not right)
                if not right:
                    print(f"FAIL {check}", *told, sep="\n")
    print(f"{passed} passed, {failed} failed")
    return 1 if failed or not passed else 0


def spinning(folder):
    """A program that takes processor time and never answers."""
    path = folder / "spins.sh"
    path.write_text("#!/bin/sh\nwhile :; do :; done\n")
    path.chmod(0o755)
    return path


def one_check(name, test):
    """A part of one check: a test gives why it fails, or nothing."""
    def part(program, room):
        fault = test(program, room)
        yield name, fault is None, fault
    return part


def tool_run(tool, program, room, words, **more):
    """Runs a tool that goes by the program; what it told, in bytes."""
    environment = {**os.environ, "SABER_PROGRAM": str(program), **more}
    return subprocess.run([TOOLS / tool, *words], cwd=room, env=environment, capture_output=True, timeout=600)


def told_by(ran):
    """What a run of a tool told, for a message."""
    return f"status {ran.returncode}\n{(ran.stdout + ran.stderr).decode(errors='replace')}"


def prepared(files, output, words=()):
    """Runs saber-prep."""
    return subprocess.run([PREP, "-o", output, *words, *files], capture_output=True, text=True, timeout=120)


def session(program, folder, commands):
    """What the program answers to commands in a folder."""
    ran = subprocess.run([program, "--turns", "100000000"], input=commands.encode(), capture_output=True, cwd=folder, timeout=120)
    return ran.stdout.decode("latin-1")


def run_of(program, folder, modules, given=None):
    """The answer to `run`; the loads have to be taken."""
    if given is not None:
        (folder / "given").write_bytes(given)
    answer = session(program, folder, "".join(f"load {it}\n" for it in modules) + ("run given\n" if given is not None else "run\n"))
    lines = answer.split("\n")
    loads = lines[:len(modules)]
    if loads != [f"> loaded {it}" for it in modules]:
        return "\n".join(loads)
    return "\n".join(lines[len(modules):])


def modules_in(folder):
    return sorted(it.stem for it in folder.glob("*.c"))


def compiled_run(file, folder, given, words=()):
    """What `run` has to answer, by what a compiler makes of the file: its output and its exit status."""
    program = folder / "compiled"
    subprocess.run([*COMPILER, "-o", program, file], check=True, timeout=120)
    ran = subprocess.run([program, *words], input=given or b"", capture_output=True, timeout=20)
    text = ran.stdout.decode("latin-1")
    status = ran.returncode if ran.returncode >= 0 else 128 - ran.returncode
    return text + ("\n" if text and not text.endswith("\n") else "") + f"> exit {status}\n"


def difference(wanted, came):
    """The first line that differs, for a message."""
    for left, right in zip(wanted.split("\n") + [""], came.split("\n") + [""]):
        if left != right:
            return f"wanted {left!r}, came {right!r}"
    return f"wanted {len(wanted)} bytes, came {len(came)}"
