"""Shared by the scripts that compare a program with a second reading of C: the units of a folder, the files of one, a refusal's text,
and the comparison itself."""
import os
import subprocess


class Files:
    """The files that a unit may include: those of its own folder."""

    def __init__(self, folder):
        self.folder = folder

    def read(self, name):
        path = os.path.join(self.folder, name)
        if not os.path.isfile(path):
            return 'missing', None
        with open(path, 'rb') as text:
            return 'found', text.read()


def refused(refusal, name):
    """A refusal of the second reading as the programs print it; `name` is the unit's, for one that names no file."""
    word = ' ' + refusal.word if getattr(refusal, 'word', None) else ''
    return '%s%s %s:%d' % (refusal.kind, word, refusal.file or name, refusal.line)


def units(folder):
    """The folder and the name of each .c file below a folder."""
    for root, _, names in sorted(os.walk(folder)):
        for name in sorted(names):
            if name.endswith('.c'):
                yield root, name


def given(program, stage, folder, name):
    """What the program prints of a stage for a unit of a folder."""
    run = subprocess.run([program, stage, name], cwd=folder, capture_output=True)
    if run.returncode:
        return 'status %d' % run.returncode
    return run.stdout.decode('latin-1').rstrip('\n')


def compare(program, stage, folder, wanted, differences):
    """Runs a stage of the program on each unit of a folder and prints where it differs from `wanted(folder, name)`, a text that begins with `ok`
    or is a refusal. `differences(want, got)` gives the lines to print, none where the two agree. The result is the exit status."""
    program = os.path.abspath(program)
    read = refusals = differ = 0
    for where, name in units(folder):
        want = wanted(where, name)
        read += want.startswith('ok')
        refusals += not want.startswith('ok')
        lines = differences(want, given(program, stage, where, name))
        differ += bool(lines)
        for line in lines:
            print('%s: %s' % (os.path.join(where, name), line))
    print('%d units read, %d refused, %d differ' % (read, refusals, differ))
    return 1 if differ else 0
