"""Shared by the scripts that compare what is made of whole units: the second reading, a folder with pp.py (`preprocess(name, files)`),
parse.py (`parse(tokens)`) and common.py."""
import os
import sys

from units import Files, compare, refused


def read(folder, name, text_of):
    """What `text_of(unit, name)` says of a unit that the second reading parses, or the refusal's text; past preprocessing a refusal is
    the unit's own."""
    import common
    import parse
    import pp
    try:
        tokens = pp.preprocess(name, Files(folder))
    except common.Refusal as refusal:
        return refused(refusal, name)
    try:
        return text_of(parse.parse([token for token in tokens if token.kind != 'Newline']), name)
    except common.Refusal as refusal:
        refusal.file = None
        return refused(refusal, name)


def main(usage, stage, text_of, differences):
    """Compares a stage of the program, on the units of the folder, with the second reading that the command line names."""
    if len(sys.argv) != 4:
        sys.exit(usage)
    program, folder, reading = sys.argv[1:]
    sys.path.insert(0, os.path.abspath(reading))
    sys.setrecursionlimit(100000)
    import common
    # labels, `goto` and unions are left out
    common.Stage.now = 3
    sys.exit(compare(program, stage, folder, lambda where, name: read(where, name, text_of), differences))
