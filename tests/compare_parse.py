#!/usr/bin/env python3
"""Compares what the parser makes of C programs with what a second reading of the same text makes of them.

usage: tests/compare_parse.py PROGRAM FOLDER READING

PROGRAM is the built crates/sc_tool_dump. FOLDER is searched for .c files; each is a unit in its own folder. READING is a folder with the
second reading: pp.py (`preprocess(name, files)`) and parse.py (`parse(tokens)`). Compared are the number of functions and declarations
of a unit that is read, and kind, word and line of a refusal; the file too where preprocessing refuses.
"""
from reading import main


def text_of(unit, name):
    return 'ok %d' % len(unit.a)


def differences(want, got):
    return [] if want == got else ['wanted %s, got %s' % (want, got)]


if __name__ == '__main__':
    main(__doc__, 'tree', text_of, differences)
