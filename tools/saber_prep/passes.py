"""The passes in their order. Of edits over the same tokens the later one is the outer one."""
from __future__ import annotations

import pathlib

from . import bits, calls, casts, flatten, initialisers, integers, keep, library, members, oldstyle, problems, statements, structs, types, words
from .notes import Notes, Weight
from .source import Options, read
from .tree import deep, parsed
from .unit import Unit


def unit_of(path: pathlib.Path, options: Options) -> Unit:
    """Reads a file and does all passes on it."""
    source = read(path, options)
    if options.integers:
        source.tokens = integers.as_integers(source.tokens)
    notes = Notes()
    if not source.tokens:
        return Unit(source, options, [], None, notes)
    nodes, flat, declared = library.declared(source, *parsed(source))
    unit = Unit(source, options, nodes, flat, notes)
    library.tell(unit, declared)
    if source.lacks_config:
        unit.note(Weight.TOLD, 0, "config.h is not there", "an empty one is taken; -I with the folder of yours goes first")
    for origin in source.pragmas:
        if not origin.header:
            place = next((it for it, token in enumerate(unit.tokens) if token.origin.own >= origin.line), 0)
            unit.note(Weight.PLAIN, place, "#pragma")
    deep(lambda: all_passes(unit))
    return unit


def all_passes(unit: Unit) -> None:
    words.drop_words(unit)
    words.literals(unit)
    types.wide_integers(unit)
    types.wide_shifts(unit)
    types.floating(unit)
    integers.integers(unit)
    types.type_of(unit)
    types.open_arrays(unit)
    types.aliases(unit)
    initialisers.constant_lists(unit)
    initialisers.compound_literals(unit)
    calls.calls(unit)
    calls.undeclared(unit)
    structs.structures(unit)
    casts.void_arithmetic(unit)
    casts.casts(unit)
    types.booleans(unit)
    bits.bit_fields(unit)
    members.unnamed_members(unit)
    oldstyle.old_style(unit)
    oldstyle.empty_parentheses(unit)
    oldstyle.implicit_int(unit)
    flatten.flatten(unit)
    statements.statements(unit)
    calls.main_with_arguments(unit)
    calls.names_of_library(unit)
    problems.problems(unit)
    problems.set_aside(unit)
    if unit.options.leave_out:
        problems.leave_out(unit)
    keep.keep_used(unit)
    unit.settle_notes()
