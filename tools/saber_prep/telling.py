"""Tells what was done to all files of a call: once, the weightiest first, places of one kind by one line."""
from __future__ import annotations

from .notes import Note, Weight
from .project import Project
from .reach import exported_that_reach

ORDER = (Weight.PROBLEM, Weight.LEFT_OUT, Weight.NARROW, Weight.INTEGER, Weight.TOLD)
MOST_NAMES = 4


def lines_of(project: Project, quiet: bool, verbose: bool) -> list[str]:
    """The lines for all notes of a project. `verbose` tells each place, and the plain rewritings too; `quiet` the problems alone."""
    notes = list(dict.fromkeys(project.notes))
    lines: list[str] = []
    for weight in (Weight.PROBLEM,) if quiet else ORDER:
        these = [it for it in notes if it.weight is weight]
        if weight is Weight.LEFT_OUT:
            lines += left_out(project, these, verbose)
        else:
            lines += [it.text() for it in these] if verbose else sums(these)
    return lines + ([it.text() for it in notes if it.weight is Weight.PLAIN] if verbose else [])


def grouped(notes: list[Note]) -> list[list[Note]]:
    groups: dict[tuple, list[Note]] = {}
    for note in notes:
        groups.setdefault(note.group, []).append(note)
    return list(groups.values())


def sums(notes: list[Note]) -> list[str]:
    """One line for each kind: its first place in full, and how many there are."""
    return [summed(it) for it in sorted(grouped(notes), key=len, reverse=True)]


def summed(group: list[Note]) -> str:
    places = {(it.file, it.line) for it in group}
    files = len({it.file for it in group})
    tail = f" (the first of {len(places)} places{f' in {files} files' if files > 1 else ''})" if len(places) > 1 else ""
    return group[0].text() + tail


def left_out(project: Project, notes: list[Note], verbose: bool) -> list[str]:
    """What ends a run that comes there, that which most exported functions reach first, and their names."""
    told = []
    for group in ([[it] for it in notes] if verbose else grouped(notes)):
        reached = sorted({name for it in group for name in exported_that_reach(it.owner, project.users, project.exported)},
                         key=lambda it: (it != "main", it))
        told.append((-len(reached), f"{summed(group)}; {reached_by(reached)}"))
    return [line for _, line in sorted(told, key=lambda it: it[0])]


def reached_by(names: list[str]) -> str:
    """The exported functions that reach a place, in words."""
    if not names:
        return "no exported function reaches it"
    shown, further = names[:MOST_NAMES], len(names) - MOST_NAMES
    more = f" and {further} more exported function{'s' if further > 1 else ''}" if further > 0 else ""
    return f"reached by {', '.join(shown)}{more}"
