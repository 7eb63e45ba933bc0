"""The places of a text that are next where a call stands on a line: statements, and the first values of declared objects.

More than one thing may be reached on a line, and no command tells which of them is next; so all are given.
"""
import re
from dataclasses import dataclass, replace

from saber_statements import Statement, body_around

TYPE_WORDS = frozenset("auto char const enum extern int long register short signed static struct typedef union unsigned void".split())
NAME = re.compile(r"[A-Za-z_]\w*")
# of more places on a line none is given
MOST_ON_A_LINE = 32


@dataclass(frozen=True)
class Declarator:
    """An initialised declarator: its line, where it begins in the statement's text, and the tokens of its first value."""
    line: int
    begin: int
    value: tuple

    @property
    def is_list(self):
        """Whether an array or a structure gets its values one by one, which are constants; nothing can stand before them."""
        return self.value[0].text.startswith(("{", '"'))


@dataclass(frozen=True)
class Spot:
    """A statement, or a declarator of it, that may be next; or that comes so many lines later, with nothing but constants before it.

    `names` are declared on the way to it, or there. `is_entry` tells whether the call stands where it was entered.
    """
    statement: Statement
    declarator: Declarator = None
    passes: int = 0
    names: tuple = ()
    is_entry: bool = False


def is_declaration(tokens):
    """Whether a simple statement is a declaration, as it seems from its first tokens."""
    words = [it.text for it in tokens[:4]]
    if words[0] in TYPE_WORDS:
        return True
    names = [bool(NAME.fullmatch(it)) for it in words]
    stars = len(words) > 2 and words[1] == "*" and (words[2] == "*" or (names[2] and words[3:] and words[3] in ("=", ",", ";", "[", ")")))
    return names[0] and len(words) > 1 and (names[1] or stars)


def declarators(statement):
    """The initialised declarators of a declaration; none of another statement."""
    if statement.kind != "simple" or not is_declaration(statement.tokens):
        return []
    tokens, found, depth, named, begin = statement.tokens, [], 0, 0, None
    for at, token in enumerate(tokens):
        if begin is None and not depth and NAME.fullmatch(token.text):
            named = at
        depth += (token.text in "([{") - (token.text in ")]}")
        if not depth and token.text == "=" and begin is None:
            begin = at + 1
        elif not depth and token.text in (",", ";"):
            if begin is not None:
                found.append(Declarator(tokens[named].line, statement.begin + named, tuple(tokens[begin:at])))
            begin = None
    return found


def reached(statement):
    """What is reached of a statement itself, as pairs of it and a declarator or nothing."""
    if statement.kind == "for":
        return [(statement, None)] if statement.parts[0] or statement.parts[1] else []
    if statement.kind == "{" or (statement.kind == "simple" and is_declaration(statement.tokens)):
        return [(statement, it) for it in declarators(statement)]
    return [(statement, None)]


def line_of(statement, declarator):
    return declarator.line if declarator else statement.line


def behind(statement, body):
    """What is reached behind a statement in its own block, up to the first one that is no declaration."""
    block = next((it.inner for it in body.all() if it.kind == "{" and statement in it.inner), ())
    for it in block[block.index(statement) + 1:] if block else ():
        yield from reached(it)
        if it.kind != "simple" or not is_declaration(it.tokens):
            return


def spot_at(statement, declarator, body):
    """The spot for what is next: it itself, or what stands behind values that are given one by one; or nothing."""
    own = reached(statement)
    pieces = [*own[own.index((statement, declarator)):], *behind(statement, body)]
    for passes, (found, part) in enumerate(pieces):
        if not part or not part.is_list:
            end = part.begin + 2 if part else found.begin
            return Spot(found, part, passes, declared(statement.text[declarator.begin:end]) if passes else ())
    return None


def declared(tokens):
    """The names that some tokens of declarations declare, and perhaps others."""
    return tuple(it.text for it, more in zip(tokens, tokens[1:]) if NAME.fullmatch(it.text) and more.text in ("=", ",", ";", "[", ")"))


def spots_at(lines, line):
    """The spots that may be next where a call stands on a line."""
    body = body_around(lines, line)
    if not body:
        return []
    found = [it for statement in body.all() for it in reached(statement)]
    there = [it for it in found if line_of(*it) == line]
    if len(there) > MOST_ON_A_LINE:
        return []
    own = [spot for it in there if (spot := spot_at(*it, body))]
    if line > body.first.line or not found:
        return own
    first = spot_at(*found[0], body)
    return [*own, replace(first, passes=first.passes + 1, is_entry=True)] if first else own
