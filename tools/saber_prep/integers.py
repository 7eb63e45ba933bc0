"""With --integers floating types and constants are read as integers, before the text is parsed; each place is told."""
from __future__ import annotations

import re

from .notes import Weight
from .source import Token
from .unit import Unit

FLOATING = ("float", "double")
CONSTANT = re.compile(r"(0[xX][0-9a-fA-F.]+[pP][+-]?\d+|\d+\.\d*(?:[eE][+-]?\d+)?|\.\d+(?:[eE][+-]?\d+)?|\d+[eE][+-]?\d+)[fFlL]?$")
MOST = 2147483647
TYPE_ADVICE = "what stands behind the point is lost, and what needs more than 32 bits; sizeof differs"


def is_floating_constant(text: str) -> bool:
    return text[0] in ".0123456789" and CONSTANT.match(text) is not None


def as_integers(tokens: list[Token]) -> list[Token]:
    """Puts `long` in the place of floating types, and the integer part in that of constants; no place moves."""
    out = []
    for place, token in enumerate(tokens):
        if token.text in FLOATING:
            beside = {tokens[it].text for it in (place - 1, place + 1) if 0 <= it < len(tokens)}
            token = Token("int" if "long" in beside else "long", token.origin, token.text)
        elif is_floating_constant(token.text):
            token = Token(f"{value_of(token.text)}l", token.origin, token.text)
        out.append(token)
    return out


def value_of(text: str) -> int:
    """The integer that a floating constant becomes: towards zero, and no more than a `long` holds."""
    digits = CONSTANT.match(text)[1]
    value = number_of(digits)
    return MOST if value > MOST else int(value)


def number_of(digits: str) -> float:
    try:
        return float.fromhex(digits) if digits[:2].lower() == "0x" else float(digits)
    except (OverflowError, ValueError):
        return float("inf")


def integers(unit: Unit) -> None:
    """Tells what was read so."""
    for place, token in enumerate(unit.tokens):
        if token.was in FLOATING:
            unit.note(Weight.INTEGER, place, f"{token.was} is read as long", TYPE_ADVICE, "floating types")
        elif token.was:
            exact = number_of(CONSTANT.match(token.was)[1]) == value_of(token.was)
            unit.note(Weight.INTEGER, place, f"the constant {token.was} becomes {token.text}", "" if exact else "its value is another", "whole constants" if exact else "")
