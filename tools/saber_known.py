"""The undefined steps that a user knows of and does not want to be told again, from a file with one line for each."""
import re
from dataclasses import dataclass

from saber_session import refused

LINE = re.compile(r"(U\d{1,2}|\*)\s+(\S+)(?:\s.*)?")


@dataclass(frozen=True)
class Known:
    """A rule, or `*` for any, and a place: `FILE:LINE`, `FILE`, or a function as a report names it."""
    rule: str
    place: str

    def is_of(self, step):
        """Whether a step is meant. A file is named by the end of its path."""
        if self.rule not in ("*", step.violation.rule):
            return False
        if self.place in (step.violation.key, step.violation.key.split(":")[-1]):
            return True
        file, _, line = self.place.rpartition(":") if re.search(r":\d+$", self.place) else (self.place, "", "")
        parts = tuple(it for it in file.split("/") if it not in ("", "."))
        is_file = bool(parts) and step.place is not None and step.place.path.parts[-len(parts):] == parts
        return is_file and line in ("", str(step.place.line), str(step.reported.line))


def known_of(name):
    """The steps that a file lists. A line that begins with `#` and an empty one stand for none."""
    if name is None:
        return []
    try:
        with open(name, errors="replace") as file:
            lines = file.read().split("\n")
    except OSError as error:
        raise refused(f"{name}: {error.strerror}") from None
    found = []
    for number, line in enumerate(lines, 1):
        told = line.strip()
        if told and not told.startswith("#"):
            parts = LINE.fullmatch(told)
            if not parts:
                raise refused(f"{name}:{number}: no rule and place, as `U3 list.c:20`, `U3 list:drop` or `* list.c`")
            found.append(Known(parts[1], parts[2]))
    return found
