"""What the tools know of the texts of modules: lines, their original places, and the names on them."""
import json
import os
import pathlib
import re
from dataclasses import dataclass

KEYWORDS = frozenset("""auto break case char const continue default do double else enum extern float for goto if int long register
return short signed sizeof static struct switch typedef union unsigned void volatile while""".split())
# comments, strings and character constants, names, and any other character
TOKEN = re.compile(r'/\*.*?(?:\*/|\Z)|"(?:\\.|[^"\\\n])*"|\'(?:\\.|[^\'\\\n])*\'|[A-Za-z_]\w*|\d[\w.]*|->|\n|[^\S\n]+|.', re.S)
# A statement that goes on for longer is shown in part.
MOST_LINES = 4


@dataclass(frozen=True)
class Place:
    """A line of a file, and its text."""
    path: pathlib.Path
    line: int
    text: str

    @property
    def file(self):
        """The file as it is named from the current folder on, if that is the shorter name."""
        return min(os.path.relpath(self.path), str(self.path), key=len)


class Sources:
    """The texts of modules, by name. A map `NAME.map.json` beside a module gives the places that its lines come from."""

    def __init__(self, modules):
        self._paths = {it.name: it.path for it in modules}
        self._lines, self._maps = {}, {}

    def edited(self, name, path):
        """Takes another file as the text of a module, or the same one as it is now."""
        self._paths[name] = path
        self._lines.pop(name, None)
        self._maps.pop(name, None)

    def lines(self, name):
        """The lines of a module's text; none where the module is not known."""
        if name not in self._lines:
            path = self._paths.get(name)
            self._lines[name] = lines_of(path) if path else []
        return self._lines[name]

    def line(self, name, number):
        lines = self.lines(name)
        return lines[number - 1] if 0 < number <= len(lines) else ""

    def statement(self, name, number):
        """The lines from this one on up to the end of the statement that begins on it, as it seems from its signs."""
        found = []
        for at in range(number, number + MOST_LINES):
            found.append(self.line(name, at))
            if re.search(r"[;{}]\s*(/\*.*\*/\s*)?$", found[-1]):
                break
        return [it for it in found if it.strip()]

    def place(self, name, number):
        """Where a line of a module comes from: by its map, else the module's own file and line."""
        own = self._paths.get(name)
        file, line = self._original(name, number) or (own or pathlib.Path(f"{name}.c"), number)
        lines = self.lines(name) if file == own else lines_of(file)
        text = lines[line - 1] if 0 < line <= len(lines) else self.line(name, number)
        return Place(file, line, text.strip())

    def lines_from(self, path):
        """Pairs of a line of a file and its place (module, line), for all lines of modules that come from that file."""
        path, found = pathlib.Path(path).resolve(), []
        for name, own in self._paths.items():
            self._original(name, 0)
            for first, last, file, line in self._maps[name]:
                if file == path:
                    found += [(line + at - first, (name, at)) for at in range(first, last + 1)]
            if not self._maps[name] and own.resolve() == path:
                found += [(at, (name, at)) for at in range(1, len(self.lines(name)) + 1)]
        return found

    def _original(self, name, number):
        if name not in self._maps:
            self._maps[name] = read_map(self._paths.get(name))
        for first, last, file, line in self._maps[name]:
            if first <= number <= last:
                return file, line + number - first
        return None


def lines_of(path):
    """The lines of a file; none where it cannot be read, since a report is worth more than its source line."""
    try:
        return pathlib.Path(path).read_text(errors="replace").split("\n")
    except OSError:
        return []


def read_map(path):
    """The ranges (first line, last line, file, line) of the map beside a module; none where there is no map.

    A file is named from the folder of the module on, or from the one in which the map was made.
    """
    try:
        told = json.loads(path.with_name(path.stem + ".map.json").read_text())
        return [(it["first"], it["last"], named_from(path.parent, it["file"]), it["line"]) for it in told["ranges"]]
    except (OSError, ValueError, KeyError, TypeError, AttributeError):
        return []


def named_from(folder, file):
    """The path of a file that is named from a folder or from the current one."""
    here = [it / file for it in (folder, pathlib.Path(".")) if (it / file).is_file()]
    return (here[0] if here else folder / file).resolve()


def names_in(lines):
    """The names that may stand for objects in a piece of C: in their order, without members, keywords and calls of names."""
    tokens = [it for it in TOKEN.findall("\n".join(lines)) if not it.isspace() and not it.startswith("/*")]
    found = []
    for at, token in enumerate(tokens):
        is_name = re.fullmatch(r"[A-Za-z_]\w*", token) and token not in KEYWORDS
        if is_name and (at == 0 or tokens[at - 1] not in (".", "->")) and tokens[at + 1:at + 2] != ["("]:
            found.append(token)
    return list(dict.fromkeys(found))


def parts_of(value):
    """The elements of an array or a structure, as `print` writes it; none for another value."""
    parts, depth, begin = [], 0, 1
    for at, sign in enumerate(value if value.startswith("{") else ""):
        depth += (sign == "{") - (sign == "}")
        if (sign == "," and depth == 1) or (sign == "}" and depth == 0):
            parts.append(value[begin:at].strip())
            begin = at + 1
    return [it for it in parts if it]


def block_around(lines, number):
    """The lines, as a range of numbers, of the definition at file scope that a line belongs to."""
    first, line, depth, is_directive, before = 0, 1, 0, False, ""
    for token in TOKEN.findall("\n".join(lines)):
        if token == "\n":
            is_directive = is_directive and before == "\\"
        elif token == "#":
            is_directive = True
        elif not is_directive and token in "{}":
            depth = max(0, depth + (1 if token == "{" else -1))
        first = line if not first and not token.isspace() else first
        line += token.count("\n")
        before = token
        if depth == 0 and not is_directive and token in (";", "}"):
            if number <= line:
                return range(first, line + 1)
            first = 0
    return range(first or number, len(lines) + 1)
