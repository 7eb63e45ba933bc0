"""The statements of a function, found by the signs of its text alone: no header is read, and no macro taken.

A text whose braces or brackets are hidden in macros has no statements here, and nothing is said of it.
"""
from dataclasses import dataclass

from saber_source import TOKEN, block_around

OPENING, CLOSING = ("(", "[", "{"), (")", "]", "}")
# words in front of a controlling expression, with the number of its parts
HEADS = {"if": 1, "while": 1, "switch": 1, "for": 3}


@dataclass(frozen=True)
class Token:
    """A token, its line, and where it begins in the text."""
    text: str
    line: int
    at: int

    @property
    def end(self):
        return self.at + len(self.text)


@dataclass(frozen=True)
class Statement:
    """A statement with those in it. `kind` is its first word, `{`, or `simple` for an expression or a declaration.

    `parts` are the pieces in the parentheses of its head, each as its tokens; `line` is where it is reached. Its tokens are
    those from `begin` up to `end` of the text.
    """
    kind: str
    line: int
    text: list
    begin: int
    end: int
    parts: tuple = ()
    inner: tuple = ()

    @property
    def tokens(self):
        return self.text[self.begin:self.end]

    @property
    def first(self):
        return self.text[self.begin]

    @property
    def last(self):
        return self.text[self.end - 1]

    def around(self, line):
        """The statements from this one inwards that have tokens on a line, the outermost one first."""
        if not self.first.line <= line <= self.last.line:
            return []
        found = next((it for inner in self.inner if (it := inner.around(line))), [])
        return [self, *found]

    def all(self):
        """This statement and all in it, in the order of the text."""
        yield self
        for it in self.inner:
            yield from it.all()


class Unclear(Exception):
    """A text whose statements are not seen from its signs."""


def tokens_of(lines):
    """The tokens of a text without directives, comments and blanks."""
    found, line, at, is_directive, is_first = [], 1, 0, False, True
    before = ""
    for text in TOKEN.findall("\n".join(lines)):
        if text == "\n":
            is_directive, is_first = is_directive and before == "\\", True
        elif text == "#" and is_first:
            is_directive = True
        elif not is_directive and not text.isspace() and not text.startswith("/*"):
            found.append(Token(text, line, at))
        is_first = is_first and (text.isspace() or text.startswith("/*"))
        line, at, before = line + text.count("\n"), at + len(text), text
    return found


def body_around(lines, line):
    """The body of the function that a line belongs to, or nothing."""
    block = block_around(lines, line)
    tokens = [it for it in tokens_of(lines) if it.line in block]
    begin = next((at for at in range(1, len(tokens)) if tokens[at].text == "{" and tokens[at - 1].text == ")"), None)
    if begin is None:
        return None
    try:
        return Reader(tokens[begin:]).statement()
    except (Unclear, RecursionError):
        return None


def loops_around(lines, line):
    """The `for` statements with a third part whose bodies have tokens on a line, the innermost one last."""
    body = body_around(lines, line)
    found = body.around(line) if body else []
    return [it for it in found if it.kind == "for" and it.parts[2] and it.inner[0].around(line)]


class Reader:
    """Reads statements from tokens."""

    def __init__(self, tokens):
        self._tokens, self._at = tokens, 0

    def _text(self, behind=0):
        at = self._at + behind
        return self._tokens[at].text if at < len(self._tokens) else ""

    def _take(self, text=None):
        if self._at == len(self._tokens) or (text and self._text() != text):
            raise Unclear
        self._at += 1
        return self._tokens[self._at - 1]

    def statement(self):
        """The statement that begins here, behind its labels."""
        self._labels()
        begin, word = self._at, self._text()
        if word == "{":
            return self._block(begin)
        if word in HEADS:
            return self._headed(begin, word)
        if word == "do":
            return self._do(begin)
        self._up_to(";")
        self._take(";")
        kind = word if word in ("return", "break", "continue", "goto", ";") else "simple"
        return self._made(kind, begin)

    def _made(self, kind, begin, parts=(), inner=(), line=0):
        return Statement(kind, line or self._tokens[begin].line, self._tokens, begin, self._at, tuple(parts), tuple(inner))

    def _labels(self):
        while True:
            if self._text() == "case":
                self._up_to(":")
                self._take()
            elif self._text(1) == ":" and self._text().isidentifier():
                self._at += 2
            else:
                return

    def _block(self, begin):
        self._take("{")
        inner = []
        while self._text() != "}":
            inner.append(self.statement())
        self._take()
        return self._made("{", begin, (), inner)

    def _headed(self, begin, word):
        self._take()
        parts = self._parts(HEADS[word])
        inner = [self.statement()]
        if word == "if" and self._text() == "else":
            self._take()
            inner.append(self.statement())
        return self._made(word, begin, parts, inner)

    def _do(self, begin):
        self._take("do")
        inner = [self.statement()]
        line = self._take("while").line
        parts = self._parts(1)
        self._take(";")
        return self._made("do", begin, parts, inner, line)

    def _parts(self, count):
        """The pieces in a pair of parentheses."""
        self._take("(")
        parts = []
        for at in range(count):
            begin = self._at
            self._up_to(";" if at + 1 < count else ")")
            parts.append(tuple(self._tokens[begin:self._at]))
            self._take()
        return parts

    def _up_to(self, end):
        """Goes to a sign outside of all brackets."""
        depth, asked = 0, 0
        while depth or asked or self._text() != end:
            text = self._take().text
            depth += (text in OPENING) - (text in CLOSING)
            if depth < 0:
                raise Unclear
            if end == ":" and not depth:
                asked += (text == "?") - (text == ":" and asked > 0)
