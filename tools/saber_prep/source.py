"""The tokens of a preprocessed file, each with the file and line where it was written."""
from __future__ import annotations

import pathlib
import re
import resource
import signal
import subprocess
import tempfile
from dataclasses import dataclass, field

from .notes import Failure

INCLUDE = pathlib.Path(__file__).resolve().parent.parent / "include"
TARGET = "--target=i386-linux-gnu"  # its types have the sizes of the product's
TOKEN = re.compile(
    r'(?:L|u8|u|U)?"(?:\\.|[^"\\])*"|(?:L|u|U)?\'(?:\\.|[^\'\\])*\'|[A-Za-z_$]\w*|\.?\d(?:[eEpP][+-]|[\w.])*'
    r"|%:%:|%:|<:|:>|<%|%>|\.\.\.|<<=|>>=|->|\+\+|--|<<|>>|<=|>=|==|!=|&&|\|\||[-+*/%&|^]=|##|\S",
    re.S,
)
MARKER = re.compile(r'# (\d+) "((?:\\.|[^"\\])*)"((?: \d)*)\s*$')
# what `load` takes of a file, by docs/PREPROCESSING.md
MOST_BYTES = 1_048_576
# what clang may make of a file before it is parsed, and how long it may work on one
MOST_PREPROCESSED = 32 << 20
MOST_SECONDS = 60
DIGRAPHS = {"<:": "[", ":>": "]", "<%": "{", "%>": "}", "%:": "#", "%:%:": "##"}
FIXED = [
    "-D__STDC_VERSION__=199901L", "-D__STDC_HOSTED__=1", "-D__SABER__=1", "-D__CHAR_BIT__=8", "-D__CHAR_UNSIGNED__=1",
    "-D__SIZEOF_INT__=4", "-D__SIZEOF_LONG__=4", "-D__SIZEOF_POINTER__=4", "-D__SIZEOF_SIZE_T__=4",
    "-D__ORDER_LITTLE_ENDIAN__=1234", "-D__ORDER_BIG_ENDIAN__=4321", "-D__BYTE_ORDER__=1234",
    "-D__builtin_expect(value,wanted)=(value)", "-D__builtin_unreachable()=((void)0)",
]


@dataclass(frozen=True)
class Options:
    """The words of the command line that change what is made of a file."""

    narrow: bool = False
    leave_out: bool = False
    arguments: tuple[str, ...] = ()
    folders: tuple[str, ...] = ()
    defines: tuple[str, ...] = ()
    integers: bool = False


@dataclass(frozen=True)
class Origin:
    """A place in a file; `own` is the line of the user's file that stands for it."""

    file: str
    line: int
    own: int
    header: bool


@dataclass(frozen=True)
class Token:
    """A token; `was` is what the user wrote where --integers made it another one."""

    text: str
    origin: Origin
    was: str = ""

    def is_name(self) -> bool:
        return self.text[0].isalpha() or self.text[0] in "_$"


@dataclass
class Source:
    """A preprocessed file: its tokens, and the places of the pragmas that were dropped."""

    path: pathlib.Path
    tokens: list[Token] = field(default_factory=list)
    pragmas: list[Origin] = field(default_factory=list)
    last_line: int = 0
    lacks_config: bool = False


def preprocessed(path: pathlib.Path, options: Options) -> str:
    """The text that the preprocessor makes of a file, with its line markers."""
    words = ["clang", "-E", "-x", "c", "-std=gnu99", TARGET, "-funsigned-char", "-undef", "-nostdinc", "-w"]
    words += FIXED
    for folder in options.folders:
        words += ["-I", folder]
    words += ["-I", str(path.parent), "-isystem", str(INCLUDE)]
    words += [f"-D{it}" for it in options.defines]
    ran = run(words + [str(path)], b"", path, MOST_PREPROCESSED)
    if ran.returncode != 0:
        raise Failure(first_error(ran.stderr.decode("latin-1"), path), 3)
    return ran.stdout.decode("latin-1")


def run(words: list[str], given: bytes, path: pathlib.Path, most: int) -> subprocess.CompletedProcess:
    """Runs clang on a text, or on the file itself, for so many bytes and for no more than a while; without clang there is nothing to do."""

    def limited() -> None:
        resource.setrlimit(resource.RLIMIT_CPU, (MOST_SECONDS, MOST_SECONDS))
        resource.setrlimit(resource.RLIMIT_FSIZE, (most, most))

    with tempfile.TemporaryFile() as out:
        try:
            ran = subprocess.run(words, input=given, stdout=out, stderr=subprocess.PIPE, check=False, preexec_fn=limited)
        except FileNotFoundError:
            raise Failure("clang is not there: install it (Debian: apt install clang)", 2) from None
        out.seek(0)
        ran.stdout = out.read()
    if len(ran.stdout) >= most or ran.returncode in (-signal.SIGXCPU, -signal.SIGXFSZ, -signal.SIGKILL):
        raise Failure(f"{path}:1: clang makes more of it than can be worked on ({most >> 20} MiB, {MOST_SECONDS} s): cut the file into two", 4)
    return ran


def first_error(text: str, path: pathlib.Path) -> str:
    """The first error of the preprocessor, in one line."""
    found = re.search(r"^(.+?):(\d+):\d+: (?:fatal )?error: (.*)$", text, re.M)
    if found is None:
        return f"{path}: {text.strip().splitlines()[0] if text.strip() else 'the preprocessor failed'}"
    advice = "; give its folder by -I" if found[3].endswith("file not found") else ""
    return f"{found[1]}:{found[2]}: {found[3]}{advice}"


def read(path: pathlib.Path, options: Options) -> Source:
    """Preprocesses a file and cuts it into tokens."""
    source = Source(path)
    source.last_line = path.read_bytes().count(b"\n") + 1
    file, line, own = str(path), 1, 1
    pending: list[tuple[str, Origin]] = []
    for text in preprocessed(path, options).split("\n"):
        found = MARKER.match(text)
        if found:
            file, line = found[2].replace('\\"', '"').replace("\\\\", "\\"), int(found[1])
            source.lacks_config |= file == str(INCLUDE / "config.h")
            continue
        header = file != str(path)
        own = own if header else line
        origin = Origin(file, line, own, header)
        if re.match(r"\s*#", text):
            source.pragmas.append(origin)
        else:
            pending.append((text, origin))
        line += 1
    tokens = [Token(DIGRAPHS.get(it, it), origin) for text, origin in pending for it in TOKEN.findall(text)]
    size = sum(len(it.text) for it in tokens if not it.origin.header)
    if size > MOST_BYTES:
        raise Failure(f"{path}:1: its own text has {size} bytes without blanks and comments, and load takes {MOST_BYTES}: cut the file into two", 3)
    source.tokens = with_arguments_of_printf(with_empty_statements(tokens))
    return source


def with_arguments_of_printf(tokens: list[Token]) -> list[Token]:
    """Gives a declaration of `printf` its `...` where a source leaves that out, as the core of C may, and older ones do."""
    out: list[Token] = []
    depth = begun = 0
    for place, token in enumerate(tokens):
        texts = [it.text for it in tokens[max(place - 2, 0) : place]]
        depth += (token.text == "{") - (token.text == "}")
        if depth == 0 and texts == ["int", "printf"] and token.text == "(":
            begun = len(out) + 1
        if begun and token.text == ")":
            listed = [it.text for it in out[begun:]]
            if "..." not in listed and tokens[place + 1 : place + 2] and tokens[place + 1].text in (";", ","):
                words = ["const", "char", "*"] if not listed else []
                out += [Token(it, token.origin) for it in (*words, ",", "...")]
            begun = 0
        out.append(token)
    return out


def with_empty_statements(tokens: list[Token]) -> list[Token]:
    """Puts a `;` between a label and the end of its block, which older compilers and the product want."""
    out: list[Token] = []
    for token in tokens:
        if token.text == "}" and out and out[-1].text == ":":
            out.append(Token(";", token.origin))
        out.append(token)
    return out
