#!/usr/bin/env python3
"""Holds what `disas` shows of each compiled function to binutils: the words of its section at their addresses, relocated by
the psABI's rules, and the text that objdump gives each word.

usage: tests/disassembly.py PROGRAM [FOLDER..]      (all of tests/programs and examples if none is named)

Each module of a folder that is translated alone is compiled, put into object form and shown, function by function. It asks
riscv64-unknown-elf-readelf and -objdump (Debian's binutils-riscv64-unknown-elf). A word whose relocation names what another
module defines may differ where the relocation stands, since no command shows the number of such a function. Without binutils nothing
is compared, and that is said.
The last line is 'N passed, M failed'.
"""
import pathlib
import re
import shutil
import struct
import subprocess
import sys
import tempfile

ROOT = pathlib.Path(__file__).resolve().parent.parent
PREFIX = "riscv64-unknown-elf-"
TEXTS, STATICS, STUBS = 0x00100000, 0x08000000, 0x00010000
TARGETED = ("jal", "beq", "bne", "blt", "bge", "bltu", "bgeu")
# the bits of a word that a relocation leaves
UPPER, LOWER, SPLIT = 0x00000FFF, 0x000FFFFF, 0x01FFF07F


def told(*words, given="", room=None):
    return subprocess.run(words, input=given, cwd=room, capture_output=True, text=True, check=True).stdout.splitlines()


def read_object(file):
    """The sections in their order, each (name, bytes, size), and the relocations by section, each (place, type, name, addend)."""
    whole, sections, relocations, home = file.read_bytes(), [], {}, None
    for line in told(PREFIX + "readelf", "-SW", file):
        found = re.match(r"\s*\[\s*\d+\]\s+(\.(?:text|data|rodata|bss)\.\S+)\s+(\S+)\s+\S+\s+(\S+)\s+(\S+)", line)
        if found:
            at, size = int(found[3], 16), int(found[4], 16)
            sections.append((found[1], b"" if found[2] == "NOBITS" else whole[at:at + size], size))
    for line in told(PREFIX + "readelf", "-rW", file):
        head = re.match(r"Relocation section '\.rela(\S+)'", line)
        home = head[1] if head else home
        found = re.match(r"([0-9a-f]{8})\s+\S+\s+R_RISCV_(\S+)\s+\S+\s+(\S+) ([+-]) ([0-9a-f]+)", line)
        if found:
            addend = int(found[4] + found[5], 16)
            relocations.setdefault(home, []).append((int(found[1], 16), found[2], found[3], addend))
    return sections, relocations


def placed(sections):
    """Where the sections of the only module stand: texts behind each other, and objects each with a byte at least behind it."""
    text, static, places = TEXTS, STATICS, {}
    for name, _, size in sections:
        if name.startswith(".text."):
            places[name], text = text, text + (size + 3) // 4 * 4
        else:
            places[name], static = static, static + size // 4 * 4 + 4
    return places


def changed(word, kind, value):
    """The word with the value at the place of a relocation, and the bits that the relocation leaves."""
    if kind == "HI20":
        return word & UPPER | (value + 0x800 >> 12 & 0xFFFFF) << 12, UPPER
    if kind == "LO12_I":
        return word & LOWER | (value & 0xFFF) << 20, LOWER
    return word & SPLIT | (value & 0x1F) << 7 | (value >> 5 & 0x7F) << 25, SPLIT


def words_of(section, places, relocations, values):
    """The words of a text, each with the bits that have to be so."""
    name, content, _ = section
    words = [(word, 0xFFFFFFFF) for word, in struct.iter_unpack("<I", content)]
    for place, kind, symbol, addend in relocations.get(name, []):
        value, steps = values.get(symbol), [(place, kind)]
        if kind == "CALL_PLT":
            value = value and value - places[name] - place
            steps = [(place, "HI20"), (place + 4, "LO12_I")]
        for at, how in steps:
            word, left = changed(words[at // 4][0], how, (value or 0) + addend)
            words[at // 4] = word, left if value is None else 0xFFFFFFFF
    return words


def texts_of(start, words):
    """What objdump shows of words, in the disassembler's spelling: decimal numbers, and offsets in place of targets."""
    with tempfile.NamedTemporaryFile() as file:
        file.write(struct.pack(f"<{len(words)}I", *words))
        file.flush()
        lines = told(PREFIX + "objdump", "-D", "-z", "-b", "binary", "-m", "riscv:rv32", "-M", "no-aliases,numeric", f"--adjust-vma={start}", file.name)
    for line in lines:
        found = re.match(r"\s*([0-9a-f]+):\s+[0-9a-f]{8}\s+(\S+)\s*(\S*)", line)
        if found:
            name, operands = found[2], found[3]
            if name in TARGETED:
                first, target = operands.rsplit(",", 1)
                operands = f"{first},{int(target, 16) - int(found[1], 16)}"
            operands = re.sub(r"-?0x[0-9a-f]+", lambda it: str(int(it[0], 16)), operands).replace(",", ", ")
            yield f"{name} {operands}".strip()


def differs(shown, start, wanted):
    """What is wrong with the lines that were shown of a text, or nothing."""
    found = [re.fullmatch(r"> ([0-9a-f]{8}) ([0-9a-f]{8}) (.*)", line) for line in shown]
    if None in found or len(found) != len(wanted):
        return f"{len(shown)} lines, and {len(wanted)} words"
    words = [int(it[2], 16) for it in found]
    texts = list(texts_of(start, words))
    for n, (it, (word, left)) in enumerate(zip(found, wanted)):
        if int(it[1], 16) != start + 4 * n or words[n] & left != word & left or it[3] != texts[n]:
            return f"{it[0]}, and not {start + 4 * n:08x} {word:08x} {texts[n]}"
    return ""


def compare(program, file, room):
    """Yields what is compared of a module, each with what is wrong."""
    name = file.stem
    answers = told(program, given=f"load {name}\ncompile {name}\nswap {name} object\nlist\n", room=room)
    if f"> {name} object" not in answers:
        return
    numbers = {it.split()[3].split(":")[-1]: int(it.split()[2]) for it in answers if it.startswith("> fun ")}
    sections, relocations = read_object(room / f"{name}.o")
    places = placed(sections)
    values = {it.split(".", 2)[2]: at for it, at in places.items()}
    values |= {fun: STUBS + 8 * number for fun, number in numbers.items()}
    for section in sections:
        fun = section[0].removeprefix(".text.")
        if fun in numbers and section[0].startswith(".text."):
            shown = told(program, given=f"load {name}\nswap {name} object\ndisas {name}:{fun}\n", room=room)[2:]
            yield f"{name}:{fun}", differs(shown, places[section[0]], words_of(section, places, relocations, values))


def main():
    program = pathlib.Path(sys.argv[1]).resolve()
    named = [pathlib.Path(it) for it in sys.argv[2:]]
    passed = failed = 0
    if not shutil.which(PREFIX + "objdump"):
        print("binutils for RISC-V are not installed: nothing is compared")
        print("0 passed, 0 failed")
        return
    for folder in named or sorted([*(ROOT / "tests/programs").iterdir(), *(ROOT / "examples").iterdir()]):
        with tempfile.TemporaryDirectory() as copy:
            room = pathlib.Path(copy, "room")
            shutil.copytree(folder, room)
            for file in sorted(room.glob("*.c")):
                for what, wrong in compare(program, file, room):
                    passed, failed = passed + (not wrong), failed + bool(wrong)
                    if wrong:
                        print(f"{folder.name}/{what}: {wrong}")
    print(f"{passed} passed, {failed} failed")
    sys.exit(failed > 0 or passed == 0)


main()
