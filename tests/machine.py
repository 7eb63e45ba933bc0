#!/usr/bin/env python3
"""Compares the machine with two others: how 10,000 random words are shown as text, with what objdump shows for them;
what one step of an instruction comes to, with 458 results of qemu; and how texts end that do not go on, with values worked out by hand.

usage: tests/machine.py PROGRAM      PROGRAM is the built crates/sc_tool_machine
       tests/machine.py --write      writes tests/vectors/words.txt anew; needs riscv64-unknown-elf-objdump (binutils-riscv64-unknown-elf)

A line of words.txt has a word and objdump's text, with registers by number and no aliases. The text is left out where objdump shows
no instruction of RV32IM. Half of the words are random, half have one of the table's opcodes. A line of arithmetic.txt has a mnemonic, a
word, what a1 and a2 hold before it, and the result: what a0 holds after it, or 1 where a branch is taken and 0 where it is not.
"""
import pathlib
import random
import re
import struct
import subprocess
import sys
import tempfile

VECTORS = pathlib.Path(__file__).parent / "vectors"
TABLE = VECTORS / "words.txt"
COUNT = 10_000
OPCODES = [0x37, 0x17, 0x6F, 0x67, 0x63, 0x03, 0x23, 0x13, 0x33, 0x73, 0x0F]
UPPERS = ["lui", "auipc"]
BRANCHES = ["beq", "bne", "blt", "bge", "bltu", "bgeu"]
LOADS = ["lb", "lh", "lw", "lbu", "lhu"]
STORES = ["sb", "sh", "sw"]
CONSTANTS = ["addi", "slli", "slti", "sltiu", "xori", "srli", "srai", "ori", "andi"]
TWO = ["add", "sub", "sll", "slt", "sltu", "xor", "srl", "sra", "or", "and", "mul", "mulh", "mulhsu", "mulhu", "div", "divu", "rem", "remu"]
# texts, how each ends and where the next instruction is then
ENDS = [
    (["00000067"], "Stopped(BadFetch) 00000000"),  # jalr x0, 0(x0)
    (["00200067"], "Stopped(Misfetch) 00000002"),  # jalr x0, 2(x0)
    (["00300067"], "Stopped(Misfetch) 00000002"),  # jalr x0, 3(x0): bit 0 is cleared
    (["00000000"], "Stopped(Illegal) 00100000"),
    (["20000637", "00162283"], "Stopped(Misaligned) 00100004"),  # lui x12, 0x20000; lw x5, 1(x12)
    (["20000637", "00062283"], "Stopped(Outside) 00100004"),  # lui x12, 0x20000; lw x5, 0(x12)
    (["00002023"], "Stopped(Outside) 00100000"),  # sw x0, 0(x0)
    (["00001023"], "Stopped(Outside) 00100000"),  # sh x0, 0(x0)
    (["00001fa3"], "Stopped(Misaligned) 00100000"),  # sh x0, 31(x0)
    (["00900293", "00000073"], "Service(9) 00100008"),  # addi x5, x0, 9; ecall
    (["0000f5b7", "00058067"], "AtReturn 0000f000"),  # lui x11, 0xf; jalr x0, 0(x11)
    (["0ff0000f", "00100073"], "Stopped(Illegal) 00100004"),  # fence; ebreak
]
NAMES = UPPERS + ["jal", "jalr", "ecall"] + BRANCHES + LOADS + STORES + CONSTANTS + TWO


def random_words():
    """The words, the same at each call. In every other one the opcode is the table's, and the funct7 mostly one that it has."""
    draw = random.Random(25)
    for n in range(COUNT):
        word = draw.getrandbits(32)
        if n % 2:
            word = word & ~0x7F | draw.choice(OPCODES)
            if word & 0x7F in (0x13, 0x33) and draw.random() < 0.9:
                word = word & 0x01FFFFFF | draw.choice([0, 0, 0x20, 1]) << 25
        yield word
    yield from (0x00000073, 0x00100073, 0x0FF0000F, 0x0000100F, 0x8330000F, 0x00000000, 0xFFFFFFFF)


def shown(words):
    """Objdump's text of each word as the only one of a file; empty where it is no instruction of RV32IM."""
    with tempfile.TemporaryDirectory() as room:
        at = pathlib.Path(room) / "words"
        # a word that is no whole instruction may swallow what follows, so each stands before seven that show where it ends
        at.write_bytes(b"".join(struct.pack("<8I", w, *[0x13] * 7) for w in words))
        out = subprocess.run(["riscv64-unknown-elf-objdump", "-D", "-b", "binary", "-m", "riscv:rv32", "-M", "no-aliases,numeric", at],
                             check=True, capture_output=True, text=True).stdout
    texts = {}
    for line in out.splitlines():
        found = re.match(r"\s*([0-9a-f]+):\s+([0-9a-f]{8})\s+(\S+)\s*(\S*)", line)
        if found and int(found[1], 16) % 32 == 0:
            texts[int(found[1], 16) // 32] = (found[3], found[4])
    for n, word in enumerate(words):
        name, operands = texts.get(n, ("", ""))
        if name in ("jal", *BRANCHES):
            # the target as an offset from the word
            first, target = operands.rsplit(",", 1)
            offset = (int(target, 16) - 32 * n + 2 ** 31) % 2 ** 32 - 2 ** 31
            operands = f"{first},{offset}"
        # objdump shows counts of 64-bit shifts, too
        counted = name in ("slli", "srli", "srai") and int(operands.rsplit(",", 1)[1], 0) > 31
        known = name in NAMES and not counted or word == 0x0FF0000F
        yield f"{name} {operands}".strip() if known else ""


def written(text):
    """The line that a text of objdump's is as the disassembler writes it: all numbers decimal, a space behind each comma and no operands of `fence`."""
    if not text:
        return "none"
    name, _, operands = text.partition(" ")
    if name == "fence":
        return name
    decimal = re.sub(r"-?0x[0-9a-f]+", lambda found: str(int(found[0], 16)), operands)
    return f"{name} {decimal.replace(',', ', ')}".strip()


def run(program, given, *args):
    """The lines that the program prints."""
    return subprocess.run([program, *args], input=given, check=True, capture_output=True, text=True).stdout.splitlines()


def told(what, count, wrong):
    """Prints the first differences, and whether there is none."""
    for line in wrong[:20]:
        print(line)
    print(f"{what}: {count}, {len(wrong)} otherwise")
    return not wrong


def compare_words(program):
    lines = [line.partition("|")[::2] for line in TABLE.read_text().splitlines()]
    got = run(program, "".join(word + "\n" for word, _ in lines))
    wrong = [f"{word}: {is_}, and not {written(text)}" for (word, text), is_ in zip(lines, got) if written(text) != is_]
    return told("words shown as objdump shows them", len(lines), wrong) and len(got) == len(lines)


def compare_steps(program):
    lines = [line.split() for line in (VECTORS / "arithmetic.txt").read_text().splitlines()]
    got = run(program, "".join(f"{word} {a} {b}\n" for _, word, a, b, _ in lines), "rows")
    wrong = []
    for (name, word, a, b, want), line in zip(lines, got):
        end, pc, a0 = line.split()
        is_ = str(int(pc == "100008")) if name in BRANCHES else a0
        if end != "Went" or is_ != want or name not in BRANCHES and pc != "100004":
            wrong.append(f"{name} {word} {a} {b}: {line}, and not {want}")
    return told("results as qemu gives them", len(lines), wrong) and len(got) == len(lines)


def compare_ends(program):
    wrong = []
    for words, want in ENDS:
        is_ = run(program, "\n".join(words), "9")[0]
        if is_ != want:
            wrong.append(f"{' '.join(words)}: {is_}, and not {want}")
    return told("texts that do not go on", len(ENDS), wrong)


if sys.argv[1:] == ["--write"]:
    words = list(random_words())
    TABLE.write_text("".join(f"{word:08x}|{text}\n" for word, text in zip(words, shown(words))))
elif len(sys.argv) == 2:
    results = [compare(sys.argv[1]) for compare in (compare_words, compare_steps, compare_ends)]
    print(f"{results.count(True)} passed, {results.count(False)} failed")
    sys.exit(0 if all(results) else 1)
else:
    sys.exit(__doc__)
