#!/usr/bin/env python3
"""Writes the table of the machine's arithmetic, arithmetic.txt, anew: what qemu gives for a small program of RV32IM instructions.

It needs an assembler and a linker for RISC-V (Debian's `binutils-riscv64-unknown-elf`) and `qemu-riscv32` (`qemu-user`). The gate
reads the written table alone.

A line has a mnemonic, the instruction's word as the assembler gives it, what a1 and a2 hold before it, and the result, the numbers in
hexadecimal digits. The result is what a0 holds after it; of a branch it is 1 where the branch is taken, else 0. A load reads the four
bytes of a1, which stand at the address in a2; the line has 0 for that address.
usage: tests/vectors/machine.py      at the top of the project
"""
import pathlib
import struct
import subprocess
import tempfile

TWO = ["add", "sub", "sll", "slt", "sltu", "xor", "srl", "sra", "or", "and",
       "mul", "mulh", "mulhsu", "mulhu", "div", "divu", "rem", "remu"]
SHORTS = ["addi", "slti", "sltiu", "xori", "ori", "andi"]
SHIFTS = ["slli", "srli", "srai"]
BRANCHES = ["beq", "bne", "blt", "bge", "bltu", "bgeu"]
LOADS = [("lb", 1), ("lh", 2), ("lw", 4), ("lbu", 1), ("lhu", 2)]
# the ends of the ranges, both zero divisors, the one quotient that does not fit, counts of shifts from 32 on
PAIRS = [(0, 0), (7, 0), (0x80000000, 0), (0x80000000, 0xFFFFFFFF), (0x80000000, 1), (0xFFFFFFFF, 0xFFFFFFFF),
         (0x7FFFFFFF, 1), (0x7FFFFFFF, 0x7FFFFFFF), (0x80000000, 0x80000000), (7, 0xFFFFFFFD), (0xFFFFFFF9, 3),
         (0xFFFFFFF9, 0xFFFFFFFD), (1, 31), (0x80000001, 32), (0xDEADBEEF, 0x12345678), (0x12345678, 0xDEADBEEF)]
NUMBERS = [(0, 0), (0x7FFFFFFF, 1), (0x80000000, -1), (0xFFFFFFFF, 2047), (5, -2048), (0xDEADBEEF, 0x555)]
COUNTS = [(1, 0), (0x80000001, 1), (0x80000001, 31), (0xDEADBEEF, 4)]
WORDS = [0x80FF7F01, 0x7F80FF00]


def rows():
    """Each row's name, what a1 and a2 hold, and the instruction."""
    for name in TWO:
        for a, b in PAIRS:
            yield name, a, b, f"{name} a0, a1, a2"
    for name, table in [(n, NUMBERS) for n in SHORTS] + [(n, COUNTS) for n in SHIFTS]:
        for a, b in table:
            yield name, a, 0, f"{name} a0, a1, {b}"
    for name in BRANCHES:
        for a, b in PAIRS:
            yield name, a, b, f"{name} a1, a2, .+8"
    for name, size in LOADS:
        for word in WORDS:
            for offset in range(0, 4, size):
                yield name, word, 0, f"{name} a0, {offset}(a2)"


def around(name, a, b, code):
    """The instruction with what makes its operands and puts its result into a0."""
    lines = [f"li a1, {a}", f"li a2, {b}"]
    if name in BRANCHES:
        return lines + ["li a0, 1", code, "li a0, 0"]
    if name in [n for n, _ in LOADS]:
        return lines + ["mv a2, s1", "sw a1, 0(a2)", code]
    return lines + [code]


def assembled(room, lines):
    """The object file of these lines."""
    (room / "it.s").write_text("\n".join([".option norelax", ".text"] + lines) + "\n")
    subprocess.run(["riscv64-unknown-elf-as", "-march=rv32im", "-mabi=ilp32", "-o", room / "it.o", room / "it.s"], check=True)
    return room / "it.o"


def words_of(room, table):
    subprocess.run(["riscv64-unknown-elf-objcopy", "-O", "binary", assembled(room, [code for _, _, _, code in table]), room / "bytes"], check=True)
    return struct.unpack(f"<{len(table)}I", (room / "bytes").read_bytes())


def results(room, table):
    """What the program of all rows writes: a word for each."""
    lines = [".globl _start", "_start:", "la s0, results", "la s1, scratch"]
    for row in table:
        lines += around(*row) + ["sw a0, 0(s0)", "addi s0, s0, 4"]
    lines += ["li a0, 1", "la a1, results", f"li a2, {4 * len(table)}", "li a7, 64", "ecall", "li a0, 0", "li a7, 93", "ecall",
              ".bss", ".balign 4", "scratch: .space 4", f"results: .space {4 * len(table)}"]
    subprocess.run(["riscv64-unknown-elf-ld", "-m", "elf32lriscv", "-o", room / "program", assembled(room, lines)], check=True)
    out = subprocess.run(["qemu-riscv32", room / "program"], check=True, capture_output=True).stdout
    return struct.unpack(f"<{len(table)}I", out)


def main():
    table = list(rows())
    with tempfile.TemporaryDirectory() as name:
        room = pathlib.Path(name)
        words, got = words_of(room, table), results(room, table)
    text = "".join(f"{row[0]} {word:08x} {row[1]:x} {row[2]:x} {is_:x}\n" for row, word, is_ in zip(table, words, got))
    pathlib.Path("tests/vectors/arithmetic.txt").write_text(text)


main()
