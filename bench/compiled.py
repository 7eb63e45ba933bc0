#!/usr/bin/env python3
"""How many instructions compiled code executes, beside the same program as gcc -O0 makes it, and how many bytes of text it has.

usage: bench/compiled.py PROGRAM [FILE.c..]      (sort.c, matrix.c and list.c of this folder if none is named)

Each file is one module with a main. PROGRAM compiles it and runs it in object form; `machine` tells what it has executed. gcc makes it for
RV32IM at -O0 without a library, and a machine of this script executes that from the call of main to its return. Needs
riscv64-unknown-elf-gcc and -objcopy. A file may call malloc and free, which are a pointer that grows and nothing here.
The last line is the geometric mean of the quotients.
"""
import math
import pathlib
import re
import struct
import subprocess
import sys
import tempfile

HERE = pathlib.Path(__file__).resolve().parent
TOOL = "riscv64-unknown-elf-"
BASE, STACK, HEAP, SIZE = 0x10000, 0x800000, 0x400000, 0x1000000
START = ".globl _start\n_start: call main\necall\n"
HEAP_C = f"void *malloc(unsigned n) {{ static char *at = (char *){HEAP}; char *p = at; at += (n + 7) & ~7u; return p; }}\nvoid free(void *p) {{ }}\n"
WORD = 0xFFFFFFFF


def signed(x, bits=32):
    return x - (1 << bits) if x >> (bits - 1) & 1 else x


def divided(a, b, rest):
    """div and rem of the manual: by zero, and what overflows."""
    if b == 0:
        return a if rest else -1
    q = abs(a) // abs(b) * (1 if (a < 0) == (b < 0) else -1)
    return a - q * b if rest else q


def alu(f3, other, a, b):
    x, y = signed(a), signed(b)
    return [a - b if other else a + b, a << (b & 31), int(x < y), int(a < b), a ^ b,
            (x if other else a) >> (b & 31), a | b, a & b][f3]


def product(f3, a, b):
    x, y = signed(a), signed(b)
    if f3 < 4:
        return [x * y, x * y >> 32, x * b >> 32, a * b >> 32][f3]
    return divided(x, y, f3 == 6) if f3 in (4, 6) else divided(a, b, f3 == 7) if b else (a if f3 == 7 else WORD)


def executed(image):
    """The instructions from the start to the first ecall, and the register a0 there (RISC-V unprivileged manual, RV32IM)."""
    memory, x, pc, count = bytearray(SIZE), [0] * 32, BASE, 0
    memory[BASE:BASE + len(image)] = image
    x[2] = STACK
    while True:
        w = struct.unpack_from("<I", memory, pc)[0]
        op, rd, f3, rs, rt = w & 127, w >> 7 & 31, w >> 12 & 7, x[w >> 15 & 31], x[w >> 20 & 31]
        imm, count, after, put = signed(w >> 20, 12), count + 1, pc + 4, None
        if op == 0x73:
            return count, x[10]
        if op == 0x13:
            put = alu(f3, f3 == 5 and w >> 30 & 1, rs, imm & WORD)
        elif op == 0x33:
            put = product(f3, rs, rt) if w >> 25 == 1 else alu(f3, w >> 30 & 1, rs, rt)
        elif op == 0x03:
            size = 1 << (f3 & 3)
            at = rs + imm & WORD
            put = int.from_bytes(memory[at:at + size], "little", signed=f3 < 4)
        elif op == 0x23:
            size = 1 << f3
            at = rs + signed(w >> 25 << 5 | rd, 12) & WORD
            memory[at:at + size] = (rt & (1 << 8 * size) - 1).to_bytes(size, "little")
        elif op == 0x63:
            far = signed((w >> 31) << 12 | (w >> 7 & 1) << 11 | (w >> 25 & 63) << 5 | (w >> 8 & 15) << 1, 13)
            a, b = (signed(rs), signed(rt)) if f3 < 6 else (rs, rt)
            if {0: a == b, 1: a != b, 4: a < b, 5: a >= b, 6: a < b, 7: a >= b}[f3]:
                after = pc + far
        elif op == 0x6F:
            put, after = pc + 4, pc + signed((w >> 31) << 20 | (w >> 12 & 255) << 12 | (w >> 20 & 1) << 11 | (w >> 21 & 1023) << 1, 21)
        elif op == 0x67:
            put, after = pc + 4, (rs + imm & WORD) & ~1
        elif op == 0x37:
            put = w & 0xFFFFF000
        elif op == 0x17:
            put = pc + (w & 0xFFFFF000)
        else:
            sys.exit(f"no instruction {w:08x} at {pc:08x}")
        if put is not None and rd:
            x[rd] = put & WORD
        pc = after & WORD


def by_gcc(file):
    with tempfile.TemporaryDirectory() as room:
        room = pathlib.Path(room)
        (room / "start.s").write_text(START)
        (room / "heap.c").write_text(HEAP_C)
        subprocess.run([TOOL + "gcc", "-w", "-O0", "-march=rv32im", "-mabi=ilp32", "-nostdlib", "-static", f"-Wl,-Ttext={BASE:#x}",
                        "-o", room / "it", room / "start.s", file, room / "heap.c"], check=True)
        subprocess.run([TOOL + "objcopy", "-O", "binary", room / "it", room / "flat"], check=True)
        return executed((room / "flat").read_bytes())


def by_program(program, file):
    """Instructions executed, what main answers, and the bytes of all texts."""
    with tempfile.TemporaryDirectory() as room:
        name = file.stem
        (pathlib.Path(room) / file.name).write_text(file.read_text())
        commands = f"load {name}\ncompile {name}\nswap {name} object\nrun\nmachine\nquit\n"
        told = subprocess.run([program, "--turns", "1000000000"], input=commands, capture_output=True, text=True, cwd=room).stdout
        count, ended = re.search(r"exec (\d+)", told), re.search(r"> exit (\d+)", told)
        if not ended or not count:
            sys.exit(f"{file}: {told}")
        sections = subprocess.run([TOOL + "size", "-A", f"{name}.o"], capture_output=True, text=True, cwd=room, check=True).stdout
        return int(count.group(1)), int(ended.group(1)), sum(int(n) for n in re.findall(r"^\.text\S*\s+(\d+)", sections, re.M))


def main():
    if len(sys.argv) < 2:
        sys.exit(__doc__)
    program = pathlib.Path(sys.argv[1]).resolve()
    files = [pathlib.Path(it).resolve() for it in sys.argv[2:]] or [HERE / f"{it}.c" for it in ("sort", "matrix", "list")]
    quotients = []
    for file in files:
        ours, answer, text = by_program(program, file)
        theirs, other = by_gcc(file)
        if answer != other & 255:
            sys.exit(f"{file}: main answers {answer} and {other}")
        quotients.append(ours / theirs)
        print(f"{file.stem}: {ours} executed, gcc -O0 {theirs}, quotient {ours / theirs:.2f}, {text} bytes of text")
    print(f"geometric mean {math.exp(sum(map(math.log, quotients)) / len(quotients)):.2f}")


main()
