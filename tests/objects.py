#!/usr/bin/env python3
"""Compares objects as ELF files with a second reading of their format, and with what binutils show of them.

usage: tests/objects.py PROGRAM [--objects N] [--changed N] [--prefix PREFIX] [--large] [--write]

PROGRAM is the built crates/sc_tool_elf. The sample that it writes is compared byte for byte with the file that this
script makes of the same object. Of the sample and of ten random modules, whose files PROGRAM has to read as these
objects, tests/vectors/objects.txt has the bytes and what readelf, objdump and nm show: their sections, symbols,
relocations and instructions, without a warning. If these three are here (PREFIX, riscv64-unknown-elf- by default;
Debian's binutils-riscv64-unknown-elf), they are asked again. --write writes the table by them. Then N random objects in
each version of the frame tables are written here and read by PROGRAM, and N files of them with each prefix and each
byte changed. With --large, files of about a megabyte are read within an address space of 64 times their size, and the
time that this takes is printed. The last line is 'N passed, M failed'.
"""
import argparse, os, pathlib, random, re, resource, shutil, struct, subprocess, sys, tempfile

VECTORS = pathlib.Path(__file__).parent / 'vectors'
TABLE = VECTORS / 'objects.txt'

KINDS = {'text': (b'.text.', 1, 6), 'data': (b'.data.', 1, 3), 'rodata': (b'.rodata.', 1, 2), 'bss': (b'.bss.', 8, 3)}
TYPES = {1: 'R_RISCV_32', 19: 'R_RISCV_CALL_PLT', 26: 'R_RISCV_HI20', 27: 'R_RISCV_LO12_I', 28: 'R_RISCV_LO12_S'}
WORD = 2 ** 32

MAIN = bytes.fromhex('97000000e7800000b702000003a30200b703000023a0630067800000')
STEP = bytes.fromhex('1305150067800000')
# sections (kind, name, bytes, size), symbols (name, section, global, type, size), relocations (section, place, type,
# symbol, addend), frames (symbol, cost, blocks), blocks (line, slots), slots (offset, size, const)
SAMPLE = (
    [('text', b'main', MAIN, 28), ('text', b'step', STEP, 8), ('data', b'next', bytes.fromhex('0000000007000000'), 8),
     ('rodata', b'$0', b'seven\0', 6), ('bss', b'table', b'', 40)],
    [(b'$0', 3, 0, 1, 6), (b'step', 1, 0, 2, 8), (b'main', 0, 1, 2, 28), (b'next', 2, 1, 1, 8),
     (b'table', 4, 1, 1, 40), (b'puts', None, 1, 0, 0)],
    [(0, 0, 19, 5, 0), (0, 8, 26, 3, 4), (0, 12, 27, 3, 4), (0, 16, 26, 4, -4), (0, 20, 28, 4, -4), (2, 0, 1, 0, 2)],
    [(2, 32, [(3, [(0, 4, 0)]), (4, [(4, 8, 1)])]), (1, 16, [(1, [(0, 4, 0)])])])
# what objdump shows, with registers by number and no aliases
SAMPLE_TEXTS = {
    '.text.main': ['00000097 auipc x1,0x0', '000080e7 jalr x1,0(x1)', '000002b7 lui x5,0x0', '0002a303 lw x6,0(x5)',
                   '000003b7 lui x7,0x0', '0063a023 sw x6,0(x7)', '00008067 jalr x0,0(x1)'],
    '.text.step': ['00150513 addi x10,x10,1', '00008067 jalr x0,0(x1)']}
# the ways to ask each program, and how the answer is told in the table
ASKED = [('readelf', '-a', '-W'), ('objdump', '-d', '-M', 'no-aliases,numeric'), ('nm', '-p')]


def saber(version, frames):
    words = [version, len(frames)]
    for symbol, cost, blocks in frames:
        words += [symbol + 1, cost, len(blocks)]
        for line, slots in blocks:
            words += [line, len(slots)] if version == 2 else [len(slots)]
            for slot in slots:
                words += slot
    return struct.pack('<%dI' % len(words), *words)


def spelled(version, o):
    """The file of an object."""
    sections, symbols, relocs, frames = o
    parts = [(KINDS[kind][0] + name, KINDS[kind][1], KINDS[kind][2], data, size, 0, 0, 4, 0)
             for kind, name, data, size in sections]
    tables = [(n, [r for r in relocs if r[0] == n]) for n in range(len(sections))]
    tables = [(n, rs) for n, rs in tables if rs]
    symtab = len(sections) + len(tables) + 2
    for n, rs in tables:
        data = b''.join(struct.pack('<IIi', at, (symbol + 1) << 8 | kind, addend) for _, at, kind, symbol, addend in rs)
        parts.append((b'.rela' + parts[n][0], 4, 0x40, data, len(data), symtab, n + 1, 4, 12))
    entries, strings = bytes(16), b'\0'
    for name, section, is_global, kind, size in symbols:
        number = 0 if section is None else section + 1
        entries += struct.pack('<IIIBBH', len(strings), 0, size, is_global << 4 | kind, 0, number)
        strings += name + b'\0'
    local = sum(1 for s in symbols if not s[2])
    table = saber(version, frames)
    parts += [(b'.saber', 1, 0, table, len(table), 0, 0, 4, 0),
              (b'.symtab', 2, 0, entries, len(entries), symtab + 1, local + 1, 4, 16),
              (b'.strtab', 3, 0, strings, len(strings), 0, 0, 1, 0)]
    names = b'\0' + b''.join(p[0] + b'\0' for p in parts) + b'.shstrtab\0'
    parts.append((b'.shstrtab', 3, 0, names, len(names), 0, 0, 1, 0))
    contents, headers, at = bytearray(), bytes(40), 1
    for name, kind, flags, data, size, link, info, align, entry in parts:
        contents += bytes(-len(contents) % 4)
        headers += struct.pack('<10I', at, kind, flags, 0, len(contents) + 52, size, link, info, align, entry)
        contents += data
        at += len(name) + 1
    contents += bytes(-len(contents) % 4)
    count = len(parts) + 1
    head = bytes.fromhex('7f454c46010101') + bytes(9)
    head += struct.pack('<HHIIIIIHHHHHH', 1, 243, 1, 0, 0, len(contents) + 52, 0, 52, 0, 0, 40, count, count - 1)
    return head + bytes(contents) + headers


def line_of(version, o):
    """What the program prints of the file of an object."""
    if version == 1:
        return None
    words = ['2', 'object']
    for kind, name, data, size in o[0]:
        words += [kind, '.' + name.hex(), '.' + data.hex(), str(size)]
    for name, section, is_global, kind, size in o[1]:
        words += ['global' if is_global else 'local', '.' + name.hex(), '-' if section is None else str(section), str(kind), str(size)]
    for section, at, kind, symbol, addend in o[2]:
        words += ['reloc'] + [str(n) for n in (section, at, kind, symbol, addend % WORD)]
    for symbol, cost, blocks in o[3]:
        words += ['frame', str(symbol), str(cost)]
        for line, slots in blocks:
            words += ['block', str(line)]
            for offset, size, const in slots:
                words += ['const' if const else 'slot', str(offset), str(size)]
    return ' '.join(words) + ' '


def object_of(line):
    """The object that the program printed."""
    words = line.split()[2:]
    o = ([], [], [], [])
    while words:
        first = words.pop(0)
        if first in KINDS:
            o[0].append((first, bytes.fromhex(words.pop(0)[1:]), bytes.fromhex(words.pop(0)[1:]), int(words.pop(0))))
        elif first in ('local', 'global'):
            name, section, kind, size = [words.pop(0) for _ in range(4)]
            o[1].append((bytes.fromhex(name[1:]), None if section == '-' else int(section), int(first == 'global'), int(kind), int(size)))
        elif first == 'reloc':
            section, at, kind, symbol, addend = [int(words.pop(0)) for _ in range(5)]
            o[2].append((section, at, kind, symbol, addend - WORD if addend >= WORD // 2 else addend))
        elif first == 'frame':
            o[3].append((int(words.pop(0)), int(words.pop(0)), []))
        elif first == 'block':
            o[3][-1][2].append((int(words.pop(0)), []))
        else:
            o[3][-1][2][-1][1].append((int(words.pop(0)), int(words.pop(0)), int(first == 'const')))
    return o


def random_object(r, version):
    def word():
        return r.choice([0, 1, 255, 256, 2 ** 31, WORD - 1, r.randrange(WORD)])

    def name():
        return bytes(r.choice(b'$.a0_\xff') for _ in range(r.randrange(4)))
    count, sections = r.randrange(4), []
    for _ in range(count):
        kind = r.choice(list(KINDS))
        data = b'' if kind == 'bss' else r.randbytes(r.randrange(9))
        sections.append((kind, name(), data, word() if kind == 'bss' else len(data)))
    symbols = [(name(), r.choice([None] + list(range(count))), r.randrange(2), r.randrange(3), word()) for _ in range(r.randrange(5))]
    symbols.sort(key=lambda s: s[2])
    relocs, frames = [], []
    if symbols:
        if count:
            relocs = [(r.randrange(count), word(), r.choice(list(TYPES)), r.randrange(len(symbols)),
                       r.choice([0, -1, 2 ** 31 - 1, -2 ** 31, r.randrange(-9, 9)])) for _ in range(r.randrange(6))]
            relocs.sort(key=lambda x: x[0])
        frames = [(r.randrange(len(symbols)), word(), [(word() if version == 2 else 0, [(word(), word(), r.randrange(2))
                   for _ in range(r.randrange(3))]) for _ in range(r.randrange(3))]) for _ in range(r.randrange(3))]
    return sections, symbols, relocs, frames


def read(program, files):
    """The lines that the program prints of these files."""
    with tempfile.NamedTemporaryFile() as f:
        for data in files:
            f.write(struct.pack('<I', len(data)) + data)
        f.flush()
        run = subprocess.run([program, 'read', f.name], capture_output=True, check=True)
    return run.stdout.decode().split('\n')[:-1]


def expect(what, found, wanted):
    if found != wanted:
        print('%s: found\n  %s\nwanted\n  %s\n0 passed, 1 failed' % (what, found, wanted))
        sys.exit(1)


def plain_words():
    """Words with objdump's text, but for those whose text depends on their place."""
    rows = [line.partition('|')[::2] for line in (VECTORS / 'words.txt').read_text().split('\n')]
    return [(int(word, 16), text) for word, text in rows if text and text.split()[0] not in
            ('jal', 'beq', 'bne', 'blt', 'bge', 'bltu', 'bgeu', 'fence')]


def plain_module(r, known):
    """A random module as a compiler would make it, and what objdump shows of its texts."""
    sections, symbols, relocs, frames, texts = [], [], [], [], {}
    for n in range(r.randrange(1, 5)):
        words = [r.choice(known) for _ in range(r.randrange(1, 9))]
        name = ('f%d' % n).encode()
        data = struct.pack('<%dI' % len(words), *[word for word, _ in words])
        symbols.append((name, len(sections), r.randrange(2), 2, len(data)))
        texts['.text.f%d' % n] = ['%08x %s' % row for row in words]
        sections.append(('text', name, data, len(data)))
    for n in range(r.randrange(4)):
        kind, size = r.choice(['data', 'rodata', 'bss']), r.randrange(1, 40)
        name = ('%s%d' % ('$' if kind == 'rodata' else 'v', n)).encode()
        symbols.append((name, len(sections), 0 if kind == 'rodata' else r.randrange(2), 1, size))
        sections.append((kind, name, b'' if kind == 'bss' else r.randbytes(size), size))
    symbols += [(('u%d' % n).encode(), None, 1, 0, 0) for n in range(r.randrange(3))]
    symbols.sort(key=lambda s: s[2])
    for n, s in enumerate(sections):
        if s[0] == 'text':
            relocs += [(n, 4 * w, r.choice([19, 26, 27, 28]), r.randrange(len(symbols)), r.choice([0, 4, -4, 2047, -2048]))
                       for w in range(s[3] // 4) if r.randrange(3) == 0]
        elif s[0] == 'data' and s[3] >= 4:
            relocs.append((n, 0, 1, r.randrange(len(symbols)), r.randrange(9)))
    for n, s in enumerate(symbols):
        if s[3] == 2:
            frames.append((n, 16 * r.randrange(1, 9), [(r.randrange(1, 99), [(0, 4, r.randrange(2))]) for _ in range(r.randrange(1, 4))]))
    return (sections, symbols, relocs, frames), texts


def modules():
    """The objects that binutils are asked about, with what objdump has to show."""
    known = plain_words()
    return [(SAMPLE, SAMPLE_TEXTS)] + [plain_module(random.Random(n), known) for n in range(10)]


def tool(prefix, path, name, *words):
    run = subprocess.run([prefix + name, *words, path], capture_output=True, text=True)
    expect('%s: status' % name, run.returncode, 0)
    expect('%s: messages' % name, run.stderr, '')
    return run.stdout.replace(path, 'FILE')


def asked(prefix, data):
    """What the programs print of a file."""
    with tempfile.TemporaryDirectory() as folder:
        path = os.path.join(folder, 'module.o')
        pathlib.Path(path).write_bytes(data)
        return [tool(prefix, path, *words) for words in ASKED]


def write_table(prefix):
    with open(TABLE, 'w') as f:
        for o, _ in modules():
            data = spelled(2, o)
            f.write('#### %s\n' % data.hex())
            for words, text in zip(ASKED, asked(prefix, data)):
                f.write('### %s\n%s' % (' '.join(words), text))


def table():
    """The bytes of each file of the table, and the text of each program."""
    for part in TABLE.read_text().split('#### ')[1:]:
        head, *texts = part.split('### ')
        yield bytes.fromhex(head), [text.partition('\n')[2] for text in texts]


def shown(o, instructions, texts):
    """Compares what the programs print of an object's file with the object."""
    sections, symbols, relocs, _ = o
    names = [(KINDS[s[0]][0] + s[1]).decode() for s in sections]
    text, listing, letters_of = texts
    expect('warnings', [line for line in '\n'.join(texts).split('\n') if 'arning' in line], [])
    rows = re.findall(r'^  \[ *(\d+)\] (\S+) +(\S+) +([0-9a-f]{8}) ([0-9a-f]{6}) ([0-9a-f]{6}) (\S\S) +([A-Z]*) +(\d+) +(\d+) +(\d+)$', text, re.M)
    flags = {'text': 'AX', 'data': 'WA', 'rodata': 'A', 'bss': 'WA'}
    expect('readelf: sections', [(r[1], r[2], int(r[5], 16), r[7]) for r in rows[:len(sections)]],
           [(n, 'NOBITS' if s[0] == 'bss' else 'PROGBITS', s[3], flags[s[0]]) for n, s in zip(names, sections)])
    tables = ['.rela' + names[n] for n in sorted({r[0] for r in relocs})] + ['.saber', '.symtab', '.strtab', '.shstrtab']
    expect('readelf: tables', [r[1] for r in rows[len(sections):]], tables)
    rows = re.findall(r'^ +(\d+): 00000000 +(\d+) (\S+) +(LOCAL|GLOBAL) +DEFAULT +(\S+) *(\S*)$', text, re.M)[1:]
    kinds = {0: 'NOTYPE', 1: 'OBJECT', 2: 'FUNC'}
    expect('readelf: symbols', [tuple(r[1:]) for r in rows],
           [(str(s[4]), kinds[s[3]], 'GLOBAL' if s[2] else 'LOCAL', 'UND' if s[1] is None else str(s[1] + 1), s[0].decode()) for s in symbols])
    rows = re.findall(r'^([0-9a-f]{8})  [0-9a-f]{8} (\S+) +00000000 +(\S+) ([+-]) ([0-9a-f]+)$', text, re.M)
    expect('readelf: relocations', [(int(r[0], 16), r[1], r[2], int(r[3] + r[4], 16)) for r in rows],
           [(r[1], TYPES[r[2]], symbols[r[3]][0].decode(), r[4]) for r in relocs])
    found, name = {}, None
    for line in listing.split('\n'):
        head = re.match(r'Disassembly of section (\S+):', line)
        row = re.match(r' +[0-9a-f]+:\t([0-9a-f]{8}) +\t(.*)$', line)
        if head:
            name = head.group(1)
            found[name] = []
        elif row:
            words = row.group(2).split('#')[0].split('<')[0].split()
            found[name].append(' '.join([row.group(1)] + words))
    expect('objdump: instructions', found, instructions)
    rows = [tuple(line.split()[-2:]) for line in letters_of.split('\n')[:-1]]
    letters = {'text': 'T', 'data': 'D', 'rodata': 'R', 'bss': 'B'}
    wanted = []
    for s in symbols:
        letter = 'U' if s[1] is None else letters[sections[s[1]][0]]
        wanted.append((letter if s[2] else letter.lower(), s[0].decode()))
    expect('nm: symbols', rows, wanted)


def with_binutils(program, prefix):
    rows = list(table())
    expect('modules in the table', len(rows), len(modules()))
    lines = read(program, [data for data, _ in rows])
    is_here = all(shutil.which(prefix + words[0]) for words in ASKED)
    for (o, instructions), (data, texts), line in zip(modules(), rows, lines):
        expect('a file of the table', data.hex(), spelled(2, o).hex())
        expect('the object of it', line, line_of(2, o))
        shown(o, instructions, texts)
        if is_here:
            shown(o, instructions, asked(prefix, data))
    print('%d modules are as readelf, objdump and nm showed them' % len(rows))
    print('they were asked again' if is_here else 'skipped: binutils for RISC-V are not here, so they were not asked again')


def check_answer(data, line):
    """Whether an answer may be given for these bytes: a named refusal, or an object whose file they are."""
    words = line.split()
    if words[1] == 'object':
        expect('the file of the object that was read', spelled(2, object_of(line)).hex(), data.hex())
        expect('version', words[0], '2')
    elif words[1] == 'O1':
        expect('length', int(words[2]), len(data))
        is_header = len(data) >= 52 and data[:32] == HEADER[:32] and data[36:48] == HEADER[36:48]
        end = struct.unpack('<I', data[32:36])[0] + 40 * struct.unpack('<H', data[48:50])[0] if is_header else WORD
        expect('shortness', len(data) < 52 or is_header and len(data) < end, True)
    else:
        expect('the kind of answer', words[1], 'O2')


HEADER = spelled(2, ([], [], [], []))[:52]


def rows_of_the_sample(program, data):
    changed = data[:18] + bytes([data[18] ^ 1]) + data[19:]
    lines = read(program, [data[:51], changed, data, data + b'\0', spelled(2, ([], [], [], []))])
    expect('51 bytes', lines[0], '0 O1 51 ')
    expect('the byte at 18', lines[1], '0 O2 machine 18 ')
    expect('all bytes', lines[2], line_of(2, SAMPLE))
    expect('a byte more', lines[3], '0 O2 end %d ' % len(data))
    expect('an empty object', lines[4], '2 object ')


def many(program, count, changed):
    r, seen = random.Random(1), 0
    for start in range(0, count, 5000):
        objects = [random_object(r, 2) for _ in range(min(5000, count - start))]
        for o, line in zip(objects, read(program, [spelled(2, o) for o in objects])):
            expect('an object', line, line_of(2, o))
        for o, line in zip(objects, read(program, [spelled(1, random_object(r, 1)) for o in objects])):
            expect('a file of version 1', line.split()[:2], ['1', 'O2'])
        seen += len(objects)
    files = []
    for _ in range(changed):
        data = spelled(2, random_object(r, 2))
        files += [data[:n] for n in range(len(data))]
        files += [data[:n] + bytes([r.choice([data[n] ^ 1, data[n] ^ 128, r.randrange(256)])]) + data[n + 1:] for n in range(len(data))]
    read_again = 0
    for data, line in zip(files, read(program, files)):
        check_answer(data, line)
        read_again += line.split()[1] == 'object'
    print('%d random objects in each version; %d changed files, of which %d are files' % (seen, len(files), read_again))


def within(program, what, file):
    """Reads a file within an address space of 64 times its size."""
    with tempfile.NamedTemporaryFile() as f:
        f.write(struct.pack('<I', len(file)) + file)
        f.flush()
        before = resource.getrusage(resource.RUSAGE_CHILDREN)
        limit = 'ulimit -v %d; exec "$0" read "$1"' % (64 * len(file) // 1024)
        run = subprocess.run(['sh', '-c', limit, program, f.name], stdout=subprocess.PIPE, check=True)
        after = resource.getrusage(resource.RUSAGE_CHILDREN)
    expect('%s: an answer' % what, b'no memory' in run.stdout, False)
    spent = after.ru_utime + after.ru_stime - before.ru_utime - before.ru_stime
    print('%s: %d bytes, %.3f s, within 64 times its size' % (what, len(file), spent))


def put_together(headers, contents):
    """Bytes with a right header, these section headers and these contents."""
    count = len(headers) + 1
    head = HEADER[:32] + struct.pack('<I', 52 + len(contents)) + HEADER[36:48] + struct.pack('<HH', count, count - 1)
    return head + contents + bytes(40) + b''.join(struct.pack('<10I', *h) for h in headers)


def hostile(program):
    """Tables that ask for more than there is."""
    body, text, table = bytes(1000000), (1, 1, 6, 0, 52, 500000, 0, 0, 4, 0), (0, 3, 0, 0, 52, 1000000, 0, 0, 1, 0)
    none = (0, 3, 0, 0, 52, 0, 0, 0, 1, 0)
    within(program, 'sections that share their contents', put_together([text] * 60000 + [table] * 4, b'a' * 1000000))
    within(program, 'sections without end', put_together([text[:5] + (WORD - 1,) + text[6:]] * 60000 + [table] * 4, body))
    within(program, 'names without end', put_together([(1, 8, 3, 0, 52, 0, 0, 0, 4, 0)] * 60000 + [none] * 3 + [table], b'a' * 1000000))
    for version, words in [(2, [WORD - 1] + [1, 1, 0] * 80000), (2, [1, 1, 1, WORD - 1] + [0] * 240000), (1, [1, 1, 1, WORD - 1] + [0] * 240000)]:
        saber_bytes = struct.pack('<%dI' % (len(words) + 1), version, *words)
        within(program, 'frames without end', put_together([(0, 1, 0, 0, 52, len(saber_bytes), 0, 0, 4, 0)] + [none] * 3, saber_bytes))
    empty = (0, 1, 0, 0, 52, 8, 0, 0, 4, 0)
    within(program, 'symbols without names', put_together([empty, (0, 2, 0, 0, 52, 1000000, 0, 0, 4, 0), none, none], struct.pack('<II', 2, 0) + body))
    within(program, 'many relocations', put_together([(0, 4, 0, 0, 52, 120, 0, n, 4, 0) for n in range(8000)] + [none] * 4, body))


def large(program):
    """Large files, and such with their last byte changed or cut off."""
    text = ([('text', b'f%d' % n, bytes(400), 400) for n in range(2000)], [], [], [])
    table = ([('text', b'f', bytes(8), 8)], [(b'f', 0, 1, 2, 8)], [(0, 4 * n % 2 ** 20, 1, 0, 0) for n in range(85000)], [])
    frames = ([], [(b'f', None, 1, 0, 0)], [], [(0, 16, [(1, []) for _ in range(100)]) for _ in range(1200)])
    symbols = ([], [(b'', None, 1, 0, 0) for _ in range(60000)], [], [])
    heads = ([('bss', b'', b'', 0) for _ in range(25000)], [], [], [])
    for what, o in [('sections', text), ('relocations', table), ('frames', frames), ('symbols', symbols), ('headers', heads)]:
        data = spelled(2, o)
        within(program, what, data)
        within(program, what + ', last byte changed', data[:-1] + b'\1')
        within(program, what + ', last byte cut off', data[:-1])
    hostile(program)


def main():
    args = argparse.ArgumentParser()
    args.add_argument('program')
    args.add_argument('--objects', type=int, default=2000)
    args.add_argument('--changed', type=int, default=20)
    args.add_argument('--prefix', default='riscv64-unknown-elf-')
    args.add_argument('--large', action='store_true')
    args.add_argument('--write', action='store_true')
    args = args.parse_args()
    if args.write:
        write_table(args.prefix)
    with tempfile.TemporaryDirectory() as folder:
        path = os.path.join(folder, 'sample.o')
        subprocess.run([args.program, 'write', path], check=True)
        data = pathlib.Path(path).read_bytes()
    expect('the sample', data.hex(), spelled(2, SAMPLE).hex())
    rows_of_the_sample(args.program, data)
    with_binutils(args.program, args.prefix)
    many(args.program, args.objects, args.changed)
    if args.large:
        large(args.program)
    print('1 passed, 0 failed')


if __name__ == '__main__':
    main()
