#!/usr/bin/env python3
"""Compares the tokens of C programs with those of other preprocessors.

usage: tests/tokens.py PROGRAM FOLDER [--reading FOLDER]

PROGRAM is the built crates/sc_tool_dump. FOLDER is searched for .c files; each is a unit in its own folder. The tokens are compared, up to
white space, with `gcc -E -P -std=c89 -undef`, which is given the built-in headers in place of its own; and, with --reading, kind for
kind and line for line with the lists of a second reading, a folder with pp.py (and its `preprocess(name, files)`).
Where gcc refuses the unit, or the unit is refused here, the pair is counted apart.
"""
import argparse, os, re, subprocess, sys, tempfile

from units import Files, refused, units

HERE = os.path.dirname(os.path.abspath(__file__))
HEADERS = os.path.join(HERE, '..', 'crates', 'sc_pp', 'src', 'header.rt')
NAMES = {'STDIO': 'stdio.h', 'STDLIB': 'stdlib.h', 'STRING': 'string.h', 'CTYPE': 'ctype.h', 'STDDEF': 'stddef.h',
         'LIMITS': 'limits.h', 'ASSERT': 'assert.h'}
WITH_SIZE = ('STDIO', 'STDLIB', 'STRING', 'STDDEF')


def headers(folder):
    """Writes the built-in headers as files."""
    source = open(HEADERS, encoding='latin-1').read()
    texts = dict(re.findall(r'pub const (\w+): &\[u8\] = b"(.*?)";', source, re.S))
    for const, name in NAMES.items():
        text = texts[const]
        if const in WITH_SIZE:
            text = '#ifndef size_t__\n#define size_t__\n' + texts['SIZE'] + '#endif\n' + text
        if const != 'ASSERT':
            guard = 'guard_' + const.lower() + '__'
            text = '#ifndef %s\n#define %s\n%s#endif\n' % (guard, guard, text)
        with open(os.path.join(folder, name), 'w', encoding='latin-1') as f:
            f.write(text)


def own(program, folder, name):
    """The lines that the program prints, and whether the unit is refused."""
    run = subprocess.run([program, 'tokens', name], cwd=folder, capture_output=True)
    lines = run.stdout.decode('latin-1').split('\n')[:-1]
    is_refused = run.returncode != 0 or (len(lines) == 1 and re.match(r'X\d+.*:\d+$|missing$|too long$', lines[0]))
    return lines, bool(is_refused)


def gcc(folder, name, include):
    run = subprocess.run(['gcc', '-E', '-P', '-std=c89', '-undef', '-nostdinc', '-isystem', include, name], cwd=folder, capture_output=True)
    return run.stdout.decode('latin-1') if run.returncode == 0 else None


def second(pp, folder, name):
    from common import Refusal
    try:
        return ['%s %d %s' % (t.kind, t.line, t.text) for t in pp.preprocess(name, Files(folder))]
    except Refusal as refusal:
        return [refused(refusal, name)]


def main():
    args = argparse.ArgumentParser()
    args.add_argument('program')
    args.add_argument('folder')
    args.add_argument('--reading')
    args = args.parse_args()
    pp = None
    if args.reading:
        sys.path.insert(0, args.reading)
        import pp
    program = os.path.abspath(args.program)
    counts = dict(units=0, tokens=0, refused=0, gcc_same=0, gcc_differs=0, gcc_refuses=0, reading_same=0, reading_differs=0)
    with tempfile.TemporaryDirectory() as include:
        headers(include)
        for folder, name in units(args.folder):
            lines, is_refused = own(program, folder, name)
            counts['units'] += 1
            counts['refused'] += is_refused
            if pp:
                same = second(pp, folder, name) == lines
                counts['reading_same' if same else 'reading_differs'] += 1
                if not same:
                    print('reading differs:', os.path.join(folder, name))
            if is_refused:
                continue
            counts['tokens'] += len(lines)
            text = gcc(folder, name, include)
            if text is None:
                counts['gcc_refuses'] += 1
                continue
            spelled = ''.join(line.split(' ', 2)[2] for line in lines)
            same = re.sub(r'\s', '', spelled) == re.sub(r'\s', '', text)
            counts['gcc_same' if same else 'gcc_differs'] += 1
            if not same:
                print('gcc differs:', os.path.join(folder, name))
    print(counts)
    return 1 if counts['gcc_differs'] or counts['reading_differs'] else 0


sys.exit(main())
