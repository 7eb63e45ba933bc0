#!/usr/bin/env python3
"""Compares what the checker makes of C programs with what a second reading of the same text makes of them.

usage: tests/compare_check.py PROGRAM FOLDER READING

PROGRAM is the built crates/sc_tool_dump. FOLDER is searched for .c files; each is a unit in its own folder. READING is a folder with the
second reading: pp.py (`preprocess(name, files)`), parse.py (`parse(tokens)`) and check.py (`check(unit, module)`). Compared are kind,
word and line of a refusal, and of a unit that is taken its births in their order and, in any order, the frames of its functions, its
objects with their bytes, and its declarations.
"""
from reading import main


def key_text(key):
    module, name = key
    return name if module is None else '%s:%s' % (module, name)


def birth(one):
    return '"%s"' % one.hex() if isinstance(one, bytes) else key_text(one.key)


def function(fun):
    """The frame from its low end: words of arguments behind the eighth, temporaries, then the slots of the blocks in order."""
    line = 'function %s%s %d' % (':' if fun.key[0] else '', fun.name, fun.cost)
    at = 4 * max(0, fun.args - 8) + 4 * fun.room
    for _, autos in fun.blocks:
        line += ' |'
        for one in autos:
            line += ' %d+%d%s' % (at, one.size, 'c' if one.const else '')
            at += one.size // 4 * 4 + 4
    return line


def address(target):
    if target[0] == 'fun':
        return '<%s+0>' % key_text(target[1])
    _, what, offset = target
    text = '"%s"' % what[2].hex() if what[0] == 'lit' else key_text(what[1])
    return '<%s+%d>' % (text, offset % 2 ** 32)


def static(one):
    text, at = '', 0
    for where, *target in one.addrs:
        text += one.init[at:where].hex() + address(target)
        at = where + 4
    return 'object %s %s%s%s' % (key_text(one.key), 'const ' if one.const else '', text, one.init[at:].hex())


def declaration(link):
    return 'declared %s%s at %d' % (key_text(link.key), ' defined' if link.defined else '', link.line)


def module_text(core):
    lines = [function(one) for one in core.funs.values()]
    lines += [static(one) for one in core.objects]
    lines += [declaration(one) for one in core.declared]
    return '\n'.join(['ok', ' '.join(['births'] + [birth(one) for one in core.births])] + lines)


def text_of(unit, name):
    import check
    return module_text(check.check(unit, name.split('.')[0]))


def differences(want, got):
    if not (want.startswith('ok') and got.startswith('ok')):
        return [] if want == got else ['wanted %s, got %s' % (want.split('\n')[0], got.split('\n')[0])]
    missing, more = set(want.split('\n')) - set(got.split('\n')), set(got.split('\n')) - set(want.split('\n'))
    return ['wanted %s' % line for line in sorted(missing)] + ['got %s' % line for line in sorted(more)]


if __name__ == '__main__':
    main(__doc__, 'core', text_of, differences)
