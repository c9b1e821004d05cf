"""A second opinion on patterns: names and patterns at random, and which match.

patterns.py SEED FOLDER COUNT    writes there names, as bhtf shows them and sorts them; names.csv; and for each pattern from 1 to COUNT
                                 pattern.N, without a line feed, and wanted.N, the names that it matches

Matching is by recursion over characters; the command goes through them with one mark to come back to.
"""
import os
import random
import sys

ALPHABET = ['a', 'b', 'c', '-', ']', '[', '!', '^', 'ü', '日', ' ', '*', '?']


def names(seed):
    rng = random.Random(seed)
    found = set()
    while len(found) < 160:
        name = ''.join(rng.choice(ALPHABET) for _ in range(rng.randint(1, 5)))
        if len(name.encode()) <= 16:
            found.add(name)
    return sorted(found, key=lambda n: n.encode())


def shown(name):
    if len(name) > 0 and name[-1] == ' ':
        name = name[:-1] + r'\x20'
    if name[0] == ' ':
        name = r'\x20' + name[1:]
    return name


def pattern(seed, number):
    rng = random.Random(seed * 1000 + number)
    parts = []
    for _ in range(rng.randint(1, 4)):
        kind = rng.randint(0, 6)
        if kind <= 1:
            parts.append('*')
        elif kind == 2:
            parts.append('?')
        elif kind == 3:
            inside = ''.join(rng.choice(['a', 'b', 'c', '-', 'ü', 'a-c', '!', 'b-a', '\\]', '^'])
                             for _ in range(rng.randint(1, 3)))
            parts.append('[' + rng.choice(['', '!', '^', ']']) + inside + rng.choice([']', ']', ']', '']))
        elif kind == 4:
            parts.append(rng.choice(['\\*', '\\?', '\\[', '\\]', '\\x61', '\\xC3\\xBC', '\\x2A']))
        else:
            parts.append(rng.choice(ALPHABET[:11]))
    return ''.join(parts)


def letters(text):
    """Characters, and whether each was quoted."""
    found = []
    i = 0
    pending = bytearray()

    def flush():
        for c in pending.decode('utf-8', 'surrogateescape'):
            found.append((c, True))
        pending.clear()

    while i < len(text):
        if text[i] == '\\' and text[i + 1:i + 2] == 'x':
            try:
                pending.append(int(text[i + 2:i + 4], 16))
                i += 4
                continue
            except ValueError:
                pass
        flush()
        if text[i] == '\\' and text[i + 1:i + 2] in ('*', '?', '[', ']') and i + 1 < len(text):
            found.append((text[i + 1], True))
            i += 2
        else:
            found.append((text[i], False))
            i += 1
    flush()
    return found


def parts_of(text):
    """A list of '*' or predicates."""
    todo = letters(text)
    parts = []
    i = 0
    while i < len(todo):
        c, quoted = todo[i]
        if quoted or c not in '*?[':
            parts.append(lambda x, c=c: x == c)
            i += 1
        elif c == '*':
            parts.append('*')
            i += 1
        elif c == '?':
            parts.append(lambda x: True)
            i += 1
        else:
            j = i + 1
            other = j < len(todo) and todo[j] in (('!', False), ('^', False))
            j += other
            start = j
            if j < len(todo) and todo[j] == (']', False):
                j += 1
            while j < len(todo) and todo[j] != (']', False):
                j += 1
            if j >= len(todo):
                parts.append(lambda x: x == '[')
                i += 1
                continue
            inside = todo[start:j]
            ranges = []
            k = 0
            while k < len(inside):
                if k + 2 < len(inside) and inside[k + 1] == ('-', False):
                    ranges.append((inside[k][0], inside[k + 2][0]))
                    k += 3
                else:
                    ranges.append((inside[k][0], inside[k][0]))
                    k += 1
            parts.append(lambda x, r=ranges, o=other: any(a <= x <= b for a, b in r) != o)
            i = j + 1
    return parts


def matches(parts, name):
    if not parts:
        return name == ''
    if parts[0] == '*':
        return any(matches(parts[1:], name[i:]) for i in range(len(name) + 1))
    return name != '' and parts[0](name[0]) and matches(parts[1:], name[1:])


def literal(text):
    """The word as a name: only \\xHH means something there."""
    out = bytearray()
    raw = text.encode()
    i = 0
    while i < len(raw):
        if raw[i:i + 2] == b'\\x':
            out.append(int(raw[i + 2:i + 4], 16))
            i += 4
        else:
            out.append(raw[i])
            i += 1
    return out.decode()


def wanted(all_names, typed):
    if literal(typed) in all_names:
        return [literal(typed)]
    parts = parts_of(typed)
    return [n for n in all_names if matches(parts, n)]


def write(folder, name, text):
    with open(os.path.join(folder, name), 'w', encoding='utf-8') as file:
        file.write(text)


def main():
    seed, folder, count = int(sys.argv[1]), sys.argv[2], int(sys.argv[3])
    all_names = names(seed)
    lines = [shown(name) + '\n' for name in all_names]
    write(folder, 'names', ''.join(lines))
    write(folder, 'names.csv', 'name,note\n' + ''.join('"%s",x\n' % shown(name) for name in all_names))
    for number in range(1, count + 1):
        typed = pattern(seed, number)
        write(folder, 'pattern.%d' % number, typed)
        write(folder, 'wanted.%d' % number, ''.join(shown(n) + '\n' for n in wanted(all_names, typed)))


main()
