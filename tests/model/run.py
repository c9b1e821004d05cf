"""Drives the library beside the model, and the book beside both, on random lists of calls, and compares all that they answer and leave.

    run.py --library FILE [--seed N] [--seconds N] [--calls N] [--list N] [--large] [--no-examples] [--faults | --fault NAME]

Each list of calls begins from an image of some kind. After every call the numbers, the results and every byte of every slice are compared,
but for a working slice's. On lists from a created image or another sound one the book goes along. A list is drawn from the seed and its own
number, and from nothing else: `--seed S --list N` plays it again.

Checks are counted in groups, each with a floor: a group that saw fewer calls has failed. The last line is 'N passed, M failed'.
With --faults the model or the book is run with one seeded fault after the other (faults.py), and a fault that is not found has failed.
"""

import argparse
import collections
import faulthandler
import mmap
import os
import random
import sys
import time
import traceback
import types

import chance
from faults import FAULTS
from library import CALLS, LATER, PAIRED, Library, Model, Touched
from pairs import PAIR_KINDS, PAIR_NUMBERS, Pairs

HERE = os.path.dirname(os.path.abspath(__file__))

SOUND_KINDS = ('fresh', 'nearly full', 'opened')
DAMAGED_KINDS = ('header', 'slots', 'messages', 'spliced', 'rubble', 'length')
WEIGHTS = {'add': 5, 'add_slots': 3, 'add_listed': 4, 'add_journaled': 4, 'delete': 3, 'recover': 2, 'store_columns': 4,
           'count': 0.5, 'walk': 0.7}  # 1.5 for each other

# The numbers that each call can answer, in the order of its questions. Each has to be seen.
OPEN = (1, 5, 6)
PLAIN = {'add': (7, 8, 14, 9, 10, 11, 12, 13), 'delete': (7, 14, 11), 'compact': (15,)}
NUMBERS = {'create': (0, 1, 2, 3, 4), 'count': (0, *OPEN), 'walk': (0, *OPEN), 'check': (0, *OPEN), 'recover': (0, 18),
           'lookup': (0, *OPEN, 7, 14, 11), 'lookup_slots': (0, *OPEN, 7, 14, 11),
           'store_columns': (0, *OPEN, 7, 19, 10, 11, 12, 13), 'read_columns': (0, *OPEN, 7, 14, 11, 19),
           'convert': (0, *OPEN, 15, 13), 'select': (0, *OPEN, 22, 16), 'at_epoch': (0, *OPEN, 23, 7, 14, 11)}
for base, own in PLAIN.items():
    NUMBERS[base] = NUMBERS[base + '_slots'] = (0, *OPEN, *own)
    NUMBERS[base + '_listed'] = (0, 16, *OPEN, *own)
    NUMBERS[base + '_journaled'] = (0, 16, *OPEN, *own, 17)

CALL_FLOOR = 25     # calls of one name on images of one kind
NUMBER_FLOOR = 3    # calls of one name that answered one number
BOOK_FLOOR = 100    # calls of one name beside the book
LONG_FLOOR = 50     # calls with long slices
LARGE_FLOOR = 6     # calls on a large table
LONG_TEXT_FLOOR = 8 # calls with texts around version 1's longest
MORE = 4            # so many times as long as asked a run goes on at most, where a floor is not reached yet
DIFFERENCES = 5     # after as many the run ends
FAULT_CALLS = 60_000  # in as many a fault must be found


def load(fault=None):
    """The model, its book and its growth from their sources, with a fault's edit if there is one."""
    modules = []
    for name in ('image', 'book', 'growth'):
        path = os.path.join(HERE, name + '.py')
        with open(path, encoding='utf-8') as source_file:
            source = source_file.read()
        if fault and fault.file == name:
            assert source.count(fault.old) == 1, f'fault {fault.name}: its text stands {source.count(fault.old)} times in {name}.py'
            source = source.replace(fault.old, fault.new)
        module = types.ModuleType(name)
        sys.modules[name] = module
        exec(compile(source, path, 'exec'), module.__dict__)
        modules.append(module)
    return modules


# what another part imports of this one is this one's, not a second copy
sys.modules.setdefault('run', sys.modules[__name__])


class Difference(Exception):
    def __init__(self, group, lines):
        super().__init__(group)
        self.group, self.lines = group, lines


# ---- printing ----

def brief(arg):
    if isinstance(arg, int):
        return str(arg)
    if len(arg) > 1 and len(set(arg)) == 1:
        return f'{len(arg)} bytes {arg[0]:02x}'
    return f'{len(arg)} bytes {bytes(arg[:400]).hex()}{".." if len(arg) > 400 else ""}'


def sparse(image):
    """An image as its length and its runs of bytes other than 0, where 8 zeros end a run."""
    lines, at = [f'image of {len(image)} bytes, zero but for'], 0
    while at < len(image):
        if image[at] == 0:
            at += 1
            continue
        end = image.find(bytes(8), at)
        end = len(image) if end < 0 else end
        lines.append(f'  {at}: {bytes(image[at:end]).hex()}')
        at = end
    return lines


def call_lines(name, args):
    kinds, _ = CALLS[name]
    images = 2 if name in PAIRED else 1
    return [f'{name}({", ".join("image" if i < images else brief(arg) for i, arg in enumerate(args))})']


def first_differences(one, other):
    """Where slices differ, the first few bytes."""
    lines = []
    for n, (a, b) in enumerate(zip(one, other)):
        places = [i for i in range(len(a)) if a[i] != b[i]][:12]
        if places:
            lines.append(f'  slice {n}: ' + ', '.join(f'byte {i} is {a[i]:02x}, not {b[i]:02x}' for i in places))
    return lines


def going_on(name, image, answers, after):
    """The image with which a list goes on. Job 11: "Lists of calls may contain it and go on in the target"."""
    if name == 'convert':
        return after[0] if answers[0] == 0 else image
    return after[0] if CALLS[name][0][0] == 'M' else image


def zero_stretches(content, holds):
    """Zeroes stretches, shorter ones as it goes on, wherever `holds` says that the zeros do as well. Returns what is left."""
    size = 1 << 14
    while size:
        for at in range(0, len(content), size):
            part = content[at:at + size]
            if any(part):
                smaller = content[:at] + bytes(len(part)) + content[at + size:]
                if holds(smaller):
                    content = smaller
        size //= 2
    return content


# ---- one run ----

class Run(Pairs):
    def __init__(self, library, fault=None):
        self.image, self.book_module, self.growth = load()
        self.drawing, self.drawing_growth = self.image, self.growth  # sizes are drawn by the model without faults
        if fault:
            self.image, self.book_module, self.growth = load(fault)
        self.library, self.model = library, Model(self.image, self.growth)
        self.names = [name for name in library.functions if name not in PAIRED]
        self.paired = [name for name in library.functions if name in PAIRED]
        self.weights = [WEIGHTS.get(name, 1.5) for name in self.names]
        self.seen = collections.Counter()
        self.failed = {}
        self.calls = self.lists = 0
        self.shrink_seconds = 0

    # ---- the library beside the model ----

    def both(self, name, args):
        """What the library and what the model made of a call."""
        try:
            mine = self.library.do(name, args)
        except Touched as touched:
            mine = str(touched), []
        return mine, self.model.do(name, args)

    def beside(self, kind, name, args):
        """One call by both. Returns what it answered and left, where they agree."""
        self.calls += 1
        self.seen[f'{name} on {kind}'] += 1
        mine, its = self.both(name, args)
        if mine != its:
            self.report(kind, name, args)
        answers, after = mine
        self.seen[f'{name} answers {answers[0]}'] += 1
        if name == 'check' and answers[0] == 0:
            self.seen[f'check says {answers[1]}'] += 1
        return answers, after

    def report(self, kind, name, args):
        args = self.shrink(name, args)
        (mine, slices), (its, expected) = self.both(name, args)
        raise Difference(f'{name} on {kind}', [
            *sparse(args[0]), *(sparse(args[1]) if name in PAIRED else ()), *call_lines(name, args),
            f'  library: {mine}', f'  model:   {its}', *first_differences(slices, expected)])

    def shrink(self, name, args):
        """Smaller arguments on which library and model still differ: shorter slices, then zeros for bytes."""
        until = time.monotonic() + self.shrink_seconds
        args = list(args)

        def holds(i, smaller):
            if time.monotonic() > until:
                return False
            mine, its = self.both(name, args[:i] + [smaller] + args[i + 1:])
            if mine != its:
                args[i] = smaller
            return mine != its

        slices = [i for i, arg in enumerate(args) if not isinstance(arg, int)]
        for i in slices:
            step = 1 << 16
            while step:
                if not (step <= len(args[i]) and holds(i, args[i][:-step])):
                    step //= 2
        for i in reversed(slices):
            zero_stretches(args[i], lambda smaller: holds(i, smaller))
        return tuple(args)

    # ---- the book beside both ----

    def book_step(self, book, name, args, answers, after):
        """What the file answered and what the book does, in the same terms; None for a call that is none of the book's."""
        image = args[0]
        base, _, form = name.partition('_')
        number = answers[0]

        def text(at, length):
            return image[at:at + length] if at else None

        if base in ('add', 'delete', 'compact'):
            own = args[1:-2] if form in ('listed', 'journaled') else args[1:]

            def plain():
                return getattr(book, base)(*own)
            if form == 'listed':
                return (number,), book.listed(plain, len(args[-2]), len(args[-1]))
            if form == 'journaled':
                return (number,), book.journaled(plain, len(args[-2]), number == 17)
            return (number,), plain()
        if base == 'lookup':
            return (number, text(*answers[1:3])), book.lookup(args[1])
        if name == 'count':
            return answers, book.count()
        if name == 'check':  # Job 2: "Sound" of every image that these calls made of a sound one, or compaction would not be the book's
            return answers, (0, self.image.SOUND, 0)
        if name == 'convert':
            return (number,), book.convert(len(args[1]))
        if name == 'store_columns':
            return (number,), book.store_columns(*args[1:])
        if name == 'read_columns':
            return (number, after[0][:answers[1]]), book.read_columns(args[1], len(args[2]))
        if name == 'at_epoch':
            return (number, answers[1], text(*answers[2:])), book.at_epoch(*args[1:])
        if name == 'select' and number == 0:
            lowest, highest = args[1:3]
            K = len(lowest)
            slots = [int.from_bytes(after[0][i:i + 4], 'big') for i in range(0, 4 * answers[1], 4)]
            keys = [image[2048 + slot * (K + 4):2048 + slot * (K + 4) + K] for slot in slots]
            names = [n for n in book.entries if all(low <= c <= high for low, c, high in zip(lowest, n, highest))]
            return (slots, sorted(keys)), (sorted(set(slots)), sorted(names))
        return None

    def closing(self, book, image):
        """01, demand 3's closing clause: the file finds the book's points, with their texts, and no others."""
        points, slot = {}, 0
        while True:
            _, slot, at = self.library.do('walk', (image, slot))[0]
            if at == 0:
                break
            key = image[at:at + book.K]
            number, at, length = self.library.do('lookup', (image, key), inside=(at, book.K))[0]
            points[key] = (number, image[at:at + length] if at else None)
            slot += 1
        wanted = {name: (0, entry.text) for name, entry in book.entries.items()}
        count = self.library.do('count', (image,))[0]
        return (points, count), (wanted, (0, len(wanted)))

    def plays(self, start, calls):
        """Plays a list again by library and book alone. Returns the calls up to the first difference and its two sides, or None."""
        image, book = bytes(start), self.book_module.Book.read_off(start)
        for n, (name, rest) in enumerate(calls):
            args = (image, *rest)
            answers, after = self.library.do(name, args)
            pair = self.book_step(book, name, args, answers, after)
            if pair and pair[0] != pair[1]:
                return calls[:n + 1], pair
            image = going_on(name, image, answers, after)
        pair = self.closing(book, image)
        return None if pair[0] == pair[1] else (calls, pair)

    def report_list(self, group, start, calls, pair):
        """Drops calls from a list as long as library and book still differ on it."""
        found = self.plays(start, calls)
        if found is None:
            raise Difference(group, ['not seen when the list was played again', f'  library: {pair[0]}', f'  book:    {pair[1]}'])
        calls, pair = found
        until = time.monotonic() + self.shrink_seconds
        n = len(calls) - 1
        while n >= 0 and time.monotonic() < until:
            fewer = self.plays(start, calls[:n] + calls[n + 1:])
            if fewer:
                calls, pair = fewer
            n = min(n, len(calls)) - 1

        def holds(smaller):
            if time.monotonic() > until or self.drawing.check(smaller)[:2] != (0, self.drawing.SOUND):
                return False
            found = self.plays(smaller, calls)
            return found is not None and len(found[0]) == len(calls)
        start = zero_stretches(start, holds)
        pair = self.plays(start, calls)[1]
        lines = [line for name, rest in calls for line in call_lines(name, (None, *rest))]
        raise Difference(group, [*sparse(start), *lines, f'  library: {pair[0]}', f'  book:    {pair[1]}'])

    # ---- lists of calls ----

    def sound_list(self, kind, rng):
        draw = chance.Chance(rng, self.drawing)
        if kind == 'fresh':
            K, N, L = draw.shape()
            draw.draw_pool(K, N)
            _, (image,) = self.beside(kind, 'create', (draw.stuff(L), K, N, rng.choice((0, rng.randrange(2 ** 32)))))
            book = self.book_module.Book(K, N, L)
        else:
            image = draw.opened() if kind == 'opened' else self.nearly_full(draw)
            book = self.book_module.Book.read_off(image)
        start = image = bytes(image)
        calls = []
        for _ in range(rng.randint(5, 70)):
            name = rng.choices(self.names, self.weights)[0]
            args = draw.call(name, image)
            before = self.drawing.head(image)
            answers, after = self.beside(kind, name, args)
            if name in ('create', 'recover'):  # on slices of their own; the list goes on without them
                continue
            calls.append((name, args[1:]))
            pair = self.book_step(book, name, args, answers, after)
            if pair:
                self.seen[f'book beside {name}'] += 1
                if pair[0] != pair[1]:
                    self.report_list(f'book beside {name}', start, calls, pair)
            if name.endswith('_slots'):
                # Job 7: "On a sound image it is at most N, and at most C + 1 before the call", and "0 when refused before" the search.
                self.seen['slots read within the bound'] += 1
                read = answers[-1]
                if not (read == 0 if answers[0] in (7, 8) else 1 <= read <= min(before.N, before.C + 1)):
                    raise Difference('slots read within the bound', [*sparse(image), *call_lines(name, args), f'  library: {answers}'])
            image = going_on(name, image, answers, after)
            if rng.random() < 0.03:
                self.cut(kind, draw, image)
        self.seen['closing clause'] += 1
        pair = self.closing(book, image)
        if pair[0] != pair[1]:
            self.report_list('closing clause', start, calls, pair)

    def nearly_full(self, draw):
        """A created image with at most one slot or a few bytes left; now and then one with C about to outgrow a byte."""
        rng, model = draw.rng, self.drawing
        if draw.odds(0.02):
            return draw.crowd()
        image = draw.created(most_slots=rng.choice((2, 5, 9)), small=True)
        h = model.head(image)
        for key in draw.pool:
            if model.head(image).C < h.N - rng.choice((0, 1)) and any(key):
                model.add(image, key, draw.stuff(rng.randint(0, 9)), 2)
        room = len(image) - model.head(image).X - model.header_size(image)
        if room > 0 and draw.odds(0.7):
            model.add(image, rng.choice(draw.pool), draw.stuff(max(0, room - rng.choice((0, 3, 4, 5, rng.randint(0, 40))))), 3)
        return image

    def cut(self, kind, draw, image):
        """Job 9: "at a cut those [writes] before it are done, those after it are not, and each byte of the write it falls in may be
        anything. Wherever the cut falls, the recovered image is the one before the call or the one after it"."""
        rng = draw.rng
        name = rng.choice(('add', 'delete', 'compact'))
        args = draw.plain(image, name)
        journal = bytes(len(image) // 2 * 9 + 6)
        (number,), (new, written) = self.library.do(name + '_journaled', (image, *args, bytes(len(image)), journal))
        if number:
            return
        self.seen['cut and recovered'] += 1
        content = self.drawing.content_of(image, new)
        pairs = self.drawing.changed_runs(image, new)
        cut_image, cut_journal, wanted = bytearray(image), bytearray(written), new
        write = rng.randrange(len(pairs) + 3)  # the write that the cut falls in
        if write == 0:  # the content
            cut_journal = bytearray(journal)
            torn = rng.randint(0, len(content))
            cut_journal[:len(content)] = content[:torn] + rng.randbytes(len(content) - torn)
            wanted = image
        elif write == 1:  # the mark
            cut_journal[-1] = rng.choice((0, 0xA5, rng.randrange(256)))
            wanted = new if cut_journal[-1] == 0xA5 else image
        elif write == len(pairs) + 2:  # the mark again
            cut_image = bytearray(new)
            cut_journal[-1] = rng.choice((0, 0xA5, rng.randrange(256)))
        else:  # a stretch
            cut_journal[-1] = 0xA5
            for i, (at, length) in enumerate(pairs[:write - 1]):
                cut_image[at:at + length] = rng.randbytes(length) if i == write - 2 else new[at:at + length]
        given = bytes(cut_image), bytes(cut_journal)
        for _ in range(2):  # "and a second recovery changes nothing"
            (number,), given = self.beside(kind, 'recover', tuple(given))
            if number or given[0] != wanted or given[1] != bytes(cut_journal[:-1]) + b'\0':
                raise Difference('cut and recovered', [*sparse(image), *call_lines(name, (image, *args)), f'  cut in write {write}',
                                                       *first_differences(given[:1], [wanted])])

    def damaged_list(self, kind, rng):
        draw = chance.Chance(rng, self.drawing)
        if kind == 'rubble':
            base = draw.rubble()
        else:
            base = rng.choice((draw.used, draw.opened))()
        hurts = {'header': draw.damage_header, 'slots': draw.damage_slots, 'messages': draw.damage_messages, 'spliced': draw.splice}
        hurt = hurts.get(kind)
        image = None
        for _ in range(rng.randint(5, 25)):
            if image is None or self.drawing.opening(image) or draw.odds(0.4):
                image = bytearray(base)
                for _ in range(rng.choice((1, 1, 2, 4)) if hurt else 0):
                    if self.drawing.opening(image) == 0:
                        hurt(image)
                if kind == 'length':
                    image = draw.wrong_length(image)
            name = 'check' if kind == 'spliced' and draw.odds(0.3) else rng.choices(self.names, self.weights)[0]
            answers, after = self.beside(kind, name, draw.call(name, image))
            if name != 'create':
                image = going_on(name, image, answers, after)

    def longest(self):
        """Slices of a length at Job 5's limit, or above 32 bits, where what is cut to 32 bits would pass. Little of them is touched."""
        GIB, FOUR = 2 ** 30, 2 ** 32
        image = bytearray(8192)
        model = self.drawing
        model.create(image, 6, 8, 0)
        key, other = b'P1\0\0\0\7', b'P1\0\0\0\x08'
        model.add(image, key, model.columns(b'abcdef', 2), 1)
        image = bytes(image)
        new = bytearray(image)
        model.add(new, other, b'note', 1)
        content = model.content_of(image, new)

        def long(length, start=b'', end=b''):
            try:
                memory = mmap.mmap(-1, length, flags=mmap.MAP_PRIVATE | mmap.MAP_ANONYMOUS | 0x4000)  # MAP_NORESERVE
            except OSError as error:
                raise Difference('long slices', [f'no {length} bytes of memory could be mapped: {error}'])
            memory[:len(start)] = start
            memory[length - len(end):] = end
            return memory

        cases = []
        for length in (GIB - 4096, GIB, GIB + 4096, FOUR + 8192):
            for args in ((0, 1, 0), (33, 1, 0), (4, 1_048_577, 0), (1, FOUR - 1, 0)):
                cases.append(('create', lambda length=length, args=args: (long(length), *args)))
            for start in (b'', image):
                cases.append(('count', lambda length=length, start=start: (long(length, start),)))
        cases += [(name, lambda rest=rest: (long(FOUR + 8192, image), *rest)) for name, rest in (
            ('add', (other, b'', 1)), ('delete', (key,)), ('lookup', (key,)), ('walk', (0,)), ('check', ()), ('compact', ()),
            ('add_listed', (other, b'', 1, bytes(8192), bytes(80))), ('add_journaled', (other, b'', 1, bytes(8192), bytes(80))))]
        cases += [(name, lambda rest=rest: (image, long(FOUR + 6, key), *rest)) for name, rest in (
            ('add', (b'', 2)), ('delete', ()), ('lookup', ()), ('add_slots', (b'', 2)), ('delete_slots', ()), ('lookup_slots', ()))]
        cases += [('add', lambda name=name, mode=mode: (image, name, long(FOUR + 3), mode))
                  for name in (key, other) for mode in (1, 2, 3, 4, 5)]
        cases += [
            ('add_listed', lambda: (image, other, b'note', 1, long(FOUR + 1), long(FOUR + 9))),
            ('delete_listed', lambda: (image, key, long(FOUR + 8191), long(FOUR))),
            ('compact_listed', lambda: (image, long(FOUR), bytes(7))),
            ('add_journaled', lambda: (image, other, b'note', 1, long(FOUR), long(FOUR + 5))),
            ('add_journaled', lambda: (image, other, b'note', 1, long(FOUR), long(FOUR + 5, b'', b'\1'))),
            ('delete_journaled', lambda: (image, key, bytes(8192), long(FOUR))),
            ('recover', lambda: (image, long(FOUR + 1, content, b'\xa5'))),
            ('recover', lambda: (image, long(FOUR, content, b'\xa4'))),
            ('recover', lambda: (long(FOUR), b'\0\0\0\1\xff\xff\xff\xfe\0\0\0\2ab\xa5')),
            ('recover', lambda: (long(FOUR - 1), b'\0\0\0\1\xff\xff\xff\xfe\0\0\0\2ab\xa5')),
            ('recover', lambda: (long(FOUR + 4), b'\0\0\0\2\xff\xff\xff\xfe\0\0\0\2\0\0\0\0\0\0\0\1abc\xa5')),
            ('store_columns', lambda: (image, key, long(FOUR + 1), 0)),
            ('store_columns', lambda: (image, key, long(FOUR + 1), 2)),
            ('store_columns', lambda: (image, long(FOUR + 6, key), b'ab', 2)),
            ('read_columns', lambda: (image, key, long(FOUR + 1))),
            ('read_columns', lambda: (image, long(FOUR + 6, key), bytes(9))),
            ('convert', lambda: (image, long(FOUR + 8192))),
            ('convert', lambda: (long(FOUR + 8192, image), bytes(8192))),
            ('convert', lambda: (image, long(GIB + 4096))),
            ('convert', lambda: (long(GIB + 4096, image), bytes(8192))),
            ('convert', lambda: (image[:20] + b'\0\0\0\2' + image[24:], long(GIB))),
            ('convert', lambda: (long(GIB), bytes(8192))),
            ('select', lambda: (image, bytes(6), b'\xff' * 6, long(FOUR + 1))),
            ('select', lambda: (image, long(FOUR + 6), b'\xff' * 6, bytes(32))),
            ('select', lambda: (image, bytes(6), long(FOUR + 6), bytes(32))),
            ('at_epoch', lambda: (image, long(FOUR + 2, b'P1'), 9)),
        ]
        for name, make in cases:
            if name not in self.names:
                continue
            self.seen['long slices'] += 1
            self.calls += 1
            ours, theirs = make(), make()
            mine, its = self.library.do(name, ours), self.model.do(name, theirs)
            ends = [[(arg[:16384], arg[-16384:]) for kind, arg in zip(CALLS[name][0], args) if kind in 'Mr' and isinstance(arg, mmap.mmap)]
                    for args in (ours, theirs)]
            if mine != its or ends[0] != ends[1]:
                lengths = ', '.join(str(arg if isinstance(arg, int) else len(arg)) for arg in ours)
                raise Difference('long slices', [f'{name}, lengths and numbers {lengths}', f'  library: {mine[0]}', f'  model:   {its[0]}'])
        for N in (1_048_576, 1_048_577):  # 4 and 3
            self.beside('fresh', 'create', (bytes(8192), 1, N, 0))

    def large(self, seed):
        """Check and compaction on a table with more texts than a library could keep at hand: 140,000, in any order, some dead, some gaps;
        then with two points led into one message."""
        rng, model = random.Random(f'{seed}/large'), self.drawing
        K, N, texts = 3, 200_000, 140_000
        image = bytearray(model.data_offset(K, N) + 300 * 4096)
        model.create(image, K, N, seed % 2 ** 32)
        h = model.head(image)
        slots = []
        for n in rng.sample(range(95 ** 3), texts):
            key = bytes((32 + n % 95, 32 + n // 95 % 95, 32 + n // 95 ** 2))
            _, slot, _ = model.search(image, key)
            image[model.slot_at(h, slot):model.slot_at(h, slot) + K] = key
            slots.append(slot)
        rng.shuffle(slots)
        X = h.D
        for slot in slots:
            X += rng.choice((0, 0, 1))
            m = rng.randrange(3)
            image[X:X + 4 + m] = rng.choice((b'a', b'a', b'a', b'd')) + m.to_bytes(3, 'big') + rng.randbytes(m)
            model.set_offset(image, slot, X)
            X += 4 + m
        model.put(image, model.X_AT, X)
        model.put(image, model.C_AT, texts)
        cases = [('check', (image,)), ('compact_listed', (image, bytes(len(image)), bytes(4 * len(image)))),
                 ('convert', (image, b'\xC3' * (len(image) + 4096)))]
        for _ in range(3):
            spliced = bytearray(image)
            one, other = rng.sample(slots, 2)
            model.set_offset(spliced, one, model.offset_in(image, other))
            cases.append(('check', (spliced,)))
        for name, args in cases:
            self.one_of('large table', name, args, seed)

    def one_of(self, group, name, args, seed):
        """A call on large arguments; what it answered, and what it left."""
        self.seen[group] += 1
        self.calls += 1
        mine, its = self.both(name, (bytes(args[0]), *args[1:]))
        if mine != its:
            raise Difference(group, [f'{name}, --large --seed {seed}', f'  library: {mine[0]}', f'  model:   {its[0]}',
                                     *first_differences(mine[1], its[1])])
        return mine

    def long_texts(self, seed):
        """Texts of 16,777,215 and 16,777,216 bytes in version 2.0.0, as active messages and as inactive ones: 20 of a conversion."""
        model, group = self.drawing, 'long texts'
        for m in (16_777_215, 16_777_216):
            image = bytearray(8192 + 4096 * 4098)
            model.create(image, 1, 8, seed % 2 ** 32)
            image[5:8] = b'\2\0\0'
            model.add(image, b'A', b'first', 1)
            _, (image,) = self.one_of(group, 'add', (image, b'B', bytes(m), 1), seed)
            one, _ = self.one_of(group, 'convert', (image, bytes(len(image))), seed)
            small, _ = self.one_of(group, 'convert', (image, bytes(8192)), seed)
            _, (image,) = self.one_of(group, 'add', (image, b'B', b'', 4), seed)
            withdrawn, _ = self.one_of(group, 'convert', (image, bytes(8192)), seed)
            expected = ((0,), (13,), (0,)) if m == 16_777_215 else ((20,), (20,), (0,))
            if (one, small, withdrawn) != expected:
                raise Difference(group, [f'{m} bytes: {one}, {small}, withdrawn {withdrawn}, not {expected}'])

    def play(self, seed, n):
        """List n of a seed."""
        rng = random.Random(f'{seed}/{n}')
        kinds = SOUND_KINDS + DAMAGED_KINDS + (PAIR_KINDS if self.paired else ())
        kind = kinds[n % len(kinds)]
        self.lists += 1
        if kind in SOUND_KINDS:
            self.sound_list(kind, rng)
        elif kind in DAMAGED_KINDS:
            self.damaged_list(kind, rng)
        elif kind == 'growth':
            self.growth_list(rng)
        else:
            self.pair_list(rng)

    # ---- groups ----

    def floors(self):
        wanted = {'long slices': LONG_FLOOR, 'closing clause': BOOK_FLOOR, 'cut and recovered': BOOK_FLOOR,
                  'slots read within the bound': BOOK_FLOOR}
        for name in self.names:
            for kind in SOUND_KINDS + DAMAGED_KINDS:
                wanted[f'{name} on {kind}'] = CALL_FLOOR
            for number in NUMBERS[name]:
                wanted[f'{name} answers {number}'] = NUMBER_FLOOR
            if name not in ('create', 'recover', 'walk'):
                wanted[f'book beside {name}'] = BOOK_FLOOR
        for verdict in range(3):
            wanted[f'check says {verdict}'] = NUMBER_FLOOR
        for name in self.paired:
            for kind in PAIR_KINDS:
                wanted[f'{name} on {kind}'] = CALL_FLOOR
            for number in PAIR_NUMBERS[name]:
                wanted[f'{name} answers {number}'] = NUMBER_FLOOR
            wanted[f'book beside {name}'] = BOOK_FLOOR
        if self.paired:
            wanted['growth has ended'] = BOOK_FLOOR
        return wanted

    def table(self):
        kinds = SOUND_KINDS + DAMAGED_KINDS
        print(f'{"calls":18}' + ''.join(f'{kind:>12}' for kind in kinds) + f'{"by the book":>12}')
        for name in self.names:
            groups = [f'{name} on {kind}' for kind in kinds] + [f'book beside {name}']
            print(f'{name:18}' + ''.join(f'{self.seen[group]:12}' for group in groups))
        for name in self.paired:
            counts = ', '.join(f'{kind} {self.seen[f"{name} on {kind}"]}' for kind in PAIR_KINDS)
            print(f'{name}: {counts}, by the book {self.seen[f"book beside {name}"]}')
        for name in self.names + self.paired:
            numbers = sorted(int(key.split()[-1]) for key in self.seen if key.startswith(name + ' answers '))
            print(f'{name} answered ' + ', '.join(f'{number}: {self.seen[f"{name} answers {number}"]}' for number in numbers))
        for other in ('closing clause', 'cut and recovered', 'slots read within the bound', 'long slices', 'large table', 'long texts',
                      'growth has ended'):
            print(f'{other}: {self.seen[other]}')


def try_examples():
    """Document 01's worked examples on the model itself."""
    import examples  # here, since it imports the model that load() put in place
    passed = failed = 0
    for example in examples.EXAMPLES:
        try:
            example()
            passed += 1
        except AssertionError:
            failed += 1
            print(f'FAILED: example {example.__name__}')
            traceback.print_exc(file=sys.stdout)
    return passed, failed


def attempt(run, options, what, n=None):
    """Does a piece of work. A difference fails its group, and is printed if it is the group's first."""
    try:
        what()
    except Difference as difference:
        if difference.group not in run.failed:
            print(f'DIFFERENCE: {difference.group} (--seed {options.seed}' + ('' if n is None else f' --list {n}') + ')')
            print('\n'.join('  ' + line for line in difference.lines), flush=True)
        run.failed.setdefault(difference.group, n)


def play_lists(run, options, floors):
    """List after list, for as long as was asked, and on from there until each group has reached its floor: a slow machine makes fewer calls,
    and a seed may seldom draw one kind. After MORE times as long it ends. Time is the processor's: on a busy machine as many calls are
    made, and they take longer."""
    begun = told = time.process_time()
    n = 0
    while len(run.failed) < DIFFERENCES:
        now = time.process_time()
        done = max(run.calls / options.calls if options.calls else 0, (now - begun) / options.seconds if options.seconds else 0)
        if done >= MORE or done >= 1 and all(run.seen[group] >= floor for group, floor in floors.items()):
            break
        if now - told > 60:
            told = now
            print(f'{now - begun:.0f} s: {run.lists} lists, {run.calls} calls', flush=True)
        attempt(run, options, lambda: run.play(options.seed, n), n)
        n += 1


def full_run(library, options):
    run = Run(library, next(fault for fault in FAULTS if fault.name == options.fault) if options.fault else None)
    run.shrink_seconds = 15
    passed, failed = (0, 0) if options.no_examples else try_examples()
    begun, begun_by_processor = time.monotonic(), time.process_time()
    floors = {}
    if options.list is not None:
        attempt(run, options, lambda: run.play(options.seed, options.list), options.list)
    else:
        floors = run.floors()
        attempt(run, options, run.longest)
        if options.large:
            floors.update({'large table': LARGE_FLOOR, 'long texts': LONG_TEXT_FLOOR})
            attempt(run, options, lambda: run.large(options.seed))
            attempt(run, options, lambda: run.long_texts(options.seed))
        play_lists(run, options, floors)
    run.table()
    print(f'seed {options.seed}: {run.lists} lists, {run.calls} calls in {time.monotonic() - begun:.0f} s, '
          f'{time.process_time() - begun_by_processor:.0f} of the processor')
    drove = run.names + run.paired
    missing = [name for name in LATER if name not in drove]
    print(f'drove {", ".join(drove)}' + (f'; not exported: {", ".join(missing)}' if missing else ''))
    for group in sorted(set(floors) | set(run.failed)):
        if group in run.failed:
            failed += 1
            print(f'FAILED: {group}: a difference')
        elif run.seen[group] < floors[group]:
            failed += 1
            print(f'FAILED: {group}: {run.seen[group]} calls, fewer than {floors[group]}')
        else:
            passed += 1
    return passed, failed


def try_faults(library, options):
    passed = failed = 0
    for fault in FAULTS:
        if fault.needs and fault.needs not in library.functions:
            print(f'not tried: {fault.name}: the library has no {fault.needs}')
            continue
        run = Run(library, fault)
        found = None
        n = 0
        while found is None and run.calls < (options.calls or FAULT_CALLS):
            try:
                run.play(options.seed, n)
            except Difference as difference:
                found = difference.group
            n += 1
        if found:
            passed += 1
            print(f'found: {fault.name}: {found}, after {run.calls} calls', flush=True)
        else:
            failed += 1
            print(f'FAILED: {fault.name}: not found in {run.calls} calls', flush=True)
    return passed, failed


def main():
    parser = argparse.ArgumentParser(description=__doc__.split('\n')[0])
    parser.add_argument('--library', required=True, help='the library as a shared object')
    parser.add_argument('--seed', type=int, default=random.SystemRandom().randrange(10 ** 9))
    parser.add_argument('--seconds', type=float, default=None, help='end after as long by the processor, 60 if nothing is said')
    parser.add_argument('--calls', type=int, default=None, help='end after as many calls, or look as many long for a fault')
    parser.add_argument('--list', type=int, default=None, help='play this list of the seed alone')
    parser.add_argument('--large', action='store_true', help='begin with a table of 140,000 texts, which takes a while')
    parser.add_argument('--no-examples', action='store_true', help='leave the worked examples of the model out')
    parser.add_argument('--faults', action='store_true', help='try seeded faults instead')
    parser.add_argument('--fault', help='run with this fault, to see what is said of it')
    options = parser.parse_args()
    if options.seconds is None and options.calls is None:
        options.seconds = 60
    faulthandler.enable()
    print(f'seed {options.seed}', flush=True)
    library = Library(options.library)
    passed, failed = (try_faults if options.faults else full_run)(library, options)
    print(f'{passed} passed, {failed} failed')
    return 0 if failed == 0 and passed > 0 else 1


if __name__ == '__main__':
    sys.exit(main())
