"""Lists of calls on a pair of images: growth with the book beside it, and pairs of any bytes.

A list of kind 'growth' begins with a sound image, starts growth with second images of all sorts, and goes on with calls on the pair until no
point is left in the old image. A list of kind 'pair' begins with two images of which each may be damaged.
"""

import chance

PAIR_KINDS = ('growth', 'pair')
OPEN = (1, 5, 6, 21)
MOVE = (11, 9, 10, 13)
PAIR_NUMBERS = {'grow': (0, 1, 5, 6, 15, 21), 'grow_add': (0, *OPEN, 7, 8, 14, 12, *MOVE), 'grow_delete': (0, *OPEN, 7, 14, 11, 9),
                'grow_store_columns': (0, *OPEN, 7, 19, *MOVE), 'grow_lookup': (0, *OPEN, 7, 14, 11), 'grow_count': (0, *OPEN),
                'grow_read_columns': (0, *OPEN, 7, 14, 11, 19), 'grow_select': (0, *OPEN, 22, 16),
                'grow_at_epoch': (0, *OPEN, 23, 7, 14, 11)}
PAIR_WEIGHTS = {'grow': 0, 'grow_add': 8, 'grow_delete': 4, 'grow_store_columns': 3}  # 2 for each other


class Drawn(chance.Chance):
    """What a call on a pair is given."""

    def second(self, old, growth):
        """An image for a start: mostly an empty one that fits."""
        rng, model = self.rng, self.model
        h = model.head(old)
        K = h.K if self.odds(0.96) else rng.choice((max(1, h.K - 1), min(32, h.K + 1)))
        N = h.N + rng.choice((1, 1, 2, rng.randint(1, 20), rng.randint(1, 60)))
        if self.odds(0.05):
            N = max(1, h.N - rng.choice((0, 0, 1)))
        pages = (growth.active_space(old) + 4095) // 4096 + rng.choice((0, 0, 0, 1, 2, -1))
        image = bytearray(max(4096, model.data_offset(K, N) + 4096 * max(0, pages)))
        model.create(image, K, N, rng.choice((0, rng.randrange(2 ** 32))))
        image[5:8] = old[5:8]
        if self.odds(0.5):  # "sound": whatever stands where no point and no message is
            image[8:12] = rng.randbytes(4)
            image[24:32] = rng.choice((image[24:32], rng.randbytes(8)))
            image[56:60] = rng.randbytes(4)
            image[512:892] = rng.randbytes(380)
            D = model.data_offset(K, N)
            image[D:] = self.stuff(len(image) - D)
            at = model.slot_at(model.head(image), rng.randrange(N)) + K
            image[at:at + 4] = rng.randbytes(4)
            if image[5] == 1:
                image[7] = rng.randrange(3)
        if self.odds(0.12):
            kind = rng.randrange(6)
            if kind == 0:
                model.put(image, 20, 1)
            elif kind == 1 and model.data_offset(K, N) < len(image):
                model.put(image, 52, model.data_offset(K, N) + rng.randint(1, 5))
            elif kind == 2:
                image[model.slot_at(model.head(image), rng.randrange(N))] = rng.randrange(1, 256)
                if self.odds(0.6):  # a sound image with a point
                    model.create(image, K, N, 0)
                    image[5:8] = old[5:8]
                    model.add(image, rng.randbytes(K - 1) + b'\1', b'', 3)
            elif kind == 3:
                image[5:8] = b'\2\0\0' if image[5] == 1 else b'\1\0\2'
            elif kind == 4:
                return self.wrong_length(image)
            else:
                self.damage_header(image)
        return bytes(image)

    def name(self, old, new):
        return self.key(old if self.odds(0.5) else new)

    def data_for(self, old, new, key, growth):
        """Data of lengths that matter: what fills the new image once all points are there, and what the point has."""
        rng, model = self.rng, self.model
        if self.odds(0.02):
            return rng.choice(chance.LONG)
        if self.odds(0.15):
            return b''
        lengths = [1, rng.randint(0, 20), rng.randint(0, 20)]
        if growth.opening_of_pair(old, new) == 0 and self.odds(0.6):
            _, _, _, length = growth.grow_lookup(old, new, key)
            room = len(new) - model.head(new).X - growth.active_space(old) - model.header_size(new)
            lengths = [room, room, room - length] if self.odds(0.4) else [*lengths, length, length // 2]
        n = self.near(*lengths)
        return self.stuff(n if n < 200_000 else 5)

    def pair_call(self, name, old, new, growth):
        """The arguments of a call, the two images first."""
        rng, model = self.rng, self.model
        key = self.name(old, new)
        if name == 'grow':
            return old, new
        if name == 'grow_count':
            return old, new
        if name == 'grow_add':
            mode = rng.choice((1, 2, 3, 4)) if self.odds(0.97) else rng.choice((0, 5, 255, 0x102, 2 ** 32 - 1))
            return old, new, key, self.data_for(old, new, key, growth), mode
        if name == 'grow_store_columns':
            records, width = self.records()
            if self.odds(0.3):
                records, width = self.data_for(old, new, key, growth), 1
            return old, new, key, records, width
        if name == 'grow_read_columns':
            holder = old if model.opening(old) == 0 and model.lookup(old, key)[0] == 0 else new
            return old, new, key, self.out(holder, key)
        if name == 'grow_select':
            lowest, highest, _ = self.ranges(old)
            N = sum(model.head(image).N if model.opening(image) == 0 else 9 for image in (old, new))
            return old, new, lowest, highest, self.stuff(self.near(4 * N) if self.odds(0.3) else 4 * N + rng.randint(0, 9))
        if name == 'grow_at_epoch':
            return (old, new, *self.epoch(old if self.odds(0.5) else new))
        return old, new, key  # delete, lookup

    def partner(self, old):
        """A new image of the old one's kind, mostly, with points of its own and some of the old one's names."""
        rng, model = self.rng, self.model
        h = model.head(old)
        K = h.K if 1 <= h.K <= 32 and self.odds(0.97) else rng.randint(1, 32)
        N = rng.choice((rng.randint(1, 12), rng.randint(8, 40), min(h.N, 50) + rng.randint(1, 9)))
        image = bytearray(model.data_offset(K, N) + 4096 * rng.choice((1, 1, 2)))
        model.create(image, K, N, rng.randrange(2 ** 32))
        if old[5] == 2 and self.odds(0.97) or self.odds(0.02):
            image[5:8] = b'\2\0\0'
        for _ in range(rng.choice((0, 2, rng.randint(0, 15)))):
            model.add(image, rng.choice(self.pool), self.stuff(rng.randint(0, 12)), rng.choice((1, 2, 3, 3)))
        return image


class Pairs:
    """The part of a run that drives calls on a pair."""

    def choose_paired(self, rng):
        return rng.choices(self.paired, [PAIR_WEIGHTS.get(name, 2) for name in self.paired])[0]

    def differ(self, group, args, name, pair, **more):
        from run import Difference, call_lines, sparse
        raise Difference(group, [*sparse(args[0]), *sparse(args[1]), *call_lines(name, args), f'  library: {pair[0]}',
                                 f'  book:    {pair[1]}'])

    # ---- with the book ----

    def growth_step(self, book, name, args, answers, after):
        """What the pair answered and what the book does, in the same terms."""
        old, new, *rest = args
        number = answers[0]

        def text(in_new, at, length):
            return (new if in_new else old)[at:at + length] if at else None
        if name == 'grow':
            return (number,), book.grow(new)
        if name == 'grow_lookup':
            return (number, text(*answers[1:])), book.lookup(*rest)
        if name == 'grow_count':
            return answers, book.count()
        if name == 'grow_read_columns':
            return (number, after[0][:answers[1]]), book.read_columns(rest[0], len(rest[1]))
        if name == 'grow_at_epoch':
            return (number, answers[1], text(*answers[2:])), book.at_epoch(*rest)
        if name == 'grow_select':
            if number:
                return None
            lowest, highest, _ = rest
            names = [n for n in book.entries if all(low <= c <= high for low, c, high in zip(lowest, n, highest))]
            return (answers[1] + answers[2],), (len(names),)
        return (number,), getattr(book, name.removeprefix('grow_'))(*rest)

    def paired_call(self, kind, draw, book, name, old, new):
        """One call on the pair by library and model, and by the book if there is one. Returns the images after it, and its number."""
        args = (old, new) if name == 'grow' else draw.pair_call(name, old, new, self.drawing_growth)
        answers, after = self.beside(kind, name, args)
        if book:
            pair = self.growth_step(book, name, args, answers, after)
            if pair:
                self.seen[f'book beside {name}'] += 1
                if pair[0] != pair[1]:
                    self.differ(f'book beside {name}', args, name, pair)
        changes = name in ('grow_add', 'grow_delete', 'grow_store_columns')
        return (*after, answers[0]) if changes else (old, new, answers[0])

    def closing_of_pair(self, book, old, new):
        """The pair finds the book's points, with their texts, and no others; both images are sound."""
        model = self.drawing
        points = {}
        for image in (old, new):
            if self.library.do('check', (image,))[0] != (0, model.SOUND, 0):
                return ('an image is not sound', None)
            for _, key, _ in model.taken_slots(image):
                if key in points:
                    return ('a name is in both images', key)
                number, in_new, at, length = self.library.do('grow_lookup', (old, new, key))[0]
                points[key] = (number, (new if in_new else old)[at:at + length] if at else None)
        return points, {name: (0, entry.text) for name, entry in book.entries.items()}

    def crowded(self, draw):
        """A sound image with more points than a call moves."""
        rng, model = draw.rng, self.drawing
        image = draw.created(most_slots=40, small=True)
        for key in draw.pool:
            if any(key):
                model.add(image, key, draw.stuff(rng.choice((0, rng.randint(0, 9), rng.randint(0, 90)))), rng.choice((1, 1, 3)))
        for key in draw.pool[:rng.randint(0, 4)]:
            model.add(image, key, b'', 4)
        return image

    def growth_list(self, rng):
        draw = Drawn(rng, self.drawing)
        image = rng.choice((lambda: self.crowded(draw), lambda: self.crowded(draw), draw.used, draw.opened))()
        book = self.book_module.Book.read_off(image)
        old, new, number = bytes(image), b'', 21
        for _ in range(6):  # a refused start leaves all as it was
            if number:
                new = draw.second(old, self.drawing_growth)
                _, _, number = self.paired_call('growth', draw, book, 'grow', old, new)
        if number:
            return
        accepted, most = 0, (self.drawing.head(old).C + 7) // 8
        for _ in range(rng.randint(5, 40)):
            if next(self.drawing.taken_slots(old), None) is None:
                break
            name = self.choose_paired(rng)
            before = old, new
            old, new, number = self.paired_call('growth', draw, book, name, old, new)
            accepted += (old, new) != before
        pair = self.closing_of_pair(book, old, new)
        if pair[0] != pair[1]:
            self.differ('growth has ended', (old, new), 'grow', pair)
        if next(self.drawing.taken_slots(old), None) is None:
            self.seen['growth has ended'] += 1
            if accepted > most:
                self.differ('growth has ended', (old, new), 'grow', (accepted, most))

    # ---- any bytes ----

    def hurt(self, draw, image):
        if self.drawing.opening(image):
            return
        draw.rng.choice((draw.damage_slots, draw.damage_slots, draw.damage_slots, draw.damage_messages, draw.damage_messages, draw.splice,
                         draw.splice, draw.damage_header))(image)

    def pair_list(self, rng):
        draw = Drawn(rng, self.drawing)
        old = rng.choice((draw.used, draw.opened, draw.rubble, lambda: self.crowded(draw), lambda: self.crowded(draw)))()
        new = draw.partner(old)
        if draw.odds(0.05):
            old, new = new, old
        base = bytes(old), bytes(new)
        for _ in range(rng.randint(8, 30)):
            if self.drawing_growth.opening_of_pair(old, new) or draw.odds(0.1):
                old, new = base
            for _ in range(rng.choice((0, 0, 1, 2))):
                pair = bytearray(old), bytearray(new)
                self.hurt(draw, pair[rng.randrange(2)])
                old, new = pair
            given = [bytes(old), bytes(new)]
            if draw.odds(0.1):
                one = rng.randrange(2)
                given[one] = draw.wrong_length(given[one])
            name = 'grow' if draw.odds(0.08) else self.choose_paired(rng)
            one, other, number = self.paired_call('pair', draw, None, name, *given)
            if (len(one), len(other)) == (len(old), len(new)):
                old, new = one, other
