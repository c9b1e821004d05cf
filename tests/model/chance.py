"""Random images and random calls. What is drawn here is only what a call is given; what it must answer is the model's affair.

The model is asked for sizes alone, so that lists, journals and data come out just long enough and just too short as often as otherwise.
"""

import struct

from library import CALLS

# Tables by which any bytes become bytes of few kinds.
HEADERS, BITS, RUINS = (bytes(letters[i % len(letters)] for i in range(256))
                        for letters in (b'ad\0\1\2\5', b'\0\1', b'aaadd\0\0\0\0\0\0\1\2\3\7'))
LONG = [bytes(n) for n in (16_777_214, 16_777_215, 16_777_216, 16_777_216)]  # data around question 12's bound


class Chance:
    def __init__(self, rng, model):
        self.rng, self.model = rng, model
        self.pool = [b'\1']
        self.favourite = b'\1'

    def odds(self, part):
        return self.rng.random() < part

    # ---- bytes ----

    def stuff(self, n):
        """n bytes. Few different ones as a rule, so that bytes change into themselves and headers turn up inside of messages."""
        rng = self.rng
        kind = rng.randrange(4)
        if kind == 0:
            return rng.randbytes(n)
        if kind == 1:
            return rng.randbytes(n).translate(HEADERS)
        if kind == 2:
            return bytes([rng.randrange(256)]) * n
        return rng.randbytes(n).translate(BITS)

    def near(self, *values):
        return max(0, self.rng.choice(values) + self.rng.choice((-1, 0, 0, 1)))

    # ---- shapes and keys ----

    def shape(self, most_slots=3000, small=False):
        rng = self.rng
        while True:
            K = rng.choice((1, 1, 2, 3, 4, 5, 6, 8, 16, 31, 32, rng.randint(1, 32)))
            N = rng.choice((rng.randint(1, 4), rng.randint(2, 12), rng.randint(5, 60)))
            if not small and self.odds(0.12):
                N = rng.choice((rng.randint(60, 400), rng.randint(400, 3000), 5507))
            N = min(N, most_slots)
            D = self.model.data_offset(K, N)
            L = D + 4096 * rng.choice((0, 1, 1, 1, 2, 3, rng.randint(0, 8)))
            if self.odds(0.01):  # room for messages with a length above 16 bits
                return K, N, L + 69632
            if L <= 65536:
                return K, N, L

    def draw_pool(self, K, N):
        """The keys of a list of calls, few enough to be met again. Of keys with room for an epoch some share the name before it."""
        rng = self.rng
        size = min(rng.choice((2, 4, N + 2, 2 * N)), rng.choice((20, 40, 40, 150)))
        letters = rng.choice((bytes(range(256)), bytes(range(32, 127)), b'\0\1\x1f\x20\x7e\x7f\xff', b'AB'))
        self.pool = []
        names = [bytes(rng.choices(letters, k=max(0, K - 4))) for _ in range(rng.randint(1, 3))]
        for _ in range(max(2, size)):
            if K >= 5 and self.odds(0.6):
                when = rng.choice((rng.randint(0, 6), rng.randint(0, 6), 0x7FFFFFFF, 0x80000000, 0xFFFFFFFF, rng.randrange(2 ** 32)))
                self.pool.append(rng.choice(names) + when.to_bytes(4, 'big'))
            else:
                self.pool.append(bytes(rng.choices(letters, k=K)))
        self.favourite = rng.choice(self.pool)

    def key(self, image):
        rng = self.rng
        if self.odds(0.03):
            return self.stuff(rng.choice((0, 1, 31, 32, 33, 40, rng.randint(0, 40))))
        if self.odds(0.02):
            return bytes(len(self.pool[0]))
        if self.odds(0.05):
            return rng.randbytes(len(self.pool[0]))
        if self.odds(0.2) and self.model.opening(image) == 0:
            _, slot, at = self.model.walk(image, rng.randrange(self.model.head(image).N))
            if at:
                return bytes(image[at:at + self.model.head(image).K])
        if self.odds(0.6):  # else the key of a call before, so that more happens to one point
            self.favourite = rng.choice(self.pool)
        return self.favourite

    # ---- images ----

    def created(self, **how):
        K, N, L = self.shape(**how)
        self.draw_pool(K, N)
        image = bytearray(L)
        assert self.model.create(image, K, N, self.rng.choice((0, 1, self.rng.randrange(2 ** 32)))) == (0,)
        if self.odds(0.3):  # as a conversion leaves one without points
            image[5:8] = b'\2\0\0'
        return image

    def other_header(self, image):
        """Numbers that create does not write and question 6 takes: an image that others made."""
        rng = self.rng
        first = rng.choice((0, 32, rng.randrange(256)))
        last = rng.choice((255, first, rng.randint(first, 255)))
        image[5:8] = rng.choice((b'\1\0\0', b'\1\0\1', b'\1\0\2', b'\2\0\0', b'\2\0\0'))
        image[8:12] = rng.randbytes(4)
        image[24:32] = rng.choice((image[24:32], rng.randbytes(8), bytes(8)))
        image[32:40] = struct.pack('>2I', first, last)
        image[56:60] = rng.choice((image[56:60], rng.randbytes(4)))
        image[60:512] = rng.randbytes(452)
        image[512:2048] = rng.randbytes(1536)

    def used(self, **how):
        """A created image after some adds and deletes."""
        image = self.created(**how)
        for _ in range(self.rng.randint(2, 25)):
            key = self.rng.choice(self.pool)
            if self.odds(0.2):
                self.model.delete(image, key)
            else:
                self.model.add(image, key, self.stuff(self.rng.randint(0, 12)), self.rng.choice((1, 2, 2, 3, 4)))
        return image

    def crowd(self):
        """A created image of about 256 points without messages."""
        rng, model = self.rng, self.model
        image = bytearray(8192)
        K, N = rng.randint(2, 4), rng.randint(254, 300)
        assert model.create(image, K, N, rng.randrange(2 ** 32)) == (0,)
        points = rng.randint(252, 257)
        while model.head(image).C < min(points, N):
            model.add(image, rng.randbytes(K), b'', 3)
        self.draw_pool(K, 8)
        return image

    def opened(self):
        """A sound image that these calls did not make: another header, rubbish where nothing is kept, messages in any order with gaps
        between them."""
        rng, model = self.rng, self.model
        image = self.created()
        self.other_header(image)
        h = model.head(image)
        table_end = model.slot_at(h, h.N)
        image[table_end:] = self.stuff(len(image) - table_end)
        size = h.K + 4
        for slot in range(min(h.N, 100)):  # empty slots with offsets
            image[model.slot_at(h, slot) + h.K:model.slot_at(h, slot) + size] = rng.choice((bytes(4), rng.randbytes(4)))
        slots = []
        for key in self.pool[:rng.randint(1, len(self.pool))]:
            how, slot, _ = model.search(image, key) if any(key) else ('zero', 0, 0)
            if how == 'empty':
                image[model.slot_at(h, slot):model.slot_at(h, slot) + h.K] = key
                model.set_offset(image, slot, 0)
                slots.append(slot)
        if len(slots) == h.N:  # in a full table every search finds its key, wherever it stands
            entries = [image[model.slot_at(h, i):model.slot_at(h, i) + size] for i in range(h.N)]
            rng.shuffle(entries)
            image[2048:table_end] = b''.join(entries)
        for _ in range(rng.choice((0, 10)) if slots else 0):  # in another, two may change places if both are still found
            swapped = bytearray(image)
            places = [model.slot_at(h, rng.choice(slots)) for _ in range(2)]
            keys = [bytes(image[at:at + h.K]) for at in places]
            for at, key in zip(places, reversed(keys)):
                swapped[at:at + h.K] = key
            if all(model.slot_at(h, model.search(swapped, key)[1] or 0) == at for at, key in zip(places, reversed(keys))):
                image = swapped
        rng.shuffle(slots)
        X = h.D
        for slot in slots:
            m = rng.choice((0, 1, rng.randint(0, 30)))
            gap = rng.choice((0, 0, 1, rng.randint(0, 9)))
            new = model.message(image, rng.choice((b'a', b'a', b'd')), self.stuff(m))
            if self.odds(0.8) and X + gap + len(new) <= len(image):
                X += gap
                image[X:X + len(new)] = new
                model.set_offset(image, slot, X)
                X += len(new)
        X = min(len(image), X + rng.choice((0, 0, 1, rng.randint(0, 4096), len(image))))
        model.put(image, model.C_AT, len(slots))
        model.put(image, model.X_AT, X)
        return image

    def rubble(self):
        """A header that passes 6, and rubbish otherwise: any table, any messages."""
        rng, model = self.rng, self.model
        image = self.created(small=True)
        if self.odds(0.5):
            self.other_header(image)
        h = model.head(image)
        letters = rng.choice((b'\0\1', b'\1\2', b'\0\1\2\3', bytes(range(256))))
        X = rng.choice((h.D, len(image), rng.randint(h.D, len(image)), min(len(image), h.D + rng.randint(0, 60))))
        for slot in range(h.N):
            offset = rng.choice((0, self.near(h.D, X, X - 4, X - 5), min(X, h.D + rng.randint(0, 50)), rng.randint(h.D, X),
                                 rng.randrange(2 ** 32)))
            at = model.slot_at(h, slot)
            key = bytes(rng.choices(letters, k=h.K)) if self.odds(0.7) else rng.choice(self.pool)
            image[at:at + h.K + 4] = key + offset.to_bytes(4, 'big')
            if self.odds(0.5):
                self.pool.append(bytes(image[at:at + h.K]))
        image[h.D:] = rng.randbytes(len(image) - h.D).translate(RUINS)
        model.put(image, model.X_AT, X)
        model.put(image, model.C_AT, min(h.N, self.near(0, h.N, sum(1 for _ in model.taken_slots(image)))))
        return image

    # ---- damage ----

    def damage_header(self, image):
        rng = self.rng
        if self.odds(0.25):
            image[rng.randrange(8)] = rng.choice((0, 1, 2, 3, 255, rng.randrange(256)))
            return
        if self.odds(0.1):
            image[5:8] = rng.choice((b'\2\0\0', b'\2\0\1', b'\2\0\2', b'\2\1\0', b'\3\0\0', b'\1\0\3', b'\0\0\0'))
            return
        at = rng.choice((8, 12, 16, 20, 24, 28, 32, 36, 40, 44, 48, 52, 56))
        old = self.model.get(image, at)
        h = self.model.head(image)
        new = rng.choice((0, 1, old + 1, old - 1, old | 0x80000000, old ^ 1 << rng.randrange(32), 0xFFFFFFFF, 32, 33, 255, 256,
                          h.N, h.N + 1, h.E, h.D, h.X, len(image), len(image) + 1, 65536, 65537, 1_048_576, 1_048_577,
                          rng.randrange(2 ** 32)))
        self.model.put(image, at, new % 2 ** 32)

    def damage_slots(self, image):
        rng, model = self.rng, self.model
        h = model.head(image)
        size = h.K + 4
        one, other = (model.slot_at(h, rng.choice((rng.randrange(h.N), rng.randrange(min(h.N, 12))))) for _ in range(2))
        kind = rng.randrange(8)
        if kind == 0:
            image[one + rng.randrange(size)] = rng.choice((0, 1, rng.randrange(256)))
        elif kind == 1:
            image[one:one + size], image[other:other + size] = image[other:other + size], image[one:one + size]
        elif kind == 2:
            image[one:one + h.K] = image[other:other + h.K]
        elif kind == 3:
            image[one:one + h.K] = bytes(h.K)
        elif kind == 4:
            image[one:one + h.K] = rng.choice(self.pool) if len(self.pool[0]) == h.K else rng.randbytes(h.K)
        elif kind == 5:
            values = (0, 1, h.D - 1, h.D, h.X - 5, h.X - 4, h.X - 3, h.X, len(image) - 4, len(image) - 3, len(image),
                      2 ** 32 - 1, 2 ** 32 - 4)
            model.put(image, one + h.K, max(0, rng.choice(values)))
        else:
            model.put(image, model.C_AT, min(h.N, self.near(0, h.C, h.N)))

    def offsets(self, image):
        """Slots with offsets that pass 11, and the offsets."""
        return [(slot, offset) for slot, _, offset in self.model.taken_slots(image) if offset and self.model.message_passes(image, offset)]

    def set_length(self, image, at, m):
        """A length in a message's header, the largest that it can tell if m is above that."""
        size = self.model.header_size(image) - 1
        image[at + 1:at + 1 + size] = min(256 ** size - 1, m).to_bytes(size, 'big')

    def damage_messages(self, image):
        rng, model = self.rng, self.model
        h = model.head(image)
        messages = self.offsets(image)
        if not messages or self.odds(0.1):
            if h.D < len(image):
                image[rng.randrange(h.D, len(image))] = rng.randrange(256)
            return
        _, at = rng.choice(messages)
        if self.odds(0.3):
            image[at] = rng.choice((ord('a'), ord('d'), 0, ord('A'), rng.randrange(256)))
        else:
            m = model.length_at(image, at)
            self.set_length(image, at, self.near(0, m, m + 4, h.X - at - 4, h.X - at - 5, len(image) - at - 4, 0xFFFFFF,
                                                 m | 0x1000000, m | 0x80000000, 0xFFFFFFFF))

    def splice(self, image):
        """Leads one point into the bytes of another, or up to them."""
        rng, model = self.rng, self.model
        messages = self.offsets(image)
        if len(messages) < 2:
            return self.damage_messages(image)
        (slot, at), (_, other) = rng.sample(messages, 2)
        kind = rng.randrange(4)
        if kind == 3:  # two neighbours
            messages.sort(key=lambda message: message[1])
            n = rng.randrange(len(messages) - 1)
            (slot, at), (_, other) = messages[n:n + 2]
        if kind == 0:
            model.set_offset(image, slot, other)
            return
        h = model.head(image)
        m = model.length_at(image, other)
        header = model.header_size(image)
        if kind == 1:  # a header inside of the other's message
            at = other + rng.randint(1, header + m)
            model.set_offset(image, slot, at)
        elif kind == 2:  # one that begins before the other
            at = max(h.D, other - rng.randint(1, 9))
            model.set_offset(image, slot, at)
        # its end at the beginning of the other or a byte behind, or anywhere
        end = max(at + header, rng.choice((other, other + 1, other + 1, self.near(other + header + m, h.X))))
        if end <= len(image) and at + header <= len(image):
            image[at:at + 1] = rng.choice((b'a', b'd'))
            self.set_length(image, at, end - at - header)

    def wrong_length(self, image):
        rng = self.rng
        n = rng.choice((0, 1, 59, 60, 100, 4095, 4097, 8191, len(image) - 1, len(image) + 1, rng.randint(0, len(image))))
        return (bytes(image) + bytes(8))[:n] if n <= len(image) + 8 else bytes(image) + bytes(n - len(image))

    # ---- calls ----

    def data(self, image, key):
        """Data of a length that matters to this key in this image, as far as there is one."""
        rng, model = self.rng, self.model
        if self.odds(0.013):
            return rng.choice(LONG)
        if self.odds(0.15):
            return b''
        lengths = [1, 3, rng.randint(0, 20), rng.randint(0, 20)]
        if model.opening(image) == 0 and self.odds(0.5):
            _, _, length = model.lookup(image, key)
            room = len(image) - model.head(image).X - model.header_size(image)  # what fills the image to its last byte
            lengths = [room, room - length] if self.odds(0.15) else [*lengths, length, length, length // 2]
        n = self.near(*lengths)
        return self.stuff(n if n < 200_000 else 5)

    def work(self, image):
        rng = self.rng
        n = len(image)
        if self.odds(0.05):
            n = max(0, rng.choice((0, n - 1, n + 1, n + 99, rng.randint(0, n))))
        return rng.choice((bytes(n), b'\xC3' * n, rng.randbytes(n)))

    def changed(self, image, name, args):
        """What the plain call would change, by the model: the old image, and the new."""
        new = bytearray(image)
        getattr(self.model, name)(new, *args)
        return new

    def pair_list(self, image, name, args):
        rng = self.rng
        if self.odds(0.04):
            return self.stuff(rng.randint(0, 7))
        pairs = len(self.model.changed_runs(image, self.changed(image, name, args)))
        return self.stuff(max(8, rng.choice((8 * pairs, 8 * pairs, 8 * pairs - 1, 8 * pairs + 7, 8 * pairs + 40, 8, rng.randint(8, 90)))))

    def journal(self, image, name, args):
        rng = self.rng
        if self.odds(0.04):
            return self.stuff(rng.randint(0, 9))
        needs = 1 + len(self.model.content_of(image, self.changed(image, name, args)))
        journal = bytearray(self.stuff(max(0, rng.choice((needs, needs, needs, needs + 1, needs + rng.randint(0, 50), needs - 1)))))
        if journal:
            journal[-1] = 0 if self.odds(0.93) else rng.choice((1, 0xA5, 255, rng.randrange(256)))
        return bytes(journal)

    def plain(self, image, name):
        """Arguments of add, delete or compact, without the image."""
        if name == 'compact':
            return ()
        key = self.key(image)
        if name == 'delete':
            return (key,)
        mode = self.rng.choice((1, 2, 3, 4)) if self.odds(0.97) else self.rng.choice((0, 5, 255, 0x101, 2 ** 32 - 1))
        return key, self.data(image, key), mode

    def marked_journal(self, image):
        """A journal for recovery: one that a call would leave at a cut, one that is nearly so, or rubbish."""
        rng = self.rng
        if self.odds(0.03):
            return b''
        mark = bytes([0xA5 if self.odds(0.85) else rng.randrange(256)])
        if self.odds(0.4):
            name = rng.choice(('add', 'delete', 'compact'))
            new = self.changed(image, name, self.plain(image, name))
            content = bytearray(self.model.content_of(image, new))
            if self.odds(0.5):
                content[rng.choice((3, rng.randrange(len(content))))] = rng.randrange(256)
        else:
            pairs, at = [], 0
            for _ in range(rng.choice((0, 1, 2, 3, 5))):
                at += rng.choice((0, 0, 1, rng.randint(0, 5000)))
                n = rng.choice((0, 1, rng.randint(0, 9)))
                if self.odds(0.1):
                    at = max(0, rng.choice((at - 1, at - 1, len(image) - n, len(image) - n + 1, len(image), 0, 2 ** 32 - 1 - n)))
                if self.odds(0.03):
                    n = rng.choice((len(image), 2 ** 32 - 1, 2 ** 32 - at)) % 2 ** 32
                pairs.append((at % 2 ** 32, n))
                at = (at + n) % 2 ** 32
            number = len(pairs) if self.odds(0.9) else rng.choice((len(pairs) + 1, 0, 2 ** 29, 2 ** 32 - 1))
            bytes_after = sum(n for _, n in pairs)
            content = struct.pack('>I', number) + self.model.as_bytes(pairs) + self.stuff(bytes_after if bytes_after < 70000 else 9)
        content = bytes(content)
        if self.odds(0.15):
            return content[:max(0, len(content) - rng.choice((1, 1, 2, rng.randint(1, 12))))] + mark
        return content + (self.stuff(rng.randint(1, 30)) if self.odds(0.4) else b'') + mark

    def records(self):
        rng = self.rng
        if self.odds(0.01):
            return rng.choice(LONG), 1
        width = rng.choice((1, 2, 3, 5, 63, 64, rng.randint(1, 64)))
        records = self.stuff(width * rng.choice((0, 1, 2, 3, rng.randint(0, 9))))
        if self.odds(0.06):
            records += self.stuff(rng.randint(1, 3))
        if self.odds(0.05):
            width = rng.choice((0, 65, 255, 256 + width, 2 ** 32 - 1))
        return records, width

    def out(self, image, key):
        rng = self.rng
        length = self.model.lookup(image, key)[2]
        return self.stuff(self.near(max(0, length - 1), max(0, length - 1), length, rng.randint(0, 60)))

    def ranges(self, image):
        rng = self.rng
        key = self.key(image)
        lowest, highest = bytearray(key), bytearray(key)
        for i in range(len(key)):
            if self.odds(0.5):
                lowest[i] = rng.choice((0, lowest[i], rng.randint(0, lowest[i])))
                highest[i] = rng.choice((255, highest[i], rng.randint(highest[i], 255)))
        if self.odds(0.05) and key:
            lowest[rng.randrange(len(key))] = rng.randrange(256)
        if self.odds(0.03):
            highest = highest + b'\xff' if self.odds(0.5) else highest[:-1]
        N = self.model.head(image).N if self.model.opening(image) == 0 else 9
        return bytes(lowest), bytes(highest), self.stuff(self.near(4 * N) if self.odds(0.3) else 4 * N + rng.randint(0, 9))

    def epoch(self, image):
        rng = self.rng
        key = self.key(image)
        name = key[:-4] if self.odds(0.95) else key[:rng.randint(0, len(key))]
        own = int.from_bytes(key[-4:], 'big')
        return name, rng.choice((self.near(own) % 2 ** 32, rng.randint(0, 8), 2 ** 32 - 1, rng.randrange(2 ** 32)))

    def target(self, image):
        """A slice for a conversion: as long as the messages need, a page less, or anything."""
        rng, model = self.rng, self.model
        n = len(image)
        if model.check(image)[:2] == (0, model.SOUND) and self.odds(0.6):
            n = (model.converted_end(image) + 4095) // 4096 * 4096
            n = rng.choice((n, n, n, n - 4096, n + 4096))
        elif model.opening(image) == 0 and self.odds(0.4):
            n = rng.choice((4096, model.head(image).D, model.head(image).D - 4096))
        if self.odds(0.05):
            n = rng.choice((0, 1, 4095, 4097, n + 1, n - 1))
        return self.stuff(max(0, n))

    def create_args(self, image):
        rng = self.rng
        K, N, L = self.shape()
        if self.odds(0.3):
            L = len(image)
        if self.odds(0.1):
            K = rng.choice((0, 33, 255, 2 ** 32 - 1, 2 ** 32 - 4))
        if self.odds(0.15):
            N = rng.choice((0, 0, 1_048_576, 1_048_577, 65536, 2 ** 32 - 1, 2 ** 31))
            L = rng.choice((L, self.model.data_offset(K % 7, 5507)))
        if self.odds(0.1):
            L = rng.choice((0, 1, 4095, 4096, 4097, L + 1, max(0, L - 1)))
        return self.stuff(L), K, N, rng.choice((0, rng.randrange(2 ** 32)))

    def call(self, name, image):
        """The arguments of a call, the image first."""
        rng = self.rng
        image = bytes(image)
        base, _, form = name.partition('_')
        if name == 'create':
            return self.create_args(image)
        if base in ('add', 'delete', 'compact'):
            args = self.plain(image, base)
            if form == 'listed':
                return (image, *args, self.work(image), self.pair_list(image, base, args))
            if form == 'journaled':
                return (image, *args, self.work(image), self.journal(image, base, args))
            return (image, *args)
        if base == 'lookup':
            return image, self.key(image)
        if name == 'walk':
            N = self.model.head(image).N if len(image) >= 56 else 3
            return image, rng.choice((0, rng.randint(0, 2 ** 32 - 1), self.near(min(N, 2 ** 32 - 2)), rng.randrange(min(N, 9000) + 1)))
        if name == 'recover':
            return image, self.marked_journal(image)
        if name == 'store_columns':
            return (image, self.key(image), *self.records())
        if name == 'read_columns':
            key = self.key(image)
            return image, key, self.out(image, key)
        if name == 'convert':
            return image, self.target(image)
        if name == 'select':
            return (image, *self.ranges(image))
        if name == 'at_epoch':
            return (image, *self.epoch(image))
        assert CALLS[name][0] == 'r', name
        return (image,)
