"""The plain control book of document 01, with the rules that document 02 adds to it (Jobs 2, 3, 4, 8 to 12, and 14).

The book knows names and texts, and nothing of slots, offsets or hashes. "Each step is fed its call's arguments and nothing from the file",
but for Job 9's 17. A step returns a tuple: the number, then what the call answers beside it. A text is None (none) or bytes, which may be
empty (Job 4).
"""

import image as file
from image import LONGEST_MESSAGE, LONGEST_OF_2, columns, data_offset, question_1, records_of


class Entry:
    # 01: "a set of entries (name, text, held) with distinct names". Job 4: "The book's text is none or a list that may be empty, and an
    # entry notes whether it has an offset".
    def __init__(self, text, held, has_offset):
        self.text, self.held, self.has_offset = text, held, has_offset


class Book:
    def __init__(self, K, N, L):
        # 01: "U, space used, 0 at first. N and K are as created; R = L − D."
        self.K, self.N, self.L = K, N, L
        self.R = L - data_offset(K, N)
        self.header, self.longest = 4, LONGEST_MESSAGE
        self.U = 0
        self.entries = {}

    @staticmethod
    def read_off(image):
        # Job 3: "The book to start from is read off a sound image: entries from taken slots, text from active messages, held from the
        # length at the offset, U = X − D."
        h = file.head(image)
        book = Book(h.K, h.N, len(image))
        book.U = h.X - h.D
        book.header, book.longest = file.header_size(image), file.longest_message(image)
        for _, key, offset in file.taken_slots(image):
            held = file.length_at(image, offset) if offset else 0
            book.entries[key] = Entry(file.text_at(image, offset), held, offset != 0)
        return book

    def question_7(self, name):
        # 01: "Before its own rules the book puts questions 7 and 8 as the file does, and answers their numbers."
        return 0 if len(name) == self.K and any(name) else 7

    def room_refuses(self, m):
        # 01: "12 if m is above 16,777,215 and 13 if U + 4 + m exceeds R". Job 11: "On a 2.0 image the book adds 5 where it added 4, and
        # question 12's bound is 1,073,741,823."
        if m > self.longest:
            return 12
        return 13 if self.U + self.header + m > self.R else 0

    # ---- the plain calls ----

    def add(self, name, data, mode):
        number = self.question_7(name)
        if number:
            return (number,)
        if mode not in (1, 2, 3, 4):
            return (8,)
        m = len(data)
        entry = self.entries.get(name)

        if entry is None:
            if mode == 4:  # Job 4: mode 4 "gives 14 for an absent name"
                return (14,)
            if len(self.entries) == self.N:  # "10 if there are N entries"
                return (10,)
            if mode == 3 and m == 0:  # Job 4: "mode 3 with empty data gives an absent name the text none and no offset"
                self.entries[name] = Entry(None, 0, False)
                return (0,)
            # "then, for m above 0, 12 .. and 13 .. Otherwise the text is the data, held = m, and U grows by 4 + m if m is above 0." Job 4:
            # "where empty data takes new space the book puts 13 and U grows by 4".
            number = self.room_refuses(m)
            if number:
                return (number,)
            self.entries[name] = Entry(bytes(data), m, True)
            self.U += self.header + m
            return (0,)

        if mode == 1:  # "Name present: mode 1 gives 9."
            return (9,)
        if mode == 4:  # Job 4: "mode 4 makes the text none and keeps held"
            entry.text = None
            return (0,)
        if mode == 2:
            # "Mode 2 with m at most held sets the text and held = m." Job 4: "mode 2 with empty data sets held = 0 beside the empty text";
            # but an entry without an offset has no place for it.
            if entry.has_offset and m <= entry.held:
                entry.text, entry.held = bytes(data), m
                return (0,)
            # "Mode 2 with larger m sets both after 12 and 13, and U grows by 4 + m."
            before, t = b'', m
        else:
            if m == 0:  # "Mode 3 with m = 0 changes nothing."
                return (0,)
            # "Otherwise t = text length + m takes m's place in 12, 13 and the growth of U; the text gets the data behind it and held = t."
            before = entry.text or b''
            t = len(before) + m
        number = self.room_refuses(t)
        if number:
            return (number,)
        entry.text, entry.held, entry.has_offset = before + bytes(data), t, True
        self.U += self.header + t
        return (0,)

    def delete(self, name):
        # "Delete: 14 if absent, else the entry goes; U stays."
        number = self.question_7(name)
        if number:
            return (number,)
        return (0,) if self.entries.pop(name, None) else (14,)

    def lookup(self, name):
        # "Lookup: 14 if absent, else text and length." "a refused call answers its number, shows an empty text and changes nothing": the
        # text of a refusal is none here.
        number = self.question_7(name)
        if number:
            return number, None
        if name not in self.entries:
            return 14, None
        return 0, self.entries[name].text

    def count(self):
        # "Count: the number of entries."
        return 0, len(self.entries)

    def compact(self):
        # Job 2: "In the book this step makes held the text's length and U the sum of 4 + length over texts that are not empty." Job 4:
        # "after compaction an entry has an offset exactly when its text is not none, and U sums 4 + length over those".
        self.U = 0
        for entry in self.entries.values():
            entry.held = len(entry.text or b'')
            entry.has_offset = entry.text is not None
            if entry.has_offset:
                self.U += self.header + entry.held
        return (0,)

    # ---- Job 11 ----

    def convert(self, L):
        # "the book takes its compaction step with the other header size and the target's R, and puts the target's 1, 20 and 13 as the file
        # does". A target may be shorter than D.
        header, longest = (4, LONGEST_MESSAGE) if self.header == 5 else (5, LONGEST_OF_2)
        texts = [entry.text for entry in self.entries.values() if entry.text is not None]
        D = data_offset(self.K, self.N)
        if not question_1(L):
            return (1,)
        if any(len(text) > longest for text in texts):
            return (20,)
        if D + sum(header + len(text) for text in texts) > L:
            return (13,)
        self.header, self.longest, self.L, self.R = header, longest, L, L - D
        return self.compact()

    # ---- Job 12 ----

    def grow(self, second):
        # "The book puts 21 as the file does and takes its compaction step at an accepted start, with the new N and R". A second image with
        # C = 0 is sound if it has no point.
        if file.opening(second) or file.header_size(second) != self.header:
            return (21,)
        h = file.head(second)
        needed = sum(self.header + len(entry.text) for entry in self.entries.values() if entry.text is not None)
        if (h.C, h.X, h.K) != (0, h.D, self.K) or any(True for _ in file.taken_slots(second)) or h.N <= self.N:
            return (21,)
        if len(second) - h.D < needed:
            return (21,)
        self.N, self.L, self.R = h.N, len(second), len(second) - h.D
        return self.compact()

    # ---- Jobs 8 and 9 ----

    def listed(self, call, work_length, list_length):
        # Job 8: "In a list of calls the book takes this form as the plain call, puts 16 first as the file does, and has no pairs to
        # compare."
        return (16,) if list_length < 8 or work_length < self.L else call()

    def journaled(self, call, work_length, told_17):
        # Job 9: "To the book an uncut call of this form is one of Job 8's form; a 17 .. is the one thing it is told from the file: it
        # answers that and changes nothing." The file asks 17 "after all other questions", so that a number of the book's own goes before.
        if work_length < self.L:
            return (16,)
        if not told_17:
            return call()
        kept = self.U, {name: Entry(e.text, e.held, e.has_offset) for name, e in self.entries.items()}
        number = call()[0]
        self.U, self.entries = kept
        return (number or 17,)

    # ---- Job 10 ----

    def store_columns(self, name, records, width):
        # "The book compares stored bytes and puts 19 as the file does"
        number = self.question_7(name)
        if number:
            return (number,)
        if not 1 <= width <= 64 or len(records) % width != 0:
            return (19,)
        return self.add(name, columns(records, width), 2)

    def read_columns(self, name, room):
        # "on reading by its text"
        number, text = self.lookup(name)
        if number:
            return number, b''
        records = records_of(text or b'')
        return (19, b'') if records is None or len(records) > room else (0, records)

    # ---- Job 14 ----

    def at_epoch(self, name, epoch):
        # "After every list of calls this is the book's own choice."
        if self.K < 5:
            return 23, 0, None
        if len(name) != self.K - 4:
            return 7, 0, None
        epochs = [int.from_bytes(key[-4:], 'big') for key in self.entries if key[:-4] == name]
        at_most = [when for when in epochs if when <= epoch]
        if not at_most:
            return 14, 0, None
        when = max(at_most)
        return 0, when, self.entries[bytes(name) + when.to_bytes(4, 'big')].text
