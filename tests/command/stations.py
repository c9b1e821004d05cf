"""An office and its stations: deltas that come across a bad radio. Run in a directory of its own.

    stations.py flips BHTF COPY DELTA         each byte of DELTA with a bit flipped is refused
    stations.py cuts BHTF COPY DELTA          DELTA cut at each length is refused
    stations.py forged BHTF OLD NEW           deltas made wrongly, with right check sums, are refused
    stations.py changes BHTF NUMBER SEED      so many random changes of an office's file, and three copies that follow

A refusal leaves the copy as it was, byte for byte, and says so.
"""
import random
import subprocess
import sys

import delta

BHTF = None


def write(path, data):
    with open(path, "wb") as file:
        file.write(data)


def bhtf(*words, data=b""):
    """Status and words of a command."""
    done = subprocess.run([BHTF, *words], input=data, capture_output=True, close_fds=False, check=False)
    return done.returncode, (done.stdout + done.stderr).decode(errors="replace")


def expect(fact, *words):
    if not fact:
        raise SystemExit(" ".join(str(word) for word in words))


# ---- one delta, spoilt in every way

def refuses(copy, sent, statuses, what):
    """A copy does not take what was sent, and is as it was."""
    before = delta.read(copy)
    status, words = bhtf("apply", copy, data=sent)
    expect(status in statuses and words.endswith(f"{copy} is as it was\n"), what, "status", status, words)
    expect(delta.read(copy) == before, what, "changed", copy)


def flips(copy, record):
    good = delta.read(record)
    for place, byte in enumerate(good):
        spoilt = good[:place] + bytes([byte ^ 1 << place % 8]) + good[place + 1:]
        refuses(copy, spoilt, (2,), f"byte {place}")


def cuts(copy, record):
    good = delta.read(record)
    for length in range(len(good)):
        refuses(copy, good[:length], (2,), f"length {length}")


def forged(old, new):
    before = delta.read(old)
    write("forged", before)
    for kind in delta.KINDS:
        sent = delta.forge(kind, before, delta.read(new))
        refuses("forged", sent, (1,) if kind == "length" else (2,), kind)


# ---- the office

class Office:
    """A file, all records of its changes, and the last two of these."""

    def __init__(self, chance):
        self.chance = chance
        expect(bhtf("create", "office7", "-k", "4", "-s", "16", "-S", "8192")[0] == 0, "create")
        self.image = delta.read("office7")
        self.all = self.last = self.held = b""

    def words(self):
        """A change: names and texts are few, so that images come back."""
        name = f"N{self.chance.randrange(12)}"
        text = str(self.chance.randrange(4)) * self.chance.choice((0, 1, 1, 5, 40))
        return self.chance.choice((
            ("delete", name), ("withdraw", name), ("compact",), ("import", "-", "-r", "-c", "PENZD"),
            ("add", name, text, "--append"), ("add", name, "--no-text", "-r"),
            ("add", name, text), *[("add", name, text, "-r")] * 5))

    def change(self):
        """Changes the file: whether it did. A refused change has no record."""
        command, *words = self.words()
        lines = b"".join(b"X%d,1,2,%d,\n" % (self.chance.randrange(4), self.chance.randrange(9)) for _ in range(3))
        status, said = bhtf(command, "--no-sync", "office7", *words, "--delta", "sent", data=lines)
        expect(status <= 1, command, words, said)
        image = delta.read("office7")
        if image == self.image:
            return False
        sent = delta.read("sent")
        expect(sent.startswith(self.all) and len(sent) > len(self.all), command, words, "has no record")
        self.held, self.last, self.all, self.image = self.last, sent[len(self.all):], sent, image
        return True


# ---- a copy

class Copy:
    """What becomes of a station's copy, and how often what happened."""

    def __init__(self, path, office, happened):
        self.path, self.office, self.happened = path, office, happened
        self.behind = self.waits = False
        write(path, office.image)

    def count(self, what):
        self.happened[what] = self.happened.get(what, 0) + 1

    def takes(self, sent, what):
        status, words = bhtf("apply", "--no-sync", self.path, data=sent)
        expect(status == 0, self.path, "refused", what, words)
        self.count(what)

    def refuses(self, sent, status, what):
        refuses(self.path, sent, (status,), f"{self.path}, {what}:")
        self.count(what + ", refused")

    def spoilt(self):
        chance, good = self.office.chance, self.office.last
        place = chance.randrange(len(good))
        if chance.random() < 0.5:
            return good[:place]
        return good[:place] + bytes([good[place] ^ 1 << chance.randrange(8)]) + good[place + 1:]

    def is_equal(self):
        return delta.read(self.path) == self.office.image

    def catch_up(self):
        """Behind a loss: nothing is taken but all that was missed, or more."""
        if not self.is_equal():     # else what it missed was undone
            self.refuses(self.office.last, 1, "behind a loss")
            if self.office.chance.random() < 0.5:
                return
            self.takes(self.office.all, "all records")
        self.behind = False

    def swap(self):
        """The last two records in the wrong order, and then in the right one."""
        self.waits = False
        if not self.is_equal():     # else they are there and back
            self.refuses(self.office.last, 1, "out of order")
            self.takes(self.office.held, "late")
            self.takes(self.office.last, "again")

    def arrive(self):
        fate = self.office.chance.randrange(40)
        if self.behind:
            self.catch_up()
        elif self.waits:
            self.swap()
        elif fate < 2:
            self.waits = True
        elif fate < 7:
            self.behind = True
            self.count("lost")
        elif fate < 12:
            self.refuses(self.spoilt(), 2, "damaged or cut")
            self.takes(self.office.last, "again")
        elif fate < 17:
            self.takes(self.office.last, "plain")
            self.takes(self.office.last, "doubled")
        else:
            self.takes(self.office.last, "plain")
        expect(self.behind or self.waits or self.is_equal(), self.path, "differs")


def changes(number, seed):
    happened = {}
    office = Office(random.Random(int(seed)))
    copies = [Copy(path, office, happened) for path in ("far1", "far2", "far3")]
    done = 0
    while done < int(number):
        if office.change():
            done += 1
            for copy in copies:
                copy.arrive()
    for copy in copies:
        copy.takes(office.all, "all records")
        expect(copy.is_equal(), copy.path, "differs in the end")
    print(done, "changes,", len(office.all), "bytes;", ", ".join(f"{what} {n}" for what, n in sorted(happened.items())))
    expect(min(happened.values()) >= done // 50 and len(happened) == 9, "too little happened")


def main(what, command, *words):
    global BHTF
    BHTF = command
    {"flips": flips, "cuts": cuts, "forged": forged, "changes": changes}[what](*words)


main(*sys.argv[1:])
