#!/usr/bin/env python3
"""Random texts for comparing readers.

    corpus.py N SEED [valid | damaged]

prints N lines, one text on each: by turns of chance a message that document
01 accepts, or such a message damaged at a random place (which may happen to
leave it acceptable).  With the third word all are of that sort.  The same N,
SEED and word give the same lines everywhere: the numbers come from a small
generator of our own, not from a library that may change.

Texts hold any byte but 10, since that ends a line.
"""

import sys

LETTERS = "ABCDEFGHIJKLMNOPQRSTUVWXYZ"
DIGITS = "0123456789"
LETTERS_DIGITS = LETTERS + DIGITS
SIGNS = "/.,'+:?"
RUN = LETTERS_DIGITS + SIGNS

TYPES = ["FPL", "CPL", "EST", "CHG", "CNL", "RTI", "RTA", "RLA", "LAM", "LRM"]


class Chance:
    """SplitMix64."""

    def __init__(self, seed):
        self.state = seed % 2 ** 64

    def below(self, n):
        self.state = (self.state + 0x9E3779B97F4A7C15) % 2 ** 64
        z = self.state
        z = (z ^ (z >> 30)) * 0xBF58476D1CE4E5B9 % 2 ** 64
        z = (z ^ (z >> 27)) * 0x94D049BB133111EB % 2 ** 64
        return (z ^ (z >> 31)) % n

    def once_in(self, n):
        return self.below(n) == 0

    def among(self, things):
        return things[self.below(len(things))]

    def within(self, low, high):
        """A number from low to high, the two ends more often than the rest:
        rules go wrong at their limits."""
        turn = self.below(6)
        if turn == 0:
            return low
        if turn == 1:
            return high
        return low + self.below(high - low + 1)


class Writer:
    """One method for each thing document 01 names."""

    def __init__(self, chance):
        self.c = chance

    def some(self, alphabet, low, high=None):
        size = low if high is None else self.c.within(low, high)
        return "".join(self.c.among(alphabet) for _ in range(size))

    def letters(self, n):
        return self.some(LETTERS, n)

    def number(self):
        return self.letters(4) + "/" + self.letters(4) + self.some(DIGITS, 3)

    def time(self):
        return "%02d%02d" % (self.c.within(0, 23), self.c.within(0, 59))

    def elapsed(self):
        return "%02d%02d" % (self.c.within(0, 99), self.c.within(0, 59))

    def level(self):
        if self.c.once_in(2):
            return self.c.among("FA") + self.some(DIGITS, 3)
        return self.c.among("SM") + self.some(DIGITS, 4)

    def words(self, limit):
        # Mostly short, so that damage does not nearly always fall into long
        # words; now and then at the limit or a little below it.
        turn = self.c.below(8)
        if turn == 0:
            size = limit
        elif turn == 1:
            size = max(1, limit - 1 - self.c.below(3))
        elif turn == 2:
            size = 1 + self.c.below(limit)
        else:
            size = 1 + self.c.below(min(limit, 12))
        out = ""
        for i in range(size):
            # A blank is neither first nor last nor beside another.
            if 0 < i < size - 1 and out[-1] != " " and self.c.once_in(5):
                out += " "
            else:
                out += self.c.among(RUN)
        return out

    def f07a(self):
        return self.some(LETTERS_DIGITS, 2, 7)

    def f07(self):
        code = "/A" + self.some("01234567", 4) if self.c.once_in(2) else ""
        return self.f07a() + code

    def f08(self):
        return self.c.among("IVYZ") + self.c.among(["", "S", "N", "G", "M", "X"])

    def f09(self):
        count = str(self.c.within(2, 99)) if self.c.once_in(2) else ""
        kind = self.letters(1) + self.some(LETTERS_DIGITS, 1, 3)
        return count + kind + "/" + self.c.among("LMH")

    def f10(self):
        return self.some(LETTERS_DIGITS, 1, 40) + "/" + self.some(LETTERS_DIGITS, 1, 20)

    def f13s(self):
        return self.letters(4)

    def f13(self):
        return self.f13s() + self.time()

    def f13o(self):
        return self.f13() if self.c.once_in(2) else self.f13s()

    def point(self):
        # A name of digits alone looks longest like a position.
        name = self.some(self.c.among([LETTERS, DIGITS, LETTERS_DIGITS]), 2, 5)
        turn = self.c.below(4)
        if turn == 0:
            return name
        if turn == 1:
            return name + "%03d" % self.c.within(0, 360) + self.some(DIGITS, 3)
        north, east = self.c.among("NS"), self.c.among("EW")
        if turn == 2:
            return "%02d%s%03d%s" % (self.c.within(0, 90), north,
                                     self.c.within(0, 180), east)
        lat = divmod(self.c.within(0, 90 * 60), 60)
        lon = divmod(self.c.within(0, 180 * 60), 60)
        return "%02d%02d" % lat + north + "%03d%02d" % lon + east

    def f14(self):
        second = self.level() + self.c.among("AB") if self.c.once_in(2) else ""
        return self.point() + "/" + self.time() + self.level() + second

    def f15(self):
        if self.c.once_in(2):
            speed = self.c.among("KN") + self.some(DIGITS, 4)
        else:
            speed = "M" + self.some(DIGITS, 3)
        level = "VFR" if self.c.once_in(4) else self.level()
        start = speed + level + " "
        return start + self.words(300 - len(start))

    def f16s(self):
        return self.letters(4)

    def f16(self):
        out = self.f16s()
        if self.c.once_in(2):
            out += self.elapsed()
        for _ in range(self.c.below(3)):
            out += " " + self.letters(4)
        return out

    def f18(self):
        if self.c.once_in(4):
            return "0"
        start = self.letters(3 + self.c.below(2)) + "/"
        return start + self.words(300 - len(start))

    def f31(self):
        return self.words(20)

    def f32(self):
        return self.words(60)

    def amendments(self):
        if self.c.once_in(4):
            return ["07/" + self.f07()]
        can = [("08", self.f08), ("09", self.f09), ("10", self.f10), ("13", self.f13),
               ("15", self.f15), ("16", self.f16), ("18", self.f18)]
        share = 1 + self.c.below(4)
        chosen = [x for x in can if self.c.once_in(share)] or [self.c.among(can)]
        return [number + "/" + field() for number, field in chosen]

    def fields(self, kind):
        if kind == "FPL":
            return [self.f07(), self.f08(), self.f09(), self.f10(), self.f13(),
                    self.f15(), self.f16(), self.f18()]
        if kind == "CPL":
            return [self.f07(), self.f08(), self.f09(), self.f10(), self.f13s(),
                    self.f14(), self.f15(), self.f16s(), self.f18()]
        if kind == "EST":
            return [self.f07(), self.f13s(), self.f14(), self.f16s()]
        if kind == "CHG":
            own = [self.f18()] if self.c.once_in(2) else []
            return [self.f07a(), self.f13o(), self.f16s()] + own + self.amendments()
        if kind == "CNL":
            return [self.f07a(), self.f13o(), self.f16s(), self.f18()]
        if kind == "RTI":
            return [self.f07(), self.f13s(), self.f16s(), self.f31(), self.f32()]
        if kind == "RTA":
            return [self.f07a(), self.f13s(), self.f16s(), self.f31()]
        if kind == "RLA":
            return [self.f31()]
        if kind == "LRM":
            return ["RMK/" + self.some(DIGITS, 2)]
        return []

    def message(self):
        kind = self.c.among(TYPES)
        reference = "" if kind in ("FPL", "CPL") else self.number()
        rest = "".join("-" + f for f in self.fields(kind))
        return ("(" + kind + self.number() + reference + rest + ")").encode("ascii")

    # -- damage

    def stray(self):
        """A byte to put in: mostly one that has a meaning somewhere, else any
        but the one that ends a line."""
        if self.c.once_in(4):
            byte = self.c.below(255)
            return bytes([byte if byte < 10 else byte + 1])
        return self.c.among(LETTERS_DIGITS + SIGNS + "    ----()a;=@[").encode("ascii")

    def damage(self, text):
        turn = self.c.below(10)
        at = self.c.below(len(text)) if text else 0
        if turn < 3:
            return text[:at] + self.stray() + text[at + 1:]
        if turn < 5:
            return text[:at] + text[at + 1:]
        if turn < 8:
            at = self.c.below(len(text) + 1)
            return text[:at] + self.stray() + text[at:]
        if turn < 9:
            return text[:at]
        # One field left out, said twice, or exchanged with the next.
        parts = text.split(b"-")
        i = self.c.below(len(parts))
        what = self.c.below(3)
        if what == 0:
            parts[i:i + 1] = []
        elif what == 1:
            parts[i:i + 1] = [parts[i], parts[i]]
        else:
            parts[i:i + 2] = parts[i:i + 2][::-1]
        return b"-".join(parts)

    def damaged(self):
        text = self.damage(self.message())
        while self.c.once_in(5):
            text = self.damage(text)
        return text


def texts(count, seed, sort=None):
    chance = Chance(seed)
    writer = Writer(chance)
    for _ in range(count):
        whole = chance.once_in(2) if sort is None else sort == "valid"
        yield writer.message() if whole else writer.damaged()


def main(arguments):
    if len(arguments) not in (2, 3) or arguments[2:] not in ([], ["valid"], ["damaged"]):
        sys.exit("usage: corpus.py N SEED [valid | damaged]")
    for text in texts(int(arguments[0]), int(arguments[1]), *arguments[2:]):
        sys.stdout.buffer.write(text + b"\n")


if __name__ == "__main__":
    main(sys.argv[1:])
