#!/usr/bin/env python3
"""The memory of one full link, and changes of it.

    memory.py link SEED       writes 70,644 bytes: head, flights sent, flights received, unanswered, answers
    memory.py calls SEED      the same with one unanswered message fewer, and one that its answer applies to a flight
    memory.py texts SEED      prints what the calls on that are given: a draft, one of an FPL, a message that comes for the
                              first time, one that was answered, an answer, and a number to resend
    memory.py changes SEED N  prints N changes of one byte, then as many of a field, a place or a size, one to a line

A change is words OFFSET:HEX, bytes to be put there, and PART=SIZE, one of the five taken with another size.  The same
SEED and N give the same bytes everywhere.
"""

import os
import sys

sys.path.insert(0, os.path.join(os.path.dirname(os.path.abspath(__file__)), "..", "tests"))
from corpus import Chance, Writer, LETTERS_DIGITS, RUN  # noqa: E402

FLIGHT, WAITING = 768, 1280
STARTS = [0, 12, 12 + 32 * FLIGHT, 12 + 64 * FLIGHT, 12 + 64 * FLIGHT + 16 * WAITING]
SIZES = [12, 32 * FLIGHT, 32 * FLIGHT, 16 * WAITING, 1000]
# Where each field of a flight begins, and how long it is.
FIELDS = {"status": (0, 1), "handoff": (1, 1), "first": (2, 2), "offer": (4, 2), "aircraft": (6, 7), "code": (13, 4),
          "departure": (17, 4), "time": (21, 4), "destination": (25, 4), "08": (29, 2), "09": (31, 8), "10": (39, 61),
          "14": (100, 27), "16": (127, 14), "15": (141, 300), "18": (441, 300), "rest": (741, 27)}


class Flights(Writer):
    """Words mostly of 45 to 105 bytes, so that fields 15 and 18 have 60 to 120; now and then as many as there may be."""

    def words(self, limit):
        size = limit if self.c.once_in(12) else min(limit, 45 + self.c.below(61))
        out = ""
        while len(out) < size:
            out += (" " if out else "") + self.some(LETTERS_DIGITS, 3 + self.c.below(4))
        out = out[:size]
        return out[:-1] + "X" if out.endswith(" ") else out

    def rest16(self):
        return self.f16()[4:]

    def text(self, name):
        make = {"aircraft": self.f07a, "code": lambda: self.some("01234567", 4), "departure": self.f13s,
                "time": self.time, "destination": self.f16s, "08": self.f08, "09": self.f09, "10": self.f10,
                "14": self.f14, "16": self.rest16, "15": self.f15, "18": self.f18}
        return make[name]()

    def flight(self, active, key=None):
        b = bytearray(b" " * 741 + bytes(27))

        def put(name, text):
            at, width = FIELDS[name]
            b[at:at + width] = text.encode("ascii").ljust(width)
        b[0] = 2 if active else 1
        b[1] = self.c.below(3) if active else 0
        b[2:4] = self.c.below(1000).to_bytes(2, "big")
        b[4:6] = (self.c.below(1000) if b[1] else 0).to_bytes(2, "big")
        for name in ["aircraft", "departure", "destination", "08", "09", "10", "16", "15", "18"]:
            put(name, self.text(name))
        if key:
            for name, text in zip(["aircraft", "departure", "destination"], key):
                put(name, text)
        if self.c.below(4):
            put("code", self.text("code"))
        if not active or self.c.once_in(2):
            put("time", self.text("time"))
        if active:
            put("14", self.text("14"))
        return bytes(b)

    def table(self):
        # Some keys differ from another in one byte only.
        near = {5: ("AAL72", "KSEA", "CYOW"), 9: ("AAL73", "KSEA", "CYOW"), 17: ("AAL72", "KSEB", "CYOW"),
                22: ("AAL72", "KSEA", "CYOX"), 30: ("AAL7", "KSEA", "CYOW")}
        return b"".join(self.flight(i % 2 == 1, near.get(i)) for i in range(32))

    def waiting(self, kind, number):
        n = "KZMP/CZWG%03d" % number
        reference = "" if kind in ("FPL", "CPL") else "KZMP/CZWG%03d" % self.c.below(1000)
        text = "(" + kind + n + reference + "".join("-" + f for f in self.fields(kind)) + ")"
        b = b"\1" + number.to_bytes(2, "big") + len(text).to_bytes(2, "big") + text.encode("ascii")
        return b.ljust(WAITING, b"\0")

    def link(self):
        kinds = ["FPL", "CPL", "EST", "CHG", "CNL", "RTI", "RTA"]
        head = b"KZMPCZWG" + (4).to_bytes(2, "big") + (777).to_bytes(2, "big")
        waiting = b"".join(self.waiting(kinds[i % 7], (988 + i) % 1000) for i in range(16))
        answers = bytearray(1000)
        for n in range(378, 778):
            answers[n] = self.c.among([1, 1, 1, 1, 2, 57, 62])
        return head + self.table() + self.table() + waiting + bytes(answers)


class Calls:
    """A CHG about a filed flight of a full table, with new fields 15 and 18, and an answer to an EST about another."""

    def __init__(self, chance):
        self.writer = Flights(chance)
        self.base = self.writer.link()

    def about(self, table, i):
        at = STARTS[table] + i * FLIGHT
        text = {n: self.base[at + a:at + a + w].decode("ascii").rstrip() for n, (a, w) in FIELDS.items() if w >= 4 and n != "rest"}
        return int.from_bytes(self.base[at + 2:at + 4], "big"), [text["aircraft"], text["departure"], text["destination"]]

    def change(self, table, i, units, number):
        first, key = self.about(table, i)
        fields = key + ["15/" + self.writer.f15(), "18/RMK/" + self.writer.words(90)]
        return "(CHG%s%03d%s%03d" % (units, number, units, first) + "".join("-" + f for f in fields) + ")"

    def memory(self):
        first, key = self.about(1, 14)
        text = "(ESTKZMP/CZWG990KZMP/CZWG%03d-%s-%s-%s-%s)" % (first, key[0], key[1], "TEKLA/1204F250", key[2])
        est = b"\1" + (990).to_bytes(2, "big") + len(text).to_bytes(2, "big") + text.encode("ascii")
        at, last = STARTS[3] + 2 * WAITING, STARTS[3] + 15 * WAITING
        return self.base[:at] + est.ljust(WAITING, b"\0") + self.base[at + WAITING:last] + bytes(WAITING) + self.base[last + WAITING:]

    def texts(self):
        answered = next(n for n in range(700, 778) if self.base[STARTS[4] + n] == 1)
        fpl = "(FPLKZMP/CZWG000" + "".join("-" + f for f in self.writer.fields("FPL")) + ")"
        return [self.change(1, 20, "KZMP/CZWG", 0), fpl, self.change(2, 20, "CZWG/KZMP", 778),
                self.change(2, 20, "CZWG/KZMP", answered), "(LAMCZWG/KZMP990KZMP/CZWG990)", "990"]


class Changes:
    def __init__(self, chance, base):
        self.c, self.base, self.writer = chance, base, Flights(chance)

    def byte(self, old):
        c = self.c
        turn = c.below(5)
        if turn == 0:
            return (old + c.among([1, 255])) % 256
        if turn == 1:
            return c.below(256)
        if turn == 2:
            return c.among([0, 1, 2, 3, 4, 32, 57, 62])
        return ord(c.among("AZ@[09/:-' 2356789IVSMFHL") if turn == 3 else c.among(RUN + " "))

    def place(self):
        """A byte of the five parts; in a text one of those in use, or the first behind them."""
        c = self.c
        turn = c.below(20)
        if turn == 0:
            return c.below(12)
        if turn == 1:
            return STARTS[4] + c.below(1000)
        if turn < 6:
            at = STARTS[3] + c.below(16) * WAITING
            return at + (c.below(5) if c.once_in(3) else 5 + c.below(int.from_bytes(self.base[at + 3:at + 5], "big") + 2))
        at = STARTS[1] + c.below(64) * FLIGHT
        start, width = FIELDS[c.among(sorted(FIELDS))]
        used = len(self.base[at + start:at + start + width].rstrip(b" "))
        return at + start + (c.below(width) if c.once_in(6) else c.below(min(width, used + 2)))

    def one(self):
        at = self.place()
        return "%d:%02x" % (at, self.byte(self.base[at]))

    def several(self):
        c = self.c
        turn = c.below(14)
        flight = STARTS[1] + c.below(64) * FLIGHT
        waiting = STARTS[3] + c.below(16) * WAITING
        if turn < 6:                                    # another text in a field, one time in two damaged
            name = c.among([n for n in sorted(FIELDS) if n not in ("status", "handoff", "first", "offer", "rest")])
            start, width = FIELDS[name]
            text = self.writer.text(name).encode("ascii") if c.below(10) else b""
            if c.once_in(2):
                text = self.writer.damage(text)
            return "%d:%s" % (flight + start, text.ljust(width)[:width].hex())
        if turn == 6:                                   # a place freed
            at, size = c.among([(flight, FLIGHT), (waiting, WAITING)])
            return "%d:%s" % (at, "00" * size)
        if turn == 7:                                   # a flight twice, or with one byte of its key another
            other = (flight - STARTS[1]) // FLIGHT // 32 * 32
            other = STARTS[1] + (other + c.below(32)) * FLIGHT
            key = flight + c.among([6, 17, 18, 25, 28])
            again = " %d:%02x" % (key, ord(c.among(LETTERS_DIGITS))) if c.once_in(2) else ""
            return "%d:%s" % (flight, self.base[other:other + FLIGHT].hex()) + again
        if turn == 8:                                   # another message, or one number twice
            kind = c.among(["FPL", "CPL", "EST", "CHG", "CNL", "RTI", "RTA", "RLA", "LAM", "LRM"])
            return "%d:%s" % (waiting, self.writer.waiting(kind, c.among([c.below(1000), (984 + c.below(24)) % 1000])).hex())
        if turn == 9:                                   # a damaged message
            b = self.base[waiting:waiting + WAITING]
            text = self.writer.damage(b[5:5 + int.from_bytes(b[3:5], "big")])
            b = b[:3] + len(text).to_bytes(2, "big") + text
            return "%d:%s" % (waiting, b.ljust(WAITING, b"\0").hex())
        if turn == 10:                                  # filed or active, with or without what goes with it
            b = self.writer.flight(c.once_in(2))
            b = bytes([c.among([1, 2, b[0], b[0]]), c.among([0, b[1], c.below(4)])]) + b[2:4] + \
                c.among([0, c.below(1100)]).to_bytes(2, "big") + b[6:]
            return "%d:%s" % (flight, b.hex())
        if turn == 11:                                  # the head; its names also with nothing unanswered
            names = ["KZMP", "CZWG", "CZWF", "KZM1", "K ZM"]
            numbers = [0, 999, 1000, 1023, 1024, 65535]
            if c.once_in(2):
                return "8:%04x%04x" % (c.among(numbers), c.among(numbers))
            nothing = " %d:%s" % (STARTS[3], "00" * SIZES[3]) if c.once_in(2) else ""
            return "0:" + (c.among(names) + c.among(names)).encode("ascii").hex() + nothing
        if turn == 12:                                  # lengths and digits at their limits
            name, text = c.among([
                ("10", self.writer.some(LETTERS_DIGITS, c.among([0, 1, 39, 40, 41])) + "/" +
                 self.writer.some(LETTERS_DIGITS, c.among([0, 1, 19, 20, 21]))),
                ("aircraft", self.writer.some(LETTERS_DIGITS, c.below(8))),
                ("code", self.writer.some("01234567", 3) + c.among("789")), ("code", c.among("789") + "777"),
                ("time", c.among(["0000", "2359", "2360", "2400", "1959", "3000", "235", ""])),
                ("16", c.among(["", "9959", "9960", " KSEA", "0000 KSEA KORD", " KSEA KORD", " KSEA KORD KO", "  KSEA",
                                "000", "0000 ", "0000 KSE"]))])
            start, width = FIELDS[name]
            return "%d:%s" % (flight + start, text.encode("ascii").ljust(width)[:width].hex())
        part = c.below(5)
        n = c.among([0, 1, SIZES[part] - 1, SIZES[part], SIZES[part] - FLIGHT, FLIGHT, 2 * FLIGHT, c.below(SIZES[part])])
        return "%d=%d" % (part, max(n, 0))


def main(arguments):
    if arguments[0] == "calls":
        sys.stdout.buffer.write(Calls(Chance(int(arguments[1]))).memory())
        return
    if arguments[0] == "texts":
        print("\n".join(Calls(Chance(int(arguments[1]))).texts()))
        return
    base = Flights(Chance(int(arguments[1]))).link()
    if arguments[0] == "link":
        sys.stdout.buffer.write(base)
        return
    changes = Changes(Chance(int(arguments[1]) + 1), base)
    for _ in range(int(arguments[2])):
        print(changes.one())
    for _ in range(int(arguments[2])):
        print(changes.several())


main(sys.argv[1:])
