#!/usr/bin/env python3
"""What document 01 makes of a text: which message it is, or the place where it fails.

The rules of "The text of a message" are written down once, as expressions
over bytes, in the order of the document.  The expressions become one
automaton for all ten messages.  Only states from which some message can still
be completed are kept, so a text can be read on exactly as long as its
beginning is also the beginning of an accepted text.

    oracle.py < texts

reads one text from each line (bytes up to byte 10; the last line may lack
it) and prints for each `read TYPE` or `refused PLACE HYPHENS`.
"""

import functools
import sys

# --------------------------------------------------------------------------
# Expressions: one byte out of a set, several things in a row, one of several.


class Byte:
    def __init__(self, members):
        self.members = frozenset(members)


class Row:
    def __init__(self, *parts):
        self.parts = [literal(p) if isinstance(p, str) else p for p in parts]


class Either:
    def __init__(self, *choices):
        self.choices = [literal(c) if isinstance(c, str) else c for c in choices]


def literal(text):
    return Row(*[Byte([b]) for b in text.encode("ascii")])


EMPTY = Row()


def maybe(*parts):
    return Either(EMPTY, Row(*parts))


def exactly(count, thing):
    return Row(*[thing] * count)


def between(low, high, thing):
    """At least `low` and at most `high` of `thing`, each number written out."""
    return Either(*[exactly(n, thing) for n in range(low, high + 1)])


@functools.lru_cache(maxsize=None)
def _one_of(texts):
    ways = [EMPTY] if "" in texts else []
    for first in sorted({t[0] for t in texts if t}):
        rest = frozenset(t[1:] for t in texts if t[:1] == first)
        ways.append(Row(first, _one_of(rest)))
    return Either(*ways)


def one_of(texts):
    """Exactly the texts listed.  Texts that begin alike share that beginning."""
    return _one_of(frozenset(texts))


# --------------------------------------------------------------------------
# The text of a message, as document 01 has it.

LETTERS = b"ABCDEFGHIJKLMNOPQRSTUVWXYZ"
DIGITS = b"0123456789"

LETTER = Byte(LETTERS)
DIGIT = Byte(DIGITS)
LETTER_OR_DIGIT = Byte(LETTERS + DIGITS)
OCTAL = Byte(b"01234567")

FOUR_LETTERS = exactly(4, LETTER)

# "A number or reference is four letters, "/", four letters, three digits."
NUMBER = Row(FOUR_LETTERS, "/", FOUR_LETTERS, exactly(3, DIGIT))

# "Words are one or more runs of letters, digits and / . , ' + : ? with one
# blank between runs."
RUN_BYTE = Byte(LETTERS + DIGITS + b"/.,'+:?")
BLANK = " "


@functools.lru_cache(maxsize=None)
def words(limit):
    """Words of at most `limit` bytes.

    more[n] is what may follow a run byte when n bytes are left: nothing, a
    run byte, or a blank together with the run byte that must come after it.
    So a blank is never the last byte.
    """
    more = [EMPTY, Either(EMPTY, RUN_BYTE)]
    for n in range(2, limit):
        more.append(Either(EMPTY,
                           Row(RUN_BYTE, more[n - 1]),
                           Row(BLANK, RUN_BYTE, more[n - 2])))
    return Row(RUN_BYTE, more[limit - 1])


# "A time is 0000 to 2359 with minutes below 60."
TIME = one_of("%02d%02d" % (h, m) for h in range(24) for m in range(60))

# "A level is F or A with three digits, or S or M with four."
LEVEL_OF_4 = Row(Byte(b"FA"), exactly(3, DIGIT))
LEVEL_OF_5 = Row(Byte(b"SM"), exactly(4, DIGIT))
LEVEL = Either(LEVEL_OF_4, LEVEL_OF_5)

# 07: 2 to 7 letters or digits, then optionally "/A" and four digits 0 to 7.
# 07a has no code.
F07A = between(2, 7, LETTER_OR_DIGIT)
F07 = Row(F07A, maybe("/A", exactly(4, OCTAL)))

# 08: one of I V Y Z, then optionally one of S N G M X.
F08 = Row(Byte(b"IVYZ"), maybe(Byte(b"SNGMX")))

# 09: optionally a number 2 to 99 without leading zero; a letter and 1 to 3
# letters or digits; "/"; one of L M H.
F09 = Row(maybe(one_of("%d" % n for n in range(2, 100))),
          LETTER, between(1, 3, LETTER_OR_DIGIT),
          "/", Byte(b"LMH"))

# 10: 1 to 40 letters or digits, "/", 1 to 20 letters or digits.
F10 = Row(between(1, 40, LETTER_OR_DIGIT), "/", between(1, 20, LETTER_OR_DIGIT))

# 13: four letters and a time. 13s has no time; in 13o it is optional.
F13 = Row(FOUR_LETTERS, TIME)
F13S = FOUR_LETTERS
F13O = Row(FOUR_LETTERS, maybe(TIME))

# 14: point, "/", time, level, then optionally a second level and A or B.
# A point is 2 to 5 letters or digits; or such a name with a bearing 000 to
# 360 and three digits; or latitude (N or S) and longitude (E or W) as 46N078W
# or 4620N07805W, minutes below 60, at most 90 and 180 degrees in all.
NAME = between(2, 5, LETTER_OR_DIGIT)
BEARING = one_of("%03d" % n for n in range(360 + 1))
SHORT_POSITION = Row(one_of("%02d" % d for d in range(90 + 1)), Byte(b"NS"),
                     one_of("%03d" % d for d in range(180 + 1)), Byte(b"EW"))
LONG_POSITION = Row(
    one_of("%02d%02d" % divmod(m, 60) for m in range(90 * 60 + 1)), Byte(b"NS"),
    one_of("%03d%02d" % divmod(m, 60) for m in range(180 * 60 + 1)), Byte(b"EW"))
POINT = Either(NAME,
               Row(NAME, BEARING, exactly(3, DIGIT)),
               SHORT_POSITION,
               LONG_POSITION)
F14 = Row(POINT, "/", TIME, LEVEL, maybe(LEVEL, Byte(b"AB")))

# 15: K or N with four digits, or M with three; a level or VFR; a blank; words.
# At most 300 bytes: what the beginning takes is no longer there for the words.
SPEEDS = [(5, Row(Byte(b"KN"), exactly(4, DIGIT))),
          (4, Row("M", exactly(3, DIGIT)))]
CRUISES = [(4, LEVEL_OF_4), (5, LEVEL_OF_5), (3, literal("VFR"))]
F15 = Either(*[Row(speed, level, BLANK, words(300 - a - b - 1))
               for a, speed in SPEEDS for b, level in CRUISES])

# 16: four letters, then optionally a time-shaped elapsed time (hours to 99),
# then up to two alternates, each a blank and four letters.
# 16s is the four letters.
ELAPSED = one_of("%02d%02d" % (h, m) for h in range(100) for m in range(60))
F16 = Row(FOUR_LETTERS, maybe(ELAPSED), between(0, 2, Row(BLANK, FOUR_LETTERS)))
F16S = FOUR_LETTERS

# 18: "0", or three or four letters, "/" and words. At most 300 bytes.
F18 = Either("0",
             Row(exactly(3, LETTER), "/", words(300 - 4)),
             Row(exactly(4, LETTER), "/", words(300 - 5)))

# 31 is words, at most 20 bytes; 32 is words, at most 60.
F31 = words(20)
F32 = words(60)

# 22: 07, 08, 09, 10, 13, 15, 16 or 18, "/", and that field. Numbers ascend,
# none twice. 07 stands alone.
AMENDABLE = [("08", F08), ("09", F09), ("10", F10), ("13", F13),
             ("15", F15), ("16", F16), ("18", F18)]


def amendments():
    """One or more fields 22, each after its hyphen.

    Taken from the last number to the first: `some` is one or more fields 22
    whose numbers are those already seen, so they all come later.
    """
    some = None
    for number, field in reversed(AMENDABLE):
        if some is None:
            some = Row("-", number, "/", field)
        else:
            some = Either(Row("-", number, "/", field, maybe(some)), some)
    return Either(Row("-07/", F07), some)


def fields(*each):
    """Each field after one hyphen."""
    return Row(*[Row("-", f) for f in each])


# The table of the ten messages: whether there is a reference, and the fields.
MESSAGES = {
    "FPL": (False, fields(F07, F08, F09, F10, F13, F15, F16, F18)),
    "CPL": (False, fields(F07, F08, F09, F10, F13S, F14, F15, F16S, F18)),
    "EST": (True, fields(F07, F13S, F14, F16S)),
    "CHG": (True, Row(fields(F07A, F13O, F16S), maybe("-", F18), amendments())),
    "CNL": (True, fields(F07A, F13O, F16S, F18)),
    "RTI": (True, fields(F07, F13S, F16S, F31, F32)),
    "RTA": (True, fields(F07A, F13S, F16S, F31)),
    "RLA": (True, fields(F31)),
    "LAM": (True, fields()),
    "LRM": (True, fields(Row("RMK/", exactly(2, DIGIT)))),
}


def message(kind):
    reference, rest = MESSAGES[kind]
    return Row("(", kind, NUMBER, NUMBER if reference else EMPTY, rest, ")")


# --------------------------------------------------------------------------
# From expressions to an automaton.


class Automaton:
    """States are numbers.  From a state one goes on without a byte (free) or
    with one byte out of a set (steps)."""

    def __init__(self):
        self.free = []
        self.steps = []
        self.built = {}

    def state(self):
        self.free.append([])
        self.steps.append([])
        return len(self.free) - 1

    def build(self, thing, after):
        """The state from which `thing` and then what follows `after` is read.
        The same thing with the same sequel is built once."""
        if (thing, after) not in self.built:
            if isinstance(thing, Byte):
                start = self.state()
                self.steps[start].append((thing.members, after))
            elif isinstance(thing, Row):
                start = after
                for part in reversed(thing.parts):
                    start = self.build(part, start)
            else:
                start = self.state()
                for choice in thing.choices:
                    self.free[start].append(self.build(choice, after))
            self.built[thing, after] = start
        return self.built[thing, after]

    def alive(self, goals):
        """The states from which a goal can be reached."""
        before = [[] for _ in self.free]
        for s in range(len(self.free)):
            for t in self.free[s]:
                before[t].append(s)
            for members, t in self.steps[s]:
                if members:
                    before[t].append(s)
        found = set(goals)
        todo = list(goals)
        while todo:
            for s in before[todo.pop()]:
                if s not in found:
                    found.add(s)
                    todo.append(s)
        return found


class Oracle:
    """All states in which the automaton may be are followed at once.  Such a
    set of states gets a name (a number) when first met, and the ways on from
    it are kept, so that later texts are read quickly."""

    def __init__(self):
        # The words of a field nest some hundred deep.
        sys.setrecursionlimit(max(sys.getrecursionlimit(), 10000))
        self.automaton = Automaton()
        self.goals = {}
        starts = []
        for kind in MESSAGES:
            goal = self.automaton.state()
            self.goals[goal] = kind
            starts.append(self.automaton.build(message(kind), goal))
        self.live = self.automaton.alive(self.goals)
        self.names = {}
        self.sets = []
        self.ways = []
        self.start = self.name(self.spread(starts))

    def spread(self, states):
        """These live states and all reached from them without a byte."""
        found = set()
        todo = [s for s in states if s in self.live]
        while todo:
            s = todo.pop()
            if s not in found:
                found.add(s)
                todo.extend(t for t in self.automaton.free[s] if t in self.live)
        return frozenset(found)

    def name(self, states):
        if states not in self.names:
            self.names[states] = len(self.sets)
            self.sets.append(states)
            self.ways.append({})
        return self.names[states]

    def step(self, at, byte):
        """The set after one more byte, or None if no state is left."""
        if byte not in self.ways[at]:
            reached = self.spread(t for s in self.sets[at]
                                  for members, t in self.automaton.steps[s]
                                  if byte in members)
            self.ways[at][byte] = self.name(reached) if reached else None
        return self.ways[at][byte]

    def judge(self, text):
        """("read", type) or ("refused", place, hyphens) for a byte string."""
        at = self.start
        for place, byte in enumerate(text):
            at = self.step(at, byte)
            if at is None:
                return "refused", place, text[:place].count(b"-")
        for s in self.sets[at]:
            if s in self.goals:
                return "read", self.goals[s]
        return "refused", len(text), text.count(b"-")


def main():
    oracle = Oracle()
    lines = sys.stdin.buffer.read().split(b"\n")
    if lines[-1] == b"":
        lines.pop()
    for line in lines:
        print(*oracle.judge(line))


if __name__ == "__main__":
    main()
