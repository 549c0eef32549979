#!/usr/bin/env python3
"""Writes the test vectors for the reader.

    make_vectors.py EXAMPLES BY_HAND VECTORS GUIDE

EXAMPLES is the table of the example messages of source document 001 and
BY_HAND the texts whose results were worked out from document 01 by hand;
both carry their own results, and nothing is written if the oracle differs
from one of them.  The other texts are made here, in the order of the fields,
and the oracle gives their results.  VECTORS has on each line the result (the
type, or place and hyphens), a tab and the text; GUIDE says which lines test
what.  A text that comes up again later is left out there.
"""

import sys

from oracle import Oracle

# One text of each type, as its head and its fields.
SAMPLES = {
    "FPL": ("CZUL/KZBW043", ["N12345", "IG", "C172/L", "SD/C", "CYST2055",
                             "N0120A070 DCT", "KMPV0053", "0"]),
    "CPL": ("KZHU/MMTY005", ["UAL1021/A2173", "IX", "A320/M", "SE3/SB2", "KIAD",
                             "MAM/2042F350", "N0420F350 MAM DCT", "MMMX",
                             "RMK/TCAS EQUIPPED"]),
    "EST": ("KZMP/CZWG992KZMP/CZWG991", ["DAL122/A4322", "KFAR", "HML/2042F350", "CYOW"]),
    "CHG": ("KZMP/CZWG776KZMP/CZWG603", ["AAL72", "KSEA1905", "CYOW", "DOF/121115",
                                         "08/IS", "15/N0420F350 DCT"]),
    "CNL": ("KZHU/MMZT776KZHU/MMZT603", ["UAL1021", "KIAD0818", "MMEX", "0"]),
    "RTI": ("KZMP/CZWG812KZMP/CZWG801", ["DLH499/A3407", "KMSP", "CYOW", "CZWG",
                                         "13242934462034N0780521WN043327629F349"]),
    "RTA": ("CZWG/KZMP438KZMP/CZWG812", ["DLH499", "KMSP", "CYOW", "CZWGAA"]),
    "RLA": ("KZBW/CZUL202CZUL/KZBW445", ["KZBW53"]),
    "LAM": ("KZHU/MMTY035MMTY/KZHU021", []),
    "LRM": ("KZLC/CZWG035CZWG/KZLC021", ["RMK/57"]),
}
PLACE_OF = {  # which field of a sample is which, by its number in document 01
    "FPL": ["07", "08", "09", "10", "13", "15", "16", "18"],
    "CPL": ["07", "08", "09", "10", "13", "14", "15", "16", "18"],
    "EST": ["07", "13", "14", "16"],
    "CHG": ["07", "13", "16", "18", "22", "22b"],
    "CNL": ["07", "13", "16", "18"],
    "RTI": ["07", "13", "16", "31", "32"],
    "RTA": ["07", "13", "16", "31"],
    "RLA": ["31"],
    "LAM": [],
    "LRM": ["RMK"],
}


def raw(text):
    return text if isinstance(text, bytes) else text.encode("latin-1")


def joined(kind, head, fields):
    return b"".join([b"(", raw(kind), raw(head)] + [b"-" + raw(f) for f in fields] + [b")"])


def sample(kind):
    return joined(kind, *SAMPLES[kind])


def with_field(kind, which, value):
    """The sample with one field replaced."""
    head, fields = SAMPLES[kind]
    fields = list(fields)
    fields[PLACE_OF[kind].index(which)] = value
    return joined(kind, head, fields)


def chg(*rest, start=("AAL72", "KSEA1905", "CYOW")):
    return joined("CHG", SAMPLES["CHG"][0], list(start) + list(rest))


def each(kind, which, values):
    return [with_field(kind, which, v) for v in values]


def amend(number, values):
    return [chg(number + "/" + v) for v in values]


# What is put in a place that takes one byte out of a set: all capitals and
# digits, their neighbours, and bytes that mean something elsewhere.
PROBES = "ABCDEFGHIJKLMNOPQRSTUVWXYZ0123456789@[/:`az{ -().,\x00\xff"


def sweep(kind, which, value, at):
    """The sample with byte `at` of a field replaced by each probe."""
    return each(kind, which, [value[:at] + p + value[at + 1:] for p in PROBES])


GROUPS = []


def group(title, *lists):
    GROUPS.append((title, [t for one in lists for t in one]))


def frame():
    group("each type's sample, whole", [sample(k) for k in SAMPLES])
    group("types that are none: each of the three letters wrong, left out, extra",
          [b"(" + t + sample("LAM")[4:] for t in
           [b"XAM", b"LXM", b"LAX", b"AM", b"LM", b"LA", b"LAMM", b"MOD", b"ABI", b"MIS",
            b"POI", b"TOC", b"ACP", b"LRX", b"RLX", b"RTX", b"RXI", b"ESX", b"EXT", b"CNX",
            b"CHX", b"CPX", b"FPX", b"FXL", b"LaM", b"laM", b"L\x00M", b"\xccAM", b"   "]])
    group("each letter of a type replaced by each other capital",
          [b"(" + k[:i] + bytes([c]) + k[i + 1:] + sample(k.decode())[4:]
           for k in (b"LAM", b"RTI", b"CPL") for i in range(3) for c in range(65, 91)])
    lam = sample("LAM")
    group("number and reference: each byte made a stray one (a digit for a letter, a letter "
          "for a digit, a hyphen for '/')",
          [lam[:i] + (b"7" if 65 <= lam[i] <= 90 else b"O" if 48 <= lam[i] <= 57 else b"-")
           + lam[i + 1:] for i in range(4, 28)])
    group("number and reference: each byte left out",
          [lam[:i] + lam[i + 1:] for i in (4, 8, 9, 13, 15, 16, 20, 21, 25, 27)])
    group("number and reference: neighbours of letters and digits, small letters, bytes 0 "
          "and 255, blanks",
          [lam[:4] + x + lam[5:] for x in (b"@", b"[", b"A", b"Z", b"k", b"\x00", b"\xff", b" ")],
          [lam[:13] + x + lam[14:] for x in (b"/", b":", b"0", b"9", b" ", b"\x00", b"\xff",
                                             b"\xb2")],
          [lam[:16] + b" " + lam[16:], lam[:4] + b" " + lam[4:], lam[:16] + b"-" + lam[16:],
           lam[:15] + lam[16:], lam[:16] + b"9" + lam[16:], lam[:28] + b"9" + lam[28:]])
    group("reference where there is none and none where there is one",
          [joined("FPL", "CZUL/KZBW043CZUL/KZBW042", SAMPLES["FPL"][1]),
           joined("CPL", "KZHU/MMTY005KZHU/MMTY004", SAMPLES["CPL"][1])],
          [joined(k, SAMPLES[k][0][:12], SAMPLES[k][1])
           for k in SAMPLES if k not in ("FPL", "CPL")])
    group("units are not looked at; numbers 000 and 999",
          [b"(LAMAAAA/AAAA000AAAA/AAAA999)", b"(LAMZZZZ/AAAA999AAAA/ZZZZ999)",
           b"(RLAKZBW/CZUL000KZBW/CZUL000-A)", b"(LAMKZHU/MMTY035XXXX/YYYY021)"])
    group("the end of the text: no ')', two, bytes after it, carriage return, '(' twice",
          [sample(k)[:-1] for k in SAMPLES],
          [sample(k) + x for k, x in
           [("FPL", b"\r"), ("CPL", b")"), ("EST", b"\r"), ("CHG", b" "), ("CNL", b"-"),
            ("RTI", b"\x00"), ("RTA", b"\xff"), ("RLA", b"("), ("LAM", b"\r"), ("LRM", b"\t")]],
          [b"(" + sample("LAM"), b"\r" + sample("LAM"), b"\xef\xbb\xbf" + sample("LAM"),
           sample("LAM") + sample("LAM"), sample("EST")[:-1] + b"\r)",
           sample("CNL")[:-1] + b" )", sample("RLA")[:-1] + b"\t)", sample("LAM")[:-1] + b" )",
           sample("LAM")[1:], b"\x00", b"\xff", b" ", b"-", b"-----", b"((", b"()", b"(-"])
    group("a few proper beginnings of each sample",
          [sample(k)[:n] for k in SAMPLES
           for n in (2, 4, 10, 16, 17, 28, 29, 30, 34, 45, len(sample(k)) - 2)
           if n < len(sample(k)) - 1])
    lines = []
    for k, (head, fields) in SAMPLES.items():
        for i in range(len(fields)):
            lines.append(joined(k, head, fields[:i] + fields[i + 1:]))
    group("each field left out, for each type", lines)
    group("a field too many: the last twice, an empty one at the end and at the front, '-0'",
          [joined(k, head, f + f[-1:]) for k, (head, f) in SAMPLES.items() if f],
          [joined(k, head, f + [""]) for k, (head, f) in SAMPLES.items()],
          [joined(k, head, [""] + f) for k, (head, f) in SAMPLES.items()],
          [joined(k, head, f + ["0"]) for k, (head, f) in SAMPLES.items()])
    lines = []
    for k, (head, fields) in SAMPLES.items():
        for i in range(len(fields) - 1):
            lines.append(joined(k, head, fields[:i] + [fields[i + 1], fields[i]] + fields[i + 2:]))
    group("two neighbouring fields exchanged", lines)
    group("a small letter, byte 0, byte 255, a blank and a second hyphen at a field's beginning",
          [joined(k, head, [x + f[0]] + f[1:]) for k, (head, f) in SAMPLES.items() if f
           for x in ("a", "\x00", "\xff", " ", "-")])


def field_07():
    sevens = ["A", "AB", "12", "ABCDEF", "ABCDEFG", "ABCDEFGH", "1234567", "12345678", "9", "",
              "A B", "AB.", "aB", "Ab", "AB@", "AB[", "AB:", "@B", "[B", "/A1234"]
    codes = ["/A0000", "/A7777", "/A7778", "/A8777", "/A7877", "/A7787", "/A777", "/A77777",
             "/A", "/", "/B1234", "/a1234", "/1234", "A1234", "/AA123", "/A123/", "/A1234/A1234",
             "/A12 4"]
    group("07 alone, without code: length, letters and digits", each("EST", "07", sevens))
    group("07 with code: digits 0 to 7, their number, the letter", each(
        "EST", "07", ["DAL122" + c for c in codes]),
        each("EST", "07", ["AB/A1234", "A/A1234", "ABCDEFG/A1234", "ABCDEFGH/A1234"]))
    group("07 has a code in FPL, CPL, EST, RTI; 07a has none in CHG, CNL, RTA",
          [with_field(k, "07", "AB/A0123") for k in PLACE_OF if "07" in PLACE_OF[k]],
          [with_field(k, "07", "ABCDEFG/A7777") for k in PLACE_OF if "07" in PLACE_OF[k]],
          [with_field(k, "07", "ABCDEFG") for k in PLACE_OF if "07" in PLACE_OF[k]],
          [with_field(k, "07", "ABCDEFGH") for k in PLACE_OF if "07" in PLACE_OF[k]],
          [with_field(k, "07", "A") for k in PLACE_OF if "07" in PLACE_OF[k]])
    group("07: each probe byte in the name, for the code's letter and for a digit of it",
          sweep("EST", "07", "DAL122/A4322", 1), sweep("EST", "07", "DAL122/A4322", 7),
          sweep("EST", "07", "DAL122/A4322", 8), sweep("EST", "07", "DAL122/A4322", 11))


def field_08():
    letters = "ABCDEFGHIJKLMNOPQRSTUVWXYZ"
    group("08: every capital as its first letter", each("FPL", "08", letters))
    group("08: every capital as its second letter", each("FPL", "08", ["I" + c for c in letters]))
    group("08: the other pairs, three letters, none, small, digits, blank",
          each("CPL", "08", [a + b for a in "VYZ" for b in "SNGMX"]),
          each("FPL", "08", ["", "ISS", "i", "Is", "I1", "1", "I ", " I", "I/"]))


def field_09():
    group("09: the number", each("FPL", "09", [n + "B738/H" for n in
          ["", "0", "1", "2", "9", "10", "11", "19", "20", "99", "00", "01", "02", "09", "100",
           "101", "200", "990", "999", "-", " ", "2 ", "A"]]))
    group("09: a letter and 1 to 3 letters or digits", each("FPL", "09", [
        "A/L", "AB/L", "A1/L", "ABC/L", "A12/L", "ABCD/L", "A123/L", "ABCDE/L", "A1234/L",
        "2A/L", "2AB/L", "99A123/L", "99A1234/L", "1/L", "22/L", "2/L", "/L", "a320/M",
        "A3a0/M", "A3.0/M", "A 20/M", "A320 /M"]))
    group("09: the wake letter, every capital and some others",
          each("FPL", "09", ["A320/" + c for c in "ABCDEFGHIJKLMNOPQRSTUVWXYZ"]),
          each("CPL", "09", ["A320/", "A320", "A320M", "A320/MM", "A320/m", "A320/1", "A320//M",
                             "A320/ M", "A320-M"]))
    group("08 and 09: each probe byte in each place",
          sweep("FPL", "08", "IG", 0), sweep("FPL", "08", "IG", 1),
          sweep("FPL", "09", "22B738/H", 0), sweep("FPL", "09", "22B738/H", 1),
          sweep("FPL", "09", "22B738/H", 2), sweep("FPL", "09", "22B738/H", 3),
          sweep("FPL", "09", "22B738/H", 7))


def field_10():
    group("10: lengths before and after '/'", each("FPL", "10", [
        "S/C", "1/1", "S" * 39 + "/C", "S" * 40 + "/C", "S" * 41 + "/C", "S/" + "C" * 19,
        "S/" + "C" * 20, "S/" + "C" * 21, "9" * 40 + "/" + "9" * 20, "A" * 41 + "/" + "B" * 20,
        "A" * 40 + "/" + "B" * 21, "", "/", "S/", "/C", "S", "S" * 40, "S" * 41]))
    group("10: bytes that are no letters or digits", each("CPL", "10", [
        "s/C", "S/c", "S /C", "S/ C", "S//C", "S/C/D", "S.D/C", "S/C.", "S@/C", "S[/C", "S:/C",
        "S/@", "S/[", "S\x00/C", "S/\xff", "S+/C", "S/C "]))
    group("10: each probe byte before and after '/'",
          sweep("CPL", "10", "SDF/CB", 0), sweep("CPL", "10", "SDF/CB", 5))


TIMES = ["0000", "0059", "0060", "0099", "0900", "0959", "1000", "1959", "1960", "2000", "2300",
         "2359", "2360", "2399", "2400", "2459", "2900", "3000", "9959", "235", "23590", "23:59",
         "235A", "A359", "2A59", "23A9", "23", "2", "", " 2359", "2359 ", "2359Z", "235\xb9"]


def field_13():
    group("13 with its time (FPL)", each("FPL", "13", ["CYST" + t for t in TIMES]))
    group("13s without time (CPL, EST, RTI, RTA)",
          [with_field(k, "13", v) for k in ("CPL", "EST", "RTI", "RTA")
           for v in ("KIAD", "KIAD0000", "KIA", "KIADX")])
    group("13o, the time may be left out (CHG, CNL)",
          [with_field(k, "13", "KIAD" + t) for k in ("CHG", "CNL")
           for t in ("", "0000", "2359", "2360", "2400", "235", "23590", "X", " ")])
    group("13: the four letters", each("FPL", "13", [
        "AAAA0000", "ZZZZ2359", "CYS2055", "CYSTX2055", "1YST2055", "C1ST2055", "CY1T2055",
        "CYS12055", "cYST2055", "CYSt2055", "C@ST2055", "C[ST2055", "CY T2055", "", "2055",
        "CYST 2055", "\xffYST2055", "CYS\x002055"]))


def field_14():
    def point(*points):
        return each("EST", "14", [p + "/2042F350" for p in points])

    group("14: a name of 2 to 5 letters or digits", point(
        "", "A", "1", "AB", "12", "ABC", "ABCD", "ABCDE", "12345", "ABCDEF", "ABCDE1", "123456",
        "ab", "Ab", "A.", "A B", "AB ", " AB", "A@", "A[", "A\x00", "\xffB"))
    group("14: a name with bearing 000 to 360 and three digits", point(
        "AB000000", "AB360999", "ABC000123", "ABCDE000000", "ABCDE359999", "ABCDE360000",
        "ABCDE361000", "ABCDE370000", "ABCDE399000", "ABCDE400000", "ABCDE300000",
        "ABCDE36000", "ABCDE3600000", "ABCDE36000A", "ABCDE3600A0", "ABCDE36A000",
        "ABCDE3A0000", "ABCDEA60000", "ABCDE000", "ABCDE0000", "A360000", "AB36000",
        "AB361000", "ABC361000", "ABCD361000", "AB999999", "ABC999999", "ABCD999999",
        "12360000", "1236000", "12345360000", "12345361000", "12345678", "123456789",
        "1234567890", "12345367890", "12345012345", "123450123456", "99999", "9999999",
        "99000000", "AB361123", "ABCD000000", "ABCD36000"))
    group("14: latitude and longitude in whole degrees (places as names with bearing allow)",
          point("00N000E", "90N180W", "90S180E", "89S179W", "91N078W", "99N078W", "46N180W",
                "46N181W", "46N190W", "46N199W", "46N200W", "46N360W", "46N361W", "46N999W",
                "46X078W", "46E078W", "46N078N", "46N078X", "46N078", "46N78W", "6N078W",
                "46N0078W", "46N078WW", "46S078E", "46n078W", "46N078w", "A6N078W", "4AN078W",
                "46NA78W", "46N07AW", "46N0780W", "46 N078W", "46N 078W", "N46W078"))
    group("14: latitude and longitude with minutes",
          point("0000N00000E", "4620N07805W", "4659N07859W", "4660N07805W", "4620N07860W",
                "4699N07805W", "4620N07899W", "9000N18000W", "9000S18000E", "9001N07805W",
                "9000N18001W", "9059N00000E", "9060N00000E", "8959N17959E", "9100N00000E",
                "4620N18000W", "4620N18001W", "4620N18100W", "4620N17960W", "4620N20000W",
                "4620N36000W", "4620N36100W", "4620N40000W", "4620X07805W", "4620N07805X",
                "4620N07805", "4620N0780W", "4620N078W", "46N07805W", "462N07805W",
                "46200N07805W", "4620N078050W", "4620N07805WW", "4620n07805W", "4620N07805w",
                "462AN07805W", "4620NA7805W", "462034N0780521W"))
    group("14: '/' and the time",
          each("EST", "14", ["HML/" + t + "F350" for t in TIMES]),
          each("EST", "14", ["HML2042F350", "HML//2042F350", "HML-2042F350", "HML/2042",
                             "HML/", "HML", "/2042F350", "HML /2042F350", "HML/ 2042F350"]))
    group("14: the level",
          each("EST", "14", ["HML/2042" + x for x in [
              "F000", "F999", "A000", "A999", "S0000", "S9999", "M0000", "M9999", "F35", "F3500",
              "F3", "F", "A35", "A3500", "S350", "S35000", "M350", "M35000", "S35", "M35",
              "V350", "VFR", "E350", "G350", "B350", "R0350", "T0350", "L0350", "N0350", "f350",
              "350", "F35A", "FA50", "F-50", "F350 ", " F350", "S035A", "M\x00350"]]))
    group("14: a second level with A or B",
          each("EST", "14", ["HML/2042F350" + x for x in [
              "F370A", "F370B", "A370A", "S0370A", "M0370B", "F370", "F370C", "F370@", "F370a",
              "F370AB", "F370A ", "F37A", "F3700A", "S370A", "S03700B", "M370B", "A", "B", "A37",
              "AA", "FA", "F", "VFRA", "F370F390A", "F370 A", " F370A", "/F370A", "C"]]),
          each("EST", "14", ["HML/2042S0350" + x for x in [
              "F370A", "S0370B", "M0370A", "M0370", "A", "0370A", "S370A"]]))
    group("14: each probe byte for N or S, E or W, in a name, a bearing and a distance",
          sweep("EST", "14", "46N078W/2042F350", 2), sweep("EST", "14", "46N078W/2042F350", 6),
          sweep("EST", "14", "4620N07805W/2042F350", 4),
          sweep("EST", "14", "4620N07805W/2042F350", 10),
          sweep("EST", "14", "ABCDE/2042F350", 4),
          sweep("EST", "14", "ABCDE360020/2042F350", 5),
          sweep("EST", "14", "ABCDE360020/2042F350", 10))
    group("14: each probe byte for the letters of the levels and the last one",
          sweep("EST", "14", "HML/2042F350F370A", 8), sweep("EST", "14", "HML/2042S0350S0370A", 8),
          sweep("EST", "14", "HML/2042F350F370A", 12),
          sweep("EST", "14", "HML/2042S0350S0370A", 13),
          sweep("EST", "14", "HML/2042F350F370A", 16), sweep("EST", "14", "HML/2042F350F370A", 11))
    group("14 in a CPL", each("CPL", "14", [
        "AB/0000F000", "ABCDE360999/2359S9999M9999B", "ABCDE361999/2359S9999M9999B",
        "9000N18000W/2359S9999M9999B", "9000N18001W/2359S9999M9999B", "46N078W/2042F350A",
        "HML/2400F350", "HML/2042F350F370", "A/2042F350"]))


def fifteen(size, speed, level, ending=""):
    """A field 15 of the size said, whose words are runs of up to nine bytes."""
    start = speed + level + " "
    return start + filler(size - len(start) - len(ending)) + ending


def filler(n):
    """Words of exactly n bytes, with a blank every tenth byte unless it is last."""
    out = "".join(" " if i % 10 == 9 else "ABCDEFGHIJKLMNOPQRSTUVWXYZ"[i % 26] for i in range(n))
    return out[:-1] + "Z" if out.endswith(" ") else out


SPEEDS = ["N0420", "K0800", "M084"]
CRUISES = ["F350", "A045", "S1130", "M0840", "VFR"]


def field_15():
    group("15: the speed", each("FPL", "15", [s + "F350 DCT" for s in [
        "K0000", "K9999", "N0000", "N9999", "M000", "M999", "K999", "K99999", "N120", "N01200",
        "M84", "M0840", "L0120", "J0120", "O0120", "k0120", "n0120", "m084", "NA120", "N012A",
        "M08A", "0120", "", "N 120", "N", "M", "K"]]))
    group("15: the level or VFR", each("FPL", "15", ["N0120" + x + " DCT" for x in [
        "F000", "F999", "A000", "A999", "S0000", "S9999", "M0000", "M9999", "VFR", "F33", "F3300",
        "S330", "S33000", "M330", "M33000", "A33", "A3300", "VF", "VFRR", "VFS", "VGR", "WFR",
        "V330", "IFR", "E330", "f330", "F33A", "F3A0", "FA30", "vfr", "", "F", "S", "VFR000"]]))
    group("15: the blank and the words", each("FPL", "15", [
        "N0120F330", "N0120F330 ", "N0120F330  ", "N0120F330  DCT", "N0120F330DCT",
        "N0120F330-DCT", "N0120F330/DCT", "N0120F330\tDCT", "N0120F330\rDCT", " N0120F330 DCT",
        "N0120F330 DCT ", "N0120F330 DCT  DCT", "N0120F330 DCT DCT", "N0120F330 A B C D E F",
        "N0120F330 A", "N0120F330 /", "N0120F330 ? ? ?", "N0120F330 a", "N0120F330 DCt",
        "N0120VFR", "N0120VFRDCT", "M084VFR A", "M084M0840 A", "N0120S0330"]))
    group("15: each probe byte for the letters of speed and level and for the blank",
          sweep("FPL", "15", "N0120F330 DCT", 0), sweep("FPL", "15", "M084F330 DCT", 0),
          sweep("FPL", "15", "N0120F330 DCT", 5), sweep("FPL", "15", "N0120S0330 DCT", 5),
          sweep("FPL", "15", "N0120VFR DCT", 5), sweep("FPL", "15", "N0120VFR DCT", 7),
          sweep("FPL", "15", "N0120F330 DCT", 4), sweep("FPL", "15", "N0120F330 DCT", 8),
          sweep("FPL", "15", "N0120F330 DCT", 9))
    lines = []
    for speed in SPEEDS:
        for level in CRUISES:
            lines += each("FPL", "15", [fifteen(299, speed, level), fifteen(300, speed, level),
                                        fifteen(301, speed, level)])
    group("15 of 299, 300 and 301 bytes, for each kind of beginning (FPL)", lines)
    group("15 whose 300th byte would be a blank, or whose 299th is one",
          [t for s in SPEEDS for c in CRUISES for t in each(
              "FPL", "15", [fifteen(301, s, c, "Q A"), fifteen(300, s, c, "QQ A")])])
    group("15 whose words are one long run, or runs of one byte", each("CPL", "15", [
        "N0420F350 " + "A" * 289, "N0420F350 " + "A" * 290, "N0420F350 " + "A" * 291,
        "M084VFR " + "A" * 292, "M084VFR " + "A" * 293, "K0420S0350 " + "A" * 289,
        "K0420S0350 " + "A" * 290, "M084VFR " + "A " * 145 + "AA", "M084VFR " + "A " * 146,
        "M084VFR " + "A " * 146 + "A", "M084VFR " + "A " * 145 + "A",
        "N0420F350 " + "A " * 144 + "AA", "N0420F350 " + "A " * 145 + "A"]))
    group("15 within 22 has the same limit",
          amend("15", [fifteen(n, s, c) for s, c in (("N0420", "F350"), ("M084", "VFR"),
                                                     ("K0420", "S0350")) for n in (299, 300, 301)]),
          amend("15", ["N0420F350", "N0420F350 ", "N0420 DCT", "", "F350 DCT"]))


def field_16():
    elapsed = ["", "0000", "0059", "0060", "0100", "2359", "2360", "2400", "9900", "9959",
               "9960", "9999", "10000", "995", "99590", "A959", "99A9", "995A", "1", "12", "123"]
    alternates = [" KBTV", " KBTV KBOS", " KBTV KBOS KJFK", " KBT", " KBTVX", " KBT1", " kBTV",
                  "  KBTV", " ", " KBTV ", " KBTV  KBOS", " KBTV KBO", " KBTVKBOS", " KBTV0100",
                  " KBTV KBOS ", " KBTV,KBOS", "-KBTV", " 1BTV"]
    group("16: the elapsed time (FPL)", each("FPL", "16", ["KMPV" + e for e in elapsed]))
    group("16: alternates after an elapsed time", each(
        "FPL", "16", ["KMPV0053" + a for a in alternates]))
    group("16: alternates without elapsed time", each(
        "FPL", "16", ["KMPV" + a for a in alternates]))
    group("16: the four letters", each("FPL", "16", [
        "AAAA", "ZZZZ", "KMP", "KMPVX", "1MPV", "K1PV", "KM1V", "KMP1", "kMPV", "KMPv", "",
        "K PV", "K@PV", "KMP[", "0053", " KMPV", "KMPV 0053"]))
    group("16s is the four letters (CPL, EST, CHG, CNL, RTI, RTA)",
          [with_field(k, "16", v) for k in ("CPL", "EST", "CHG", "CNL", "RTI", "RTA")
           for v in ("KMP", "KMPVX", "KMPV0053", "KMPV KBTV", "KMP1")])
    group("13 and 16: each probe byte for a letter and after the letters",
          sweep("FPL", "13", "CYST2055", 0), sweep("FPL", "13", "CYST2055", 4),
          sweep("FPL", "16", "KMPV0053", 3), sweep("FPL", "16", "KMPV0053", 4),
          sweep("FPL", "16", "KMPV0053 KBTV", 8), sweep("FPL", "16", "KMPV0053 KBTV", 12))


def field_18():
    group("18: '0' and what is not it", each("FPL", "18", [
        "0", "00", "01", "0A", "0/", "O", "1", "", " 0", "0 ", "0/A", "0 RMK/A", "-", "o", "/"]))
    group("18: three or four letters and '/'", each("FPL", "18", [
        "A/B", "AB/C", "ABC/D", "ABCD/E", "ABCDE/F", "AB1/C", "A1C/D", "1BC/D", "ABC1/D",
        "ABC", "ABCD", "ABCD/", "ABC/", "ABC/ D", "ABC/D ", "ABC/D  E", "ABC/D E", "ABC//",
        "ABC///D", "abc/D", "ABc/D", "ABCd/E", "ABC/d", "ABC-D", "ABC D", "ABC.D", "/ABC",
        "AB@/C", "AB[/C", "ABC@/D", "ABC[/D", "RMK/A REG/B DOF/C", "RMK/A /", "RMK/0"]))
    group("18: each probe byte first, for the third letter and for '/'",
          sweep("CNL", "18", "RMK/A", 0), sweep("CNL", "18", "RMK/A", 2),
          sweep("CNL", "18", "RMK/A", 3), sweep("CNL", "18", "TALT/A", 4))
    lines = []
    for start in ("RMK/", "TALT/"):
        for n in (299, 300, 301):
            lines += each("FPL", "18", [start + filler(n - len(start))])
        lines += each("FPL", "18", [
            start + filler(298 - len(start)) + "A A", start + filler(297 - len(start)) + "A A",
            start + "A" * (299 - len(start)) + " A", start + "A" * (298 - len(start)) + " A",
            start + "A" * (300 - len(start)) + " ", start + "A" * (299 - len(start)) + " ",
            start + "A" * (298 - len(start)) + "  A", start + "A" * (300 - len(start)),
            start + "A" * (301 - len(start)), start + "A " * ((300 - len(start)) // 2) + "A",
            start + "A " * ((300 - len(start)) // 2)])
    group("18 of 299, 300 and 301 bytes and blanks near the limit, three and four letters", lines)
    group("18 at its limit in CPL, CNL, a CHG's own and within 22",
          [with_field(k, "18", "RMK/" + filler(n - 4)) for k in ("CPL", "CNL", "CHG")
           for n in (300, 301)],
          [with_field(k, "18", "TALT/" + filler(n - 5)) for k in ("CPL", "CNL", "CHG")
           for n in (300, 301)],
          amend("18", [start + filler(n - len(start)) for start in ("RMK/", "TALT/")
                       for n in (299, 300, 301)]),
          amend("18", ["RMK/" + "A" * 295 + " A", "0", "00", "", "RMK/", "RM/A", "RMK"]))
    group("18 in a CNL: shapes", each("CNL", "18", ["RMK/A", "RMK/", "00", "", "RMK/A B", "RM"]))
    bytes_in = "".join(map(chr, range(32, 127))) + "\x00\t\r\x1f\x7f\x80\xa0\xc1\xff"
    group("words: every printing byte and some others between two letters (18)",
          each("CNL", "18", ["RMK/A" + c + "B" for c in bytes_in]))
    group("words: signs and their neighbours first, last and alone (18)",
          each("CNL", "18", ["RMK/" + c for c in "/.,'+:?-();=&*\"!@[]`#"]),
          each("CNL", "18", ["RMK/A" + c for c in "/.,'+:?-();=&*\"!@[]`#"]))


def fields_31_32():
    group("31: lengths and blanks (RTI)", each("RTI", "31", [
        "A", "", " ", "?", "A" * 19, "A" * 20, "A" * 21, "A" * 18 + " A", "A" * 19 + " A",
        "A" * 19 + " ", "A" * 20 + " ", "A " * 9 + "AA", "A " * 10, "A " * 10 + "A", " A", "A ",
        "A  B", "A B", "/" * 20, "/" * 21, "a", "CZWG a", "A\x00", "\xff"]))
    group("31: lengths and blanks (RTA, RLA)",
          [with_field(k, "31", v) for k in ("RTA", "RLA") for v in (
              "A", "", " ", "A" * 20, "A" * 21, "A" * 18 + " A", "A" * 19 + " A", "A ", " A",
              "A  B", "A B C", "A-B", "A(B", "?.,'+:/", "a", "A)B")])
    group("32: lengths and blanks", each("RTI", "32", [
        "A", "", " ", "?", "A" * 59, "A" * 60, "A" * 61, "A" * 58 + " A", "A" * 59 + " A",
        "A" * 59 + " ", "A" * 60 + " ", "A " * 29 + "AA", "A " * 30, "A " * 30 + "A", " A", "A ",
        "A  B", "/" * 60, "/" * 61, "a", "A-B", "A;B", "A\rB"]))
    group("words: each sign in 15, 31 and 32",
          [t for c in "/.,'+:?-;=&*\"!@" for t in (
              with_field("FPL", "15", "N0120F330 A" + c + "B"),
              with_field("RLA", "31", c), with_field("RTI", "32", "A" + c))])


TWENTY_TWO = [("08", "IS"), ("09", "2C172/L"), ("10", "SD/C"), ("13", "KSEA0000"),
              ("15", "N0420F350 DCT"), ("16", "CYOW0100 CYUL"), ("18", "RMK/A B")]


def field_22():
    all_of = ["%s/%s" % x for x in TWENTY_TWO]
    group("22: each number alone, without and with own 18 ('0', words)",
          [chg(*own, f) for f in ["07/AB"] + all_of for own in ((), ("0",), ("DOF/121115",))])
    group("22: numbers that are none",
          [chg("%02d/X" % n) for n in range(24) if n not in (7, 8, 9, 10, 13, 15, 16, 18)],
          [chg(x) for x in ("7/AB", "8/IS", "007/AB", "070/AB", "99/X", "/IS", "08IS", "08", "08/",
                            "8", "1", "1/", "18", "18/", "07", "07/", "08-IS", "08 /IS", "08/ IS",
                            "O8/IS", "0/IS", "0 8/IS")])
    group("22: every pair of numbers, ascending, descending and the same twice",
          [chg(a, b) for a in ["07/AB"] + all_of for b in ["07/AC"] + all_of])
    group("22: several, in order and not",
          [chg(*all_of), chg("0", *all_of), chg("RMK/A", *all_of), chg("07/AB", *all_of),
           chg(*all_of, "07/AB"), chg(*all_of[::-1]), chg(*all_of[1:]), chg(*all_of[:-1]),
           chg(*all_of[::2]), chg(*all_of[1::2]), chg(*all_of, all_of[-1]),
           chg(*all_of, "0"), chg(*all_of, "RMK/A"), chg(all_of[0], "0", all_of[1]),
           chg(all_of[0], "RMK/A", all_of[1]), chg("0", "0", *all_of), chg("RMK/A", "0", *all_of),
           chg("0", "RMK/A", *all_of), chg("RMK/A", "RMK/A", all_of[0]), chg("0", "07/AB", "08/I"),
           chg("0"), chg("RMK/A"), chg("00"), chg("0", ""), chg(""), chg("0", "0"), chg(),
           chg("-08/I"), chg("0", "07/AB", "0"), chg("08/I", "0"), chg("18/0", "0"),
           chg("18/RMK/A", "08/I"), chg("18/0", "18/0"), chg("18/18/0"), chg("18/RMK/A-18")])
    group("22: a CHG whose own 18 is like a 22",
          [chg("0", "08/I"), chg("07"), chg("0-7/AB"), chg("ABC/1", "08/I"), chg("ABC/07/AB"),
           chg("ABC/07/AB", "07/AB"), chg("ABCD/08/I", "08/I"), chg("ABCDE/A", "08/I"),
           chg("AB/A", "08/I"), chg("ABC/", "08/I"), chg("ABC/A ", "08/I"), chg("0 ", "08/I")])
    group("22: each probe byte for the two digits and '/'",
          [chg(p + "8/IS") for p in PROBES], [chg("0" + p + "/IS") for p in PROBES],
          [chg("1" + p + "/0") for p in PROBES], [chg("08" + p + "IS") for p in PROBES],
          [chg("0" + p) for p in PROBES], [chg("0", p) for p in PROBES])
    group("07 within 22", amend("07", [
        "A", "AB", "ABCDEFG", "ABCDEFGH", "AB/A0000", "AB/A7777", "AB/A7778", "AB/A777",
        "ABCDEFG/A7777", "AB/", "AB/B7777", "ab", "", "A B"]))
    group("08, 09, 10 within 22",
          amend("08", ["I", "ZX", "IA", "A", "ISS", ""]),
          amend("09", ["99B738/H", "1B738/H", "2A1/L", "100A1/L", "A/L", "A1234/L", "A1/J", ""]),
          amend("10", ["S/C", "S" * 40 + "/" + "C" * 20, "S" * 41 + "/C", "S/" + "C" * 21, "S/",
                       "S/C/D", ""]))
    group("13 within 22 has its time", amend("13", ["KSEA" + t for t in (
        "", "0000", "2359", "2360", "2400", "235", "23590", " ")] + ["KSE0000", "KSEAX0000"]))
    group("16 within 22 is the full field", amend("16", ["CYOW" + t for t in (
        "", "0000", "9959", "9960", "99590", " CYUL", "0100 CYUL CYYZ", "0100 CYUL CYYZ CYVR",
        " CY", " ")] + ["CYO", "CYO1"]))
    group("the head of a CHG: 07a, 13o, 16s",
          [chg("08/I", start=s) for s in (
              ("AB", "KSEA", "CYOW"), ("ABCDEFG", "KSEA2359", "CYOW"),
              ("ABCDEFGH", "KSEA", "CYOW"), ("AB/A1234", "KSEA", "CYOW"), ("A", "KSEA", "CYOW"),
              ("AB", "KSEA2360", "CYOW"), ("AB", "KSEA", "CYOW0100"), ("AB", "KSEA", "CYO"),
              ("AB", "KSEA"), ("AB",), ("AB", "KSEA", "CYOW", "CYOW"))])


def answers():
    group("LRM: 'RMK/' and two digits", each("LRM", "RMK", [
        "RMK/00", "RMK/99", "RMK/57", "RMK/62", "RMK/5", "RMK/", "RMK/570", "RMK/5A", "RMK/A5",
        "RMK57", "RMK", "RM", "R", "", "rmk/57", "RMk/57", "RMK 57", "RMK/ 57", "RMK/57 ",
        "RMX/57", "RXK/57", "XMK/57", "0", "DOF/57", "RMK/57/00/A", "57", "RMK//57", "RMK/:7",
        "RMK//7", "RMK/5:", "RMK/5/", "RMK/5\x00", "RMK/\xff7"]))
    group("LAM: anything between the reference and ')'",
          [joined("LAM", SAMPLES["LAM"][0], [f]) for f in ("", "0", "A", "RMK/57", "KZBW53")],
          [sample("LAM")[:28] + x + b")" for x in (b"0", b"A", b" ", b"(", b"/", b"\x00")])


def long_ones():
    words_300 = {"15": "N0420F350 " + "W" * 290, "18": "TALT/" + "W" * 295}
    alternates = "CYOW9959 CYUL CYYZ"
    longest = {
        "FPL": ["ABCDEFG/A7777", "ZX", "99ABCD/H", "S" * 40 + "/" + "C" * 20, "CYST2359",
                words_300["15"], alternates, words_300["18"]],
        "CPL": ["ABCDEFG/A7777", "ZX", "99ABCD/H", "S" * 40 + "/" + "C" * 20, "KIAD",
                "ABCDE360999/2359S9999M9999B", words_300["15"], "MMMX", words_300["18"]],
        "EST": ["ABCDEFG/A7777", "KFAR", "9000N18000W/2359S9999M9999B", "CYOW"],
        "CHG": ["ABCDEFG", "KSEA2359", "CYOW", words_300["18"], "08/ZX", "09/99ABCD/H",
                "10/" + "S" * 40 + "/" + "C" * 20, "13/CYST2359", "15/" + words_300["15"],
                "16/" + alternates, "18/" + words_300["18"]],
        "CNL": ["ABCDEFG", "KSEA2359", "CYOW", words_300["18"]],
        "RTI": ["ABCDEFG/A7777", "KMSP", "CYOW", "U" * 20, "T" * 60],
        "RTA": ["ABCDEFG", "KMSP", "CYOW", "U" * 20],
        "RLA": ["U" * 20],
        "LAM": [],
        "LRM": ["RMK/99"],
    }
    group("the longest text of each type",
          [joined(k, SAMPLES[k][0], f) for k, f in longest.items()])
    lines = []
    for k, f in longest.items():
        for i in range(len(f)):
            # One byte more at the field's end: another run byte where there
            # are words, else what the field ends with.
            lines.append(joined(k, SAMPLES[k][0], f[:i] + [f[i] + f[i][-1]] + f[i + 1:]))
    lines.append(sample("LAM")[:28] + b"1)")
    group("the longest of each type with one byte more, in each of its fields in turn", lines)
    shortest = {
        "FPL": ["AB", "I", "AB/L", "S/C", "CYST0000", "M084VFR A", "KMPV", "0"],
        "CPL": ["AB", "I", "AB/L", "S/C", "CYST", "AB/0000F000", "M084VFR A", "KMPV", "0"],
        "EST": ["AB", "KFAR", "AB/0000F000", "CYOW"],
        "CHG": ["AB", "KSEA", "CYOW", "08/I"],
        "CNL": ["AB", "KIAD", "MMEX", "0"],
        "RTI": ["AB", "KMSP", "CYOW", "A", "A"],
        "RTA": ["AB", "KMSP", "CYOW", "A"],
        "RLA": ["A"],
    }
    group("the shortest text of each type (and of a CHG by its 18)",
          [joined(k, SAMPLES[k][0], f) for k, f in shortest.items()],
          [joined("CHG", SAMPLES["CHG"][0], ["AB", "KSEA", "CYOW", "18/0"])])
    start = joined("FPL", SAMPLES["FPL"][0], longest["FPL"][:-1])[:-1] + b"-RMK/"
    group("a text of 100,000 bytes", [start + b"W" * (100000 - len(start) - 1) + b")"])


def result(answer):
    return " ".join(str(x) for x in answer[1:]).encode("ascii")


def main(examples, by_hand, vectors, guide):
    oracle = Oracle()
    wrong = []
    given = []

    rows = []
    with open(examples, "rb") as f:
        for line in f.read().split(b"\n")[1:]:
            if line:
                _, kind, expected, text = line.split(b"\t")[:4]
                rows.append(text)
                given.append((text, kind if expected == b"read" else expected[len(b"refused "):]))
    group("the example messages of source document 001", rows)

    rows = []
    with open(by_hand, "rb") as f:
        for line in f.read().split(b"\n"):
            if line:
                expected, text = line.split(b"\t")[:2]
                rows.append(text)
                given.append((text, expected))
    group("texts whose results were worked out by hand, in the order of the fields", rows)

    for text, expected in given:
        if result(oracle.judge(text)) != expected:
            wrong.append(text)
    if wrong:
        sys.exit("the oracle differs on %d: %r" % (len(wrong), wrong))

    for part in (frame, field_07, field_08, field_09, field_10, field_13, field_14, field_15,
                 field_16, field_18, fields_31_32, field_22, answers, long_ones):
        part()

    seen = set()
    count = 0
    table = []
    with open(vectors, "wb") as out:
        for i, (title, lines) in enumerate(GROUPS):
            first = count + 1
            read = 0
            for text in lines:
                # The two groups with results of their own are kept whole.
                if text in seen and i >= 2:
                    continue
                seen.add(text)
                assert b"\n" not in text
                answer = oracle.judge(text)
                read += answer[0] == "read"
                out.write(result(answer) + b"\t" + text + b"\n")
                count += 1
            table.append((first, count, count - first + 1, read, title))
    with open(guide, "w") as out:
        out.write(
            "# Test vectors for the reader\n\n"
            "Each line of `tests/vectors.txt` is a text, which may hold any byte but 10; the "
            "line of `tests/vectors-listing.txt` with the same number says what it should get: its "
            "type where it is read, else place and hyphens. "
            "What the first two groups should get comes from their own sources (the examples of "
            "source document 001, and `by-hand.txt` with the reason for each); that of the "
            "others from `oracle.py`, which agrees with the first two. `tests/vectors --write` "
            "makes all of it anew.\n\n"
            "| Lines | Texts | Read | What they test |\n|---|---|---|---|\n")
        for first, last, size, read, title in table:
            out.write("| %d to %d | %d | %d | %s |\n" % (first, last, size, read, title))
    print("%d texts, %d read" % (count, sum(row[3] for row in table)))


if __name__ == "__main__":
    if len(sys.argv) != 5:
        sys.exit("usage: make_vectors.py EXAMPLES BY_HAND VECTORS GUIDE")
    main(*sys.argv[1:])
