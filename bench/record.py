#!/usr/bin/env python3
"""An independent record for each text on stdin that matches document 01, in the form of `check dump`.
Regular expressions with one group for each part; limits of 300, 20 and 60 bytes are left to oracle.py."""
import re, sys
W = rb"[A-Z0-9/.,'+:?]+(?: [A-Z0-9/.,'+:?]+)*"
PARTS = "aircraft code rules flight count model wake equipment surveillance departure time speed level route destination elapsed alternate alternate2 indicator other".split()
def g(name, x): return b"(?P<" + name.encode() + b">" + x + b")"
LV = rb"[FA]\d{3}|[SM]\d{4}"
T = rb"(?:[01]\d|2[0-3])[0-5]\d"
def f(x, k):
    n = lambda name: x + name
    return {
     "07": g(n("aircraft"), rb"[A-Z0-9]{2,7}") + rb"(?:/A" + g(n("code"), rb"[0-7]{4}") + rb")?",
     "07a": g(n("aircraft"), rb"[A-Z0-9]{2,7}"),
     "08": g(n("rules"), rb"[IVYZ]") + g(n("flight"), rb"[SNGMX]") + b"?",
     "09": g(n("count"), rb"[2-9]|[1-9]\d") + b"?" + g(n("model"), rb"[A-Z][A-Z0-9]{1,3}") + b"/" + g(n("wake"), b"[LMH]"),
     "10": g(n("equipment"), rb"[A-Z0-9]{1,40}") + b"/" + g(n("surveillance"), rb"[A-Z0-9]{1,20}"),
     "13": g(n("departure"), rb"[A-Z]{4}") + g(n("time"), T),
     "13s": g(n("departure"), rb"[A-Z]{4}"),
     "13o": g(n("departure"), rb"[A-Z]{4}") + g(n("time"), T) + b"?",
     "14": g("point", rb"[A-Z0-9]{2,11}") + b"/" + g("over", T) + g("crossing", LV) + b"(?:" + g("second", LV) + g("sense", b"[AB]") + b")?",
     "15": g(n("speed"), rb"[KN]\d{4}|M\d{3}") + g(n("level"), LV + b"|VFR") + b" " + g(n("route"), W),
     "16": g(n("destination"), rb"[A-Z]{4}") + g(n("elapsed"), rb"\d\d[0-5]\d") + b"?" + rb"(?: " + g(n("alternate"), rb"[A-Z]{4}") + rb"(?: " + g(n("alternate2"), rb"[A-Z]{4}") + rb")?)?",
     "16s": g(n("destination"), rb"[A-Z]{4}"),
     "18": b"(?:" + g(n("indicator"), b"0(?=[-)])|[A-Z]{3,4}(?=/)") + b"(?:(?<!0)/" + g(n("other"), W) + b")?)",
     "31": g("f31", W), "32": g("f32", W), "LRM": b"RMK/" + g("lrm", rb"\d\d"),
    }[k]
def num(x): return g(x + "sender", b"[A-Z]{4}") + b"/" + g(x + "receiver", b"[A-Z]{4}") + g(x + "digits", rb"\d{3}")
TABLE = {"FPL": "07 08 09 10 13 15 16 18", "CPL": "07 08 09 10 13s 14 15 16s 18", "EST": "07 13s 14 16s", "CHG": "07a 13o 16s",
         "CNL": "07a 13o 16s 18", "RTI": "07 13s 16s 31 32", "RTA": "07a 13s 16s 31", "RLA": "31", "LAM": "", "LRM": "LRM"}
RX = {}
for t, fields in TABLE.items():
    x = rb"\(" + t.encode() + num("n_") + (b"" if t in ("FPL", "CPL") else num("r_")) + b"".join(b"-" + f("o_", k) for k in fields.split())
    if t == "CHG":
        x += b"(?:-" + f("o_", "18") + b")?(?:-07/" + f("c_", "07") + b"|" + b"".join(b"(?:-" + k.encode() + b"/" + f("c_", k) + b")?" for k in "08 09 10 13 15 16 18".split()) + b")"
    RX[t.encode()] = re.compile(x + rb"\)", re.S)
def sp(m, name):
    try: a, b = m.span(name)
    except (IndexError, KeyError, error): return "0:0"
    return "0:0" if a < 0 else "%d:%d" % (a, b - a)
error = re.error
def val(m, name):
    try: v = m.group(name)
    except IndexError: v = None
    return v
def number(m, name):
    v = val(m, name); return int(v) if v else 0
def lev(m, name):
    v = val(m, name)
    if not v: return [0, 0]
    if v == b"VFR": return [5, 0]
    return [b"FASM".index(v[:1]) + 1, int(v[1:])]
def form(p):
    if p is None: return 0
    if len(p) <= 5: return 1
    if re.fullmatch(rb"[A-Z0-9]{2,5}\d{6}", p): return 2
    return 3 if len(p) == 7 else 4
for line in sys.stdin.buffer.read().split(b"\n")[:-1]:
    m = RX[line[1:4]].fullmatch(line) if line[1:4] in RX else None
    if not m: print("none"); continue
    names = ["n_sender", "n_receiver", "n_digits", "r_sender", "r_receiver", "r_digits"] + ["o_" + p for p in PARTS] + \
            ["point", "over", "crossing", "second", "sense"] + ["c_" + p for p in PARTS] + ["f31", "f32", "lrm"]
    nums = [number(m, "n_digits"), number(m, "r_digits"), number(m, "o_count")] + lev(m, "o_level") + [form(val(m, "point"))] + \
           lev(m, "crossing") + lev(m, "second") + [number(m, "c_count")] + lev(m, "c_level") + [number(m, "lrm")]
    print(line[1:4].decode(), *[sp(m, n) for n in names], *nums)
