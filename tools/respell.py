#!/usr/bin/env python3
"""Brings the names of our own definitions and laws to today's spelling: words in snake case.

usage: tools/respell.py [--list] [--only FILE ..]     at the top of the repository, right after port.py

A name with a dash or a lower camel name that specs/ or proofs/ define becomes snake case, wherever it stands: in specs/, proofs/,
contracts, edits. Names of src/, of the library and of goals keep their spelling. Where the new name is already a name of the
repository, FALLS_TOGETHER below gives another.
"""
import glob
import re
import sys

W = r"[^\s(){}.;,@\"«»\[\]\\×λ→]+"
TOKEN = re.compile(W)
DECL = re.compile(r"^(\s*)((?:(?:abbrev|unfoldable|pub|data|record|ruleset)\s+)*)([^\s:(){};,.]+) :(?=\s|$)", re.M)
DATA = re.compile(r"^\s*(?:(?:abbrev|unfoldable|pub)\s+)*(?:record|data|ruleset|let)\s+([^\s:(){};,.=]+)", re.M)
ALIAS = re.compile(r"\bas ([^\s,}]+)")
LETS = re.compile(r"\blet ([^\s:(){};,.=]+)(?=\s*[:=])")
BOUND = re.compile(r"\(([^():λ]+?) : ")

# Names that goals have: they are turned where the proofs are.
GOALS = re.compile(r"^(invariant-|decreases-|loop-|if-|in-|returns|Need-|overflow|bounds|borrow|the-|then-|else-|shape_of|slice_bounds)")

# old name -> new name, where snake case would fall together with another name
FALLS_TOGETHER = {
    # a law that would have its function's name
    **{
        n: n.replace("-", "_") + "_lem"
        for n in (
            "acceptance-taken becomes-on blank-record changed-key cut-row decided-at filed-by first-end first-from forgotten-from "
            "is-acceptance is-filed is-four kept-as key-after may-be-sent no-estimate or-part read-record receive-by record-under "
            "same-pieces settle-held sunder-leaf waiting-at waiting-in where-is word-bit "
            "has-key is-old number-at one-of size-of field-of type-of"
        ).split()
    },
}
# laws that port.py put in snake case, and whose function comes to that name here: path -> names
LAWS = {
    "crates/writer/specs/Moved.antt": ["all_moved"],
    "crates/pair/specs/exchange/Heard.antt": ["near_on", "own_on"],
    "crates/flights/specs/Made.antt": ["row_from"],
    "crates/": ["same_bool"],
}


def snake(n):
    n = re.sub(r"(?<=[a-z0-9])([A-Z])", lambda m: "_" + m.group(1).lower(), n) if n[:1].islower() else n
    return n.replace("-", "_")


def files():
    for pat in ("crates/*/specs/**/*.antt", "crates/*/proofs/**/*.antt", "crates/*/src/**/*.rt"):
        yield from sorted(glob.glob(pat, recursive=True))


def others():
    for pat in ("crates/*/edits/*", "crates/*/must-fail/*", "tests/rules/*", "tests/rules-edits/*"):
        yield from sorted(glob.glob(pat))


def names_of(texts):
    own = set()
    for f, t in texts.items():
        proof = "/proofs/" in f and f.endswith("Proof.antt")
        for m in DECL.finditer(t):
            if not (proof and GOALS.match(m.group(3))):
                own.add(m.group(3))
        for m in DATA.finditer(t):
            own.add(m.group(1))
        for m in ALIAS.finditer(t):
            own.add(m.group(1))
        if f.endswith(".antt"):
            for m in LETS.finditer(t):
                own.add(m.group(1))
            for m in BOUND.finditer(t):
                own.update(w for w in m.group(1).split())
    return own


def main():
    texts = {f: open(f, encoding="utf-8").read() for f in files()}
    own = names_of(texts)
    tokens = {}
    for f, t in texts.items():
        for m in TOKEN.finditer(re.sub(r"(--|//)[^\n]*", "", t)):
            tokens.setdefault(m.group(0), set()).add(f)
    turn = {}
    for n in sorted(own):
        if not re.match(r"^[A-Za-z]", n) or "◌" in n:
            continue
        if "-" in n or (n[0].islower() and re.search(r"[a-z0-9][A-Z]", n)):
            turn[n] = FALLS_TOGETHER.get(n, snake(n))
    back = {}
    for a, b in turn.items():
        back.setdefault(b, []).append(a)
    together = []
    for b, olds in sorted(back.items()):
        if len(olds) > 1:
            together.append((b, olds, "two"))
        elif b in tokens and tokens[b] & tokens.get(olds[0], set()):
            together.append((b, olds, "stands in " + " ".join(sorted(tokens[b] & tokens.get(olds[0], set()))[:4])))
        elif b in own:
            together.append((b, olds, "own elsewhere"))
    if "--list" in sys.argv:
        for t in together:
            print(*t)
        print(len(turn), "names,", len(together), "fall together")
        return 0
    def laws(f):
        its = [n for p, ns in LAWS.items() if f.startswith(p) and f.endswith(".antt") for n in ns]
        if f.endswith(".antt") and re.search(r"deeds\.specs\.Tests\.\{[^}]*\bsame_key\b", texts[f]) or f == "crates/deeds/specs/Tests.antt":
            its.append("same_key")
        return {n: n + "_lem" for n in its}

    def put(t, more={}):
        return TOKEN.sub(lambda m: turn.get(m.group(0)) or more.get(m.group(0)) or m.group(0), t)
    for f in list(texts) + list(others()):
        t = texts.get(f)
        if t is None:
            t = open(f, encoding="utf-8").read()
        u = put(t, laws(f) if f in texts else {})
        if u != t:
            open(f, "w", encoding="utf-8").write(u)
    return 0


if __name__ == "__main__":
    sys.exit(main())
