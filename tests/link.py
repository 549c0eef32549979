#!/usr/bin/env python3
"""Two ends of a link, by document 01's rules, worked out again here and not from the project's code. `--script` prints the
script of tests/link-script.txt, and without it this prints what two ends have to answer, tests/link-answers.txt.

A line of a script is the end (A or B), a letter and the rest: u sets up (the two names), s sends (a draft; its own number is
not looked at), r receives (a text), n resends (a number), p passes on: the other end receives the text that this one gave last,
and the answer goes back. A capital letter makes the same call with the answers one byte short. o sets the room that is lent for
texts from now on, x turns a byte of the memory over (which of the four, and where). An empty line shows both ends."""
import copy
import random
import re
import sys

import oracle
from recorded import NUMBER, field07, field13, field16, show, whole

# how many places the tables of flights sent and received have
PLACES = dict(A=(3, 16), B=(17, 3))
ORACLE = oracle.Oracle()
FIELDS = dict(
    FPL=['07', '08', '09', '10', '13', '15', '16', '18'],
    CPL=['07', '08', '09', '10', '13', '14', '15', '16', '18'],
    EST=['07', '13', '14', '16'],
    CHG=['07', '13', '16'],
    CNL=['07', '13', '16', '18'],
    RTI=['07', '13', '16', '31', '32'],
    RTA=['07', '13', '16', '31'],
    RLA=['31'],
    LAM=[],
    LRM=['RMK'],
)
ANSWERS = ('RLA', 'LAM', 'LRM')


class Message:
    def __init__(self, text):
        m = re.fullmatch(r'\(([A-Z]{3})' + NUMBER + r'(?:' + NUMBER + r')?(?:-(.*))?\)', text)
        self.text, self.kind = text, m[1]
        self.units, self.number = (m[2], m[3]), int(m[4])
        self.ref_units, self.reference = ((m[5], m[6]), int(m[7])) if m[5] else (None, None)
        fields = m[8].split('-') if m[8] else []
        self.fields = dict(zip(FIELDS[self.kind], fields))
        self.parts = {}
        for number, field in self.fields.items():
            self.parts.update(whole(number, field))
        extra = fields[len(FIELDS[self.kind]):] if self.kind == 'CHG' else []
        self.changes = [(f[:2], f[3:]) for f in extra if re.match(r'(07|08|09|10|13|15|16|18)/', f)]

    @property
    def accepts(self):
        return self.kind == 'RTA' and self.ref_units == self.units[::-1]

    def key(self):
        return self.parts['aircraft'], self.parts['departure'], self.parts['destination']

    def new_key(self):
        parts = dict(self.parts)
        for number, field in self.changes:
            parts.update(whole(number, field))
        return parts['aircraft'], parts['departure'], parts['destination']

    def names(self):
        return {self.key(), self.new_key()}


def read(text):
    return Message(text) if ORACLE.judge(text.encode())[0] == 'read' else None


def find(table, key):
    for i, r in enumerate(table):
        if r and (r['aircraft'], r['departure'], r['destination']) == key:
            return i
    return None


def condition(table, m):
    """Whether a message may be applied to a table of its sender's flights."""
    at = find(table, m.key())
    if m.kind in ('FPL', 'CPL'):
        return at is None
    if at is None:
        return False
    r = table[at]
    first = m.ref_units == m.units and m.reference == r['first']
    code = not m.parts.get('code') or m.parts['code'] == r['code']
    if m.kind == 'CHG':
        return r['status'] == 1 and first and (m.new_key() == m.key() or find(table, m.new_key()) is None)
    if m.kind == 'EST':
        return r['status'] == 1 and first and code
    if m.kind == 'CNL':
        return r['handoff'] != 1 and first
    if m.kind == 'RTI':
        return r['status'] == 2 and r['handoff'] == 0 and first and code
    return (m.ref_units == m.units or m.accepts) and r['handoff'] == 1 and m.reference == r['offer']


def apply(table, m):
    """Applies a message whose condition holds; False where no place is free."""
    at = find(table, m.key())
    if m.kind in ('FPL', 'CPL'):
        if None not in table:
            return False
        r = dict(aircraft='', code='', departure='', time='', destination='', f08='', f09='', f10='', f14='', rest16='', f15='', f18='')
        r.update({k: v for k, v in m.parts.items() if k in r})
        r.update(status=1 if m.kind == 'FPL' else 2, handoff=0, first=m.number, offer=0)
        table[table.index(None)] = r
        return True
    r = dict(table[at])
    if m.kind == 'CHG':
        for number, field in m.changes:
            r.update(whole(number, field))
    elif m.kind == 'EST':
        r.update(status=2, f14=m.parts['f14'])
    elif m.kind == 'CNL':
        r = None
    elif m.kind == 'RTI':
        r.update(handoff=1, offer=m.number)
    else:
        r['handoff'] = 2 if m.accepts else 0
    table[at] = r
    return True


class End:
    def __init__(self, places):
        self.places = places
        self.names = None
        self.broken = set()
        self.room = 1100
        self.last = ''

    def set_up(self, rest, short):
        if short:
            return 12,
        names = rest.split(' ')
        if len(names) != 2 or names[0] == names[1] or not all(re.fullmatch('[A-Z]{4}', n) for n in names):
            return 14,
        self.names = tuple(names)
        self.next, self.highest = 0, 999
        self.sent, self.received = ([None] * n for n in self.places)
        self.open = [None] * 16
        self.given = {}
        self.broken = set()
        return 0, ''

    def formed(self, short):
        return self.names is not None and not self.broken and not short

    def give(self, text):
        return (0, text) if len(text) <= self.room else (2,)

    def send(self, rest, short):
        if not self.formed(short):
            return 12,
        draft = read(rest)
        if draft is None or draft.kind in ANSWERS:
            return 13,
        text = rest[:4] + f'{self.names[0]}/{self.names[1]}{self.next:03}' + rest[16:]
        m = read(text)
        if None not in self.open:
            return 8,
        if any((self.next - q.number) % 1000 in (0, *range(400, 1000)) for q in self.open if q):
            return 9,
        if any(q.accepts == m.accepts and q.names() & m.names() for q in self.open if q):
            return 7,
        if not condition(self.received if m.accepts else self.sent, m):
            return 10,
        making = sum(q.kind in ('FPL', 'CPL') for q in self.open if q)
        if m.kind in ('FPL', 'CPL') and sum(map(bool, self.sent)) + making >= len(self.sent):
            return 11,
        answer = self.give(text)
        if answer[0] == 0:
            if m.accepts:
                apply(self.received, m)
            self.open[self.open.index(None)] = m
            self.next = (self.next + 1) % 1000
        return answer

    def resend(self, rest, short):
        if not self.formed(short):
            return 12,
        for q in self.open:
            if q and q.number == int(rest):
                return self.give(q.text)
        return 5,

    def settle(self, m, kind):
        self.open[self.open.index(m)] = None
        if kind != 'LRM' and not m.accepts and condition(self.sent, m):
            apply(self.sent, m)

    def receive(self, rest, short):
        if not self.formed(short):
            return 12,
        judged = ORACLE.judge(rest.encode())
        if judged[0] == 'refused':
            return 1, judged[1], judged[2]
        m = Message(rest)
        ours, partners = self.names
        there, here = (partners, ours), (ours, partners)
        refs = {'RTA': (there, here), 'FPL': (None,), 'CPL': (None,)}.get(m.kind, (here,) if m.kind in ANSWERS else (there,))
        if m.units != there or m.ref_units not in refs or (m.kind in ANSWERS and m.reference != m.number):
            return 3,
        if m.kind in ANSWERS:
            q = next((q for q in self.open if q and q.number == m.number), None)
            if q is None:
                return 5,
            if {'LAM': q.kind == 'RTI', 'RLA': q.kind != 'RTI', 'LRM': q.accepts}[m.kind]:
                return 6,
            self.settle(q, m.kind)
            return 0, ''
        d = (m.number - self.highest) % 1000
        if 401 <= d <= 600:
            return 4,
        new = 1 <= d <= 400
        kept = self.given.get(m.number) if not new else None
        if kept is not None:
            if kept == 2 and m.kind != 'RTI':
                return 4,
            return self.give(self.answer(m, kept))
        before = (self.highest, dict(self.given), list(self.sent), list(self.received), list(self.open))
        if new:
            for i in range(1, d + 1):
                self.given.pop((self.highest + i) % 1000, None)
            self.highest = m.number
        if m.accepts:
            q = next((q for q in self.open if q and q.number == m.reference), None)
            if q and q.kind == 'RTI' and q.key() == m.key():
                self.settle(q, 'RLA')
        table = self.sent if m.accepts else self.received
        if not condition(table, m):
            value = 57
        elif not apply(table, m):
            value = 62
        else:
            value = 2 if m.kind == 'RTI' else 1
        self.given[m.number] = value
        answer = self.give(self.answer(m, value))
        if answer[0]:
            self.highest, self.given, self.sent, self.received, self.open = before
        return answer

    def answer(self, m, value):
        ours, partners = self.names
        numbers = f'{ours}/{partners}{m.number:03}{partners}/{ours}{m.number:03}'
        return {1: f'(LAM{numbers})', 2: f'(RLA{numbers}-{m.fields.get("31")})'}.get(value, f'(LRM{numbers}-RMK/{value})')

    def dump(self):
        yield f'next {self.next:03} highest {self.highest:03}'
        for table in (self.sent, self.received):
            for r in table:
                yield from show(r)
        for q in self.open:
            if q:
                yield f'{q.number:03} {q.text}'
        for n in range(1000):
            if self.given.get(n):
                yield f'{n:03} {self.given[n]:03}'


class World:
    def __init__(self):
        self.ends = {name: End(places) for name, places in PLACES.items()}
        self.lines, self.out = [], []
        self.seen = set()

    def do(self, line):
        """Runs a line of a script; answers the number and the text."""
        self.lines.append(line)
        name, letter, rest = line[0], line[1], line[2:]
        end, other = self.ends[name], self.ends['B' if name == 'A' else 'A']
        if letter == 'o':
            end.room = int(rest)
            return None
        if letter == 'x':
            end.broken ^= {rest}
            return None
        if letter == 'p':
            self.say('B' if name == 'A' else 'A', 'r', other.receive(end.last, False))
            return self.say(name, 'r', end.receive(other.last, False))
        call = dict(u=end.set_up, s=end.send, r=end.receive, n=end.resend)[letter.lower()]
        return self.say(name, letter.lower(), call(rest, letter.isupper()))

    def say(self, name, letter, answer):
        self.seen.add((letter, answer[0]))
        if answer[0] == 0:
            self.ends[name].last = answer[1]
        self.out.append(f'{name} ' + ' '.join(str(a) if not isinstance(a, int) or i else str(a) for i, a in enumerate(answer)).strip())
        return answer

    def dump(self):
        return [line for end in self.ends.values() for line in end.dump()]


AB, BA = 'AAAA/BBBB000', 'BBBB/AAAA000'


def scripted(w):
    """Each type, each refusal of each call, and the errors that were seen in other ends."""
    do = w.do
    fpl = lambda craft, place='KSEA', to='CYOW', unit=AB: f'(FPL{unit}-{craft}/A1234-IS-2B738/M-SDE3/LB1-{place}2359-N0450F350 J20 SEA-{to}0430 CYUL-DOF/1)'
    cpl = lambda craft, unit=AB: f'(CPL{unit}-{craft}-VN-C172/L-S/C-KFAR-HML/2042F350-K0200A055 DCT-CYWG-0)'
    ref = lambda n, unit='AAAA/BBBB': f'{unit}{n:03}'
    # before set-up nothing is well formed; sizes, then names
    for call in ('As' + fpl('X1'), 'Ar(LAM)', 'An000', 'AUAAAA BBBB', 'AuAAAA AAAA', 'AuAAA BBBB', 'AuAAAA BBbB', 'AuAAAA BBBBB'):
        do(call)
    do('AuAAAA BBBB')
    do('BuBBBB AAAA')
    for call in ('AS' + fpl('X1'), 'AR(LAM)', 'AN000'):
        do(call)
    # damage
    for table, at in ((0, 740), (1, 0), (2, 1280), (3, 77)):
        do(f'Ax{table}{at:05}')
        do('As' + fpl('X1'))
        do('An000')
        do('Ar(LAM)')
        do(f'Ax{table}{at:05}')
    # filing
    do('Asno message')
    do('As(LAMAAAA/BBBB000BBBB/AAAA000)')
    do('Ao10')
    do('As' + fpl('AAL72'))
    do('Ao1100')
    do('As' + fpl('AAL72'))
    do('As' + fpl('AAL72'))
    do('An000')
    do('Ao20')
    do('An000')
    do('Ao1100')
    do('An999')
    do('Bo10')
    do('Br' + w.ends['A'].last)
    do('Bo1100')
    filed = w.ends['A'].last
    do('Ap')
    do('Br' + filed)
    do('As' + fpl('AAL72'))
    do('As' + cpl('UAL1021'))
    do('Ap')
    # a text that is not read, wrong units, an answer to nothing
    do('Br(FPLAAAA/BBBB003-')
    do('Br(FPLCCCC/BBBB003-AAL9-IS-2B738/M-SDE3/LB1-KSEA2359-N0450F350 J20-CYOW-0)')
    do('Br(CNLAAAA/BBBB003CCCC/BBBB000-AAL72-KSEA-CYOW-0)')
    do('Ar(LAMBBBB/AAAA003AAAA/BBBB004)')
    do('Ar(LAMBBBB/AAAA777AAAA/BBBB777)')
    # changes: of the key, of all else; the key of another; a repeat after a later one
    do(f'As(CHG{AB}{ref(0)}-AAL72-KSEA-CYOW-07/AAL73)')
    first = w.ends['A'].last
    do('Ap')
    do(f'As(CHG{AB}{ref(0)}-AAL73-KSEA-CYOW-RMK/OWN-08/V-09/B739/H-10/S/C-13/KPDX0010-15/M082VFR DCT-16/CYVR-18/0)')
    do('Ap')
    do('Br' + first)
    do(f'As(CHG{AB}{ref(0)}-AAL73-KPDX-CYVR-07/AAL73/A7777)')
    do('Ap')
    do(f'As(CHG{AB}{ref(0, "CCCC/BBBB")}-AAL73-KPDX-CYVR-08/I)')
    do(f'As(CHG{AB}{ref(9)}-AAL73-KPDX-CYVR-08/I)')
    # estimate: with another code, then right
    do(f'As(EST{AB}{ref(0)}-AAL73/A1234-KPDX-46N078W/2042F350F370B-CYVR)')
    do(f'As(EST{AB}{ref(0)}-AAL73/A7777-KPDX-46N078W/2042F350F370B-CYVR)')
    do('Ap')
    # an offer, answered wrongly, then rightly; P12
    do(f'As(RTI{AB}{ref(0)}-AAL73-KPDX-CYVR-SECTOR 31-TRACK 32)')
    n = w.ends['A'].open[0].number
    do(f'Ar(LAMBBBB/AAAA{n:03}AAAA/BBBB{n:03})')
    do('Ap')
    do(f'Ar(RLABBBB/AAAA{n:03}AAAA/BBBB{n:03}-X)')
    do(f'As(CNL{AB}{ref(0)}-AAL73-KPDX-CYVR-0)')
    # an old number answered RLA, on another text; the same RTI with another field 31
    do(f'Br(RTIAAAA/BBBB{n:03}{ref(0)}-AAL73-KPDX-CYVR-OTHER-TRACK 32)')
    do(f'Br(CNLAAAA/BBBB{n:03}{ref(0)}-AAL73-KPDX-CYVR-0)')
    # retract and acceptance cross: the acceptance wins
    do(f'As(RTA{AB}{ref(n)}-AAL73-KPDX-CYVR-S)')
    retract = w.ends['A'].last
    do(f'Bs(RTA{BA}{ref(n)}-AAL73-KPDX-CYVR-S)')
    accept = w.ends['B'].last
    do(f'Bs(RTA{BA}{ref(n)}-AAL73-KPDX-CYVR-S)')
    do('Ar' + accept)
    do(f'Br(LRMAAAA/BBBB000BBBB/AAAA000-RMK/57)')
    do('Br' + w.ends['A'].last)
    do('Br' + retract)
    do('Ar' + w.ends['B'].last)
    do(f'As(RTA{AB}{ref(n)}-AAL73-KPDX-CYVR-S)')
    do(f'As(RTA{AB}{ref(n, "CCCC/DDDD")}-AAL73-KPDX-CYVR-S)')
    # an acceptance of an offer still unanswered retires it
    do(f'As(RTI{AB}{ref(1)}-UAL1021-KFAR-CYWG-S31-T32)')
    m = w.ends['A'].open[0].number
    offer = w.ends['A'].last
    do('Br' + offer)
    rla = w.ends['B'].last
    do(f'Bs(RTA{BA}{ref(m)}-UAL1021-KFAR-CYWG-S)')
    do('Ao10')
    do('Ar' + w.ends['B'].last)
    do('Ao1100')
    do('Ar' + w.ends['B'].last)
    do('Br' + w.ends['A'].last)
    do('Ar' + rla)
    do(f'As(CNL{AB}{ref(1)}-UAL1021-KFAR-CYWG-0)')
    do('Ap')
    # the table is full: at the sender 11, at the receiver LRM 62; a rejected message leaves nothing
    for craft in ('AA1', 'AA2', 'AA3'):
        do('As' + fpl(craft))
        do('Ap')
    do(f'Br(FPLAAAA/BBBB{w.ends["A"].next:03}-AA9-IS-2B738/M-SDE3/LB1-KSEA2359-N0450F350 J20-CYOW-0)')
    # 16 unanswered, and the 17th; then they are answered, and the last one finds no place
    for i in range(17):
        do('Bs' + fpl(f'B{i:02}', unit=BA))
    texts = [q.text for q in w.ends['B'].open]
    for text in texts:
        do('Ar' + text)
        do('Br' + w.ends['A'].last)
    do('Bs' + fpl('B16', unit=BA))
    do('Bp')
    # one stays unanswered, and after 400 more numbers nothing is sent
    do('Bs' + fpl('B17', unit=BA))
    kept = w.ends['B'].last
    for i in range(401):
        if do(f'Bs(CHG{BA}BBBB/AAAA{w.ends["B"].sent[0]["first"]:03}-B00-KSEA-CYOW-08/{"IV"[i % 2]})')[0] == 0:
            do('Bp')
    # a stale number, and numbers that are old again
    do('Ar' + kept)
    do('Ar' + kept[:13] + f'{(w.ends["A"].highest + 500) % 1000:03}' + kept[16:])


def many(w, messages):
    """Numbers come round twice at one end; texts are lost, repeated and late."""
    choice = random.Random(1)
    do = w.do
    do('AuAAAA BBBB')
    do('BuBBBB AAAA')
    count = dict(A=0, B=0)
    while count['A'] < messages:
        name = choice.choice('AAAB')
        other = 'B' if name == 'A' else 'A'
        end = w.ends[name]
        unit = AB if name == 'A' else BA
        own, theirs = unit[:9], (BA if name == 'A' else AB)[:9]
        r = choice.choice([r for r in end.sent if r] + [None])
        offers = [r for r in end.received if r and r['handoff'] == 1]
        if offers and choice.random() < 0.5:
            r = choice.choice(offers)
            draft = f'(RTA{unit}{theirs}{r["offer"]:03}-{r["aircraft"]}-{r["departure"]}-{r["destination"]}-S)'
        elif r is None:
            draft = f'({choice.choice(("FPL", "CPL"))}{unit}-F{choice.choice("123456")}-I-B738/M-S/C-'
            draft += 'KSEA2359-N0450F350 A-CYOW-0)' if draft[1] == 'F' else 'KSEA-HML/2042F350-K0200A055 A-CYOW-0)'
        else:
            kind = choice.choice(('CHG', 'EST', 'CNL', 'RTI', 'RTA'))
            names = f'{r["aircraft"]}-{r["departure"]}-'
            names += f'HML/2042F350-{r["destination"]}' if kind == 'EST' else r['destination']
            tail = dict(CHG=f'-07/F{choice.choice("123456")}', CNL='-0', RTI=f'-S{choice.choice("12")}-T', RTA='-S', EST='')[kind]
            draft = f'({kind}{unit}{own}{(r["offer"] if kind == "RTA" else r["first"]):03}-{names}{tail})'
        # what would be refused is tried now and then only
        if copy.deepcopy(end).send(draft, False)[0] and choice.random() < 0.95:
            if any(end.open) and choice.random() < 0.3:
                do(f'{name}n{choice.choice([q for q in end.open if q]).number:03}')
                do(f'{name}p')
            continue
        if do(f'{name}s{draft}')[0] == 0:
            count[name] += 1
            if choice.random() < 0.85:
                do(f'{name}p')
        # a late copy
        waiting = [q.text for q in w.ends[other].open if q]
        if waiting and choice.random() < 0.2:
            do(f'{name}r{choice.choice(waiting)}')


def main():
    w = World()
    scripted(w)
    first = w.dump()
    w.out += first
    w.lines.append('')
    many(w, 2100)
    w.out += w.dump()
    if sys.argv[1:] == ['--script']:
        print('\n'.join(w.lines))
    elif sys.argv[1:] == ['--seen']:
        for letter in 'usrn':
            print(letter, *sorted(n for l, n in w.seen if l == letter))
    else:
        print('\n'.join(w.out))


if __name__ == '__main__':
    main()
