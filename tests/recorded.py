#!/usr/bin/env python3
"""What the program `recorded` has to print for a list of texts: document 01's rules for records, worked out again here and
not from the project's code. Texts are taken to be well made; a line that is none is not read."""
import re
import sys

WIDTHS = dict(aircraft=7, code=4, departure=4, time=4, destination=4, f08=2, f09=8, f10=61, f14=27, rest16=14, f15=300, f18=300)
NUMBER = r'([A-Z]{4})/([A-Z]{4})(\d{3})'


def field07(text):
    aircraft, _, code = text.partition('/A')
    return dict(aircraft=aircraft, code=code)


def field13(text):
    return dict(departure=text[:4], time=text[4:])


def field16(text):
    return dict(destination=text[:4], rest16=text[4:])


def parse(line):
    m = re.fullmatch(r'\(([A-Z]{3})' + NUMBER + r'(?:' + NUMBER + r')?-(.*)\)', line)
    if not m:
        return None
    kind, own, reference, fields = m[1], m.groups()[1:4], m.groups()[4:7], m[8].split('-')
    named = dict(
        FPL=['07', '08', '09', '10', '13', '15', '16', '18'],
        CPL=['07', '08', '09', '10', '13', '14', '15', '16', '18'],
        EST=['07', '13', '14', '16'],
        CHG=['07', '13', '16'],
        CNL=['07', '13', '16', '18'],
        RTI=['07', '13', '16', '31', '32'],
        RTA=['07', '13', '16', '31'],
    )[kind]
    parts = {}
    for number, text in zip(named, fields):
        parts.update(whole(number, text))
    changes = [f for f in fields[len(named):] if re.match(r'(07|08|09|10|13|15|16|18)/', f)] if kind == 'CHG' else []
    return kind, own, reference, parts, [(f[:2], f[3:]) for f in changes]


def whole(number, text):
    return {'07': field07, '13': field13, '16': field16}.get(number, lambda t: {'f' + number: t})(text)


def key(record):
    return record['aircraft'], record['departure'], record['destination']


def apply(table, line):
    message = parse(line)
    if message is None:
        return 'not read'
    kind, own, reference, parts, changes = message
    at = next((i for i, r in enumerate(table) if r and key(r) == key(parts)), None)
    refers = reference[:2] == own[:2]
    if kind in ('FPL', 'CPL'):
        if at is not None:
            return 'condition fails'
        if None not in table:
            return 'no place is free'
        record = {name: '' for name in WIDTHS}
        record.update({k: v for k, v in parts.items() if k in WIDTHS})
        record.update(status=1 if kind == 'FPL' else 2, handoff=0, first=int(own[2]), offer=0)
        at = table.index(None)
        table[at] = record
        return f'done at {at}'
    if at is None:
        return 'condition fails'
    record = table[at]
    first = refers and int(reference[2]) == record['first']
    code = not parts.get('code') or parts['code'] == record['code']
    if kind == 'CHG':
        new = dict(record)
        for number, text in changes:
            new.update(whole(number, text))
        taken = any(r and r is not record and key(r) == key(new) for r in table)
        if not (record['status'] == 1 and first and not taken):
            return 'condition fails'
        table[at] = new
    elif kind == 'EST':
        if not (record['status'] == 1 and first and code):
            return 'condition fails'
        record.update(status=2, f14=parts['f14'])
    elif kind == 'CNL':
        if not (record['handoff'] != 1 and first):
            return 'condition fails'
        table[at] = None
    elif kind == 'RTI':
        if not (record['status'] == 2 and record['handoff'] == 0 and first and code):
            return 'condition fails'
        record.update(handoff=1, offer=int(own[2]))
    else:
        turned = (reference[1], reference[0]) == own[:2]
        if not ((refers or turned) and record['handoff'] == 1 and int(reference[2]) == record['offer']):
            return 'condition fails'
        record['handoff'] = 0 if refers else 2
    return f'done at {at}'


def numbers(record):
    return [record['status'], record['handoff'], *divmod(record['first'], 256), *divmod(record['offer'], 256)]


def show(record):
    if record is None:
        return ['000 ' * 6]
    return [''.join(f'{n:03} ' for n in numbers(record))] + [f'|{record[name]:<{width}}|' for name, width in WIDTHS.items()] + ['zero']


def laid_out(record):
    """the 768 bytes of a place"""
    if record is None:
        return bytes(768)
    texts = ''.join(f'{record[name]:<{width}}' for name, width in WIDTHS.items())
    return (bytes(numbers(record)) + texts.encode()).ljust(768, b'\0')


def main():
    table = [None] * 5
    said = [apply(table, line) for line in sys.stdin.read().splitlines()] + ['well formed', '']
    sys.stdout.buffer.write('\n'.join(said).encode() + b''.join(map(laid_out, table)))


if __name__ == '__main__':
    main()
