#!/usr/bin/env python3
"""Plan records, and the lines that the plan printer has to print for them.

  tests/records.py write            writes crates/plan_printer/stdin and stdout
  tests/records.py many N [SEED]    writes N random records to standard output
  tests/records.py check N [SEED]   runs crates/plan_printer/out/plan_printer on N random records and a short one,
                                    and on parts of them, and compares what it prints

Run it in the repository's root. The reader below is written from document 01 alone ("Plan record",
"Read a plan", "The plan printer") and shares nothing with the program.
"""
import calendar
import random
import subprocess
import sys

PRINTER = 'crates/plan_printer'


# The reader.

class Refused(Exception):
    pass


def digits(b):
    """The number of some bytes, two decimal digits each; None where a digit is above 9."""
    text = b.hex()
    return int(text) if text.isdigit() else None


def is_date(d):
    y, m, day = d // 10000, d // 100 % 100, d % 100
    return 2000 <= y <= 2099 and 1 <= m <= 12 and 1 <= day <= calendar.monthrange(y, m)[1]


def numbers(s):
    """The numbers of a record's line."""
    if len(s) != 66:
        raise Refused(1)
    n, word = s[8], s[9]
    if not 1 <= n <= 6:
        raise Refused(2)
    if n == 1:
        word = 0
    elif not 1 <= word <= 5:
        raise Refused(3)
    start, end = digits(s[0:4]), digits(s[4:8])
    extra = [digits(s[10:14]), digits(s[14:18])] if word in (4, 5) else []
    pairs = [digits(s[18 + 4 * k:22 + 4 * k]) for k in range(2 * n)]
    if None in [start, end] + extra + pairs:
        raise Refused(4)
    dates = [start, end] + {4: extra, 5: extra[:1]}.get(word, [])
    if not all(map(is_date, dates)):
        raise Refused(5)
    first, last = (max(start, extra[0]), min(end, extra[1])) if word == 4 else (start, end)
    if not first < last or word == 5 and extra[1] == 0:
        raise Refused(6)
    if 0 in pairs[1::2]:
        raise Refused(7)
    return [start, end, n, word] + extra + pairs


def line(s):
    try:
        return ' '.join(map(str, numbers(s))) + '\n'
    except Refused as r:
        return 'refused %d\n' % r.args[0]


def lines(s):
    return ''.join(line(s[i:i + 66]) for i in range(0, len(s), 66))


# Records.

def record(start, end, steps, word, first='00000000', second='00000000', pairs=()):
    """A record from its fields in hexadecimal; fields that are not given are zero."""
    text = start + end + steps + word + first + second + ''.join(pairs)
    return bytes.fromhex(text.ljust(132, '0'))


PLAN_A = record('20200101', '20210101', '02', '01', pairs=['00002500', '00026000', '99999999', '00031500'])
YEAR = ['00012000', '00028000', '00008000', '00035000', '99999999', '00042000']

TABLES = [
    # C.3, one step; C.4, months; C.5, quarters; C.6, years
    record('20150301', '20180101', '01', '00', pairs=['99999999', '00028000']),
    record('20150301', '20180101', '02', '01', pairs=['00003000', '00028000', '99999999', '00035000']),
    record('20150101', '20180101', '03', '02', pairs=['00008000', '00028000', '00006000', '00035000', '99999999', '00042000']),
    record('20150101', '20180101', '03', '03', pairs=YEAR),
    # C.7, a window; C.8, ninety days
    record('20150101', '20180101', '03', '04', '20150613', '20150901',
           ['00006000', '00028000', '00004000', '00035000', '99999999', '00042000']),
    record('20150101', '20180101', '03', '05', '20150101', '00000090', YEAR),
    # C.9, its values of seven digits with a zero in front
    record('20000101', '20180101', '02', '01', '20150301', '00000090', ['00000005', '00010000', '99999999', '00020000']),
    # C.10; C.11, its blank last price as 00042000
    record('20150101', '20180101', '03', '04', '20150915', '20160101',
           ['00003517', '00028000', '00008000', '00035000', '99999999', '00042000']),
    record('20150101', '20180101', '03', '03', '20160101', '20180101', YEAR),
]

AT = {'start': 0, 'end': 4, 'steps': 8, 'word': 9, 'first': 10, 'second': 14,
      'width 1': 18, 'price 1': 22, 'width 2': 26, 'price 2': 30}


def plan_a(**fields):
    """Plan A with other fields, each by its name and in hexadecimal."""
    s = bytearray(PLAN_A)
    for name, text in fields.items():
        at, b = AT[name.replace('_', ' ')], bytes.fromhex(text)
        s[at:at + len(b)] = b
    return bytes(s)


def window(first, second, **fields):
    return plan_a(word='04', first=first, second=second, **fields)


def runs(first, days, **fields):
    return plan_a(word='05', first=first, second=days, **fields)


# Plan A damaged, with the number that each has to be refused with
DAMAGED = [(2, plan_a(steps=x)) for x in ('00', '07', '0a')] + [(3, plan_a(word=x)) for x in ('00', '06', '0a')] + [
    (4, plan_a(start='2020010a')), (4, plan_a(end='a0210101')), (4, plan_a(width_2='0000a500')), (4, plan_a(price_1='000260f0')),
    (4, window('2020060a', '20200901')), (4, window('20200601', 'b0200901')),
    (5, plan_a(start='20200230')), (5, plan_a(end='21000101')),
    (5, window('20200631', '20200901')), (5, window('20200601', '20201301')), (5, runs('20210229', '00000030')),
    (6, plan_a(start='20210101')), (6, plan_a(start='20210102')),
    (6, window('20190101', '20200101')), (6, window('20210101', '20210601')), (6, window('20200601', '20200601')),
    (6, runs('20200110', '00000000')),
    (7, plan_a(price_1='00000000')), (7, plan_a(price_2='00000000')),
]

# the unread bytes are anything: the extra fields and the pairs beyond two; the word of one step and the pairs beyond one
UNREAD = [PLAN_A[:10] + b'\xff' * 8 + PLAN_A[18:34] + b'\xee' * 32,
          PLAN_A[:8] + b'\x01\xff' + b'\xaa' * 8 + PLAN_A[18:26] + b'\xbb' * 40]


def listed():
    return b''.join([PLAN_A] + TABLES + [s for _, s in DAMAGED] + UNREAD + [PLAN_A[:65]])


def write():
    assert line(PLAN_A) == '20200101 20210101 2 1 2500 26000 99999999 31500\n'
    assert all(line(s) == 'refused %d\n' % n for n, s in DAMAGED)
    assert not any(line(s).startswith('refused') for s in TABLES + UNREAD)
    open(PRINTER + '/stdin', 'wb').write(listed())
    open(PRINTER + '/stdout', 'w').write(lines(listed()))


# Random records: good plans of every word and number of steps, one in sixteen of them damaged in a few bits.

def random_date(r):
    y, m = r.randint(2000, 2099), r.randint(1, 12)
    return '%04d%02d%02d' % (y, m, r.randint(1, calendar.monthrange(y, m)[1]))


def random_record(r):
    a, b, c, d = sorted(random_date(r) for _ in range(4))
    n, word = r.randint(1, 6), r.randint(1, 5)
    extra = {4: [b, c], 5: [b, '%08d' % r.randint(1, 400)]}.get(word, ['00000000', '00000000'])
    pairs = ['%08d' % r.randrange(lo, 10 ** r.randint(1, 8)) for _ in range(n) for lo in (0, 1)]
    s = bytearray(record(a, d, '%02d' % n, '%02d' % word, *extra, pairs))
    if r.random() < 1 / 16:
        for _ in range(r.randint(1, 3)):
            s[r.randrange(66)] ^= 1 << r.randrange(8)
    return bytes(s)


def many(n, seed):
    r = random.Random(seed)
    return b''.join(random_record(r) for _ in range(n))


def printed(s):
    return subprocess.run(['crates/plan_printer/out/plan_printer'], input=s, capture_output=True, check=True).stdout.decode()


def check(n, seed):
    s = many(n, seed) + PLAN_A[:65]
    wanted = lines(s)
    counts = ', '.join('%d refused %d' % (wanted.count('refused %d\n' % k), k) for k in range(1, 8))
    same = printed(s) == wanted
    print('%d records, %s: %s' % (n + 1, counts, 'the same' if same else 'DIFFERENT'))
    # inputs that end about where the program's pieces of 992 records do
    ends = [0, 1, 65, 66, 67] + [k * 65472 + d for k in (1, 2) for d in (-66, -1, 0, 1, 66)]
    wrong = [k for k in ends if k <= len(s) and printed(s[:k]) != lines(s[:k])]
    print('inputs of other lengths: %s' % ('DIFFERENT at %s' % wrong if wrong else 'the same'))
    return 0 if same and not wrong else 1


def main(words):
    if words[:1] == ['write']:
        return write()
    if words[:1] in (['many'], ['check']) and len(words) in (2, 3):
        n, seed = int(words[1]), int(words[2]) if len(words) == 3 else 1
        if words[0] == 'check':
            return check(n, seed)
        sys.stdout.buffer.write(many(n, seed))
        return 0
    sys.exit(__doc__)


if __name__ == '__main__':
    sys.exit(main(sys.argv[1:]))
