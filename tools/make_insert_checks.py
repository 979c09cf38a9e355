#!/usr/bin/env python3
"""make_insert_checks.py CRATE: makes CRATE/stdin, cases of a dump and a key file one after the other, and CRATE/stdout, what
`insert_check` prints for each (document 02, W-209). The repairs are those of make_list_cards.py; the reason is worked out here on
lists."""
import re, sys
from make_list_cards import NODES, PLAIN, REFUSED, REPAIRED, dump, fault, inner, leaf, mended, nodes, pairs, run, wide

CASE = 128 # a byte for the length of the key file, and room for the file

def reason(t, key):
    """what an insert of the key meets in the table, once it is repaired"""
    way = fault(t)
    while way:
        t = mended(t, way)
        way = fault(t)
    free, run_above = NODES - nodes(t), 0
    while t[0] != 'leaf':
        run_above = run_above + 1 if len(t[2]) == 11 else 0
        t = t[2][sum(k <= key for k in t[1])]
    held = dict(pairs(t))
    if key in held: return 'held %d' % held[key]
    if len(held) < 11: return 'slot'
    return 'split %d free %d need %d' % (run_above, free, run_above + 5)

def key_in(file):
    last = file[:-1].split(b'\n')[-1] if file.endswith(b'\n') else file.split(b'\n')[-1]
    if len(file) > 64 or not re.fullmatch(b'[0-9]+', last): return 0
    return int(last) if 1 <= int(last) < 2 ** 32 else 0

def full(first):
    return run(first, 11)

def with_full(t, i):
    """the same with child i a full leaf"""
    first = min(k for k, _ in pairs(t[2][i]))
    return (t[0], t[1], t[2][:i] + [full(first)] + t[2][i + 1:])

def far(first, count):
    """an internal node of so many leaves of two pairs, 100 apart"""
    return inner([first + 100 * i for i in range(1, count)], *[run(first + 100 * i, 2) for i in range(count)])

ROOT = full(1)
CASES = [
    (PLAIN, b'1\n'), (PLAIN, b'21'), (PLAIN, b'0000000003\n'), (PLAIN, b'20\n4294967295\n'), (ROOT, b'11'),
    (ROOT, b'12\n'), # a root that is full
    (REPAIRED[0], b'50'), (REPAIRED[5], b'6\n'), # after a repair
    (with_full(far(100, 11), 3), b'450'), # below a root with 11 children
    (inner([3000], with_full(far(100, 10), 3), far(3000, 9)), b'450'), # three free nodes, and below a node with 10 children
    (inner([3000], with_full(far(100, 11), 3), far(3000, 8)), b'450'), # .. and with 11
    (inner([3000], with_full(far(100, 11), 3), far(3000, 8)), b'250'),
    (PLAIN, b''), (PLAIN, b'\n'), (PLAIN, b'0\n'), (PLAIN, b'4294967296\n'), (PLAIN, b'7 \n'), (PLAIN, b'7\n\n'),
    (PLAIN, b'0' * 64 + b'7'), (PLAIN, b'0' * 63 + b'7'),
]

def main():
    crate = sys.argv[1]
    cases = [(dump(t, NODES), key_in(f), f, t) for t, f in CASES]
    out, said = b'', ''
    for d, key, file, t in cases:
        out += d + bytes([len(file)]) + file.ljust(CASE - 1, b'\0')
        said += (reason(t, key) if key else 'no key') + '\n'
    for (number, d), file in zip([r for r in REFUSED if r[0] != 3], [b'7\n', b'7\n', b'', b'7\n']):
        out += d + bytes([len(file)]) + file.ljust(CASE - 1, b'\0')
        said += 'refused %d\n' % number
    open(crate + '/stdin', 'wb').write(out)
    open(crate + '/stdout', 'w').write(said)

main()
