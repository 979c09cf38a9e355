#!/usr/bin/env python3
"""make_list_cards.py CRATE: makes CRATE/stdin, dumps of cards one after the other: one for each kind of repair and one for each
refusal of `list`; and CRATE/stdout, what `list` prints for each. make_list_cards.py --of-601 CRATE: makes CRATE/stdin, the dump of a
sound card of 601 nodes, and CRATE/stdout, the refusals of `list` and `insert_check`. The repairs are worked out here on lists, from document 01's "The
changes" and from nothing else; node numbers and stores play no part. The pairs are listed by rising key (document 02, W-201), after
the families that hold one (W-204)."""
import struct, sys

# A leaf is ('leaf', [(key, value), ..]) with its slots in their order, (0, x) an empty one; an internal node is
# [kind, routing keys, children], kind 'inner' or 'tag'.
def leaf(*slots): return ('leaf', list(slots))
def inner(keys, *children): return ('inner', list(keys), list(children))
def tag(key, a, b): return ('tag', [key], [a, b])
def run(first, count): return leaf(*[(k, 10 * k) for k in range(first, first + count)])

def pairs(t):
    if t[0] == 'leaf': return [p for p in t[1] if p[0]]
    return [p for c in t[2] for p in pairs(c)]

def levels(t): return 0 if t[0] == 'leaf' else levels(t[2][0]) + (t[0] != 'tag')
def nodes(t): return 1 + (sum(map(nodes, t[2])) if t[0] != 'leaf' else 0)

def faulty(t):
    return t[0] == 'tag' or len(pairs(t) if t[0] == 'leaf' else t[2]) < 2

def fault(t, way=()):
    """the way to the one fault below the root"""
    if t[0] == 'leaf': return None
    for i, c in enumerate(t[2]):
        w = way + (i,) if faulty(c) else fault(c, way + (i,))
        if w: return w

def at(t, way):
    for i in way: t = t[2][i]
    return t

def put(t, way, new):
    if not way: return new
    children = list(t[2])
    children[way[0]] = put(children[way[0]], way[1:], new)
    return (t[0], t[1], children)

def mended(t, way):
    """the table after the change that the fault at the end of a way is due"""
    above, i = way[:-1], way[-1]
    p = at(t, above)
    if p[2][i][0] == 'tag':
        keys = p[1][:i] + p[2][i][1] + p[1][i:]
        children = p[2][:i] + p[2][i][2] + p[2][i + 1:]
        if len(children) <= 11: return put(t, above, ('inner', keys, children))
        halves = [('inner', keys[:5], children[:6]), ('inner', keys[6:], children[6:])]
        return put(t, above, ('tag' if above else 'inner', [keys[5]], halves))
    j = max(i - 1, 0)
    x, y = p[2][j], p[2][j + 1]
    if x[0] == 'leaf':
        both = sorted(pairs(x) + pairs(y))
        h = (len(both) + 1) // 2
        parts, key, whole = [leaf(*both[:h]), leaf(*both[h:])], both[h][0] if h < len(both) else 0, leaf(*both)
    else:
        keys, both = x[1] + [p[1][j]] + y[1], x[2] + y[2]
        h = (len(both) + 1) // 2
        parts, key, whole = [inner(keys[:h - 1], *both[:h]), inner(keys[h:], *both[h:])], keys[h - 1], inner(keys, *both)
    if 4 <= len(both):
        return put(t, above, ('inner', p[1][:j] + [key] + p[1][j + 1:], p[2][:j] + parts + p[2][j + 2:]))
    if not above and len(p[2]) == 2: return whole
    return put(t, above, ('inner', p[1][:j] + p[1][j + 1:], p[2][:j] + [whole] + p[2][j + 2:]))

def text(t, n):
    way = fault(t)
    while way:
        t = mended(t, way)
        way = fault(t)
    ps = sorted(pairs(t))
    first = 'nodes %d free %d levels %d pairs %d\n' % (n, n - nodes(t), levels(t), len(ps))
    return first + families(ps) + ''.join('%d %d\n' % p for p in ps)

def families(ps):
    """a line for each family, "the top 4 bits of a ration number", that holds a pair, rising"""
    held = [k // FAMILY for k, _ in ps]
    return ''.join('family %d %d\n' % (f, held.count(f)) for f in sorted(set(held)))

def dump(t, n):
    words = [0] * (8 + 24 * n)
    words[:5] = [1, n, 8, 24, 1]
    last = [0]
    def store(t):
        last[0] += 1
        m = last[0]
        at = 8 + 24 * (m - 1)
        words[at] = {'leaf': 1, 'inner': 2, 'tag': 3}[t[0]]
        if t[0] == 'leaf':
            for i, (k, v) in enumerate(t[1]): words[at + 1 + i], words[at + 12 + i] = k, v
        else:
            for i, k in enumerate(t[1]): words[at + 1 + i] = k
            for i, c in enumerate(t[2]): words[at + 12 + i] = store(c)
        return m
    store(t)
    packed = struct.pack('<%dI' % len(words), *words)
    return packed + b'\0' * (-len(packed) % 512)

def wide(first, count):
    """an internal node of so many leaves of two pairs each"""
    return inner([first + 10 * i for i in range(1, count)], *[leaf((0, 9), (first + 10 * i + 1, i), (first + 10 * i, 7)) for i in range(count)])

def with_tag(t):
    """the same with its first leaf under a tagged node, beside another"""
    a, key = t[2][0], pairs(t[2][0])[0][0] - 1
    return ('inner', t[1], [tag(key + 3, a, run(key + 3, 2))] + t[2][1:])

# all of 25 nodes, so that their dumps are of one length
NODES = 25

# how many numbers a family has
FAMILY = 2 ** 28

REPAIRED = [
    # a tagged node: a parent with at most 10 children, a root with 11, another parent with 11
    inner([50], tag(20, run(1, 3), run(20, 4)), run(50, 2)),
    with_tag(wide(100, 11)),
    inner([1000], with_tag(wide(100, 11)), wide(1000, 2)),
    # an underfull leaf: shared out, merged, merged into the root; as child 0 and as another
    inner([20, 40], leaf((0, 1), (0, 2), (5, 50)), run(20, 7), run(40, 2)),
    inner([20, 40], run(1, 2), leaf((33, 1)), run(40, 5)),
    inner([20], leaf((7, 70)), run(20, 2)),
    # an underfull internal node: shared out, merged, merged into the root
    inner([100], inner([], run(1, 2)), inner([200, 300], run(100, 2), run(200, 2), run(300, 3))),
    inner([100, 500], inner([], run(1, 2)), inner([200], run(100, 2), run(200, 2)), inner([600], run(500, 2), run(600, 2))),
    inner([100], inner([50], run(1, 2), run(50, 2)), inner([], run(100, 2))),
    # keys at the ends of families, some of which hold nothing
    inner([FAMILY], leaf((FAMILY - 1, 1)), leaf((15 * FAMILY, 2), (16 * FAMILY - 1, 3), (15 * FAMILY - 1, 4), (FAMILY, 5), (2 * FAMILY, 6), (2 * FAMILY - 1, 7))),
]

def poked(t, place, byte):
    """the dump of a table with one byte set from outside"""
    d = bytearray(dump(t, NODES))
    d[place] = byte
    return bytes(d)

PLAIN = inner([20], run(1, 2), run(20, 2))

REFUSED = [
    (2, poked(PLAIN, 0, 0)), # the mark
    (3, poked(PLAIN, 4 * 3, 23)), # words per node
    (4, poked(PLAIN, 4 * (8 + 1), 21)), # a routing key that leaves key 20 out of its leaf's range
    (5, dump(inner([1000], wide(100, 10), wide(1000, 10)), NODES)), # two free nodes
    (11, poked(PLAIN, len(dump(PLAIN, NODES)) - 1, 1)), # the last padding byte
]

def main():
    crate = sys.argv[-1]
    if sys.argv[1] == '--of-601':
        open(crate + '/stdin', 'wb').write(dump(PLAIN, 601))
        open(crate + '/stdout', 'w').write('refused 11\n' * 2)
        return
    open(crate + '/stdin', 'wb').write(b''.join([dump(t, NODES) for t in REPAIRED] + [d for _, d in REFUSED]))
    open(crate + '/stdout', 'w').write(''.join([text(t, NODES) for t in REPAIRED] + ['refused %d\n' % r for r, _ in REFUSED]))

if __name__ == '__main__': main()
