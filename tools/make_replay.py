#!/usr/bin/env python3
"""make_replay.py TRACES CRATE: turns traces.txt into CRATE/stdin, the calls alone as a stream of numbers, and CRATE/stdout,
the hash of the results that traces.txt gives: a line for each trace. Every line of the traces is taken, and no number hashed
is worked out here but the CRC of what a refused read or write leaves alone and the length and CRC of the text of `list`.

A line `features`, which says the requests that the results are right for, asks nothing.

The stream: each number in groups of 7 bits, the low ones first, 128 added to each byte but the last. Operations:
    1 N          a new card          2 P Z C W..   from place P: Z zeros, then C words        3 P W   poke
    4            cut, state0         5             crc                                        6       end, the hash is printed
    7 L CALL     on L                8 format      9 open     10 K find     11 K V insert     12 K delete     13 C   C steps
    14 L         a dump of L zeros   15 P C B..    from place P of the dump: C bytes          16 L read     17 L write     18 list
    0            the end
Hashed of a result: refused 1 R; started 2; idle 3 F; repairing 4 F; found 5 V D; absent 6 D; answer V 7 V D; answer absent 8 D (D the
depth); ready 9;
a store 10, place, word; after the result of a step 0, or 1 where the card changed but for that store; read 11, words; write 12,
bytes; after the result of a read or write, refused or not, the CRC of the whole lent slice; list 13, length and CRC of the text;
crc the CRC of the card; end the CRC of the card and the number of stores.
"""
import re, struct, sys, zlib

class Line(Exception):
    pass

def varint(x):
    out = bytearray()
    while x >= 128:
        out.append(x % 128 + 128)
        x //= 128
    out.append(x)
    return bytes(out)

def sevens(form, length):
    """the CRC of a lent slice that was left alone"""
    return zlib.crc32(struct.pack('<%d%s' % (length, form), *[7] * length))

class Replay:
    def __init__(self):
        self.calls = bytearray()
        self.lines = []
        self.number = 0
        self.steps = []

    def put(self, *numbers):
        for x in numbers:
            self.calls += varint(x)

    def feed(self, *numbers):
        for x in numbers:
            self.h = (self.h * 31 + x) % 2**32

    def flush(self):
        """the run of steps in hand"""
        if self.steps:
            self.put(13, len(self.steps))
            for s in self.steps:
                self.feed(*s, 0)
            self.steps = []

    def call(self, f):
        if f[0] == 'format': return (8,)
        if f[0] == 'open': return (9,)
        if f[0] == 'find': return (10, int(f[1]))
        if f[0] == 'insert': return (11, int(f[1]), int(f[2]))
        if f[0] == 'delete': return (12, int(f[1]))
        if f[0] == 'step': return (13, 1)
        raise Line(f)

    def result(self, f):
        if f[0] == 'refused': return (1, int(f[1]))
        if f[0] == 'started': return (2,)
        if f[0] == 'idle': return (3, int(f[1]))
        if f[0] == 'repairing': return (4, int(f[1]))
        if f[0] == 'found' and f[2] == 'depth': return (5, int(f[1]), int(f[3]))
        if f[0] == 'absent' and f[1] == 'depth': return (6, int(f[2]))
        if f[:3] == ['answer', 'absent', 'depth']: return (8, int(f[3]))
        if f[0] == 'answer' and f[2] == 'depth': return (7, int(f[1]), int(f[3]))
        if f[0] == 'ready': return (9,)
        if f[0] == 'store': return (10, int(f[1]), int(f[2]))
        raise Line(f)

    def set_words(self, p, words):
        i = 0
        while i < len(words):
            z = 0
            while i + z < len(words) and words[i + z] == 0: z += 1
            c = 0
            while i + z + c < len(words) and words[i + z + c] != 0: c += 1
            self.put(2, p + i, z, c, *words[i + z:i + z + c])
            i += z + c

    def dump(self, text):
        """hex digits, and (z) for a run of zero bytes; - for no bytes"""
        runs = []
        length = 0
        for part in re.split(r'(\(\d+\))', text.replace('-', '')):
            if part.startswith('('):
                length += int(part[1:-1])
            elif part:
                runs.append((length, bytes.fromhex(part)))
                length += len(runs[-1][1])
        self.put(14, length)
        for place, run in runs:
            self.put(15, place, len(run))
            self.calls += run

    def lent(self, f, operation, tag, unit, form):
        """read L -> words W crc H, write L -> bytes B crc H, or refused R, which leaves the slice alone"""
        length = int(f[1])
        self.put(operation, length)
        if f[3] == 'refused':
            self.feed(1, int(f[4]), sevens(form, length))
        elif f[3::2] == [unit, 'crc']:
            self.feed(tag, int(f[4]), int(f[6], 16))
        else:
            raise Line(f)

    def line(self, text):
        f = text.split()
        if f[0] == 'step':
            self.steps.append(self.result(f[2:]))
            return
        self.flush()
        if f[0] == 'trace':
            self.h = 0
            self.number += 1
            self.put(1, int(f[2]))
        elif f[0] == 'card':
            self.set_words(int(f[1]), [int(x) for x in f[2:]])
        elif f[0] == 'poke':
            self.put(3, int(f[1]), int(f[2]))
        elif f[0] in ('cut', 'state0'):
            self.put(4)
        elif f[0] == 'crc':
            self.put(5)
            self.feed(int(f[1], 16))
        elif f[0] == 'end':
            self.put(6)
            self.feed(int(f[1], 16), int(f[2]))
            self.lines.append('%d %d' % (self.number, self.h))
        elif f[0] == 'dump':
            self.dump(f[1])
        elif f[0] == 'read':
            self.lent(f, 16, 11, 'words', 'I')
        elif f[0] == 'write':
            self.lent(f, 17, 12, 'bytes', 'B')
        elif f[0] == 'list':
            printed = text.split(' -> ')[1].strip('\n').replace('/', '\n').encode()
            self.put(18)
            self.feed(13, len(printed), zlib.crc32(printed))
        else:
            if f[0] == 'on':
                self.put(7, int(f[1]))
                f = f[2:]
            arrow = f.index('->')
            call = self.call(f[:arrow])
            self.put(*call)
            self.feed(*self.result(f[arrow + 1:]))
            if call[0] == 13:
                self.feed(0)

def main():
    replay = Replay()
    for at, text in enumerate(open(sys.argv[1]), 1):
        if text.startswith(('#', 'features ')): continue
        try:
            replay.line(text)
        except Line as e:
            sys.exit('line %d: %s' % (at, e))
    replay.put(0)
    open(sys.argv[2] + '/stdin', 'wb').write(replay.calls)
    open(sys.argv[2] + '/stdout', 'w').write('\n'.join(replay.lines) + '\n')
    print(len(replay.calls), 'bytes of calls,', len(replay.lines), 'traces')

main()
