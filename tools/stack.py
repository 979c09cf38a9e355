#!/usr/bin/env python3
"""stack.py BINARY NAME..: the stack that a compiled function needs, read off its machine code: for each function whose symbol
contains NAME its own frame (what it pushes and subtracts from the stack pointer), and the most over all chains of calls below it,
with the chain. Recursion is counted once for each depth given as FUNCTION=TIMES."""
import re, subprocess, sys

def read(binary):
    frames, calls, name = {}, {}, None
    for line in subprocess.run(['objdump', '-d', '--no-show-raw-insn', binary], capture_output=True, text=True).stdout.split('\n'):
        m = re.match(r'[0-9a-f]+ <(.+)>:', line)
        if m:
            name = m.group(1)
            frames[name], calls[name] = 0, set()
            continue
        if name is None:
            continue
        if re.search(r'\tpush ', line):
            frames[name] += 8
        m = re.search(r'\tsub +\$0x([0-9a-f]+),%rsp', line)
        if m:
            frames[name] += int(m.group(1), 16)
        m = re.search(r'\t(?:call|jmp) +[0-9a-f]+ <([^+>]+)>', line)
        if m and m.group(1) != name:
            calls[name].add(m.group(1))
        elif m and '\tcall' in line:
            calls[name].add(name)
    return frames, calls

def worst(f, frames, calls, left):
    if f not in frames or f.endswith('@plt'):
        return 8, [f]
    best, chain = 0, []
    for g in calls[f]:
        if g in left:
            if left[g] == 0:
                continue
            deeper = dict(left); deeper[g] -= 1
        else:
            deeper = dict(left); deeper[g] = 0
        n, c = worst(g, frames, calls, deeper)
        if n > best:
            best, chain = n, c
    return frames[f] + 8 + best, [(f, frames[f])] + chain

def main():
    frames, calls = read(sys.argv[1])
    left, names = {}, []
    for a in sys.argv[2:]:
        if '=' in a:
            n, k = a.split('=')
            left[[f for f in frames if n in f][0]] = int(k)
        else:
            names.append(a)
    for f in sorted(f for f in frames if any(n in f for n in names)):
        n, chain = worst(f, frames, calls, dict(left, **{f: left.get(f, 0)}))
        print(f, 'frame', frames[f], 'in all', n, ' > '.join(str(c) for c in chain))

main()
