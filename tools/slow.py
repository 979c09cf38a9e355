#!/usr/bin/env python3
"""slow.py CRATE: how long the check of each function of a crate takes, and of which of its modules. Reads the times at which the
modules were written, one after the other, to crates/CRATE/out/incremental; so remove that folder and run `rt check --jobs 1` in
crates/CRATE first. A check begins with what the checks of other checkouts on this machine kept of the same files: where its line
`crate CRATE: modules loaded=N` does not say 0, what was taken from there took no time here."""
import collections, glob, os, sys

crate = sys.argv[1]
made = glob.glob('crates/%s/out/incremental/*/Rattle-%s*.oantt' % (crate, crate))
files = sorted((os.stat(f).st_mtime_ns, os.path.basename(f)) for f in made if not os.path.dirname(f).endswith('-offers'))
if not files:
    sys.exit('no modules in crates/%s/out/incremental: run `rt check --jobs 1` in crates/%s' % (crate, crate))
functions, kinds = collections.Counter(), collections.Counter()
before = files[0][0]
for time, name in files:
    # the library, as Rattle-CRATE-proofs, then the function and the module; a name in capitals alone is of specs/ or proofs/
    parts = name[:-len('.oantt')].split('.')[1:]
    end = next((i for i, part in enumerate(parts) if part[:1].isupper()), len(parts))
    function, kind = '.'.join(parts[:end] or parts) or 'the library', parts[end] if 0 < end < len(parts) else 'Contract' if end else 'of its own'
    functions[function] += time - before
    kinds[kind] += time - before
    before = time
for title, counts in ('function', functions), ('module', kinds):
    print('seconds by', title)
    for name, t in counts.most_common(20): print('%7.2f %s' % (t / 1e9, name))
