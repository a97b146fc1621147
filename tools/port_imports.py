#!/usr/bin/env python3
"""Points the imports of every crate at where the column (and backwards) lemmas stand now.

    python3 tools/port_imports.py TOP

A second run changes nothing. Run it on a merged tree: crates that were written against the old places need it.
"""
import os, re, sys
root = os.path.join(sys.argv[1], 'crates')
L, P = 'Rattle.column.specs.Laws', 'Rattle.column.proofs'
where = {('OneByOne', 'coded-lawful'): L + '.Coded', ('LowFirst', 'flat-coding'): L + '.Flat', ('Differences', 'steps-undone'): L + '.Steps', ('Layers', 'layer-lawful'): L + '.Layer'}
for n in ['groups-small', 'groups-more', 'length-leb', 'leb-fewest', 'short-coding', 'form-some', 'Fronted', 'fronted']: where['Leb128', n] = L + '.Short'
for n in ['at_listed', 'width-most']: where['WidthsLemmas', n] = L + '.Listed'
new = {'WidthsLemmas': 'Widths'}
n = 0
for c in sorted(os.listdir(root)):
    for part in ('src', 'specs', 'proofs', 'must-fail'):
        for r, ds, fs in os.walk(os.path.join(root, c, part)):
            for f in fs:
                if not f.endswith(('.antt', '.rt', '.edit')): continue
                p = os.path.join(r, f)
                t = open(p, encoding='utf-8').read()
                def sub(m):
                    d = {}
                    for x in m.group(3).split(', '): d.setdefault(where.get((m.group(2), x.split(' as ')[0]), P + '.' + new.get(m.group(2), m.group(2))), []).append(x)
                    return '\n'.join(f'{m.group(1)}use {k}.{{{", ".join(v)}}}{m.group(4)}' for k, v in d.items())
                u = re.sub(r'(?m)^((?:ghost )?)use Rattle\.column\.specs\.(Choice|WidthsLemmas|Numbers|Overlaid|OneByOne|LowFirst|Leb128|Differences|Layers)\.\{([^}]*)\}(;?)$', sub, t)
                u = u.replace('Rattle.backwards.specs.Reversal.', 'Rattle.backwards.specs.Laws.')
                if u != t:
                    open(p, 'w', encoding='utf-8').write(u); n += 1; print(p)
print(n, 'files')
