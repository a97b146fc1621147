#!/usr/bin/env python3
"""Spells the functions of the repository's definitions in snake case, as the kit does; types keep their capitals.

    python3 snake_names.py REPOSITORY [--dry]

Turns whole names alone, in crates/*/{src,specs,proofs,must-fail} and docs/. A second run changes nothing.
"""
import os, re, sys

root = sys.argv[1]
dry = '--dry' in sys.argv
NAME = r"[A-Za-z0-9_'-]"

def files():
    for d, ds, fs in os.walk(os.path.join(root, 'crates')):
        rel = os.path.relpath(d, os.path.join(root, 'crates')).split(os.sep)
        if len(rel) == 1:
            ds[:] = [x for x in ds if rel[0] == '.' or x in ('src', 'specs', 'proofs', 'must-fail')]
        for f in sorted(fs):
            if f.endswith(('.antt', '.rt', '.edit')): yield os.path.join(d, f)
    for d, ds, fs in os.walk(os.path.join(root, 'docs')):
        for f in sorted(fs):
            if f.endswith('.md') and f not in ('PORT.md', 'DESIGN-PASS.md'): yield os.path.join(d, f)

texts = {p: open(p, encoding='utf-8').read() for p in files()}
# names that a signature of ours gives
mine = set()
for p, t in texts.items():
    if p.endswith('.antt'):
        for m in re.finditer(r"(?m)^ *(?:unfoldable |abbrev )*(?:pub )?(?:record |data )?([a-zA-Z0-9_'-]+) (?:\(.*?\) )*:", t): mine.add(m.group(1))
    if p.endswith('.rt'):
        for m in re.finditer(r"(?m)^ *ghost ([a-zA-Z0-9_']+):", t): mine.add(m.group(1))
# names that come from elsewhere
theirs = set()
for p, t in texts.items():
    for m in re.finditer(r"(?m)^(?:ghost )?use (?:Rattle\.std|native|mathlib|lib)[^{\n]*\{([^}]*)\}", t):
        for n in m.group(1).split(', '): theirs.add(n.split(' as ')[0].strip())
def snake(n):
    return re.sub(r'(?<=[a-z0-9])([A-Z])', lambda m: '_' + m.group(1).lower(), n)
turn = {}
for n in sorted(mine):
    if n in theirs: continue
    if re.match(r"[a-z]", n) and re.search(r"[a-z0-9][A-Z]", n):
        parts = n.split('-')
        # a part that is a capitalized type stays
        turn[n] = '-'.join(snake(x) if x[0].islower() else x for x in parts)
turn.update({'back-as-long': 'back_as_long', 'Replays-within': 'ReplaysWithin'})
turn.update({k: 'get_or' + k[4:] for k in turn if k.startswith('getD-')})
clash = {a: b for a, b in turn.items() if b in mine or b in theirs}
if dry:
    print(turn); print('clash', clash)
pat = re.compile(r"(?<!" + NAME + ")(" + "|".join(sorted(map(re.escape, turn), key=len, reverse=True)) + r")(?!" + NAME + ")")
n = 0
for p, t in texts.items():
    u = pat.sub(lambda m: turn[m.group(1)], t)
    if u != t:
        n += 1
        if not dry: open(p, 'w', encoding='utf-8').write(u)
print(n, 'files')
