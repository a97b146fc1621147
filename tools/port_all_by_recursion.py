#!/usr/bin/env python3
"""`AllByRecursion as All` is refused by rt ci in src/ and specs/: calls it by its own name, in these crates.

    python3 tools/port_all_by_recursion.py TOP CRATE..
"""
import os, re, sys
for c in sys.argv[2:]:
    for part in ('src', 'specs', 'proofs'):
        for r, ds, fs in os.walk(os.path.join(sys.argv[1], 'crates', c, part)):
            for f in fs:
                if not f.endswith(('.antt', '.rt')): continue
                p = os.path.join(r, f)
                t = open(p, encoding='utf-8').read()
                if 'AllByRecursion as All' not in t: continue
                t = t.replace('AllByRecursion as All', 'AllByRecursion')
                out = []
                for l in t.split('\n'):
                    m = re.match(r'^(.*?)((?:--|//).*)?$', l) if re.search(r'(^|\s)(--|//)', l) else None
                    code, comment = (m.group(1), m.group(2) or '') if m else (l, '')
                    out.append(re.sub(r"(?<![\w'-])All(?![\w'-])", 'AllByRecursion', code) + comment)
                open(p, 'w', encoding='utf-8').write('\n'.join(out))
                print(p)
