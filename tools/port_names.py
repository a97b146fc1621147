#!/usr/bin/env python3
"""After port.py: spells the names of goals and record paths in proof files as the kit does, and two names of definitions.

    python3 tools/port_names.py TOP [CRATE..]

TOP is the folder with crates.txt; with no names, every crate of it. A second run changes nothing.
"""
import os, re, sys
root = sys.argv[1]
crates = sys.argv[2:] or [l.split(':')[0].strip() for l in open(os.path.join(root, 'crates.txt')) if l.strip()]

# names of definitions that mixed two spellings
for c in crates:
    for part in ('src', 'specs', 'proofs', 'must-fail'):
        for r, ds, fs in os.walk(os.path.join(root, 'crates', c, part)):
            for f in fs:
                p = os.path.join(r, f)
                t = open(p, encoding='utf-8').read()
                u = t.replace('Replays-within', 'ReplaysWithin').replace('back-as-long', 'back_as_long')
                if u != t:
                    open(p, 'w', encoding='utf-8').write(u)
                    print(p)

# goals of functions: a function's own name keeps its underscores, and so does a kind of goal
for c in crates:
    d = os.path.join(root, 'crates', c)
    fns=set()
    for dp,_,fs in os.walk(d+'/src'):
        for f in fs:
            if f.endswith('.rt'):
                t=open(os.path.join(dp,f)).read()
                fns|=set(re.findall(r'\b([a-z0-9]+(?:_[a-z0-9]+)+)\b',t))
    fns=sorted(fns,key=len,reverse=True)
    for dp,_,fs in os.walk(d+'/proofs'):
        for f in fs:
            if f not in('Answers.antt','Invariants.antt','Choices.antt'): continue
            p=os.path.join(dp,f); t=o=open(p).read()
            def fix(m):
                s=m.group(0)
                s=s.replace('·','-')
                for a,b in [('in-ok-','in_ok-'),('in-err-','in_err-'),('in-default','in_default'),('In-ok-','In_ok-'),('In-err-','In_err-'),('In-default','In_default')]:
                    s=s.replace(a,b)
                s=re.sub(r'\boverflow-(add|sub|mul|cast|shl|shr|step|neg)\b',r'overflow_\1',s)
                s=re.sub(r'\bnonzero-(div|rem)\b',r'nonzero_\1',s)
                s=re.sub(r'\b(slice|offset)-bounds\b',r'\1_bounds',s)
                s=re.sub(r'\btype-inv\b','type_inv',s); s=s.replace('into-iter','into_iter').replace('deref-mut','deref_mut').replace('invariant-of','invariant_of').replace('as-slice','as_slice').replace('as-mut','as_mut').replace('is-empty','is_empty').replace('copy-from-slice','copy_from_slice').replace('is-err','is_err').replace('is-ok','is_ok').replace('saturating-add','saturating_add').replace('split-at','split_at').replace('unwrap-or','unwrap_or')
                s=re.sub(r'\bfrom-residual\b','from_residual',s)
                for n in fns:
                    k=n.replace('_','-')
                    s=re.sub(r'(?<![A-Za-z0-9_])'+re.escape(k)+r'(?![A-Za-z0-9_])',n,s)
                return s
            # goal names and record paths
            names=set(re.findall(r'goal\.([^\s;,)\]]+)',t))
            def rep_name(m):
                return fix(m) if m.group(0) in names else m.group(0)
            t=re.sub(r'(?<![\w·′\'\-.])[A-Za-z][\w·\'\-]*(?![\w·\'\-])',rep_name,t)
            t=re.sub(r'goal\.[^\s;,)\]]+',fix,t)
            t=re.sub(r'\bc((?:\.[\w·\'\-]+)+)',fix,t)
            t=re.sub(r'\bw((?:\.[\w·\'\-]+)+)',fix,t)
            t=re.sub(r'\bl((?:\.[\w·\'\-]+)+)',fix,t)
            t=re.sub(r'Goals\.\{[^}]*\}',fix,t)
            if t!=o: open(p,'w').write(t); print(p)
