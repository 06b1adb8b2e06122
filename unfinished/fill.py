#!/usr/bin/env python3
# usage, at the top of the repository: fill.py CRATE FUNC < spec ; spec lines: 'use ...' (added at top), 'pre ...' verbatim blocks until 'end' (inserted before first comment),
#  'NAME [unfolding A B] = TERM' replaces the hole of NAME (or its present answer). '@N' in a term becomes N times ' .before'.
import re,sys
crate,func=sys.argv[1:3]
p=f'crates/{crate}/proofs/{func}/Proof.antt'
t=open(p).read()
def exp(s): return re.sub(r' ?@(\d+)',lambda m:' .before'*int(m.group(1)),s)
spec=sys.stdin.read().split('\n'); uses=[]; pre=[]; i=0
ans=[]
while i<len(spec):
    l=spec[i]
    if l.startswith('use '): uses.append(l)
    elif l.strip()=='pre':
        i+=1
        while spec[i].strip()!='end': pre.append(exp(spec[i])); i+=1
    elif l.strip():
        m=re.match(r'^(\S+)( unfolding [^=]*)? = (.*)$',l)
        if not m: print('bad line',l); sys.exit(1)
        term=[m.group(3)]
        while i+1<len(spec) and spec[i+1].startswith('    '): i+=1; term.append(spec[i])
        ans.append((m.group(1),(m.group(2) or '').strip(),exp('\n'.join(term))))
    i+=1
for n,u,term in ans:
    m=re.search(r'^%s : (tie\.Need-.*)\n(unfolding .*\n)?%s( c)( κs)? = (.*(\n    .*)*)$'%(re.escape(n),re.escape(n)),t,re.M)
    if not m: print('no hole',n); continue
    new=f'{n} : {m.group(1)}\n'+(u+'\n' if u else '')+f'{n}{m.group(3)}{m.group(4) or ""} = {term}'
    t=t[:m.start()]+new+t[m.end():]
have=set(l for l in t.split('\n') if l.startswith('use '))
add=[u for u in uses if u not in have]
t='\n'.join(add)+('\n' if add else '')+t
if pre:
    k=re.search(r'^-- src/|^[a-z].* : tie\.Need',t,re.M).start()
    t=t[:k]+'\n'.join(pre)+'\n\n'+t[k:]
open(p,'w').write(t)
