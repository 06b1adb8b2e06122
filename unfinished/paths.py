#!/usr/bin/env python3
# usage: paths.py GENDIR CRATE FUNC(path with /) [NEED]  -- paths from c at a need to each place's field (not slice-known)
import re,sys
gen,crate,func=sys.argv[1:4]; need=sys.argv[4] if len(sys.argv)>4 else None
t=open(f'{gen}/Rattle·{crate}·proofs/proofs/{func}/Lts.antt').read()
recs={}; needs={}
cur=None
for l in t.split('\n'):
    m=re.match(r'^      pub record (\S+) : Type',l)
    if m: cur=m.group(1); recs[cur]=[]; continue
    m=re.match(r'^        pub (\S+) : (.*)$',l)
    if m and cur: recs[cur].append((m.group(1),m.group(2))); continue
    m=re.match(r'^      (Need-\S+) =',l)
    if m: nn=m.group(1); cur=None; continue
    m=re.match(r'^          \(c : (\S+)\)',l)
    if m:
        if nn not in needs: needs[nn]=m.group(1)
for n,r in needs.items():
    if need and n!='Need-'+need: continue
    path='c'; out=[]; cur=r
    while cur:
        nxt=None
        for f,ty in recs.get(cur,[]):
            if f=='before': nxt=ty.strip()
            elif 'slice-known' in f or f in('κs','good','fits','struct-known','typed'): pass
            elif re.match(r'struct-known\d*$',f): pass
            else: out.append((path+' .'+f).replace(' .before'*10,' ·10'))
        path+=' .before'; cur=nxt
    print(n,'@',r); 
    for o in out:
        k=o.count(' .before')+10*o.count('·10'); print('   ',k, o.split(' .')[-1])
