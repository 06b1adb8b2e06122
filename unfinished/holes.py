#!/usr/bin/env python3
# at the top of the repository: holes.py GENDIR CRATE FUNC..: for each hole of the proof file the places with their number of .before, on one line
import re,sys
gen,crate=sys.argv[1:3]
for func in sys.argv[3:]:
    t=open(f'{gen}/Rattle·{crate}·proofs/proofs/{func}/Lts.antt').read()
    pf=open(f'crates/{crate}/proofs/{func}/Proof.antt').read()
    holes=re.findall(r'^(\S+) c(?: κs)? = \?$',pf,re.M)
    recs={}; needs={}; cur=None; nn=None
    for l in t.split('\n'):
        m=re.match(r'^      pub record (\S+) : Type',l)
        if m: cur=m.group(1); recs[cur]=[]; continue
        m=re.match(r'^        pub (\S+) : (.*)$',l)
        if m and cur: recs[cur].append((m.group(1),m.group(2))); continue
        m=re.match(r'^      (Need-\S+) =',l)
        if m: nn=m.group(1); cur=None; continue
        m=re.match(r'^          \(c : (\S+)\)',l)
        if m and nn not in needs: needs[nn]=m.group(1)
    print('==',func)
    for h in holes:
        cur=needs.get('Need-'+h); k=0; out=[]
        while cur:
            nxt=None
            for f,ty in recs.get(cur,[]):
                if f=='before': nxt=ty.strip()
                elif f in('κs','good','fits','typed','pre') or re.match(r'struct-known\d*$|words\d*$|.*-arg\d*$',f): pass
                elif 'slice-known' in f: out.append(f'{f.replace("shared-slice-known","ssk").replace("slice-known","sk")}@{k}')
                else: out.append(f'{f}@{k}')
            k+=1; cur=nxt
        print('  ',h,':',' '.join(out))
