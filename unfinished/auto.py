#!/usr/bin/env python3
# auto.py FILE..: answers the usual holes: slice writes and same lengths after stores
import re,sys
for p in sys.argv[1:]:
    t=open(p).read(); o=t
    t=re.sub(r'^(slice-(?:write|read)-\S+) c = \?$',r'\1 c = simp length-set (omega arith)',t,flags=re.M)
    t=re.sub(r'^(same-length\S*) c = \?$',r'\1 c = simp length-set',t,flags=re.M)
    if t!=o:
        for u in ['use lib.ListN.{length-set}','use native.Mathlib.Omega.{arith}']:
            if u not in t: t=u+'\n'+t
        open(p,'w').write(t)
