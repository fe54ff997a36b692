"""The places of faults in all texts of up to four bytes over some that mean something: reference.py beside a search that tries
whether any pattern goes on with the tokens so far. Prints how many texts there are, and each difference."""
import itertools
import re
import sys

sys.path.insert(0,__file__.rsplit('/',1)[0] if '/' in __file__ else '.')
import reference as ref
A=b'a|*(.)[]^-\\?'
def ok(sig):
    # grammar: token kinds, by plain reduction
    s=''.join('x' if k=='atom' else k for k in sig)
    if 'b' in s: return False
    while True:
        t=s
        t=re.sub(r'x[*+?]','y',t,1) if re.search(r'x[*+?]',t) else t
        if t!=s: s=t; continue
        m=re.search(r'\(([xy]+(\|[xy]+)*)\)',s)
        if m: s=s[:m.start()]+'x'+s[m.end():]; continue
        break
    return re.fullmatch(r'[xy]+(\|[xy]+)*',s) is not None
def viable(sig):
    for k in range(0,6):
        for pre in ([],['atom']):
            if ok(list(sig)+pre+[')']*k): return True
    return False
def fault(t):
    ts=ref.tokens(t); sig=[]
    for (p,w,k,c) in ts:
        if k=='bad' or not viable(sig+[k]): return p
        sig.append(k)
    return None if ok(sig) else len(t)
def place(t):
    try:
        ref.parse(t)
    except ref.Fault as e:
        return e.args[0]
    return None
n=differences=0
for L in range(1,5):
    for t in itertools.product(A,repeat=L):
        t=bytes(t); n+=1
        if fault(t)!=place(t):
            differences+=1; print(t,fault(t),place(t))
print(n,'texts,',differences,'differences')
