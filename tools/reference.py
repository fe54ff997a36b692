"""A second program from the rules of docs/RULES.md, "Patterns", apart from the proved one.

reference.py gen SEED N            prints N lines of random patterns, parted by spaces, and some at the limits
reference.py ref < LINES           prints the automaton of each line's patterns, or why they are refused
reference.py re < LINES            compares the classes with Python's re on random inputs
reference.py marks STREAM FILE ..  prints what pattern_marks prints for files of patterns, but for the table
"""
import random
import re
import sys

META=b'|*+?.[]()\\'
class Fault(Exception):
    pass
def tokens(t):
    i=0; out=[]
    while i<len(t):
        b=t[i]
        if b==92:
            if i+1<len(t): out.append((i,2,'atom',frozenset([t[i+1]]))); i+=2
            else: out.append((i,1,'bad',None)); i+=1
        elif b==91:
            r=bracket(t,i)
            if r is None: out.append((i,1,'bad',None)); i+=1
            else: out.append((i,r[0],'atom',r[1])); i+=r[0]
        elif b==93: out.append((i,1,'bad',None)); i+=1
        elif b==46: out.append((i,1,'atom',frozenset(range(256)))); i+=1
        elif b in b'()|*+?': out.append((i,1,chr(b),None)); i+=1
        else: out.append((i,1,'atom',frozenset([b]))); i+=1
    return out
def bracket(t,i):
    j=i+1; neg=False
    if j<len(t) and t[j]==94: neg=True; j+=1
    s=set(); n=0
    def one(j):
        if j>=len(t): return None
        if t[j]==92:
            if j+1>=len(t): return None
            return t[j+1],j+2
        if t[j] in b']^-': return None
        return t[j],j+1
    while True:
        if j>=len(t): return None
        if t[j]==93:
            if n==0: return None
            j+=1; break
        r=one(j)
        if r is None: return None
        lo,j=r; hi=lo
        if j<len(t) and t[j]==45:
            r=one(j+1)
            if r is None: return None
            hi,j=r
            if hi<lo: return None
        s|=set(range(lo,hi+1)); n+=1
    if neg: s=set(range(256))-s
    if not s: return None
    return j-i,frozenset(s)
# the grammar by recursive descent over tokens; a fault stands at the first token that no pattern goes on with
def parse(t):
    ts=tokens(t); k=0
    pos=[]
    class P: pass
    depthmax=[0]
    def place(): return ts[k][0] if k<len(ts) else len(t)
    def pattern(depth):
        nonlocal k
        depthmax[0]=max(depthmax[0],depth)
        bs=[branch(depth)]
        while k<len(ts) and ts[k][2]=='|':
            k+=1; bs.append(branch(depth))
        return ('alt',bs) if len(bs)>1 else bs[0]
    def branch(depth):
        ps=[piece(depth)]
        while k<len(ts) and ts[k][2] in ('atom','('): ps.append(piece(depth))
        return ('cat',ps) if len(ps)>1 else ps[0]
    def piece(depth):
        nonlocal k
        if k>=len(ts): raise Fault(place())
        ty=ts[k][2]
        if ty=='atom':
            a=('pos',len(pos)); pos.append(ts[k][3]); k+=1
        elif ty=='(':
            k+=1; a=pattern(depth+1)
            if k<len(ts) and ts[k][2]==')': k+=1
            else: raise Fault(place())
        else: raise Fault(place())
        if k<len(ts) and ts[k][2] in '*+?' : 
            a=(ts[k][2],a); k+=1
        return a
    tree=pattern(0)
    if k<len(ts): raise Fault(place())
    return tree,pos,depthmax[0]
def glush(tree,off,follow):
    ty=tree[0]
    if ty=='pos': return False,{off+tree[1]},{off+tree[1]}
    if ty=='alt':
        n=False;f=set();l=set()
        for x in tree[1]:
            a,b,c=glush(x,off,follow); n|=a; f|=b; l|=c
        return n,f,l
    if ty=='cat':
        n,f,l=True,set(),set()
        for x in tree[1]:
            a,b,c=glush(x,off,follow)
            for q in l: follow.setdefault(q,set()).update(b)
            if n: f=f|b
            l = c|l if a else c
            n=n and a
        return n,f,l
    a,f,l=glush(tree[1],off,follow)
    if ty in '*+':
        for q in l: follow.setdefault(q,set()).update(f)
    return (a if ty=='+' else True),f,l
def compile_(pats):
    parsed=[]
    for i,t in enumerate(pats):
        try: parsed.append(parse(t))
        except Fault as e: return 'refused 19 %d %d'%(i+1,e.args[0])
    if len(pats)==0 or len(pats)>32 or sum(len(p[1]) for p in parsed)>256 or any(p[2]>32 for p in parsed): return 'refused 20'
    off=0; follow={}; first=set(); lasts=[]; cls=[]
    for tree,pos,d in parsed:
        n,f,l=glush(tree,off,follow); first|=f; lasts.append((n,l)); cls+=pos; off+=len(pos)
    byb=[{p for p in range(off) if b in cls[p]} for b in range(256)]
    states=[frozenset()]; num={states[0]:0}; rows=[]
    m=0
    while m<len(states):
        s=states[m]; r=set(first)
        for q in s: r|=follow.get(q,set())
        row=[]
        for b in range(256):
            t=frozenset(r&byb[b])
            if t not in num:
                num[t]=len(states); states.append(t)
                if len(states)>512: return 'refused 21'
            row.append(num[t])
        rows.append(row); m+=1
    def klass(s):
        for i,(n,l) in enumerate(lasts):
            if n or (l&s): return i+1
        return 0
    return rows,[klass(s) for s in states]
def show(r):
    if isinstance(r,str): return r+'\n'
    rows,cl=r; out='states %d\n'%len(rows)
    for s,row in enumerate(rows):
        out+='%d %d:'%(s,cl[s]); last=None
        for b in range(256):
            if row[b]!=last: out+=' %d>%d'%(b,row[b])
            last=row[b]
        out+='\n'
    return out
def rnd_pat(rng,depth):
    def atom(d):
        c=rng.random()
        if d>0 and c<0.25: return '('+alt(d-1)+')'
        if c<0.35: return '.'
        if c<0.5: return rng.choice(['[ab]','[^a]','[a-c]','[^b-z]','[\\]\\-]','[b-]','[c-a]','[]','[^]','[a-cx]','[a','\\*','\\\\'])if rng.random()<0.9 else '\\'
        return rng.choice('abcab')
    def piece(d):
        a=atom(d)
        c=rng.random()
        if c<0.15:a+='*'
        elif c<0.25:a+='+'
        elif c<0.35:a+='?'
        elif c<0.36:a+='**'
        return a
    def br(d): return ''.join(piece(d) for _ in range(rng.choice([1,1,2,2,3,4]))) if rng.random()<0.98 else ''
    def alt(d): return '|'.join(br(d) for _ in range(rng.choice([1,1,1,2,3])))
    s=alt(depth)
    if rng.random()<0.05:
        i=rng.randrange(len(s)+1); s=s[:i]+rng.choice(')(|*+?][\\')+s[i:]
    return s
if __name__=='__main__':
    mode=sys.argv[1]
    if mode=='gen':
        rng=random.Random(int(sys.argv[2])); n=int(sys.argv[3])
        for _ in range(n):
            k=rng.choice([1,1,2,3,4])
            print(' '.join(rnd_pat(rng,rng.choice([0,1,2,3])) for _ in range(k)))
        print('(a|b)*a(a|b)(a|b)(a|b)(a|b)(a|b)(a|b)(a|b)(a|b)')
        print('(a|b)*a(a|b)(a|b)(a|b)(a|b)(a|b)(a|b)(a|b)(a|b)(a|b)')
        print('a'*256); print('a'*257); print('('*32+'a'+')'*32); print('('*33+'a'+')'*33); print(' '.join(['a']*32)); print(' '.join(['a']*33)); print('')
    elif mode=='ref':
        for line in sys.stdin.buffer.read().split(b'\n')[:-1]:
            pats=line.split(b' ') if line else []
            sys.stdout.write(show(compile_(pats)))
    elif mode=='marks':
        stream=open(sys.argv[2],'rb').read()
        for name in sys.argv[3:]:
            text=open(name,'rb').read()
            lines=(text[:-1] if text.endswith(b'\n') else text).split(b'\n')
            print(name); r=compile_(lines)
            if isinstance(r,str):
                w=r.split()
                if len(w)==2: print(r); continue
                n,p=int(w[2]),int(w[3])
                print('refused 19: pattern %d, place %d'%(n,p))
                print(''.join(chr(b) if 32<=b<127 else '?' for b in lines[n-1])); print(' '*p+'^'); continue
            rows,cl=r; state=0
            for place,b in enumerate(stream):
                state=rows[state][b]
                if cl[state]: print('at %d: pattern %d'%(place,cl[state]))
    elif mode=='re':
        # the classes against Python's re
        bad=0; ok=0; rng=random.Random(7)
        for line in sys.stdin.buffer.read().split(b'\n')[:-1]:
            # before a letter a backslash means something else there
            if re.search(rb'\\[a-z]',line): continue
            pats=line.split(b' ') if line else []
            r=compile_(pats)
            if isinstance(r,str): continue
            rows,cl=r
            try: res=[re.compile(b'(?s:'+p+b')\\Z') for p in pats]
            except Exception as e: continue
            for _ in range(20):
                w=bytes(rng.choice(b'aabbcx]-*') for _ in range(rng.randrange(9)))
                s=0
                for b in w: s=rows[s][b]
                want=0
                for i,x in enumerate(res):
                    if any(x.match(w,k) for k in range(len(w)+1)): want=i+1; break
                if want!=cl[s]: bad+=1; print('BAD',line,w,want,cl[s])
                ok+=1
        print('compared',ok,'bad',bad)
