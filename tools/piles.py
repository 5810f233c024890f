"""Independent tables, piles, walks and truth on lassos, written from the definitions alone: cases as in crates/piles/stdin in, answers out."""
import sys,re

from texts import read as readprop
class M: pass
def line_bytes(l):
    b=l.replace('!','').replace(',','\n').encode()
    return b if '!' in l else b+b'\n'
def judge_line(b,kinds):
    i=b.find(b'\n')
    if i<0: return None,1
    l=b[:i]
    if len(l)<2 or len(l)%2 or any(c not in b'0123456789ABCDEF' for c in l): return None,1
    f=bytes.fromhex(l.decode())
    if f[0] not in kinds: return None,2
    if len(f)-1!=kinds[f[0]]: return None,3
    if i+1<len(b): return None,4
    return f,None
def fill(lines,STORE=320):
    parts=lines.split('/') 
    first=parts[0]; rest=[p for p in parts[1:] if p]
    f,e=judge_line(line_bytes(first),{1:3})
    if e: return e
    N=f[1]*256+f[2];J=f[3]
    if not(1<=N<=4096 and J<=4): return 5
    if STORE<N: return 6
    store=[0]*STORE; pairs=0
    for p in rest:
        f,e=judge_line(line_bytes(p),{2:5,3:4})
        if e: return e
        if f[0]==2:
            s=f[1]*256+f[2];lab=f[3]*256+f[4];fl=f[5]
            if s>=N or fl>>(J+1): return 5
            if STORE<N+pairs: return 6
            store[s]=lab+65536*fl
        else:
            s=f[1]*256+f[2];t=f[3]*256+f[4]
            if s>=N or t>=N: return 5
            if STORE<=N+pairs: return 6
            store[N+pairs]=s+65536*t; pairs+=1
    m=M(); m.N=N;m.J=J;m.pairs=pairs
    m.edges={(store[N+k]%65536,store[N+k]//65536) for k in range(pairs)}
    m.label=lambda s:store[s]%65536 if s<N else 0
    m.start=lambda s:s<N and bool(store[s]>>16&1)
    m.fair=lambda j,s:j<J and s<N and bool(store[s]>>(17+j)&1)
    return m
def relaid(b,st):
    m=M();m.N=b.N;m.J=b.J;N=b.N
    ws=st[N:N+b.pairs]
    m.edges={(w%65536,w//65536) for w in ws if w%65536<N and w//65536<N}
    g=lambda s:st[s] if s<N and s<len(st) else 0
    m.label=lambda s:g(s)%65536
    m.start=lambda s:bool(g(s)>>16&1)
    m.fair=lambda j,s:j<m.J and bool(g(s)>>(17+j)&1)
    return m
def pair(l,r):
    m=M()
    ok=l.N>0 and r.N>0 and l.N*r.N<=65536 and l.J+r.J<=8
    m.N=l.N*r.N if ok else 0; m.J=l.J+r.J if ok else 0
    n=l.N
    m.edges={(a+n*b,c+n*d) for (a,c) in l.edges for (b,d) in r.edges} if ok else set()
    m.label=lambda s:(l.label(s%n)%256+256*(r.label(s//n)%256)) if s<m.N else 0
    m.start=lambda s:s<m.N and l.start(s%n) and r.start(s//n)
    m.fair=lambda j,s:s<m.N and j<m.J and (l.fair(j,s%n) if j<l.J else r.fair(j-l.J,s//n))
    return m
def point(k):
    m=M();m.N=1;m.J=k;m.edges={(0,0)};m.label=lambda s:0;m.start=lambda s:s==0;m.fair=lambda j,s:j<k and s==0
    return m
def clamp(b,mask,val):
    m=M();m.N=b.N;m.J=b.J
    adm=lambda s:b.label(s)&mask==val
    m.edges={(s,t) for (s,t) in b.edges if adm(s) and adm(t)}
    m.label=b.label;m.start=lambda s:b.start(s) and adm(s);m.fair=b.fair
    return m
tf=lambda x:'true' if x else 'false'
def describe(m):
    o=['states %d sets %d'%(m.N,m.J)]
    for s in range(min(m.N,8)+1):
        succ=sorted(t for (a,t) in m.edges if a==s)
        o.append('%d label %d start %s fair'%(s,m.label(s),tf(m.start(s)))+''.join(' '+tf(m.fair(j,s)) for j in range(min(m.J,8)+1))+' to'+''.join(' %d'%t for t in succ))
    return o
def walk(m,s,t):
    n=m.N
    lst=[99]*(n+1)
    if s>=n or t>=n: return ['refused 5: %s %s'%(lst,[7]*(2*n))]
    par={s:None};q=[s]
    for u in q:
        for v in sorted(b for (a,b) in m.edges if a==u):
            if v not in par: par[v]=u;q.append(v)
    if t not in par: return ['no walk: %s %s'%(lst,[0]*(2*n))]
    w=[];x=t
    while x is not None: w.append(x);x=par[x]
    w.reverse()
    lst[:len(w)]=w
    return ['walk of %d: %s %s'%(len(w),lst,[0]*(2*n))]
def truth(p,m,lst,a):
    cs,ns=p;L=len(lst)
    fol=lambda i:i+1 if i+1<L else a
    T=[]
    for k,f in ns:
        if k==0x20: v=[bool(m.label(s)>>f[0]&1) for s in lst]
        elif k==0x26: v=[True]*L
        elif k==0x21: v=[not T[f[0]][i] for i in range(L)]
        elif k==0x22: v=[T[f[0]][fol(i)] for i in range(L)]
        elif k==0x23: v=[T[f[0]][i] and T[f[1]][i] for i in range(L)]
        elif k==0x24: v=[T[f[0]][i] or T[f[1]][i] for i in range(L)]
        else:
            c=cs[f[0]]
            # forward reachability from (start,i)
            v=[]
            for i in range(L):
                seen={(c[2],i)};st=[(c[2],i)];ok=False
                while st:
                    q,x=st.pop()
                    if c[3]>>q&1: ok=True;break
                    for (p0,l,r) in c[4]:
                        if p0==q and T[f[1+l]][x] and (r,fol(x)) not in seen: seen.add((r,fol(x)));st.append((r,fol(x)))
                v.append(ok)
        T.append(v)
    return T[-1][0]
def judge(m,text,a,b,lst):
    p,e=readprop(text.replace('/','\n').encode())
    if p is None: return ['no property']
    if m.N==0 or len(lst)>268435456: return ['refused 10 %s'%([5]*16)]
    if 16<3*len(lst): return ['refused 11 %s'%([5]*16)]
    z=[0]*16
    r=b>=1 and a+b==len(lst) and all(s<m.N for s in lst) and m.start(lst[0]) and all((lst[i],lst[i+1]) in m.edges for i in range(len(lst)-1)) and (lst[-1],lst[a]) in m.edges and all(any(m.fair(j,s) for s in lst[a:]) for j in range(m.J)) and not truth(p,m,lst,a)
    return ['%s %s'%(tf(r),z)]
def ask(m,q):
    kind,_,rest=q.partition(' ')
    if kind=='judge':
        text,_,words=rest.partition(' ')
        w=[int(x) for x in words.split(' ') if x]
        if len(w)<2: return ['too few numbers']
        return judge(m,text,w[0],w[1],w[2:])
    a=[int(x) for x in rest.split(' ') if x]
    if kind=='pair' and a==[]: return describe(pair(m,m))
    if kind=='beside' and len(a)==1: return describe(pair(m,point(min(a[0],8))))
    if kind=='triple' and a==[]: return describe(pair(m,pair(m,m)))
    if kind=='clamp' and len(a)==2: return describe(clamp(m,a[0]%65536,a[1]%65536))
    if kind=='deep' and len(a)==2: return describe(clamp(pair(clamp(m,a[0]%65536,a[1]%65536),m),256,0))
    if kind=='walk' and len(a)==2: return walk(m,*a)
    return describe(m)
def run(case):
    if '|' not in case: return [case]
    t,_,q=case.partition('|')
    m=fill(t)
    if isinstance(m,int): return [case,'refused %d 1'%m]
    if '%' in q:
        w,_,q=q.partition('%'); w=[int(x) for x in w.split(' ') if x]
        m=relaid(m,w)
    return [case]+ask(m,q)
if __name__=='__main__':
    for l in sys.stdin:
        for o in run(l.rstrip('\n')): print(o)
