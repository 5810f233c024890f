"""An independent reader of property texts, written from the format alone: texts in, canonical texts or refusals out."""
import sys,re
def expand(case):
    out=b''
    for piece in case.split(' '):
        m=re.match(r'^(\d+)\*(.*)$',piece)
        if m: out+=(m.group(2).encode()*int(m.group(1)))
        else: out+=piece.encode()
    return out.replace(b'/',b'\n')
def refuse(n,l): return b'43%02X%08X\n'%(n,l)
KINDS={0x10:[4],0x11:[3],0x20:[1],0x21:[1],0x22:[1],0x23:[2],0x24:[2],0x25:[2,3,4,5],0x26:[0],0x2f:[0]}
def read(t):
    if len(t)>65536: return None,(9,0)
    parts=t.split(b'\n'); rest=parts.pop()
    cs=[];ns=[];ended=False
    ln=0
    for l in parts:
        ln+=1
        if len(l)<2 or len(l)%2 or any(c not in b'0123456789ABCDEF' for c in l): return None,(1,ln)
        b=bytes.fromhex(l.decode()); k=b[0]; f=list(b[1:])
        if k not in KINDS: return None,(2,ln)
        if len(f) not in KINDS[k]: return None,(3,ln)
        if ended or (k in(0x10,0x11) and ns) or (k==0x11 and not cs) or (k==0x2f and not ns): return None,(4,ln)
        if k==0x10:
            m,n,q,fi=f
            if not(1<=m<=8 and 1<=n<=4 and q<m and fi<2**m): return None,(5,ln)
            if len(cs)>=4: return None,(9,ln)
            cs.append([m,n,q,fi,set()])
        elif k==0x11:
            p,a,r=f; c=cs[-1]
            if not(p<c[0] and a<c[1] and r<c[0]): return None,(5,ln)
            c[4].add((p,a,r))
        elif k==0x2f: ended=True
        else:
            K=len(ns)
            ok={0x20:lambda:f[0]<16,0x21:lambda:f[0]<K,0x22:lambda:f[0]<K,0x23:lambda:f[0]<K and f[1]<K,0x24:lambda:f[0]<K and f[1]<K,0x26:lambda:True,
               0x25:lambda:f[0]<len(cs) and len(f)-1==cs[f[0]][1] and all(i<K for i in f[1:])}[k]()
            if not ok: return None,(5,ln)
            w=sum(1 if n[0]==0x22 else cs[n[1][0]][0] if n[0]==0x25 else 0 for n in ns+[(k,f)])
            if K>=32 or w>12: return None,(9,ln)
            ns.append((k,f))
    if rest: return None,(1,ln+1)
    if not ended: return None,(4,ln+1)
    return (cs,ns),None
def canon(p):
    cs,ns=p
    o=b''
    for c in cs:
        o+=bytes([0x10]+c[:4]).hex().upper().encode()+b'\n'
        for t in sorted(c[4]): o+=bytes([0x11]+list(t)).hex().upper().encode()+b'\n'
    for k,f in ns: o+=bytes([k]+f).hex().upper().encode()+b'\n'
    return o+b'2F\n'
def norm(t):
    p,e=read(t)
    return canon(p) if p else refuse(*e)
if __name__=='__main__':
    for line in sys.stdin:
        case=line.rstrip('\n')
        print(case+' -> '+norm(expand(case)).replace(b'\n',b'/').decode())
