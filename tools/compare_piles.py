"""Compares the program piles with piles.py on 4,000 random tables, piles, walks and lassos: python3 tools/compare_piles.py SEED"""
import random,subprocess,sys

import piles
random.seed(int(sys.argv[1]))
def table():
    n=random.randint(1,4);j=random.choice([0,0,1,2])
    ls=['01%04X%02X'%(n,j)]
    for s in range(n):
        if random.random()<.9: ls.append('02%04X%04X%02X'%(s,random.randrange(4),(random.random()<.6)+2*random.randrange(2**j)))
    for _ in range(random.randint(n,7)):
        ls.append('03%04X%04X'%(random.randrange(n),random.randrange(n)))
    if random.random()<.03: i=random.randrange(len(ls)); ls[i]=random.choice([ls[i][:-2],ls[i]+'00','00','0X',ls[i]+'!',ls[i]+',00'])
    return '/'.join(ls)+'/',n
def prop():
    ls=[];cs=[]
    for _ in range(random.choice([1,1,2])):
        m=random.randint(1,3);k=random.randint(1,2)
        ls.append('10%02X%02X%02X%02X'%(m,k,random.randrange(m),random.randrange(2**m)))
        for _ in range(random.randint(0,6)): ls.append('11%02X%02X%02X'%(random.randrange(m),random.randrange(k),random.randrange(m)))
        cs.append(k)
    ls+=['2000','2001']; K=2
    for _ in range(random.randint(1,5)):
        t=random.choice([0x21,0x22,0x23,0x24,0x25,0x25,0x26]); o=lambda: '%02X'%random.randrange(K)
        if t in(0x21,0x22): ls.append('%02X'%t+o())
        elif t in(0x23,0x24): ls.append('%02X'%t+o()+o())
        elif t==0x26: ls.append('26')
        else:
            c=random.randrange(len(cs)); ls.append('25%02X'%c+''.join(o() for _ in range(cs[c])))
        K+=1
    return '/'.join(ls)+'/2F/'
def lasso(t,n):
    m=piles.fill(t)
    if isinstance(m,int): return 0,1,[0]
    L=random.randint(1,5)
    st=[s for s in range(n) if m.start(s)] or [0]
    l=[random.choice(st)]
    for _ in range(L-1):
        nx=[b for (a,b) in m.edges if a==l[-1]]
        if not nx: break
        l.append(random.choice(nx))
    ends=[i for i in range(len(l)) if (l[-1],l[i]) in m.edges]
    a=random.choice(ends) if ends and random.random()<.95 else random.randint(0,len(l))
    return a,len(l)-a,l
cases=[]
for _ in range(4000):
    t,n=table(); r=random.random()
    if r<.75:
        a,b,l=lasso(t,n); cases.append(t+'|judge '+prop()+' %d %d '%(a,b)+' '.join(map(str,l)))
    elif r<.85: cases.append(t+'|walk %d %d'%(random.randint(0,n),random.randint(0,n)))
    elif r<.9: cases.append(t+'|pair')
    elif r<.95: cases.append(t+'|clamp %d %d'%(random.randrange(4),random.randrange(4)))
    else: cases.append(t+'|deep %d %d'%(random.randrange(4),random.randrange(4)))
p=subprocess.run(['crates/piles/out/piles'],input='\n'.join(cases).encode()+b'\n',capture_output=True)
exp=[];
for c in cases: exp+=piles.run(c)
out=p.stdout.decode().split('\n')[:-1]
print(len(cases),'cases',len(exp),len(out),'same' if exp==out else 'DIFFER',sum(1 for x in out if x.startswith('true')),'true',sum(1 for x in out if x.startswith('false')),'false')
if exp!=out:
    for i,(x,y) in enumerate(zip(exp,out)):
        if x!=y: print(exp[i-1]);print(x);print(y);break
