"""Compares the program cases with texts.py on 3,000 random texts: python3 tools/compare_texts.py SEED"""
import random,subprocess,sys

from texts import norm,expand
random.seed(int(sys.argv[1]))
def hx(*bs): return ''.join('%02X'%b for b in bs)
def gen():
    ls=[]
    cs=[]
    nn=0
    for _ in range(random.choice([0,0,1,1,2,3,4,5])):
        m=random.choice([1,2,3,8,random.randint(0,9)]);n=random.choice([1,2,4,random.randint(0,5)])
        ls.append(hx(0x10,m,n,random.randint(0,max(m,1)-1) if random.random()<.95 else random.randint(0,9),random.randrange(2**min(m,8)) if random.random()<.95 else random.randrange(256)))
        cs.append((m,n))
        for _ in range(random.randint(0,6)):
            ls.append(hx(0x11,random.randint(0,max(m,1)-1) if random.random()<.97 else 9,random.randint(0,max(n,1)-1) if random.random()<.97 else 5,random.randint(0,max(m,1)-1) if random.random()<.97 else 8))
    K=random.choice([1,2,3,5,8,33,random.randint(0,34)])
    for k in range(K):
        t=random.choice([0x20,0x21,0x22,0x23,0x24,0x25,0x26])
        op=lambda: random.randint(0,max(k-1,0)) if random.random()<.985 else random.randint(0,40)
        if t==0x20: ls.append(hx(t,random.randint(0,15) if random.random()<.98 else 16))
        elif t in(0x21,): ls.append(hx(t,op()) if k else '26')
        elif t==0x22: ls.append(hx(t,op()) if k and random.random()<.5 else '26')
        elif t in(0x23,0x24): ls.append(hx(t,op(),op()) if k else '26')
        elif t==0x25:
            if cs and k and random.random()<.7:
                c=random.randrange(len(cs)) if random.random()<.95 else 4
                n=cs[c][1] if c<len(cs) and random.random()<.95 else random.randint(0,5)
                ls.append(hx(t,c,*[op() for _ in range(n)]))
            else: ls.append('26')
        else: ls.append('26')
    if random.random()<.95: ls.append('2F')
    if random.random()<.1 and ls: random.shuffle(ls)
    if random.random()<.15 and ls:
        i=random.randrange(len(ls)); ls[i]=random.choice([ls[i][:-1],ls[i]+'00','',ls[i].lower(),'27','X'+ls[i][1:],ls[i]+ls[i]])
    s='/'.join(ls)+('/' if random.random()<.97 else '')
    return s
cases=[gen() for _ in range(3000)]
p=subprocess.run(['crates/cases/out/cases'],input='\n'.join(cases).encode()+b'\n',capture_output=True)
out=p.stdout.decode().split('\n')
bad=0;ok=0
for c,o in zip(cases,out):
    e=c+' -> '+norm(expand(c)).replace(b'\n',b'/').decode()
    if e!=o: bad+=1; print(repr(e),repr(o)) if bad<4 else None
    if not norm(expand(c)).startswith(b'43'): ok+=1
print(len(cases),'cases',len(out)-1,'answers',ok,'read',bad,'differ',p.returncode)
