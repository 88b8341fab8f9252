import os,re,sys
top='/work/instr'
res={}
def scan(crate,path,mod):
    lines=open(path).read().split('\n')
    typ=None; attrs=[]
    for l in lines:
        m=re.match(r'impl(<.*?>)? (?:.* for )?([A-Za-z_]+)',l)
        if re.match(r'impl\b',l):
            t=re.sub(r'^impl(<[^{]*?>)?\s+','',l)
            trait=''
            if ' for ' in t:
                trait=(re.match(r'([A-Za-z_0-9]+)',t) or ['',''])[1]; t=t.split(' for ',1)[1]
                if trait=='Drop': trait=''
            typ=re.match(r'&?(?:\'\w+ )?([A-Za-z_0-9]+)',t)
            typ=typ[1]+trait if typ else None
        elif l.startswith('}'): typ=None
        m=re.match(r'\s*#\[(inline\(always\)|inline\(never\)|cold|inline)\]',l)
        if m: attrs.append(m[1]); continue
        m=re.match(r'\s*(?:pub(?:\([a-z]+\))? )?(?:unsafe )?(?:extern "C" )?fn (\w+)',l)
        if m:
            if attrs:
                k='cold' if 'cold' in attrs else 'noinline' if 'inline(never)' in attrs else 'always' if 'inline(always)' in attrs else None
                if k: res[f'{crate}|{typ or mod}::{m[1]}']=k
            attrs=[]
for base,ext in (('crates','.rt'),):
    for c in os.listdir(f'{top}/crates'):
        for r,_,fs in os.walk(f'{top}/crates/{c}/src'):
            for f in fs:
                if f.endswith('.rt'): scan(c,f'{r}/{f}',c if f in('lib.rt','main.rt') else f[:-3])
for r,_,fs in os.walk(f'{top}/bench/group/program/src'):
    for f in fs: scan('bench_group',f'{r}/{f}',f.split('.')[0])
old=[l for l in open('/work/shared/tools/fast/srcattrs.txt')]
open('/tmp/ib/fast/srcattrs.txt','w').write(''.join(old)+''.join(f'{k}\t{n}\n' for n,k in sorted(res.items())))
for n,k in sorted(res.items()): print(k,n)
