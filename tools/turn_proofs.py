#!/usr/bin/env python3
"""Turns proofs/F/Proof.antt that end in tie.close to Invariants.antt and Answers.antt: turn_proofs.py TOP NAMES CRATE.., where NAMES/CRATE/names.json is what
`rt check --generated NAMES/CRATE --old-names` wrote in the crate. Run once, after port.py and respell_names.py. Answers that only ask for the search go."""
import json,os,re,sys,glob
TOP,NAMES=sys.argv[1],sys.argv[2]
WORD=re.compile(r"[^\s(){}\[\].;,:\"]+")
norm=lambda s:s.replace('_','-').lower()
TRIV={'search rules','omega arith','search (rules, arith)','tt'}
def split_top(t):
    out=[];depth=0;cur=''
    for ch in t:
        if ch in '([{': depth+=1
        if ch in ')]}': depth-=1
        if ch==',' and depth==0: out.append(cur); cur=''; continue
        cur+=ch
    out.append(cur)
    return [o.strip() for o in out if o.strip()]
def decls(text):
    """top-level blocks: list of (kind, lines)"""
    blocks=[];cur=[]
    for line in text.split('\n'):
        if line and not line[0].isspace() and not line.startswith(('unfolding ','#',')',']','}')):
            if cur and not (len(cur)>0 and cur_is_sig_for(cur,line)):
                blocks.append(cur); cur=[]
        cur.append(line)
    if cur: blocks.append(cur)
    return blocks
def cur_is_sig_for(cur,line):
    if line.startswith('--') or line.startswith('use '): return False
    first=[l for l in cur if l.strip() and not l.startswith('--')]
    if not first: return True
    m=re.match(r"(?:(?:pub|abbrev|unfoldable) )*(\S+) :",first[0])
    m2=re.match(r"(\S+)",line)
    return bool(m and m2 and m.group(1)==m2.group(1))
report=[]
def mutparams(callee,cache={}):
    if callee in cache: return cache[callee]
    r=None
    parts=callee.split('::')
    for f in glob.glob(f'{TOP}/crates/{parts[0]}/src/**/*.rt',recursive=True):
        m=re.search(r"\bfn "+re.escape(parts[-1])+r"(?:<[^(]*>)?\(([^{]*?)\)\s*(?:->|\n|requires|ensures|\{)",open(f).read())
        if m:
            ps=split_top(m.group(1).replace('<','[').replace('>',']'))
            r=[q.split(':')[0].strip().replace('&mut ','') for q in ps if '&mut' in q]
            break
    cache[callee]=r
    return r
def convert(crate,path,d):
    text=open(path).read()
    if 'tie.close' not in text: return 'walk'
    rel=os.path.dirname(path).split('/proofs/')[1]
    key=f"Rattle-{crate}-proofs.{rel.replace('/','.')}.Lts"
    if key not in d:
        report.append((path,'no key '+key)); return 'nokey'
    v=d[key]
    stem='Rattle.'+crate+'.proofs.'+rel.replace('/','.')
    needs={norm(o):n for o,n in v['needs']}
    place_by_old={p[0]:p for p in v['places']}
    steps={}
    for i,p in enumerate(v['places']):
        if p[2][0]: steps.setdefault(norm(p[2][0]),[]).append((p[2][1],i,p))
    for (o,n),_ in v['loops']: steps.setdefault(norm(o),[(n,None,None)])
    settled=set(v.get('settled') or [])
    pre=v.get('pre')
    arms=v['arms']
    armmap={}  # (oldstep, [oldfields]) -> (newstep,newfield)
    for i,a in enumerate(arms):
        if a:
            newstep,_,fl=a
            for newf,oldstep,oldf in fl:
                armmap.setdefault((norm(oldstep),tuple(norm(x) for x in oldf)),(newstep,newf))
    clausef={}
    for i,cl in enumerate(v['clauses']):
        if cl and i is not None:
            st=v['places'][i][2][0] if i<len(v['places']) else None
            if st: clausef[norm(st)]=cl['fields']
    argren={}
    for a in v.get('args') or []:
        try:
            o,n=a
            if o.startswith('.args '): argren[o[7:]]=n[7:]
        except Exception: pass
    def fixpaths(body):
        body=re.sub(r"\bc((?:\.before)+)(?=\.)",'c',body)
        # bare c.before chains
        body=re.sub(r"\bc((?:\.before)+)(?![\w.])",'c',body)
        al={'c'}
        for m in re.finditer(r"let (\S+) = c in",body): al.add(m.group(1))
        for _ in range(3):
            for a in list(al):
                for m in re.finditer(r"let (\S+) = "+re.escape(a)+r"(?:\.before)* in",body): al.add(m.group(1))
        for a in al:
            body=re.sub(r"(?<![\w.'-])"+re.escape(a)+r"(?:\.before)+(?=\.)",a,body)
        def sub(m):
            a,rest=m.group(1),m.group(2)
            if a not in al: return m.group(0)
            parts=rest[1:].split('.')
            st=norm(parts[0])
            if parts[0]=='args':
                if len(parts)>1 and parts[1] in argren: parts[1]=argren[parts[1]]
                return a+'.'+'.'.join(parts)
            if parts[0]=='requires':
                if pre and len(parts)>1 and parts[1].isdigit():
                    k=int(parts[1])-pre.get('before',0)
                    if 0<=k<len(pre['fields']): parts[1]=pre['fields'][k]
                return a+'.'+'.'.join(parts)
            # arms
            for L in range(len(parts),0,-1):
                k=(st,tuple(norm(x) for x in parts[1:L]))
                if k in armmap:
                    ns,nf=armmap[k]
                    return a+'.'+'.'.join([ns,nf]+parts[L:])
            if st in steps:
                new=steps[st][0][0]
                if len(parts)>2 and parts[1]=='new' and parts[2].isdigit() and steps[st][0][2]:
                    mp=mutparams(steps[st][0][2][3] or '')
                    if mp and int(parts[2])<len(mp): parts[2]=mp[int(parts[2])]
                if len(parts)>2 and parts[1]=='ensures' and parts[2].isdigit() and st in clausef:
                    k=int(parts[2])
                    if k<len(clausef[st]): parts[2]=clausef[st][k]
                return a+'.'+'.'.join([new]+parts[1:])
            return m.group(0)
        body=re.sub(r"(?<![\w.'-])([^\s(){}\[\].;,:\"]+)((?:\.[^\s(){}\[\].;,:\"]+)+)",sub,body)
        # names bound to a part of c: its arguments, a call
        for m in list(re.finditer(r"let (\S+) = (\S+)\.args in",body)):
            if m.group(2) in al:
                for o,n in argren.items():
                    body=re.sub(r"(?<![\w.'-])"+re.escape(m.group(1))+r"\."+re.escape(o)+r"(?![\w'-])",m.group(1)+'.'+n,body)
        for m in list(re.finditer(r"let (\S+) = (\S+?)\.([^\s.]+) in",body)):
            if m.group(2) in al:
                for st,ls in steps.items():
                    if ls[0][0]==m.group(3):
                        x=m.group(1)
                        if st in clausef:
                            body=re.sub(r"(?<![\w.'-])"+re.escape(x)+r"\.ensures\.(\d)",lambda q: x+'.ensures.'+(clausef[st][int(q.group(1))] if int(q.group(1))<len(clausef[st]) else q.group(1)),body)
                        mp=ls[0][2] and mutparams(ls[0][2][3] or '')
                        if mp:
                            body=re.sub(r"(?<![\w.'-])"+re.escape(x)+r"\.new\.(\d)",lambda q: x+'.new.'+(mp[int(q.group(1))] if int(q.group(1))<len(mp) else q.group(1)),body)
        body=re.sub(r"\bnot-(?:true|false) _ (c\.[\w.'-]+)",r"\1",body)
        body=re.sub(r"\n(?=[^\s])","\n    ",body)
        return body
    blocks=decls(text)
    uses=[];helpers=[];answers=[];invs=[];head=''
    for b in blocks:
        t='\n'.join(b).strip('\n')
        if not t.strip(): continue
        body0='\n'.join(l for l in b if not l.startswith('--')).strip('\n')
        comment='\n'.join(l for l in b if l.startswith('--'))
        if body0.startswith('use '):
            if re.search(r"\.(Statement\.\{statement\}|Tie as tie)",body0): continue
            uses.append(body0); continue
        if not body0:
            if not head: head=comment
            else: helpers.append(comment)
            continue
        m=re.match(r"(?:(?:pub|abbrev) )*(\S+) :\s*tie\.(invariant|decreases)-(\S+)",body0)
        if m:
            lines=body0.split('\n')
            kind=m.group(2); lp=norm(m.group(3))
            rest='\n'.join(lines[1:])
            mm=re.match(r"\S+((?: [^\s=]+)*) =\s*(.*)$",rest,re.S)
            if not mm: report.append((path,'inv?')); continue
            params=mm.group(1).split(); ib=mm.group(2)
            idx=[i for i,(x,_) in enumerate(v['loops']) if norm(x[0])==lp]
            if not idx: report.append((path,'loop? '+lp)); continue
            (o,n),vars_=v['loops'][idx[0]]
            ch=v['changed'][idx[0]]
            names=[(f"l.initial.{x}" if c else f"l.{x}") for x,c in zip(vars_,ch)]+[f"l.{x}" for x,c in zip(vars_,ch) if c]
            if len(names)!=len(params): report.append((path,f'params {params} vs {names}'))
            mp=dict(zip(params,names))
            ib=re.sub(r"(?<![\w.'-])([^\s(){}\[\].;,:\"]+)",lambda q: mp.get(q.group(1),q.group(1)),ib)
            new=f"{kind}-{n}"
            invs.append((comment+'\n' if comment else '')+f"abbrev pub {new} : goal.{new}\n{new} l = {ib}")
            continue
        m=re.match(r"(?:pub )?(\S+) :\s*tie\.Need-(\S+)",body0)
        if m:
            old=m.group(1); nk=norm(m.group(2))
            if nk not in needs:
                for a,b in (('overflow-',''),('slice-bounds-','part-'),('nonzero-','')):
                    if nk.startswith(a) and b+nk[len(a):] in needs: nk=b+nk[len(a):]; break
            if nk not in needs:
                if not nk.startswith('slice-aggregate'): report.append((path,'need? '+nk))
                continue
            new=needs[nk]
            lines=body0.split('\n')
            unf=[l for l in lines[1:] if l.startswith('unfolding ')]
            rest='\n'.join(l for l in lines[1:] if not l.startswith('unfolding '))
            # signature may span lines; definition begins at name
            mm=re.search(r"^"+re.escape(old)+r"((?: [^\s=]+)*) =\s*(.*)$",rest,re.S|re.M)
            if not mm: report.append((path,'def? '+old)); continue
            params=mm.group(1).split(); body=mm.group(2)
            if ' '.join(body.split()) in TRIV and not unf: continue
            if new in settled: continue
            if params and params[0]!='c': report.append((path,'param '+params[0]))
            body=fixpaths(body)
            asked=(v.get('asked') or {}).get(new)
            if asked:
                bb=body.strip(); lead=''
                mm3=re.match(r"(.*?\bin)\s*(\(.*\))\s*$",bb,re.S)
                if not bb.startswith('(') and mm3:
                    for q in re.finditer(r"\bin\s*(?=\()",bb):
                        tail=bb[q.end():]
                        dep=0; ok=True
                        for j,ch in enumerate(tail):
                            if ch in '([{': dep+=1
                            if ch in ')]}':
                                dep-=1
                                if dep==0 and j<len(tail)-1: ok=False; break
                        if ok and tail.endswith(')'): lead=bb[:q.end()]; bb=tail; break
                if bb.startswith('(') and bb.endswith(')'):
                    xs=split_top(bb[1:-1])
                    if len(xs)==len(asked):
                        body=lead+' record { '+'; '.join(f"{f} = {x}" for f,x in zip(asked,xs))+' }'
                    elif len(xs)==len(asked)+1 and xs[-1]=='tt':
                        body=lead+' record { '+'; '.join(f"{f} = {x}" for f,x in zip(asked,xs))+' }'
                    else: report.append((path,f'asked {asked} {len(xs)}'))
                elif bb in TRIV and not lead: continue
                else: report.append((path,f'asked {asked} one'))
            answers.append((comment+'\n' if comment else '')+f"pub {new} : goal.{new}\n"+''.join(u+'\n' for u in unf)+f"{new} c = {body}")
            continue
        if re.match(r"(?:pub )?\S+ : (\{M : Type 1\}|.*statement)",body0) or 'tie.close' in body0: continue
        helpers.append((comment+'\n' if comment else '')+fixpaths(body0))
    folder=os.path.dirname(path)
    head=head.strip()
    def usefor(bodytext):
        return '\n'.join(uses)
    if invs:
        with open(folder+'/Invariants.antt','w') as f:
            hs=[h for h in helpers if any(re.match(r"(?:(?:pub|abbrev|unfoldable) )*(\S+) :",h.split('\n')[-1] if False else next((l for l in h.split('\n') if not l.startswith('--')),'')) for _ in [0])]
            f.write(head+'\n'+prune(uses,'\n'.join(invs))+f"\nuse {stem}.Given as goal\n\n"+'\n\n'.join(invs)+'\n')
    if answers:
        used='\n'.join(answers)
        hs='\n\n'.join(helpers)
        with open(folder+'/Answers.antt','w') as f:
            f.write(head+'\n'+prune(uses,used+'\n'+hs)+f"\nuse {stem}.Goals as goal\n\n"+(hs+'\n\n' if hs else '')+'\n\n'.join(answers)+'\n')
    elif helpers: report.append((path,'helpers without answers'))
    os.remove(path)
    return 'ok'
def prune(uses,text):
    words=set(WORD.findall(text))
    out=[]
    for u in uses:
        m=re.match(r"use (\S+?)\.\{(.*)\}\s*$",u,re.S)
        if not m: out.append(u); continue
        names=[n.strip() for n in m.group(2).replace('\n',' ').split(',')]
        keep=[]
        for n in names:
            b=n.split(' as ')[-1].strip()
            parts=[x for x in b.split('◌') if x]
            if b in words or ('◌' in b and all(any(pp==w or pp in text for w in [1]) for pp in parts)): keep.append(n)
            elif b in ('rules','arith') and b in words: keep.append(n)
        if keep: out.append(f"use {m.group(1)}.{{{', '.join(keep)}}}")
    return '\n'.join(out)
for crate in sys.argv[3:]:
    d=json.load(open(f'{NAMES}/{crate}/names.json'))
    n={}
    for p in sorted(glob.glob(f'{TOP}/crates/{crate}/proofs/**/Proof.antt',recursive=True)):
        r=convert(crate,p,d); n[r]=n.get(r,0)+1
    print(crate,n)
for r in report: print('REPORT',r[0].split('crates/')[1],r[1])
