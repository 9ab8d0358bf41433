#!/usr/bin/env python3
"""changes.py OLD NEW [rt|specs|proofs]: what differs between two checkouts: public functions and types with their
clauses, members of traits and impl blocks, definitions of specs/, public theorems of proofs/."""
import sys,os,re,collections
def files(root,sub,ext):
    out=[]
    for c in sorted(os.listdir(root+'/crates')):
        d=f'{root}/crates/{c}/{sub}'
        for dp,dn,fn in os.walk(d):
            for f in sorted(fn):
                if f.endswith(ext): out.append((c,os.path.relpath(os.path.join(dp,f),f'{root}/crates/{c}'),open(os.path.join(dp,f)).read()))
    return out
def norm(s): return re.sub(r'\s+',' ',s).strip()
def strip_comments(s,m): return '\n'.join(re.sub(r'(^|\s)'+m+r'.*$','',l) for l in s.split('\n'))
DECL=re.compile(r'^(\s*)((?:abbrev |unfoldable )?(?:pub )?(?:record |data )?)([^\s:(){}]+)((?:\s+[({].*?)?) ?: ')
def antt(root,sub):
    d={}
    for c,f,s in files(root,sub,'.antt'):
        if f.endswith('Lib.antt') or f.count('/')>1 and f.endswith(('Answers.antt','Invariants.antt','Proof.antt')): continue # a function's own; above such a folder these names hold lemmas
        s=strip_comments(s,'--')
        # split into blocks separated by blank lines
        for b in re.split(r'\n\s*\n',s):
            lines=[l for l in b.split('\n') if l.strip() and not l.startswith('use ')]
            if not lines: continue
            lines=[l for l in lines if not l.startswith('pub use ')]
            if not lines: continue
            while lines and lines[0].strip().startswith('module'):
                while lines and not lines[0].rstrip().endswith('where'): lines=lines[1:]
                lines=lines[1:]
            if not lines: continue
            m=re.match(r'\s*(?:abbrev |unfoldable )?(?:pub )?(?:record |data |abbrev )*([^\s:(){}]+)',lines[0])
            if not m: continue
            name=m.group(1); pub='pub' in lines[0].split(':')[0].split()
            kind='record' if 'record' in lines[0].split(':')[0].split() else 'abbrev' if lines[0].strip().startswith('abbrev') else 'unfoldable' if lines[0].strip().startswith('unfoldable') else 'theorem'
            if kind=='theorem':
                # type only: first line (may continue until a line starting with name)
                t=[]
                for l in lines:
                    if t and re.match(r'\s*'+re.escape(name)+r'(\s|$)',l) : break
                    if l.strip().startswith('unfolding'): break
                    t.append(l)
                text=norm(' '.join(t))
            else: text=norm(' '.join(lines))
            d[(c,name)]=(pub,kind,text,f)
    return d
def rt(root):
    d={}
    for c,f,s in files(root,'src','.rt'):
        if 'trials' in c: continue
        s=strip_comments(s,'//')
        ctx=''; trait=False
        lines=s.split('\n'); i=0
        cont=None
        while i<len(lines):
            l=lines[i]
            m=re.match(r'^(impl|pub trait|trait)\b(.*)\{?',l)
            if m and not l.startswith(' '):
                h=l
                while '{' not in h: i+=1; h+=' '+lines[i].strip()
                ctx=norm(h.split('{')[0]) if not h.startswith('impl') else norm(h.rstrip('{ '))
                ctx=re.sub(r'^(pub )?(impl|trait)(<[^ ]*>)? ','',ctx) 
                trait=h.startswith('pub trait')
                if trait: d[(c,'trait '+ctx)]='pub|'+norm(h)+'|'+f
            elif l.startswith('}'): ctx=''; trait=False
            m=re.match(r'^\s*(pub(?:\([a-z]+\))? )?(?:const )?fn (\w+)',l)
            if m:
                h=l; j=i
                while j+1<len(lines):
                    if re.match(r'^\s*\{\s*$',lines[j]) or lines[j].rstrip().endswith('{') or lines[j].rstrip().endswith(';'): break
                    j+=1
                    h+=' '+lines[j].strip()
                h=norm(re.sub(r'\{\s*$','',h)).rstrip(';').rstrip()
                pub=m.group(1)=='pub ' or (ctx and (' for ' in ctx or 'trait' in '')) 
                d[(c,(ctx+' ' if ctx else '')+'fn '+m.group(2))]=('pub' if m.group(1)=='pub ' or trait else 'impl' if ' for ' in ctx else 'priv')+'|'+h+'|'+f
                i=j
            m=re.match(r'^pub (struct|enum) (\w+)',l)
            if m:
                h=(lines[i-1]+' ' if i and lines[i-1].startswith('#[derive') else '')+l
                if not l.rstrip().endswith(';'):
                    while not lines[i].startswith('}'): i+=1; h+=' '+lines[i].strip()
                d[(c,m.group(1)+' '+m.group(2))]='pub|'+norm(h)+'|'+f
            m=re.match(r'^    ghost (\w+) ?[=:]',l)
            if m and ctx:
                h=l
                while not (lines[i].rstrip().endswith(';') or lines[i].rstrip().endswith(',')): i+=1; h+=' '+lines[i].strip()
                d[(c,ctx+' ghost '+m.group(1))]='pub|'+norm(h)+'|'+f
            i+=1
    return d
old,new=sys.argv[1:3]
what=sys.argv[3] if len(sys.argv)>3 else 'all'
def show(title,o,n,key=lambda v:v,pub=lambda v:True):
    print(f'## {title}')
    for k in sorted(set(o)|set(n)):
        a,b=o.get(k),n.get(k)
        if a is None and pub(b): print(f'NEW {k[0]} {k[1]}\n    + {key(b)}')
        elif b is None and pub(a): print(f'GONE {k[0]} {k[1]}\n    - {key(a)}')
        elif a is not None and b is not None and key(a)!=key(b) and (pub(a) or pub(b)): print(f'CHANGED {k[0]} {k[1]}\n    - {key(a)}\n    + {key(b)}')
if what in('all','rt'): show('functions and types',rt(old),rt(new),key=lambda v:v.split('|',1)[1].rsplit('|',1)[0],pub=lambda v:not v.startswith('priv'))
if what in('all','specs'): show('definitions in specs',antt(old,'specs'),antt(new,'specs'),key=lambda v:v[2])
if what in('all','proofs'): show('theorems in proofs',antt(old,'proofs'),antt(new,'proofs'),key=lambda v:v[2],pub=lambda v:v[0])
