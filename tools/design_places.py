#!/usr/bin/env python3
"""Lists the places of each point of docs/DESIGN-PASS.md in the sources, and how many there are.

    tools/design_places.py [-v] [POINT ..]     at the top of the repository; -v names each place
"""
import collections, glob, os, re, sys

FN = re.compile(r'^( *)(?:#\[[^\n]*\]\n *)*((?:pub(?:\(crate\))? )?(?:extern "C" )?fn (\w+)(?:<[^>]*>)?\((.*?)\)(?: -> [^\n{]*)?)(?: \{|\n((?: +(?:requires|ensures)[^\n]*\n(?:(?! *\{\n)[^\n]*\n)*?)*) *\{)\n(.*?)^\1\}', re.M | re.S)


def sources():
    for line in open('crates.txt'):
        if line.strip() and not line.startswith('#'):
            crate = line.split(':')[0].split()[0]
            for path in sorted(glob.glob('crates/%s/src/**/*.rt' % crate, recursive=True)):
                yield crate, path, open(path, encoding='utf-8').read()


def functions():
    for crate, path, text in sources():
        for m in FN.finditer(text):
            before = text[:m.start()].split('\n')
            comment = []
            while before and (before[-1].strip() == '' and not comment or before[-1].strip().startswith('//')):
                line = before.pop().strip()
                if line: comment.insert(0, line)
                elif comment: break
            yield dict(path=path, line=text[:m.start(2)].count('\n') + 1, name=m.group(3), params=re.sub(r'\s+', ' ', m.group(4)), clauses=m.group(5) or '', body=m.group(6), comment=' '.join(comment))


def facts(clauses):
    for m in re.finditer(r'requires (?:\w+ )?\{ (.*?) \}(?=\s*(?:requires|ensures|\Z))', clauses, re.S):
        body = re.sub(r'^(?:let \w+ = [^\n]*? in )+', '', re.sub(r'\s+', ' ', m.group(1)))
        depth, cur = 0, ''
        for ch in body + '×':
            if ch in '([{': depth += 1
            if ch in ')]}': depth -= 1
            if ch == '×' and depth == 0:
                yield cur.strip(); cur = ''
            else: cur += ch


def option_shapes():
    for crate, path, text in sources():
        for m in re.finditer(r'enum (\w+) \{(.*?)\n\}', text, re.S):
            variants = re.findall(r'^    (\w+)(\(|,| \{|\n)', m.group(2), re.M)
            if len(variants) == 2 and any(v[1] in ('(', ' {') for v in variants):
                yield path, text[:m.start()].count('\n') + 1, 'enum ' + m.group(1)
        for m in re.finditer(r'^ +(?:pub )?(\w+): bool,$', text, re.M):
            yield path, text[:m.start()].count('\n') + 1, 'flag ' + m.group(1)
    told = re.compile(r'\b(?:0|11|k|c is the number of cells|both are 0|a box of zeros|one more than there is room)\b[^.;]{0,30}\b(?:where|if|for|past|at the end|which is not read)\b|says? nothing|[Ii]ntersecting says nothing|\b1 (?:if|where|for)\b')
    for f in functions():
        if told.search(f['comment']): yield f['path'], f['line'], f['name'] + ' ' + told.search(f['comment']).group(0)
    for f in functions():
        if re.search(r'\b\w+: bool\b', f['params']): yield f['path'], f['line'], f['name'] + ' takes a flag'


def skeleton(body):
    body = re.sub(r'//[^\n]*', '', body)
    body = re.sub(r'\b(?!(?:if|else|while|for|in|let|mut|return|match|as|break|continue|loop)\b)[A-Za-z_]\w*(?:::\w+)*', 'x', body)
    return re.sub(r'\s+', ' ', re.sub(r'\b\d\w*\b', '0', body)).strip()


def twins():
    groups = collections.defaultdict(list)
    for f in functions():
        if f['body'].count('\n') >= 3: groups[skeleton(f['body'])].append(f)
    for g in groups.values():
        if len(g) > 1:
            for f in g[1:]: yield f['path'], f['line'], '%s as %s' % (f['name'], g[0]['name'])


def loops():
    for crate, path, text in sources():
        for n, line in enumerate(text.split('\n'), 1):
            if re.match(r' *while ', line): yield path, n, line.strip()


def by_hand():
    for f in functions():
        b = f['body'].strip()
        if re.match(r'match \w+ \{', b) and re.search(r"=> (?:\d+|b'.'|true|false),", b) and not re.search(r'=> \w+\(', b): yield f['path'], f['line'], f['name'] + ' converts'
        elif re.match(r'if (\w+) < (\w+) \{\s*return \w+;\s*\}\s*\w+$', b): yield f['path'], f['line'], f['name'] + ' orders'
        elif re.match(r'(?:if \w+ \{ \w+ \} else \{ \w+ \}|\w+ as \w+|[-\w]+ - \w+\(?.*)$', b) and b.count('\n') == 0 and re.match(r'\w+ as \w+$', b): yield f['path'], f['line'], f['name'] + ' casts'
        elif re.search(r'for .*\n\s*if (\w+)\[\w+\] != (\w+)\[\w+\] \{\s*return false', b): yield f['path'], f['line'], f['name'] + ' compares'
        elif len(re.findall(r'\[\d\]', b)) >= 4 and b.startswith('['): yield f['path'], f['line'], f['name'] + ' writes out an array'


def together():
    count = collections.Counter(); where = {}
    for f in functions():
        for x in set(facts(f['clauses'])):
            x = re.sub(r'\.(?:now|old|entry)\b', '', x)
            count[x] += 1; where.setdefault(x, f)
    for x, n in count.items():
        if n >= 3 and len(x) > 16 and not re.match(r'^\(?\w+ [<≤] \w+\)?$', x): yield where[x]['path'], where[x]['line'], '%d contracts: %s' % (n, x[:110])
    seqs = collections.Counter(); first = {}
    for f in functions():
        ps = [re.sub(r'&mut |&', '', p.strip()) for p in f['params'].split(', ') if ':' in p]
        for i in range(len(ps) - 2):
            s = ', '.join(ps[i:i + 3]); seqs[s] += 1; first.setdefault(s, f)
    for s, n in seqs.items():
        if n >= 3: yield first[s]['path'], first[s]['line'], '%d functions: %s' % (n, s)


def buffers():
    for crate, path, text in sources():
        for m in re.finditer(r'struct (\w+)[^{]*\{(.*?)\n\}', text, re.S):
            if re.search(r': \[', m.group(2)) and re.search(r'\blen: usize', m.group(2)): yield path, text[:m.start()].count('\n') + 1, 'struct ' + m.group(1)
    for f in functions():
        p = f['params']
        if re.search(r'\bfrom: usize, (?:to|end|m): usize|\bat: usize, (?:m|n|digits|k): usize|\bbytes: &\[u8\], n: usize|\blo: usize, (?:m|hi): usize', p): yield f['path'], f['line'], f['name']


def switches():
    for f in functions():
        for m in re.finditer(r'\b(\w+): bool\b', f['params']):
            if re.search(r'if !?%s\b' % m.group(1), f['body']): yield f['path'], f['line'], f['name'] + ' by ' + m.group(1)


def proofs():
    for path in sorted(glob.glob('crates/*/proofs/**/Answers.antt', recursive=True)):
        text = open(path, encoding='utf-8').read()
        lets = collections.Counter(re.sub(r'\s+', ' ', m) for m in re.findall(r'^ +let \w+ : [^\n]*', text, re.M))
        for x, n in lets.items():
            if n > 1: yield path, 0, '%d answers: %s' % (n, x[:100])


POINTS = [(1, 'Option, Result, enums', option_shapes), (2, 'twins (one skeleton)', twins), (3, 'while loops', loops), (4, 'by hand: conversion, order, copies', by_hand),
          (5, 'facts and parameters together', together), (6, 'buffers and lengths', buffers), (7, 'switches', switches), (8, 'repeated lets in answers', proofs)]
args = sys.argv[1:]
loud = '-v' in args
wanted = [int(a) for a in args if a.isdigit()]
for n, what, find in POINTS:
    if wanted and n not in wanted: continue
    places = list(find())
    print('%d. %s: %d' % (n, what, len(places)))
    if loud:
        for path, line, text in places: print('   %s%s: %s' % (path, ':%d' % line if line else '', text))
