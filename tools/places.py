#!/usr/bin/env python3
"""Counts the places of docs/DESIGN-PASS.md in crates/*/src: places.py [POINT] prints them, without a point only their number for each rule.

Run it at the root of a tree. A rule is a test of the source's text, so it finds candidates; the page says what became of each."""
import glob, os, re, sys

items = []          # (crate, file, line, comment, head, body, clauses)
structs = []


def brace(s, i, a='{', b='}'):
    d = 0
    while i < len(s):
        if s.startswith('//', i):
            i = s.find('\n', i)
            continue
        if s[i] == '"':
            i += 1
            while s[i] != '"':
                i += 2 if s[i] == '\\' else 1
        elif s.startswith("b'", i):
            i = s.find("'", i + 2) if s[i + 2] != '\\' else i + 4
        elif s[i] == a:
            d += 1
        elif s[i] == b:
            d -= 1
            if d == 0:
                return i
        i += 1
    return len(s) - 1


def functions(path):
    s = open(path).read()
    crate = path.split('/')[1]
    for m in re.finditer(r'^([ \t]*)(?:pub(?:\(\w+\))? )?(?:const )?(?:extern "C" )?fn (\w+)', s, re.M):
        p = s.find('(', m.end())
        e = brace(s, p, '(', ')')
        params = s[p + 1:e]
        clauses, k, last = [], e + 1, e + 1
        while True:
            while k < len(s) and s[k] not in '{;':
                k += 1
            t = re.search(r'\b(requires|ensures)\b', s[last:k])
            if s[k] == ';' and s[last:k].count('[') > s[last:k].count(']'):
                k += 1
                continue
            if t and s[k] == '{':
                f = brace(s, k)
                clauses.append((t.group(1), s[k + 1:f]))
                k = last = f + 1
                continue
            break
        result = s[e + 1:k].split('requires')[0].split('ensures')[0].replace('->', '').strip() if not clauses else s[e + 1:s.find(clauses[0][0], e)].replace('->', '').strip()
        body = s[k:brace(s, k) + 1] if k < len(s) and s[k] == '{' else ''
        before = s[:m.start()].rstrip('\n').split('\n')
        comment = []
        while before and before[-1].strip().startswith('//'):
            comment.insert(0, before.pop().strip())
        yield dict(crate=crate, line=s[:m.start()].count('\n') + 1, name=m.group(2), params=params, result=result, clauses=clauses, body=body, comment=' '.join(comment), path=path)


def parameters(f):
    out, d, t = [], 0, ''
    for c in f['params']:
        d += c in '([<{'
        d -= c in ')]>}'
        if c == ',' and d == 0:
            out.append(' '.join(t.split()))
            t = ''
        else:
            t += c
    out.append(' '.join(t.split()))
    return [x for x in out if x]


paths = sorted(glob.glob('crates/*/src/*.rt'))
fns = [f for p in paths for f in functions(p)]
text = {p: open(p).read() for p in paths}
rules = {}


def rule(name, places):
    rules[name] = places


def where(f, more=''):
    return f"{f['path']}:{f['line']} {f['name']} {more}".strip()


def lines(pattern):
    return [f'{p}:{i + 1} {l.strip()}' for p in paths for i, l in enumerate(text[p].split('\n')) if re.search(pattern, l) and not l.strip().startswith('//')]


# 1
enums = []
for p in paths:
    for m in re.finditer(r'^\s*(?:pub )?enum (\w+)[^{]*\{', text[p], re.M):
        b = text[p][m.end():brace(text[p], m.end() - 1)]
        if '(' in b or '{' in b or re.search(r'\bBad\w*|\bToo\w*', b):
            enums.append(f"{p}:{text[p][:m.start()].count(chr(10)) + 2} {m.group(1)}")
rule('1a own enum of the shape of Option or Result', enums)
rule('1b struct with a refusal or a plan beside a value', lines(r'^\s*(?:pub )?refusal: Refusal,$'))
rule("1c function that answers a refusal's number", [where(f) for f in fns if f['result'] == 'u32' and re.search(r'number|^plan$|^accept$|^sizing$|^front$', f['name'])])
rule('1d answer with a value that stands for none', [where(f, f['result']) for f in fns if f['result'] in ('usize', 'u64', 'f64', 'i64') and re.search(r'\bor (their|the row|the) (count|length)|, or 0|; or 0|0 where|or the length|else the length|, or none|answers? 0\b', f['comment'] + ' ')])
rule('1e flag beside a value', lines(r'^\s*(?:pub )?\w+: bool,$'))
# 2
twin = re.compile(r'_(resident|cached|ids|four|32|64|128|bytes)$|(f32|f64|u32|u64)|_(cache|codes|scales|norms)$')
bases = {}
for f in fns:
    b = f['name']
    while twin.sub('', b) != b:
        b = twin.sub('', b)
    bases.setdefault((f['crate'], b), []).append(f)
rule('2 function that differs from another of its crate in a type, a size or a constant, by its name', [where(f) for (c, b), v in sorted(bases.items()) if len(v) > 1 for f in v if twin.search(f['name'])])
# 3
rule('3 loop by while or loop', lines(r'^\s*(?:\'\w+: )?(while|loop)\b'))
rule('3a of these, an index is counted by hand', [x for f in fns for x in [where(f)] * len(re.findall(r'^\s*(\w+) (?:\+=|-=) (?:1|4|8|16|32|64|128|length|stride|size);$', f['body'], re.M)) if re.search(r'\bwhile\b', f['body'])])
# 4
rule('4 equality, order, conversion or printing by hand', [where(f) for f in fns if re.match(r'(same_\w+|wide|low|lesser|least|index|from_byte|byte|less|over|zero_\w+|default|unsigned|signed|of_integer|count|no_\w*head|put_\w+|number|number_of)$', f['name']) and f['crate'] not in ('api',)])
# 5
facts = {}
for f in fns:
    for kind, c in f['clauses']:
        if kind == 'requires':
            for x in set(re.split(r'\s×\s', ' '.join(c.split()))):
                x = x.strip().strip('()')
                x = re.sub(r'\.(now|old|new)\b', '', x)
                facts.setdefault((f['crate'], x), []).append(f)
rule('5a fact that stands in the requires of three or more functions of a crate', [f'{c}: {x} ({len(v)})' for (c, x), v in sorted(facts.items()) if len(v) >= 3])
groups = {}
for f in fns:
    ps = parameters(f)
    for i in range(len(ps) - 1):
        for j in range(i + 2, min(len(ps), i + 5) + 1):
            groups.setdefault(tuple(ps[i:j]), []).append(f)
pairs = {g: v for g, v in groups.items() if len(v) >= 3 and len(g) == 2 and len({f['crate'] for f in v}) >= 1}
rule('5b pair of parameters that stand beside one another in three or more functions', [f"{', '.join(g)} ({len(v)})" for g, v in sorted(pairs.items())])
# 6
rule('6 parallel slices as parameters (keys and rows; codes, scales and norms; the answer slices)', [where(f) for f in fns if re.search(r'\bks\b.*\brs\b|\bkeys: .*\b(candidates|listed|rows): |\bcodes: .*\bscales: |\bids: .*\bdistances: ', f['params'], re.S)])
# 7
rule('7 switch on which step to run', [where(f, ', '.join(x for x in parameters(f) if x.endswith(': bool'))) for f in fns if any(x.endswith(': bool') for x in parameters(f))])
# 8
files = sorted(glob.glob('crates/*/proofs/**/Answers.antt', recursive=True))
answers, helpers = [], []
for p in files:
    for m in re.finditer(r'^(pub )?([\w\-·\']+)(?: :|$)', open(p).read(), re.M):
        if m.group(2) in ('use', 'unfolding', 'module', 'abbrev', 'pub'):
            continue
        (answers if m.group(1) else helpers).append(f'{p} {m.group(2)}')
rule('8a file of answers', files)
rule('8b answer', answers)
rule('8c helper that stands in a file of answers', sorted(set(helpers)))

if len(sys.argv) > 1:
    for n, v in rules.items():
        if n.startswith(sys.argv[1]):
            print(f'{n}: {len(v)}')
            for x in v:
                print('   ', x)
else:
    for n, v in rules.items():
        print(f'{len(v):5d}  {n}')
