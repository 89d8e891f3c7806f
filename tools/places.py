#!/usr/bin/env python3
"""Counts the places in crates/*/src that docs/DESIGN-PASS.md speaks of, point by point.

    tools/places.py [FOLDER]        the checkout that is counted, this one if none is named
    tools/places.py -l [FOLDER]     each place too, as FILE: FUNCTION: what
"""
import collections, glob, os, re, sys

args = [a for a in sys.argv[1:] if a != '-l']
top = args[0] if args else '.'
show = '-l' in sys.argv

FN = re.compile(r'^\s*(?:pub )?(?:const )?(?:extern "C" )?fn (\w+)(?:<[^>]*>)?\(', re.M)


def functions(text):
    """Each function: its name, parameters, clauses and body."""
    for m in FN.finditer(text):
        at, depth = m.end(), 1
        while depth:
            depth += {'(': 1, ')': -1}.get(text[at], 0)
            at += 1
        params = text[m.end():at - 1]
        end = text.find('\n}\n', at)
        inner = re.search(r'\n    }\n', text[at:])
        if text[m.start():m.end()].lstrip('\n').startswith('    ') and inner:
            end = at + inner.start()
        rest = text[at:end if end > 0 else len(text)]
        cut = re.search(r'\n\s*\{\n|\{\s*\n', rest) if 'requires' not in rest and 'ensures' not in rest else re.search(r'\n\s*\{\n', rest)
        clauses, body = (rest[:cut.start()], rest[cut.end():]) if cut else ('', rest)
        yield m.group(1), params, clauses, body


def names(params):
    """The parameters as NAME: TYPE."""
    parts, depth, word = [], 0, ''
    for c in params + ',':
        depth += {'(': 1, '[': 1, '<': 1, ')': -1, ']': -1, '>': -1}.get(c, 0)
        if c == ',' and depth == 0:
            if word.strip():
                parts.append(' '.join(word.split()))
            word = ''
        else:
            word += c
    return parts


found = collections.defaultdict(list)


def place(kind, file, what):
    found[kind].append('%s: %s' % (os.path.relpath(file, top), what))


shapes, facts, groups = collections.defaultdict(list), collections.defaultdict(list), collections.defaultdict(list)
for file in sorted(glob.glob(os.path.join(top, 'crates/*/src/**/*.rt'), recursive=True)):
    text = re.sub(r'//[^\n]*', '', open(file).read())
    # 1: enums with one case that holds a value and another that holds none or a refusal
    for m in re.finditer(r'enum (\w+) \{(.*?)\n\}', text, re.S):
        cases = [c.strip() for c in m.group(2).strip().strip(',').split(',\n')]
        full = [c for c in cases if '(' in c]
        if 2 <= len(cases) <= 3 and 1 <= len(full) <= 2:
            place('1 enum', file, 'enum %s' % m.group(1))
    for m in re.finditer(r'struct (\w+)[^{;]*\{(.*?)\n\}', text, re.S):
        if re.search(r': bool\b', m.group(2)):
            place('1 flag', file, 'struct %s' % m.group(1))
    for m in re.finditer(r'const (\w+): u16 = 65535', text):
        place('1 flag', file, 'const %s' % m.group(1))
    for name, params, clauses, body in functions(text):
        ps = names(params)
        if any(re.match(r'(kind|name|number): u\w+$', p) for p in ps):
            place('1 kind', file, '%s: %s' % (name, [p for p in ps if re.match(r'(kind|name|number): u\w+$', p)][0]))
        # 2: functions that differ only in a type, a number or a text
        shape = re.sub(r'\b(u8|u16|u32|u64|usize)\b', 'T', params + '{' + body)
        shape = re.sub(r'b?"[^"]*"|b?\'[^\']*\'|\b\d[\d_]*\w*\b', 'N', shape)
        local = {}
        shape = re.sub(r'(?<![\w:.])([a-z_]\w*)\b(?!\()', lambda m: local.setdefault(m.group(1), 'v%d' % len(local)), shape)
        shape = re.sub(r'\b[A-Z]\w*::\w+|\b[A-Z][A-Z_]+\b', 'K', shape)
        shape = re.sub(r'\b\w+::(\w+)\(', r'\1(', shape)
        shapes[' '.join(shape.split())].append((file, name))
        # 3: loops by an index
        for m in re.finditer(r'\bwhile ([^{]*)\{|\bfor (\w+) in ([^{]*\.\.[^{]*)\{', body):
            depth, at = 1, m.end()
            while depth and at < len(body):
                depth += {'{': 1, '}': -1}.get(body[at], 0)
                at += 1
            inside = body[m.end():at]
            if m.group(1) is not None:
                if re.search(r'\+= 1|-= 1|\[\w', inside + m.group(1)):
                    place('3 while', file, '%s: while %s' % (name, m.group(1).strip()))
                else:
                    place('3 chain', file, '%s: while %s' % (name, m.group(1).strip()))
            elif re.search(r'\[[^\]]*\b%s\b[^\]]*\]' % m.group(2), inside):
                place('3 for', file, '%s: for %s in %s' % (name, m.group(2), m.group(3).strip()))
        # 4: conversions by hand
        for m in re.finditer(r'\bas (u8|u16|u32|u64|usize)\b', body):
            place('4 cast', file, '%s: as %s' % (name, m.group(1)))
        if re.fullmatch(r'\s*(\w+ as \w+|if \w+ \{ 1 \} else \{ 0 \}|if \w+ < \w+ \{ \w+ \} else \{ \w+ \})\s*', body):
            place('4 helper', file, name)
        for m in re.finditer(r'\btable::wide\(|(?<![\w:.])wide\(', body):
            place('4 wide', file, name)
        # 5: parameters and facts that travel
        for fact in re.split(r'×|requires(?: \w+)?', clauses.split('ensures')[0]):
            fact = ' '.join(re.sub(r'[{}()]', ' ', fact).split())
            fact = re.sub(r'\.(old|now|new)\b', '', fact)
            if fact:
                facts[fact].append((file, name))
        head = [p.split(':')[0] for p in ps]
        for a in ('words', 'marks', 'index'), ('words', 'index'), ('heads', 'reach'), ('heads', 'reached'), ('bytes', 'queue', 'top'), ('cur', 'state', 'left', 'parent'), ('bodies', 'heads'), ('out', 'at'):
            if all(x in head for x in a):
                groups[' '.join(a)].append((file, name))
        if len(ps) >= 7:
            place('5 seven parameters', file, '%s: %d' % (name, len(ps)))
        # 6: a buffer with a length beside it
        if any(re.match(r'\w+: &mut \[u\w+\]$', p) for p in ps) and any(re.match(r'(top|at|n|t|to|end|used|len): usize$', p) for p in ps):
            place('6 buffer', file, name)
        # 7: switches on which step to run
        if re.search(r'match (kind|name)\b|if (kind|name|s\.kind|step\.kind) [!=]= ', body):
            place('7 switch', file, name)

for shape, who in shapes.items():
    if len(who) > 1 and len(shape) > 40:
        for f, n in who:
            place('2 twins', f, '%s (with %s)' % (n, ', '.join(m for _, m in who if m != n) or 'its namesake'))
for fact, who in facts.items():
    if len(who) > 2:
        for f, n in who:
            place('5 fact in 3 contracts or more', f, '%s: %s' % (n, fact))
for group, who in groups.items():
    if len(who) > 2:
        for f, n in who:
            place('5 together: ' + group, f, n)
n = 0
for file in glob.glob(os.path.join(top, 'crates/*/proofs/**/Answers.antt'), recursive=True):
    n += len(re.findall(r'^pub \S+ : goal\.', open(file).read(), re.M))
for kind in sorted(found):
    print('%-40s %5d' % (kind, len(found[kind])))
    if show:
        for line in found[kind]:
            print('    ' + line)
print('%-40s %5d' % ('8 answers written in proofs/', n))
