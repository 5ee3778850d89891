#!/usr/bin/env python3
"""Lists the places in crates/*/src that one of the eight points of the design pass (docs/DESIGN-PASS.md) may ask to change.

tools/places.py POINT          the places of one point (1 to 8), one a line, as they stand here
tools/places.py                the counts of all points
tools/places.py --at COMMIT .. the same of a commit
A row is a place to look at, not a verdict.
"""
import re
import subprocess
import sys

args = sys.argv[1:]
commit = None
if args and args[0] == '--at':
    commit = args[1]
    args = args[2:]


def git(*words):
    return subprocess.run(('git',) + words, capture_output=True, text=True, check=True).stdout


def files(pattern):
    if commit:
        names = [n for n in git('ls-tree', '-r', '--name-only', commit).split('\n') if re.fullmatch(pattern, n)]
        return {n: git('show', f'{commit}:{n}') for n in names}
    names = git('ls-files', '-co', '--exclude-standard').split('\n')
    out = {}
    for n in names:
        if re.fullmatch(pattern, n):
            try:
                out[n] = open(n).read()
            except FileNotFoundError:
                pass
    return out


SRC = files(r'crates/\w+/src/.*\.rt')


def strip(text):
    """The text without comments, line numbers kept."""
    return re.sub(r'//[^\n]*', '', text)


def functions(name, text):
    """(crate, file, line, name, head with clauses, body) of each function that has a body."""
    text = strip(text)
    for m in re.finditer(r'(?m)^[ ]*(?:#\[[^\n]*\]\n[ ]*)?((?:pub(?:\(crate\))? )?(?:extern "C" )?fn (\w+))', text):
        depth, i = 0, m.end()
        # the head ends at a line that is a lone '{', or at '{' that ends the signature's line
        body = re.compile(r'(?m)(^[ ]*\{\}?[ ]*$|[^\n=]\{[ ]*$|;[ ]*$)').search(text, m.end())
        if not body or text[body.start():body.end()].strip().endswith(';'):
            continue
        if body.group(0).strip() == '{}':
            yield name, text.count('\n', 0, m.start()) + 1, m.group(2), text[m.start():body.start()], ''
            continue
        i = body.end() - 1
        while text[i] != '{':
            i -= 1
        start = i
        while i < len(text):
            if text[i] == '{':
                depth += 1
            elif text[i] == '}':
                depth -= 1
                if depth == 0:
                    break
            i += 1
        yield name, text.count('\n', 0, m.start(1)) + 1, m.group(2), text[m.start():start], text[start + 1:i]


FUNCTIONS = [f for n, t in sorted(SRC.items()) for f in functions(n, t)]


def crate(name):
    return name.split('/')[1]


def lines(pattern):
    for n, t in sorted(SRC.items()):
        for i, line in enumerate(strip(t).split('\n'), 1):
            if re.search(pattern, line):
                yield f'{n}:{i}', line.strip()


def point1():
    for n, t in sorted(SRC.items()):
        for m in re.finditer(r'enum (\w+)(?:<[^>]*>)? \{(.*?)\n\}', strip(t), re.S):
            variants = re.findall(r'(?m)^    (\w+)(\(|,| \{)', m.group(2))
            if len(variants) == 2 and any(v[1] != ',' for v in variants) and not m.group(1).endswith('Error'):
                yield f'{n}:{strip(t).count(chr(10), 0, m.start()) + 1}', f'enum of the shape of Option or Result: {m.group(1)}'
    for place, line in lines(r'\bfn .*\b(layer|cause|kind|id_type|bit|refusal): u(8|16|32)\b|^\s*(pub )?(layer|cause|kind|id_type|bit|refusal): u(8|16|32),$'):
        yield place, 'number for a kind: ' + line
    for place, line in lines(r'\[(u8|u16); \d+\] = \[[01](, [01])+\]'):
        yield place, 'numbers for truth values: ' + line
    for n, line, f, head, body in FUNCTIONS:
        if re.search(r'-> \((bool|u32, u32)', head):
            yield f'{n}:{line}', f'a pair in place of a type: {f}'
        for m in re.finditer(r'if let Some\((\w+)\) = [^{;]*\{\s*return (Err|Some)\(|Err\((\w+)\) => (return )?Err\((?:\w+::\w+\()?|None => (return )?Err\(|Ok\((\w+)\) => Ok\(\6\)', body):
            at = line + head.count('\n') + body.count('\n', 0, m.start())
            yield f'{n}:{at}', f'an outcome passed on by hand in {f}: ' + ' '.join(m.group(0).split())


def shape(text):
    seen = {}
    out = []
    for tok in re.findall(r'[A-Za-z_]\w*|\d\w*|"[^"]*"|[^\s\w]', text):
        if re.match(r'[A-Za-z_]', tok) and tok not in ('let', 'mut', 'if', 'else', 'match', 'for', 'in', 'return', 'Some', 'None', 'Ok', 'Err', 'self', 'as', 'fn'):
            tok = seen.setdefault(tok, f'v{len(seen)}')
        elif re.match(r'\d|"', tok):
            tok = 'k'
        out.append(tok)
    return ' '.join(out)


def point2():
    groups = {}
    for n, line, f, head, body in FUNCTIONS:
        s = shape(body)
        if len(s.split()) >= 18:
            groups.setdefault(s, []).append((f'{n}:{line}', f))
    for s, g in sorted(groups.items(), key=lambda x: x[1]):
        if len(g) > 1:
            for place, f in g:
                yield place, f'{f}: same shape as {", ".join(p for p, _ in g if p != place)}'
    consts = {}
    for n, t in sorted(SRC.items()):
        for m in re.finditer(r'(?m)^(?:pub(?:\(crate\))? )?const (\w+): ([^=]*) = ([^;]*);', strip(t)):
            consts.setdefault((m.group(1), ' '.join(m.group(3).split())), []).append(f'{n}:{strip(t).count(chr(10), 0, m.start()) + 1}')
    for (c, v), g in sorted(consts.items()):
        if len({crate(p) for p in g}) > 1:
            for place in g:
                yield place, f'const {c} again in {", ".join(p for p in g if p != place)}'
    structs = {}
    for n, t in sorted(SRC.items()):
        for m in re.finditer(r'struct (\w+)[^{;]*\{(.*?)\n\}', strip(t), re.S):
            fields = re.findall(r'(?m)^    (?:pub(?:\(crate\))? )?(\w+): ([^\n]*),', m.group(2))
            if len(fields) >= 2:
                structs.setdefault(tuple(sorted(fields)), []).append((f'{n}:{strip(t).count(chr(10), 0, m.start()) + 1}', m.group(1)))
    for fields, g in sorted(structs.items(), key=lambda x: x[1]):
        if len(g) > 1:
            for place, s in g:
                yield place, f'struct {s}: the same fields as {", ".join(p for p, _ in g if p != place)}'
    # one match over the same enum of types, with the same call in each arm
    for n, line, f, head, body in FUNCTIONS:
        arms = re.findall(r'\w+::(\w+)\((?:mut )?(\w+)\) => (?:\{\s*(?:let \w+ = )?)?\2\.(\w+)\(', body)
        if len(arms) > 1 and len({a[2] for a in arms}) == 1:
            yield f'{n}:{line}', f'{f}: one call in each arm ({", ".join(a[0] for a in arms)})'
        for m in re.finditer(r'if (\w+) == \d+ \{\s*return (\w+)\(', body):
            yield f'{n}:{line + head.count(chr(10)) + body.count(chr(10), 0, m.start())}', f'{f}: a branch for one size: {m.group(0)}'


def point3():
    # `for _` counts nothing: it does a thing so many times
    for place, line in lines(r'\bfor (?!_)\w+ in [^{]*\.\.[^{]*\{|\bfor _\w+ in [^{]*\.\.[^{]*\{.*\b_\w+\b|^\s*while |^\s*loop \{'):
        yield place, line
    for place, line in lines(r'^\s*\w+ \+= 1;'):
        yield place, line


def point4():
    for n, t in sorted(SRC.items()):
        for m in re.finditer(r'impl(?:<[^>]*>)? (PartialEq|Eq|PartialOrd|Ord|Clone|Copy|Debug|Default|Hash) for', strip(t)):
            yield f'{n}:{strip(t).count(chr(10), 0, m.start()) + 1}', m.group(0)
    for place, line in lines(r'\* (256|65536|16777216)\b|/ (256|65536|16777216)\b|256 \* '):
        if 'unit()' not in line:
            yield place, 'bytes of a number by hand: ' + line
    for n, line, f, head, body in FUNCTIONS:
        if f not in ('from', 'try_from') and len(re.findall(r'(?m)^\s*(?:\w+::)*\w+(?:\(_\))? => (?:Ok\()?\d+\)?,|^\s*\d+ => ', body)) >= 2:
            yield f'{n}:{line}', f'conversion by hand: {f}'
        if f in ('told', 'stated_depth', 'depth_of_bits'):
            yield f'{n}:{line}', f'conversion by hand: {f}'
        if re.search(r'(\w+)\.(\w+)(\(\))? == \w+\.\2\3 && ', body):
            yield f'{n}:{line}', f'equality by hand: {f}'
        compared = re.findall(r'check_eq\((\w+)\.(?!len)\w+(?:\(\))?,', body)
        if any(compared.count(v) >= 3 for v in compared):
            yield f'{n}:{line}', f'equality by hand, field by field: {f}'
        if re.search(r'\b(println|print|format|write)!', body):
            read = re.findall(r'let (\w+) = (\w+)\.\1(?:\(\))?;', body)
            if any([v for _, v in read].count(v) >= 2 for _, v in read):
                yield f'{n}:{line}', f'printing by hand: {f}'


def point5():
    facts, views, groups = {}, {}, {}
    for n, line, f, head, body in FUNCTIONS:
        for m in re.finditer(r'requires (?:\w+ )?\{\s*(.*?)\s*\}\s*(?=\n|$)', head, re.S):
            facts.setdefault((crate(n), ' '.join(m.group(1).split())), []).append(f'{n}:{line}')
        sig = head.split('requires')[0].split('ensures')[0]
        params = re.findall(r'(\w+): ((?:&(?:mut )?)?[\w\[\];<>&\'_ ]+?)(?=,|\))', sig)
        params = [(a, re.sub(r"'\w+ ", '', b)) for a, b in params]
        for i in range(len(params)):
            for j in range(i + 1, len(params)):
                groups.setdefault((crate(n), params[i][0], params[j][0]), []).append(f'{n}:{line}')
    for n, line, f, head, body in FUNCTIONS:
        for m in re.finditer(r'ensures (?:\w+ )?\{\s*(.*?)\s*\}\s*(?=\n|$)', head, re.S):
            fact = ' '.join(m.group(1).split())
            if 'result' not in fact:
                facts.setdefault((crate(n), fact), []).append(f'{n}:{line}')
    for (c, fact), g in sorted(facts.items()):
        if len(g) >= 3:
            yield g[0], f'a fact in {len(g)} contracts of {c}: {fact}'
    for (c, a, b), g in sorted(groups.items()):
        if len(g) >= 3:
            yield g[0], f'parameters that travel together in {len(g)} functions of {c}: {a}, {b}'


def point6():
    for n, t in sorted(SRC.items()):
        for m in re.finditer(r'struct (\w+)[^{;]*\{(.*?)\n\}', strip(t), re.S):
            arrays = re.findall(r'(\w+): (\[.*; \w+\]),', m.group(2))
            sizes = re.findall(r'(\w+): (?:usize|u8|Fill),', m.group(2))
            if arrays and (sizes or len(arrays) > 1):
                yield f'{n}:{strip(t).count(chr(10), 0, m.start()) + 1}', f'struct {m.group(1)}: {", ".join(a[0] for a in arrays)} with {", ".join(sizes)}'
    for n, line, f, head, body in FUNCTIONS:
        for m in re.finditer(r'let mut (\w+)(?:: [^=]+)? = \[[^;\]]*; ?[^\]]*\];', body):
            if re.search(r'&(?:mut )?%s\[(0)?\.\.' % m.group(1), body) or re.search(r'%s\[\w+\] = ' % m.group(1), body):
                yield f'{n}:{line + head.count(chr(10)) + body.count(chr(10), 0, m.start())}', f'{f}: a local buffer, used in part: {m.group(1)}'


def point7():
    for n, line, f, head, body in FUNCTIONS:
        arms = re.findall(r'=> (?:self\.)?[\w:]+\((?:\w+, )*\w+\),', body)
        if len(arms) >= 4:
            yield f'{n}:{line}', f'{f}: a switch on which step to run ({len(arms)} arms)'
    for place, line in lines(r': fn\(|\[fn\('):
        yield place, line


def point8():
    proofs = files(r'crates/\w+/proofs/.*/Answers\.antt')
    for n, t in sorted(proofs.items()):
        for m in re.finditer(r'(?m)^pub ([\w·-]+) : goal\.', t):
            yield f'{n}:{t.count(chr(10), 0, m.start()) + 1}', m.group(1)


POINTS = {'1': point1, '2': point2, '3': point3, '4': point4, '5': point5, '6': point6, '7': point7, '8': point8}
if args:
    for place, what in POINTS[args[0]]():
        print(f'{place}: {what}')
else:
    for p, f in POINTS.items():
        print(p, len(list(f())))
