#!/usr/bin/env python3
"""The other count of docs/DESIGN-PASS.md: reads src/ function by function, and prints
  1  enums and structs that are made like Option or Result: of two cases one of which has nothing, or with a bool beside a value
  2  groups of functions whose bodies have the same shape once names and numbers are taken out
  3  loops: while, loop, and for whose variable is an index of what it walks
  5  parameters, by name and type, that five or more functions outside C's share
At the top: tools/functions.py"""
import collections
import glob
import re

ITEM = re.compile(r'^\s*(?:pub(?:\(crate\))? )?(?:const )?(?:extern "C" )?fn (\w+)')


def functions():
    for path in sorted(glob.glob('crates/*/src/*.rt')):
        lines = open(path).read().split('\n')
        i = 0
        while i < len(lines):
            m = ITEM.match(lines[i])
            if not m:
                i += 1
                continue
            indent = len(lines[i]) - len(lines[i].lstrip())
            j = i
            while j < len(lines) and lines[j].rstrip() != ' ' * indent + '}' and not lines[j].rstrip().endswith('{}'):
                if j > i and lines[j].startswith(' ' * indent + '}'):
                    break
                j += 1
            text = lines[i:j + 1]
            head = [l for l in text if not l.strip().startswith('//')]
            yield path, i + 1, m.group(1), head
            i = j + 1


def body_of(text):
    joined = '\n'.join(text)
    k = re.search(r'\n\s*\{\n', joined)
    if k:
        return joined[k.end():]
    k = joined.find('{\n')
    return joined[k + 2:] if k >= 0 else ''


def shape(body):
    body = re.sub(r'0x[0-9a-fA-F_]+|\b\d[\d_]*\b', '0', body)
    body = re.sub(r'\b[a-z_][a-z0-9_]*\b', 'x', body)
    return re.sub(r'\s+', ' ', body).strip()


def main():
    all_ = list(functions())
    print('== 1')
    for path in sorted(glob.glob('crates/*/src/*.rt')):
        text = open(path).read()
        for m in re.finditer(r'enum (\w+) \{\n(.*?)\n\}', text, re.S):
            cases = [l.strip() for l in m.group(2).split('\n') if re.match(r'^    [A-Z]\w*', l)]
            bare = [c for c in cases if re.match(r'^[A-Z]\w*( = \d+)?,$', c)]
            if len(cases) == 2 and len(bare) <= 1 or any(re.match(r'(None|End|Nothing|Refused|Done)\b', c) for c in cases):
                print(f'  {path}: enum {m.group(1)}: {" ".join(cases)}')
        for m in re.finditer(r'struct (\w+)(?:<[^>]*>)? \{\n(.*?)\n\}', text, re.S):
            if re.search(r'(ready|zf|number|answer|bad|present|ok|done|valid): (bool|u8|\w*Answer|Result)', m.group(2)):
                print(f'  {path}: struct {m.group(1)}')
    print('== 2')
    groups = collections.defaultdict(list)
    for path, line, name, text in all_:
        s = shape(body_of(text))
        if len(s) >= 30:
            groups[s].append(f'{path}:{line} {name}')
    for s, places in groups.items():
        if len(places) > 1:
            print('  ' + '; '.join(places))
    print('== 3')
    for path, line, name, text in all_:
        for k, l in enumerate(text):
            m = re.search(r"\bfor (\w+) in .*\.\.", l)
            if re.search(r'\bwhile\b', l) or re.search(r'\bloop \{', l):
                print(f'  {path}: {name}: {l.strip()}')
            elif m and any(re.search(r'\[[^\]]*\b' + m.group(1) + r'\b[^\]]*\]', t) for t in text[k + 1:]):
                print(f'  {path}: {name}: {l.strip()}')
    print('== 5')
    params = collections.Counter()
    for path, line, name, text in all_:
        if 'extern "C"' in text[0]:
            continue
        head = ' '.join(text).split('{')[0]
        inner = re.search(r'\((.*)\)', head)
        if not inner:
            continue
        for p in re.split(r',\s*', inner.group(1)):
            if ':' in p:
                params[p.strip().rstrip(',')] += 1
    for p, n in params.most_common():
        if n >= 5:
            print(f'  {n}  {p}')


main()
