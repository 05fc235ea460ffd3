#!/usr/bin/env python3
"""Lists the places of src/ that an older style shows: python3 tools/places.py [FOLDER] [-v].

A place is a function (or a pair of functions, a clause, a buffer) that one of the patterns below finds. The script only
finds candidates: docs/DESIGN-PASS.md says of each what became of it.
"""
import glob
import os
import re
import sys
from collections import defaultdict

root = next((a for a in sys.argv[1:] if not a.startswith('-')), '.')
verbose = '-v' in sys.argv


def functions(path):
    """(name, signature with clauses, body, text) of each function of a file."""
    text = open(path).read()
    out = []
    for m in re.finditer(r'^( *)(?:pub(?:\(\w+\))? )?(?:const )?fn (\w+)', text, re.M):
        indent = m.group(1)
        start = text.find('\n' + indent + '{\n', m.start())
        inline = re.compile(r'\{\n').search(text, m.start())
        head = text[m.start():]
        line = head.split('\n', 1)[0]
        if line.rstrip().endswith('{}'):
            continue
        if line.rstrip().endswith('{'):
            start = m.start() + len(line) - 1
        elif line.rstrip().endswith(';'):
            continue
        end = text.find('\n' + indent + '}\n', start if start >= 0 else m.start())
        if start < 0 or end < 0 or not inline:
            continue
        nxt = re.search(r'^ *(?:pub(?:\(\w+\))? )?fn \w+', text[m.end():], re.M)
        if nxt and m.end() + nxt.start() < start:
            continue  # a signature of a trait
        out.append((m.group(2), text[m.start():start], text[start:end], m.start()))
    return out


files = sorted(glob.glob(os.path.join(root, 'crates/*/src/**/*.rt'), recursive=True))
found = defaultdict(list)
bodies = defaultdict(list)

for path in files:
    short = os.path.relpath(path, os.path.join(root, 'crates')).replace('/src/', '/')
    for name, head, body, at in functions(path):
        where = f'{short}:{name}'
        # 1: a match or a let-else that only wraps an answer again, a number as an error, a flag or an Option set in a loop
        rewrap = re.search(r'Ok\((\w+)\) => (Ok\(\1\)|\1),|Err\((\w+)\) => (return )?Err\(\3\)|(None|Err\(_\)) => (return )?(Err\(|None)'
                           r'|let (Ok|Some)\([^=]*\) = [^;]*?else \{\s*return (None|Err\(\w+\));', body)
        if rewrap or re.search(r'Result<[^<>]*(<[^<>]*>)?, u(8|16|32|size)>', head) or re.search(r'let mut \w+ = (None|false);', body):
            found[1].append(where)
        # 3: a counter over a range, an index made from a counter, a cursor that is moved by hand
        by_hand = False
        for line in re.findall(r'^ *(?:.\w+: )?for .*', body, re.M):
            counter = re.match(r"^ *(?:.\w+: )?for (\w+) in \(?[\w.()]+\.\.", line) or re.match(r' *for \((\w+), .*enumerate', line)
            if counter:
                i = counter.group(1)
                index = re.search(r'\[[^\]]*\b' + i + r'\b[^\]]*\]|(<<|>>) \(?' + i + r'\b|\+ ' + i + r'\b|- ' + i + r'\b|\* ' + i + r'\b', body)
                by_hand |= bool(index) or bool(re.search(r'(return|=) Some\(\(?' + i, body)) or f'share({i}' in body
        by_hand |= bool(re.search(r'\b(at|from) = (end|to);', body))
        by_hand |= bool(re.search(r'for \w+ in \w+ \{\s*if [^{]*\{\s*(return|\w+ \+= 1|\w+ = )', body))
        if by_hand:
            found[3].append(where)
        # 4: conversions by a match over literals, and fields printed one by one
        if len(re.findall(r'^ *("?\w+"?) => (Some|Ok)\((\w+::\w+)\)', body, re.M)) > 1:
            found[4].append(where)
        if re.search(r'println!\([^;]*number \{', body):
            found[4].append(where)
        # 6: a buffer of a fixed size of which a front is used
        for buffer in re.findall(r'let mut (\w+) = \[[^;\]]*; (?:[A-Z_]+|\d+)\];', body):
            if re.search(r'\b' + buffer + r'\[\w*\.\.\w+', body) and 'test' not in path:
                found[6].append(f'{where}:{buffer}')
        if re.search(r'(\w+)\.(one|two|three)\b', body):
            found[6].append(where)
        # 7: a match on a kind or on a name that picks a step
        if re.search(r'match (kind|name|self) \{', body):
            arms = re.findall(r'=> (?:\w+\()?(\w+(?:\.\w+)?)\(', body)
            if len(arms) > 1:
                found[7].append(where)
        # 2: functions whose bodies are one but for types, constants and numbers
        plain = re.sub(r'\b[A-Z]\w*(::<[^>]*>)?\b|\b\d[\d_]*(u\d+|usize)?\b|"[^"]*"', 'T', body)
        plain = re.sub(r'//.*', '', plain)
        plain = re.sub(r'\s+', ' ', plain)
        if 'tests' not in path and '#[test]' not in plain:
            bodies[plain].append(where)
    # 5: facts that stand in the contracts of three functions or more
    text = open(path).read()
    facts = defaultdict(set)
    for name, head, body, at in functions(path):
        for clause in re.findall(r'(?:requires|ensures)(?: \w+)? \{(.*)\}', head):
            for part in set(re.findall(r'\([^()]*(?:\([^()]*\)[^()]*)*\)|record \{[^}]*\}', clause)) | {clause.strip()}:
                part = re.sub(r'\b(old|new|now)\b', 'now', part)
                if len(part) > 12:
                    facts[part].add(name)
    for part, names in facts.items():
        if len(names) > 2 and not any(part != o and part in o and facts[o] == names for o in facts):
            found[5].append(f'{short}: {part} in {len(names)}')

for plain, where in bodies.items():
    if len(where) > 1 and len(plain) > 12:
        found[2].append(' = '.join(where))

answers = 0
inner = 0
for path in glob.glob(os.path.join(root, 'crates/*/proofs/**/*.antt'), recursive=True):
    text = open(path).read()
    if path.endswith('Answers.antt'):
        answers += len(re.findall(r'^pub ', text, re.M))
    inner += len(re.findall(r'^use (?:lib|native|borrow|mathlib)\.', text, re.M))

for point in range(1, 8):
    print(f'{point}: {len(found[point])}')
    if verbose:
        for place in found[point]:
            print('   ', place)
print(f'8: {answers} answers, {inner} imports of inner modules')
