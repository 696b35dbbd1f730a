#!/usr/bin/env python3
"""Lists, for each point of docs/DESIGN-PASS.md, the lines of src/ that its command finds, and counts them.

    python3 tools/design_counts.py [POINT..] [--list]

A line that is found is a place to look at, and not yet a place to change: the page says of each what became of it."""
import collections
import glob
import re
import sys

FILES = sorted(glob.glob('crates/*/src/*.rt'))
LINES = [(f, n, l) for f in FILES for n, l in enumerate(open(f, encoding='utf-8').read().splitlines(), 1)]


def code(line):
    return not line.lstrip().startswith(('//', 'ghost', 'requires', 'ensures'))


def grep(pattern):
    found = re.compile(pattern)
    return [(f, n, l) for f, n, l in LINES if code(l) and found.search(l)]


def signatures():
    """Each function: file, line, name, parameters by name, clauses."""
    for f in FILES:
        text = open(f, encoding='utf-8').read()
        for m in re.finditer(r'^ *(?:pub(?:\(crate\))? )?(?:final )?fn (\w+)(?:<[^(]*>)?\(([^)]*)\)([^{]*)\{', text, re.M):
            names = [p.split(':')[0].strip() for p in m.group(2).split(',')]
            tail = text[m.end(2):]
            clauses = re.match(r'.*?(?=^ *\{$|;$)', tail, re.S | re.M)
            yield f, text[:m.start()].count('\n') + 1, m.group(1), [n for n in names if n and 'self' not in n], clauses.group(0) if clauses else ''


def point1():
    return grep(r'\benum Answer\b|\b(kind|part): u(8|32)\b|struct Part\(u32\)|place: \(4,|\b(order|asked) [!=]= "|at \+ 6\) [!=]= 1|\btargets: bool|fn has_cell\b')


def point2():
    names = collections.defaultdict(list)
    for f, n, l in LINES:
        m = re.match(r' *(?:pub(?:\(crate\))? )?(const|fn|struct|enum) (\w+)', l)
        if m and not (m.group(1) == 'fn' and m.group(2) in ('fmt', 'new', 'read', 'write', 'count', 'at_or_below', 'meet', 'from', 'try_from', 'next')):
            names[m.group(1, 2)].append((f, n, l))
    return [x for k, v in sorted(names.items()) if len(v) > 1 for x in v]


def point3():
    return grep(r'^ *while |^ *for \w+ in \(?[\w.]*\.\.|^ *for \w+ in 0\.\.|^ *for _ in ')


def point4():
    return grep(r'\bfn (same_?\w*|from_truth|operator_of|opcode_of|argument|reason|way|sign_of|hexadecimal|answer_of|name|number)\b|\{ Kind::Remote|Kind::Remote$')


def point5():
    """Parameters that travel together through three functions or more of a crate, once for each set, and facts of three contracts or more."""
    found = []
    for crate in sorted({f.split('/')[1] for f in FILES}):
        pairs, facts = collections.Counter(), collections.Counter()
        for f, n, name, params, clauses in signatures():
            if f.split('/')[1] != crate:
                continue
            for i, a in enumerate(params):
                for b in params[i + 1:]:
                    pairs[(a, b)] += 1
            for r in re.findall(r'requires (?:\w+ )?\{(.*?)\}\s*$', clauses, re.M):
                for fact in re.split(r' × ', r):
                    facts[re.sub(r'[()]|\d+', '', fact).strip()] += 1
        found += [('crates/' + crate, k, 'parameters ' + ', '.join(p)) for p, k in sorted(pairs.items()) if k > 2]
        found += [('crates/' + crate, k, 'fact ' + p) for p, k in sorted(facts.items()) if k > 2]
    return found


def point6():
    return grep(r'^ *(pub(\(crate\))? )?\w+: \[.*;')


def point7():
    rows = [(f, n, name) for f, n, name, params, clauses in signatures() if re.search(r'ensures \{ result ≡ through ', clauses)]
    return rows + grep(r'\btargets: bool|\b(order|asked) [!=]= "|all\.join\(')


def point8():
    answers = glob.glob('crates/*/proofs/**/*.antt', recursive=True)
    return [(f, len(open(f, encoding='utf-8').read().splitlines()), 'lines') for f in sorted(answers)]


def main():
    points = [a for a in sys.argv[1:] if a.isdigit()] or [str(i) for i in range(1, 9)]
    for p in points:
        found = globals()['point' + p]()
        if '--list' in sys.argv:
            for f, n, l in found:
                print(f'{p}  {f}:{n}: {l.strip()}')
        if p == '8':
            inv = [x for x in found if x[0].endswith('/Invariants.antt')]
            ans = [x for x in found if x[0].endswith('/Answers.antt')]
            print(f'point 8: {len(ans)} files of answers, {len(inv)} of invariants, {sum(x[1] for x in found)} lines of proof')
        else:
            print(f'point {p}: {len(found)}')


main()
