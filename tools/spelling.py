#!/usr/bin/env python3
"""Brings this repository's own definitions, lemmas, constructors and record fields to today's spelling: words in snake case.

Run once, at the top, after the port's script. A name is changed where it is declared and in each file that imports it; what Rattle makes or
its library declares keeps its name, and so do types, functions of src/, strings and exported names. `--report` changes nothing and prints
names that fall together.
"""
import collections
import glob
import os
import re
import sys

REPORT = '--report' in sys.argv
CRATES = sorted(os.path.basename(p) for p in glob.glob('crates/*') if os.path.isdir(p))
TOKEN = re.compile(r"""[^\s(){}\[\],;.`"«»]+""")
DECL = re.compile(r"^(?:(?:pub|abbrev|unfoldable|opaque|private)\s+)*([^\s:(){}\[\],]+)\s*(?:[({].*)?:(?=\s|$)")
FIELD = re.compile(r"^  (?:pub )?([^\s:(){}\[\],]+) :(?=\s|$)")
HEAD = re.compile(r"^(?:pub |abbrev |unfoldable )*(data|record)\s+([^\s(){}]+)")
USE = re.compile(r"\buse\s+([^\s{};]+?)\.\{([^}]*)\}", re.S)
ALIAS = re.compile(r"\buse\s+([^\s{};]+)\s+as\s+([^\s;]+)")
# names that are somebody else's wherever they stand
KEEP = re.compile(r"^(Need-|invariant-|decreases-|μ-|\+)")


def snake(name):
    """has-at, hasAt and hasAt-yes as has_at, has_at and has_at_yes; a type in a name keeps its capital"""
    out = []
    for word in name.split('-'):
        if word[:1].islower():
            word = re.sub(r'(?<=[a-z0-9])([A-Z])', lambda m: '_' + m.group(1).lower(), word)
        out.append(word)
    return '_'.join(out)


def own_module(path):
    """whether a module is a page of specs/ or a law file of proofs/ of this repository"""
    parts = path.split('.')
    if len(parts) < 3 or parts[0] != 'Rattle' or parts[1] not in CRATES:
        return False
    if parts[2] == 'specs':
        return len(parts) > 3 and parts[3] != 'declared'
    return parts[2] == 'proofs' and parts[-1] not in ('Tie', 'Statement', 'Goals', 'Given', 'Invariants')


constructors = set()


def walk():
    for c in CRATES:
        for d in ('specs', 'proofs', 'src'):
            for base, _, files in os.walk(f'crates/{c}/{d}'):
                for f in sorted(files):
                    if f.endswith(('.antt', '.rt')):
                        yield f'{base}/{f}'


def declared(path, text):
    """the names that a file declares: (top-level and constructors, fields)"""
    tops, fields, block = set(), set(), None
    if path.endswith('.rt'):
        return tops, fields
    lines = text.split('\n')
    for i, line in enumerate(lines):
        h = HEAD.match(line)
        if h:
            block = h.group(1)
            continue
        if line.startswith('module '):
            block = 'module'
            continue
        if line[:1] not in (' ', '', '-'):
            block = None
        if (line[:1] not in (' ', '', '-')) or (block == 'module' and re.match(r'  [^ -]', line)):
            m = DECL.match(line.strip())
            if m:
                rest = line[m.end():].strip()
                name = m.group(1)
                answer = re.match(r'(tie|goal)\.', rest)
                if not answer and not name.endswith('-spec') and not KEEP.match(name):
                    tops.add(name)
        elif block:
            m = FIELD.match(line)
            if m:
                (tops if block == 'data' else fields).add(m.group(1))
                if block == 'data':
                    constructors.add(m.group(1))
    return tops, fields


def spec_of(name):
    """the proof of a function, `row-at-spec`, is named after the function"""
    return name[:-5].replace('-', '_') + '_spec' if name.endswith('-spec') else None


def main():
    texts = {p: open(p, encoding='utf-8').read() for p in walk()}
    tops, fields, definitions = {}, set(), set()
    where = collections.defaultdict(set)
    for p, t in texts.items():
        a, b = declared(p, t)
        tops[p] = a
        fields |= b
        for n in a:
            where[n].add(p)
        if '/specs/' in p:
            definitions |= a
        definitions |= {n for n in a if re.search(rf"^ *(pub |)(abbrev|unfoldable) (pub |){re.escape(n)}\s*[:({{]", t, re.M)}
    own = set(where)
    new = {}
    defs_new = {snake(n) for n in definitions}
    defs_changed = {snake(n) for n in definitions if snake(n) != n}
    for n in own | fields:
        m = snake(n)
        if n not in definitions and n not in fields and n not in constructors and m in (defs_new if m != n else defs_changed):
            m += '_lem'
        if m != n:
            new[n] = m
    # names that fall together in one file
    for p, a in tops.items():
        seen = collections.defaultdict(set)
        for n in a:
            seen[new.get(n, n)].add(n)
        for m, ns in seen.items():
            if len(ns) > 1:
                print('together:', p, m, sorted(ns))
    changed = 0
    for p, t in texts.items():
        here = set(tops[p])
        aliases = set()
        for m in USE.finditer(t):
            if own_module(m.group(1)):
                for item in m.group(2).split(','):
                    item = item.split()
                    if item and item[0] in own:
                        here.add(item[0])
        for m in ALIAS.finditer(t):
            if own_module(m.group(1)):
                aliases.add(m.group(2))

        tokens = set(TOKEN.findall(re.sub(r'(?m)^\s*(--|use ).*$', lambda m: m.group(0)[m.group(0).find('{'):] if m.group(1) == 'use ' and '{' in m.group(0) else '', t)))
        for n in here:
            if n in new and new[n] in tokens and p.endswith('.antt'):
                print('meets:', p, n, new[n])

        code = ''

        def one(line):
            nonlocal code
            if p.endswith('.rt'):
                code, sep, comment = line.partition('//')
                if '"' in code:
                    return line
            else:
                code, sep, comment = ('', '', line) if line.lstrip().startswith('--') else (line, '', '')

            def turn(m):
                w = m.group(0)
                before = code[:m.start()]
                if before.endswith('.'):
                    left = re.search(r"([^\s(){}\[\],;.]+)\.$", before)
                    left = left.group(1) if left else ''
                    if left in aliases or w in fields:
                        return new.get(w, w)
                    return w
                if w in here or (w in fields and re.match(r'\s*[=:}]|\s*,', code[m.end():] + ' ')):
                    return new.get(w, w)
                s = spec_of(w)
                if s and '/proofs/' in p:
                    return s
                return w

            def say(m):
                w = m.group(1)
                return '`' + (new.get(w, w) if w in own or w in fields else 'name_of_it' if w == 'name-of-it' else w) + '`'

            comment = re.sub(r"`([^\s`]+)`", say, comment)
            if comment:
                comment = TOKEN.sub(lambda m: new[m.group(0)] if m.group(0) in new and re.match(r'^[a-z]+[A-Z]', m.group(0)) else m.group(0), comment)
            # a text keeps its bytes
            texts_in = re.findall(r'"[^"]*"', code)
            code = re.sub(r'"[^"]*"', '"', code)
            turned = iter(texts_in)
            return re.sub('"', lambda m: next(turned), TOKEN.sub(turn, code)) + sep + comment

        out = '\n'.join(one(l) for l in t.split('\n'))
        if out != t:
            changed += 1
            if not REPORT:
                open(p, 'w', encoding='utf-8').write(out)
    print(changed, 'files,', len(new), 'names')
    if not REPORT:
        os.makedirs('target', exist_ok=True)
        with open('target/spelling.txt', 'w') as f:
            for n in sorted(new):
                f.write(f'{n} {new[n]}\n')


main()
