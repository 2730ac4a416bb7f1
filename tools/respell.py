#!/usr/bin/env python3
"""Spells the repository's own definitions and lemmas in snake case, as 'better-than' to 'better_than' and
'cutOut' to 'cut_out'.

usage: tools/respell.py            in the repository: rewrites crates/ and the pages in place
       tools/respell.py --check    says what would fall together, and writes nothing

A name turns if a file of specs/, or a lemma file of proofs/, declares it: a definition, a lemma, a field, a constructor
or a local name. It turns as a whole word, in the code of .antt files, in clauses and ghost items of .rt files and in code
spans of pages. Names of functions, goals' labels, strings, prose and the names of edits stay. A second run writes nothing.
"""
import collections
import glob
import os
import re
import sys

WORD = r'[^\s(){}.;,@"«»λ:=]+'
EDGE = r'(?<![^\s(){}.;,@"«»λ])'
END = r'(?![^\s(){}.;,@"«»])'
# A declaration: 'pub name : ..', also with several names, in braces or behind 'data', 'record', 'let', '∷', and so on.
DECLARED = re.compile(rf'((?:{WORD} +)*{WORD}) *:(?![:=])')
OTHER = re.compile(r"^(?:[A-Za-z][\w']*(?:-[\w']+)+|[a-z][a-z0-9]*(?:[A-Z][a-z0-9]*)+)$")
QUIET = re.compile(r'(?<![^\s(){}.;,@"«»])--[^\n]*')


def files(pattern):
    return sorted(glob.glob(pattern, recursive=True))


def code(text):
    return QUIET.sub('', text)


def lemma_files():
    return files('crates/*/specs/**/*.antt') + files('crates/*/proofs/*.antt')


def proof_files():
    return [p for p in files('crates/*/proofs/*/**/*.antt') if os.path.basename(p) in ('Answers.antt', 'Invariants.antt', 'Proof.antt')]


def declared():
    found = set()
    for path in lemma_files():
        with open(path) as f:
            text = code(f.read())
        for m in DECLARED.finditer(text):
            found.update(w for w in re.findall(WORD, m.group(1)) if OTHER.match(w))
        # a definition by an equation at the head of a line, and the variables of its patterns
        for line in text.splitlines():
            if ' = ' in line or line.rstrip().endswith(' ='):
                head = line.split(' =')[0]
                found.update(w for w in re.findall(WORD, head) if OTHER.match(w))
    return found


def main(argv):
    check = argv == ['--check']
    names = declared()
    edits = {os.path.basename(p)[:-len('.edit')] for p in files('crates/*/must-fail/*.edit')}
    table = {n: re.sub(r'(?<=[a-z0-9])[A-Z]', lambda m: '_' + m.group().lower(), n).replace('-', '_') for n in names}
    spelled = collections.defaultdict(list)
    for old, new in table.items():
        spelled[new].append(old)
    together = {new: olds for new, olds in spelled.items() if len(olds) > 1}
    words = collections.defaultdict(set)
    for path in lemma_files() + proof_files() + files('crates/*/src/**/*.rt'):
        with open(path) as f:
            for w in re.findall(WORD, code(f.read())):
                words[w].add(path)
    for new in sorted(spelled):
        if new in words:
            print('is a word already:', new, 'in', ' '.join(sorted(words[new]))[:300])
    for new, olds in sorted(together.items()):
        print('fall together:', new, olds)
    if check or not table:
        return 1 if together else 0
    one = re.compile(EDGE + '(' + '|'.join(sorted(map(re.escape, table), key=len, reverse=True)) + ')' + END)

    def turn(text):
        return one.sub(lambda m: table[m.group(1)], text)

    def turn_code(text):
        out, at = [], 0
        for m in QUIET.finditer(text):
            out += [turn(text[at:m.start()]), m.group()]
            at = m.end()
        return ''.join(out + [turn(text[at:])])

    def turn_rt(text):
        # clauses and ghost items stand in lines of their own; Rust has no word with a hyphen, so a whole word of the table is a ghost one outside comments and strings
        lines = []
        for line in text.split('\n'):
            m = re.match(r'((?:[^"/]|"(?:[^"\\]|\\.)*"|/(?!/))*)(//.*)?$', line)
            body, rest = (m.group(1), m.group(2) or '') if m else (line, '')
            parts = re.split(r'("(?:[^"\\]|\\.)*")', body)
            lines.append(''.join(p if p.startswith('"') else turn(p) for p in parts) + rest)
        return '\n'.join(lines)

    def turn_page(text):
        return re.sub(r'`([^`\n]+)`', lambda m: m.group() if m.group(1) in edits else '`' + turn(m.group(1)) + '`', text)

    todo = [(p, turn_code) for p in files('crates/*/specs/**/*.antt') + files('crates/*/proofs/**/*.antt')]
    todo += [(p, turn_rt) for p in files('crates/*/src/**/*.rt')]
    todo += [(p, turn_page) for p in ['README.md'] + files('docs/*.md')]
    for path, how in todo:
        with open(path) as f:
            old = f.read()
        new = how(old)
        if new != old:
            with open(path, 'w') as f:
                f.write(new)
    return 0


if __name__ == '__main__':
    raise SystemExit(main(sys.argv[1:]))
