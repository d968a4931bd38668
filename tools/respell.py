#!/usr/bin/env python3
"""Brings the names of the repository's own definitions and lemmas to snake case: `python3 tools/respell.py` at the top,
once, behind the kit's port.py. Names of functions, exports, strings, inputs and outputs stay as they are. It lists names
that would fall together, and leaves those."""
import collections
import glob
import os
import re

os.chdir(os.path.join(os.path.dirname(os.path.abspath(__file__)), '..'))
lemma_files = sorted(glob.glob('crates/*/specs/*.antt') + glob.glob('crates/*/proofs/*.antt'))
proof_files = sorted(set(glob.glob('crates/*/proofs/**/*.antt', recursive=True)) - set(lemma_files))
source_files = sorted(glob.glob('crates/*/src/*.rt'))
edit_files = sorted(glob.glob('crates/*/must-fail/*.edit'))

signature = re.compile(
    r"^\s*(?:(?:abbrev|unfoldable|pub|record|data|ruleset)\s+)*([^\s:(){}=λ.]+)(?:\s+\{[^}]*\})?(?:\s+[a-zℓκμν]+)*\s+:(?=\s|$)", re.M)
token = re.compile(r"[^\s(){}\[\],;.\"`]+")


def read(path):
    with open(path, encoding='utf-8') as file:
        return file.read()


def snake(name):
    if re.search(r'[a-z][A-Z]', name) and name[0].islower():
        name = re.sub(r'(?<=[a-z0-9])([A-Z])', lambda m: '_' + m.group(1).lower(), name)
    if '-' in name and re.fullmatch(r"[A-Za-z0-9_'₀-₉-]+", name) and name[0].isalpha():
        name = name.replace('-', '_')
    return name


# What the names are, and which of them are fields.
defined = set()
for path in lemma_files:
    for match in signature.finditer(read(path)):
        defined.add(match.group(1))
fields = set()
for path in lemma_files:
    inside = None
    for line in read(path).splitlines():
        if re.match(r'\s*(pub )?record ', line):
            inside = len(line) - len(line.lstrip())
        elif inside is not None and line.strip():
            if len(line) - len(line.lstrip()) <= inside:
                inside = None
            else:
                match = re.match(r'\s+(?:pub )?([^\s:(){}]+) :', line)
                if match:
                    fields.add(match.group(1))

functions, parts = set(), set()
for path in source_files:
    functions |= set(re.findall(r'\bfn ([a-z_0-9]+)', read(path)))
    # Parameters and fields, whose names would hide a definition's.
    parts |= set(re.findall(r'^\s+(?:pub )?(?:mut )?([a-z_0-9]+): ', read(path), re.M))
    for head in re.findall(r'\bfn [a-z_0-9]+\(([^)]*)\)', read(path)):
        parts |= set(re.findall(r'([a-z_0-9]+):', head))
generated = {name.replace('_', '-') for name in functions} | functions

# Names of the library, and what else stands in the files of definitions and lemmas.
imported, other = set(), set()
for path in lemma_files + proof_files + source_files:
    for module, names in re.findall(r'\buse ([^\s{}]+)\.\{([^}]*)\}', read(path)):
        if not re.match(r'Rattle\.(?!std\.)', module):
            imported |= {name.strip().split(' as ')[0] for name in names.split(',')}
for path in lemma_files:
    other |= {match.group(0) for match in token.finditer(read(path))}

# A lemma that would have a definition's name gets '_lem', as the library's do.
renamed = {}
taken = set(imported)
wanted = {snake(name) for name in defined if not '-' in name and snake(name) != name}
for name in sorted(defined):
    if '-' not in name and snake(name) != name:
        new = snake(name)
        if new in taken:
            print('of the library:', new)
            new += '_lem'
        for path in source_files:
            text = read(path)
            if name in text and re.search(r'\b' + new + r': ', text):
                print('also a parameter or a field:', new, path)
        taken.add(new)
        renamed[name] = new
for name in sorted(defined):
    if name in renamed:
        continue
    new = snake(name)
    if new == name and new not in wanted:
        continue
    while new in taken or (new != name and (new in defined or (new in other and new not in functions))):
        new += '_lem'
    taken.add(new)
    if new != name:
        renamed[name] = new

def turn(text, local=frozenset(), proof=False):
    def one(match):
        word = match.group(0)
        if word not in renamed or word in local:
            return word
        before = text[match.start() - 1] if match.start() else ''
        if before == '.' and (word not in fields or (proof and word in generated)):
            return word
        return renamed[word]
    return token.sub(one, text)


def turn_antt(path, proof):
    text = read(path)
    local = set()
    if proof:
        local = {m.group(1) for m in signature.finditer(text)} | set(re.findall(r'\blet ([^\s=:(]+)', text))
    lines = []
    for line in text.split('\n'):
        at = line.find('--')
        if line.lstrip().startswith('--'):
            code, comment = '', line
        elif at > 0 and line[at - 1] == ' ' and line[at + 2:at + 3] == ' ':
            code, comment = line[:at], line[at:]
        else:
            code, comment = line, ''
        # In a comment only names with a capital in them can't be words.
        comment = re.sub(r"[A-Za-z]+", lambda m: renamed.get(m.group(0), m.group(0)), comment)
        lines.append(turn(code, local, proof) + comment)
    return '\n'.join(lines)


def turn_rt(path):
    lines = []
    clause = 0
    for line in read(path).split('\n'):
        stripped = line.strip()
        if stripped.startswith('//'):
            lines.append(re.sub(r"[A-Za-z]+", lambda m: renamed.get(m.group(0), m.group(0)), line))
            continue
        if clause == 0 and not re.match(r'(ghost use|ghost |requires|ensures)', stripped):
            lines.append(line)
            continue
        lines.append(turn(line))
        clause += line.count('{') - line.count('}')
    return '\n'.join(lines)


def turn_edit(path):
    lines = []
    for line in read(path).split('\n'):
        if re.match(r'(old|new):', line):
            line = turn(line)
        lines.append(line)
    return '\n'.join(lines)


def write(path, text):
    if text != read(path):
        with open(path, 'w', encoding='utf-8') as file:
            file.write(text)


texts = {}
for path in lemma_files:
    texts[path] = turn_antt(path, False)
for path in proof_files:
    texts[path] = turn_antt(path, True)
for path in source_files:
    texts[path] = turn_rt(path)
for path in edit_files:
    texts[path] = turn_edit(path)
for path, text in texts.items():
    write(path, text)
print(len(renamed), 'names')
