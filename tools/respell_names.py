#!/usr/bin/env python3
"""Respells the definitions and lemmas of this repository as today's Rattle spells them: words in snake case.

    tools/respell_names.py

Run once at the top, after port.py, in a checkout where nothing is loose. A name that specs/ or a law file of proofs/ declares loses its
capitals and its dashes: `readValue` is read_value, `width-to-width` is width_to_width. Types and modules keep theirs. Two names of one
spelling: the lemma gets `_lem`. Functions of src/, strings, inputs and outputs stay; in a comment or a page only a name in backquotes turns.
"""
import collections
import glob
import os
import re

OWN = sorted(os.path.basename(os.path.dirname(p)) for p in glob.glob('crates/*/src'))
DECLARED = re.compile(r"^\s*((?:(?:abbrev|unfoldable|opaque|irreducible|private|pub)\s+)*)([^\s:(){}]+)\s*:(?=\s)")
TOKEN = re.compile(r"[^\s(){}\[\],;.⟨⟩@\"`·]+")
PART = re.compile(r'"(?:[^"\\]|\\.)*"|--[^\n]*|//[^\n]*')


def text_of(path):
    with open(path, encoding='utf-8') as f:
        return f.read()


def snake(name):
    if name[0].isupper():
        return name
    capital = re.compile(r'(?<=[a-z0-9])([A-Z]+)(?=[A-Z][a-z]|[a-z0-9→]|$|-|_)')
    return capital.sub(lambda m: '_' + m.group(1).lower(), name).replace('-', '_')


def declared_names():
    """Each declared name, with the files that declare it."""
    found = collections.defaultdict(set)
    for path in glob.glob('crates/*/specs/**/*.antt', recursive=True) + glob.glob('crates/*/proofs/*.antt'):
        for line in re.sub(r'--[^\n]*', '', text_of(path)).split('\n'):
            m = DECLARED.match(line)
            if m:
                found[m.group(2)].add(path)
    return found


def imports_of(text):
    """(own, name) for each name that a file imports: whether from this repository, and the name."""
    for m in re.finditer(r'use\s+(\S+?)\.\{([^}]*)\}', text):
        c = re.match(r'Rattle[.·]([a-z0-9_]+)', m.group(1))
        for item in m.group(2).split(','):
            yield bool(c and c.group(1) in OWN), item.strip().split(' as ')[0]


def renaming(found, outside):
    """The new spelling of each name that changes, where files also import the names outside."""
    spelled = collections.defaultdict(set)
    for name in found:
        spelled[snake(name)].add(name)
    new = {}
    for word, names in spelled.items():
        for name in names:
            lemma = all('/proofs/' in p for p in found[name])
            crowded = (len(names) > 1 or word in outside and name not in outside) and lemma and '-' in name
            if snake(name) != name or crowded:
                new[name] = word + '_lem' if crowded else word
    # a name that is already spelled so, and that a definition now gets
    for word, names in spelled.items():
        if len(names) > 1 and len({new.get(n, n) for n in names}) < len(names):
            for name in names:
                if all('/proofs/' in p for p in found[name]) and not name.endswith('_lem'):
                    new[name] = word + '_lem'
    return new


def main():
    found = declared_names()
    paths = [p for e in ('antt', 'rt') for p in glob.glob(f'crates/*/**/*.{e}', recursive=True) if '/out/' not in p]
    outside = {name for p in paths for own, name in imports_of(text_of(p)) if not own}
    new = renaming(found, outside)
    words = set(new.values()) | set(found)
    for path in paths + glob.glob('crates/*/must-fail/*.edit') + glob.glob('docs/**/*.md', recursive=True) + ['README.md']:
        text = text_of(path)
        mine = {name for own, name in imports_of(text) if own}

        def turn(m):
            name = m.group(0)
            if name not in new or (name in outside and name not in mine and path not in found[name]):
                return name
            return new[name]

        def turn_shown(m):
            # port.py has respelled some names, but no page
            name = turn(m)
            return snake(name) if '-' in name and snake(name) in words else name

        out, at = [], 0
        page = path.endswith('.md')
        shown = turn_shown if page else turn
        quoted = lambda part: re.sub(r'`([^`\n]+)`', lambda m: '`' + TOKEN.sub(shown, m.group(1)) + '`', part)
        if page:
            out.append(quoted(text))
        else:
            for m in PART.finditer(text):
                out.append(TOKEN.sub(turn, text[at:m.start()]))
                out.append(m.group(0) if m.group(0)[0] == '"' else quoted(m.group(0)))
                at = m.end()
            out.append(TOKEN.sub(turn, text[at:]))
        hidden = {new[n] for n in re.findall(TOKEN, text) if n in new} & set(re.findall(TOKEN, PART.sub('', text)))
        if hidden and not page:
            print(f'{path}: stands there already: {", ".join(sorted(hidden))}')
        if ''.join(out) != text:
            with open(path, 'w', encoding='utf-8') as f:
                f.write(''.join(out))
    # for the reader: what fell together
    for name, word in sorted(new.items()):
        if word.endswith('_lem'):
            print(f'{name} is {word}: {", ".join(sorted(found[name]))}')
    print(f'{len(new)} names respelled')


main()
