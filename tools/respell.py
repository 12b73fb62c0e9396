#!/usr/bin/env python3
"""Brings the names of this repository's definitions and lemmas to one spelling.

usage: respell.py [ROOT] [--list]     (ROOT: the repository, default: this folder; --list: say what would change, and change nothing)

Words are in snake case: `rowsIn` becomes `rows_in`, `image-lawful` becomes `image_lawful`. Types, facts and modules keep their
capitals, and a name that begins with one is left alone. Names of src/ and names that a check makes (goals, invariants, measures:
what a proof file states as `goal.NAME`) are left alone too. Names that would fall together with another are told apart below.
It goes by text, over the .antt and .rt files of crates/, and a second run changes nothing.
"""
import os
import re
import sys

args = [a for a in sys.argv[1:] if not a.startswith('--')]
only_list = '--list' in sys.argv
root = args[0] if args else '.'

# names whose plain respelling is another name already
APART = {
    'body-laid': 'body_laid_lem',
    'first-bad': 'first_bad_lem',
    'good-at': 'good_at_lem',
    'property-at': 'property_at_lem',
    'slot-at': 'slot_at_lem',
    'term-at': 'term_at_lem',
    'test_at': 'test_at_lem',
    'wrong-sizes': 'wrong_sizes_lem',
}

WORD = r"[A-Za-z0-9_'?\-]"
SIGNATURE = re.compile(r"^\s*(?:(?:abbrev|unfoldable|pub)\s+)*([a-z][A-Za-z0-9_'?\-]*)\s*((?:[({][^)}]*[)}]\s*)*):\s(.*)$")


def texts():
    for folder, dirs, files in os.walk(os.path.join(root, 'crates')):
        dirs[:] = sorted(d for d in dirs if d != 'out')
        for f in sorted(files):
            if f.endswith(('.antt', '.rt')):
                path = os.path.join(folder, f)
                with open(path, encoding='utf-8') as h:
                    yield path, h.read()


def snake(name):
    if name in APART:
        return APART[name]
    name = re.sub(r'([a-z0-9])([A-Z])', lambda m: m.group(1) + '_' + m.group(2).lower(), name)
    return name.replace('-', '_')


def own_names(files):
    """The names that the .antt files state, but for those of goals."""
    found, made = set(), set()
    for path, text in files:
        if not path.endswith('.antt'):
            continue
        for line in text.split('\n'):
            m = SIGNATURE.match(line)
            if m:
                (made if re.match(r'goal\.', m.group(3)) else found).add(m.group(1))
    return found - made


def camel(name):
    return re.search(r'[a-z0-9][A-Z]', name) is not None


def main():
    files = list(texts())
    own = own_names(files)
    turned = {n: snake(n) for n in own if n != snake(n)}
    taken = set()
    for path, text in files:
        if path.endswith('.antt'):
            text = re.sub(r'--.*', '', text)
            # variables and fields that are bound in a term, too
            for w in re.findall(r"(?<![A-Za-z0-9_'\-.])[a-z]+[A-Z][A-Za-z0-9]*", text) + re.findall(r"\blet ([a-z][A-Za-z0-9_']*-[A-Za-z0-9_'\-]*)", text):
                turned.setdefault(w, snake(w))
            for names in re.findall(r'^use (?:Rattle\.std|native|borrow|mir|lib|mathlib|Prim)[\w.]*\.\{(.*)\}$', text, re.M):
                taken.update(n.strip() for n in re.split(r',| as ', names))
    for n in sorted(taken & set(turned)):
        print('a name of the library too:', n)
    if not any(n in turned for n in APART if n != 'test_at') and 'testAt' not in turned:
        turned.pop('test_at', None)
    after = {}
    for old, new in sorted(turned.items()):
        after.setdefault(new, []).append(old)
    words = {w for _, text in files for w in re.findall(r"(?<![A-Za-z0-9_'\-])[a-z]" + WORD + r"*", text)}
    for new, olds in sorted(after.items()):
        if len(olds) > 1 or new in words:
            print('falls together:', new, 'from', ', '.join(olds), 'in own' if new in own else '')
    if only_list:
        for old, new in sorted(turned.items()):
            print(old, '->', new)
        return
    if not turned:
        print('nothing to change')
        return
    pattern = re.compile(r"(?<![A-Za-z0-9_'?\-])(" + '|'.join(sorted(map(re.escape, turned), key=len, reverse=True)) + r")(?![A-Za-z0-9_'?\-])")
    changed = 0
    for path, text in files:
        new = pattern.sub(lambda m: turned[m.group(1)], text)
        if new != text:
            changed += 1
            with open(path, 'w', encoding='utf-8') as h:
                h.write(new)
    print(f'{len(turned)} names, {changed} files changed')


main()
