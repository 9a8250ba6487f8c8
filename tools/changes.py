"""Prints the last part of docs/DESIGN-PASS.md: each public function, type invariant and definition that differs, old and new side by side.

    changes.py OLD [NEW]

OLD is a checkout of the commit to compare with, NEW the repository (here if left out). What is gone goes to the error output.
A public function that became a method stands beside the public method of its name in its crate, or of the name in RENAMED.
"""
import os
import re
import sys

sys.dont_write_bytecode = True
sys.path.append('/opt/rattle/port')
import contracts

RENAMED = {('polynomials', 'put_leads'): 'leads'}


def is_public(root, crate, file, name):
    path = f'{root}/crates/{crate}/{file}'
    if not os.path.exists(path):
        return False
    return re.search(r'^\s*(?:pub (?:final )?|final )fn ' + re.escape(name) + r'\b', open(path).read(), re.M) is not None


def print_clauses(kind, before, after):
    before, after = [tuple(c) for c in before], [tuple(c) for c in after]
    for word, clauses, others in ('was', before, after), ('is', after, before):
        for name, text in clauses:
            if (name, text) not in others:
                print(f'- {word} `{kind} {name} {{ {text} }}`')


def public_functions(root):
    """The public functions of a checkout outside tests: crate, file, owner (empty for a free function), name, and what it promises."""
    for (crate, file, owner, name), many in contracts.read(root)[1].items():
        for function in many:
            if not function['test'] and not function['in tests'] and is_public(root, crate, file, name):
                yield crate, file, owner, name, function


def add_moved(found, old, new):
    """Puts the public functions that were not found again among those that changed, beside the methods that they became."""
    lost = {name.split(' (')[0] for name in found['functions not found again']}
    methods = [method for method in public_functions(new) if method[2]]
    for crate, file, owner, name, before in public_functions(old):
        key = ' '.join(part for part in (crate, file, owner, name) if part)
        if key not in lost:
            continue
        for other_crate, _, other_owner, other_name, after in methods:
            if (other_crate, other_name) == (crate, RENAMED.get((crate, name), name)):
                row = f'{key} now {other_owner} {other_name}'
                found['signatures changed'].append([row, before['sign'], after['sign']])
                clauses = [[c[1:] for c in f[kind]] for f in (before, after) for kind in ('requires', 'ensures')]
                found['contracts changed'].append([row, *clauses])


def print_functions(found, old, new):
    signatures = {name: rest for name, *rest in found['signatures changed']}
    promises = {name: rest for name, *rest in found['contracts changed']}
    for name in sorted(signatures.keys() | promises.keys()):
        was, _, now = name.partition(' now ')
        crate, file, *path = was.split(' ')
        if not any(is_public(root, crate, file, path[-1]) for root in (old, new)):
            continue
        print(f'**{crate}, `{" ".join(path)}`{f", now `{now}`" if now else ""}**\n')
        if name in signatures:
            before, after = signatures[name]
            print(f'- was `fn{before}`\n- is `fn{after}`')
        if name in promises:
            old_needs, old_gives, new_needs, new_gives = promises[name]
            print_clauses('ensures', old_gives, new_gives)
            print_clauses('requires', old_needs, new_needs)
        print()


def main():
    old, new = sys.argv[1], sys.argv[2] if len(sys.argv) > 2 else '.'
    found = contracts.compare(old, new)
    add_moved(found, old, new)
    print_functions(found, old, new)
    print('### Type invariants and constants\n')
    for crate, owner, name, before, after in found['ghost items and constants']['changed']:
        print(f'- {crate}, {owner} `{name}`: was `{before[0]}`, is `{after[0]}`')
    print('\n### Definitions\n')
    for crate, name, before, after in found['definitions']['changed']:
        print(f'- {crate}, `{name}`\n  - was `{before[0]}`\n  - is `{after[0]}`')
    for part in 'ghost items and constants', 'definitions':
        print(f'gone, {part}:', found[part]['gone'], file=sys.stderr)
    print('gone, functions:', found['functions not found again'], file=sys.stderr)


main()
