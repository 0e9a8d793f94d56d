#!/usr/bin/env python3
"""Brings the names of this repository's definitions and lemmas to Rattle's spelling, once, after Rattle's own script.

Words are in snake case: a dash stands only between two names of functions, as in `mul-add`, and goes elsewhere, as in `bit-ops`. Capitals inside a word go too.
Functions of src/, files, strings, inputs and outputs keep their names, and so does what Rattle makes, such as the names of goals. Comments follow where they
name a definition between backquotes. With --list it prints old and new names and changes nothing.

A name that is taken in a file where the new one would stand is told, and nothing is changed then: such a name gets an entry of its own in OWN.
"""
import glob
import re
import sys

# names of functions, between which a dash stays
FUNCTIONS = set('''add neg mul zero one sub multiple power total append dot each both fill tabulate entries embed repeated eval joined value terms map length take drop
    product products quotient scaled trinomial binomial'''.split())

# new names where the plain spelling is taken by another thing
OWN = {
    'getD-fill': 'get_or-fill',
    'getD-eval': 'get_or-eval',
    'addN': 'add_normal',
    'addTo': 'add_to',
    'mulM': 'mul_monomial',
    'mulN': 'mul_normal',
    'mulT': 'mul_term',
    'negN': 'neg_normal',
    'sameM': 'same_monomial',
    'evalM': 'eval_monomial',
    'evalN': 'eval_normal',
    'addN-sound': 'add_normal_sound',
    'addTo-sound': 'add_to_sound',
    'mulM-sound': 'mul_monomial_sound',
    'mulN-sound': 'mul_normal_sound',
    'mulT-sound': 'mul_term_sound',
    'negN-sound': 'neg_normal_sound',
    'sameM-sound': 'same_monomial_sound',
    'isZero-sound': 'is_zero_sound',
    # functions of src/ have these names
    'root-frobenius': 'root_frobenius_map',
    'octic-norm': 'octic_norm_of',
    'quartic-norm': 'quartic_norm_of',
    'other-conjugates': 'other_conjugates_of',
    'unit-laws': 'unit_laws_hold',
    'inverse-by-norm': 'inverse_is_by_norm',
}

WORD = r"[A-Za-z0-9_'≢≡≤<ℕℤ]+"


def files():
    found = []
    for kind in ('crates/*/specs/**/*.antt', 'crates/*/proofs/**/*.antt', 'crates/*/src/**/*.rt'):
        found += glob.glob(kind, recursive=True)
    return sorted(set(found))


def defined(texts):
    """The names that definitions, lemmas and fields of records have, but for answers to goals."""
    names = set()
    for path, text in texts.items():
        if not path.endswith('.antt'):
            continue
        for m in re.finditer(r"^\s*(?:abbrev |unfoldable |pub )*([A-Za-z][A-Za-z0-9_']*(?:-" + WORD + r")*)\s*(?:\{[^}\n]*\}\s*|\([^)\n]*\)\s*)*: ?(.*)$", text, re.M):
            name, kind = m.group(1), m.group(2)
            if kind.startswith('goal.') or kind.startswith('given.'):
                continue
            if '-' in name or name in OWN:
                names.add(name)
    return names


def spelled(name):
    if name in OWN:
        return OWN[name]
    parts = name.split('-')
    out = parts[0]
    for before, after in zip(parts, parts[1:]):
        keep = before.split('_')[-1] in FUNCTIONS and after.split('_')[0] in FUNCTIONS and before in FUNCTIONS and after in FUNCTIONS
        out += ('-' if keep else '_') + after
    return out.lower()


TOKEN = re.compile(r"[A-Za-z_][A-Za-z0-9_'≢≡≤<ℕℤ]*(?:-" + WORD + r")*")


def turn(text, names, path):
    comment = '--' if path.endswith('.antt') else '//'
    out = []
    for line in text.split('\n'):
        code, rest = line, ''
        at = line.find(comment + ' ')
        if at >= 0 and line[:at].count('"') % 2 == 0:
            code, rest = line[:at], line[at:]
        elif line.lstrip().startswith(comment):
            code, rest = '', line

        def replace(m):
            return names.get(m.group(0), m.group(0))

        # strings keep their text
        pieces = re.split(r'("(?:[^"\\]|\\.)*")', code)
        code = ''.join(p if p.startswith('"') else TOKEN.sub(replace, p) for p in pieces)
        rest = re.sub(r'`[^`]*`', lambda m: TOKEN.sub(replace, m.group(0)), rest)
        out.append(code + rest)
    return '\n'.join(out)


def main():
    texts = {path: open(path, encoding='utf-8').read() for path in files()}
    names = {name: spelled(name) for name in defined(texts)}
    names = {old: new for old, new in names.items() if old != new}
    functions = set()
    for path, text in texts.items():
        if path.endswith('.rt'):
            functions |= set(re.findall(r'\bfn ([a-z0-9_]+)', text))
    trouble = []
    new_of = {}
    for old, new in sorted(names.items()):
        if new in new_of:
            trouble.append(f'{old} and {new_of[new]} both become {new}')
        new_of[new] = old
        if new in functions:
            trouble.append(f'note: {old} becomes {new}, which a function of src/ is called')
        for path, text in texts.items():
            tokens = set(TOKEN.findall(text))
            if old in tokens and new in tokens:
                trouble.append(f'{old} becomes {new}, which stands in {path} already')
    if '--list' in sys.argv:
        for old, new in sorted(names.items()):
            print(old, new)
        print(*trouble, sep='\n')
        return
    if [t for t in trouble if not t.startswith('note:')] and '--force' not in sys.argv:
        sys.exit('\n'.join(trouble))
    for path, text in texts.items():
        turned = turn(text, names, path)
        if turned != text:
            open(path, 'w', encoding='utf-8').write(turned)


if __name__ == '__main__':
    main()
