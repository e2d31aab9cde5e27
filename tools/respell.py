#!/usr/bin/env python3
"""Respells this repository's own definitions, lemmas and record fields in snake case: with_trkf for with-trkf, units_in for unitsIn.

Run once, at the top, on what port.py of Rattle's kit left. A name is the repository's own where a line of crates/*/specs or crates/*/proofs
declares it. Names of the library, of types and modules, and of Rattle's goals (proofs/FUNCTION/Answers.antt) stay as they are. Prints first
the names whose new form stands somewhere already, for a reader to judge (a function of the same name does no harm); with --list it changes nothing.
"""
import collections, glob, re, sys

DECLARED = re.compile(r'^\s*((?:pub |abbrev |unfoldable |record |data )*)([^\s(){}:,;.]+)\s*(?:\([^)]*\)\s*|\{[^}]*\}\s*)*:(?!:)\s')
ODD = re.compile(r"[-→']|[a-z][A-Z]")
WORD = re.compile(r"[^\s(){}\[\];,.:λ=×⌜⌝]+")

# Own names whose plain respelling is taken: by the library, or by another name of the repository's own.
OTHER = {
    'bit-and': 'bit_of_and',
    'bit-or': 'bit_of_or',
    'nan-bits': 'bits_of_nan',
}


def snake(name):
    name = name.replace('→', '_to_').replace('-', '_')
    name = re.sub(r'([a-z0-9])([A-Z])', r'\1_\2', name)
    return name.lower() if name[0].islower() else name


def files():
    return sorted(glob.glob('crates/*/specs/**/*.antt', recursive=True) + glob.glob('crates/*/proofs/**/*.antt', recursive=True) + glob.glob('crates/*/src/*.rt'))


def goals(path):
    return path.count('/') > 3 and '/proofs/' in path


def declared():
    own = collections.defaultdict(set)
    for path in files():
        if goals(path) or path.endswith('.rt'):
            continue
        for line in open(path, encoding='utf-8'):
            m = DECLARED.match(line)
            if m and not line.strip().startswith('--') and m.group(2)[0].islower() and ODD.search(m.group(2)):
                own[m.group(2)].add(path)
    for path in files():
        for alias in re.findall(r'[^\s{,]+ as ([a-z][^\s,};]*)[,}]', open(path, encoding='utf-8').read()):
            if ODD.search(alias):
                own[alias].add(path)
    return own


def imported():
    """The names that come from the library."""
    names = collections.defaultdict(set)
    for path in files():
        for m in re.finditer(r'^(?:ghost )?use ([^\s{]+)\.\{([^}]*)\}', open(path, encoding='utf-8').read(), re.M):
            mine = m.group(1).startswith('Rattle.') and not m.group(1).startswith('Rattle.std.')
            if not mine:
                for n in m.group(2).split(','):
                    for part in n.split(' as '):
                        names[part.strip()].add(path)
    return names


def clashes(own, turned):
    library = imported()
    taken = collections.defaultdict(set)
    for path in files():
        for line in open(path, encoding='utf-8'):
            for w in WORD.findall(line.split('--')[0]):
                taken[w].add(path)
    out = []
    for name, new in turned.items():
        if name in library:
            out.append(f'{name} is imported from the library too: {sorted(library[name])}')
        if new in library:
            out.append(f'{name} -> {new} is a name of the library: {sorted(library[new])}')
        elif new in taken:
            out.append(f'{name} -> {new} stands already: {sorted(taken[new])}')
    back = collections.defaultdict(list)
    for name, new in turned.items():
        back[new].append(name)
    out += [f'{v} fall together in {k}' for k, v in back.items() if len(v) > 1]
    return out


def main():
    own = declared()
    turned = {n: OTHER.get(n, snake(n)) for n in own}
    found = clashes(own, turned)
    for line in found:
        print('look:', line)
    if '--list' in sys.argv:
        return
    pattern = re.compile(r"(?<![^\s(){}\[\];,.:λ=×⌜⌝])(" + '|'.join(re.escape(n) for n in sorted(turned, key=len, reverse=True)) + r")(?![^\s(){}\[\];,.:λ=×⌜⌝])")
    changed = 0
    for path in files():
        text = open(path, encoding='utf-8').read()
        if path.endswith('.rt'):
            new = '\n'.join(respell_source(line, pattern, turned) for line in text.split('\n'))
        else:
            new = '\n'.join(respell_line(line, pattern, turned) for line in text.split('\n'))
        if new != text:
            open(path, 'w', encoding='utf-8').write(new)
            changed += 1
    print(f'{len(turned)} names, {changed} files')


def respell_line(line, pattern, turned):
    return pattern.sub(lambda m: turned[m.group(1)], line)


def respell_source(line, pattern, turned):
    s = line.strip()
    ghost = s.startswith(('ghost ', 'ensures', 'requires')) or '≡' in s
    return respell_line(line, pattern, turned) if ghost and not s.startswith('//') else line


main()
