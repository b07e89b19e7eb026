#!/usr/bin/env python3
"""Names in camel case become names in snake case: in the definitions and proofs, in the clauses that cite them, in the edits and pages.

usage: tools/port_names.py [FOLDER]

Run once, after port.py, at the top of the repository or of FOLDER. Functions, exported names and strings of src/ keep theirs: a name is
turned in a .rt file only where a .antt file has it too, and nowhere in a string.
"""
import os
import re
import sys

CAMEL = re.compile(r"(?<![A-Za-z0-9_])[a-z][a-z0-9]*(?:_[a-z0-9]+)*[A-Z][A-Za-z0-9]*(?![A-Za-z0-9_])")
# A name that its library has under another name today, and names whose plain turning would fall together with another name.
OTHERS = {'getD': 'get_or'}
# Lemmas that had their function's name but for the case: `_lem` tells them apart.
LEMMAS = re.compile(r"(?<![\w.'-])(?:end_fits|low_value|next_bit|passed_to)(?![\w'-])")
WORD = re.compile(r"[A-Za-z_][A-Za-z0-9_]*")
STRING = re.compile(r'"(?:[^"\\\n]|\\.)*"')


def snake(name):
    return OTHERS.get(name) or re.sub(r'(?<=[a-z0-9])(?=[A-Z])', '_', name).lower()


def files(top, folders, ends):
    for folder in folders:
        for at, inner, names in os.walk(os.path.join(top, folder)):
            inner[:] = sorted(name for name in inner if name not in ('out', 'target', '.git'))
            yield from (os.path.join(at, name) for name in sorted(names) if name.endswith(ends))


def main(top):
    known, words = set(), set()
    for path in files(top, ['crates'], '.antt'):
        with open(path, encoding='utf-8') as file:
            text = file.read()
        known |= set(CAMEL.findall(text))
        words |= set(WORD.findall(text))

    def turn(text):
        return CAMEL.sub(lambda found: snake(found[0]) if found[0] in known else found[0], text)

    def turn_page(text):
        # port.py has turned some names, and no page or edit
        return CAMEL.sub(lambda found: snake(found[0]) if {found[0], snake(found[0])} & (known | words) else found[0], text)

    def outside_strings(text):
        ends = [0, *(end for found in STRING.finditer(text) for end in found.span()), len(text)]
        parts = [text[a:b] for a, b in zip(ends, ends[1:])]
        return ''.join(part if odd % 2 else turn(part) for odd, part in enumerate(parts))

    crates = list(files(top, ['crates'], ('.antt', '.edit', '.rt')))
    pages = [path for path in files(top, ['docs', '.'], '.md') if '/crates/' not in path]
    for path in dict.fromkeys(crates + [os.path.normpath(page) for page in pages]):
        with open(path, encoding='utf-8') as file:
            text = file.read()
        if path.endswith('.rt'):
            new = outside_strings(text)
        elif path.endswith('.antt'):
            new = turn(LEMMAS.sub(lambda found: found[0] + '_lem', text))
        else:
            new = turn_page(text)
        if new != text:
            with open(path, 'w', encoding='utf-8') as file:
                file.write(new)


if __name__ == '__main__':
    main(sys.argv[1] if len(sys.argv) > 1 else '.')
