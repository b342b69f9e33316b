#!/usr/bin/env python3
"""How much code tests: the characters of the crates test_* that are no white space, in files .rt and .antt, without imports.

    bench/test_code.py [FOLDER]     of this clone, or of another one: by crate, and in all; and that of texts of cases, beside it

An import is an item `use ..;` or `ghost use ..;` of a file .rt, on one line or on several, and a line `use ..` of a file .antt.
"""
import glob
import os
import re
import sys


def size(text):
    return len(re.sub(r'\s', '', text))


def code_of(path):
    with open(path) as file:
        text = file.read()
    if path.endswith('.antt'):
        return size('\n'.join(line for line in text.split('\n') if not re.match(r'(pub )?use ', line)))
    return size(re.sub(r'^\s*(pub(\(crate\))? |ghost )?use [^;]*;', '', text, flags=re.M))


def main(folder):
    whole = 0
    for crate in sorted(glob.glob(os.path.join(folder, 'crates', 'test_*'))):
        files = [path for end in ('rt', 'antt') for part in ('src', 'specs', 'proofs') for path in glob.glob(f'{crate}/{part}/**/*.{end}', recursive=True)]
        code = sum(map(code_of, files))
        texts = sum(os.path.getsize(path) for path in (crate + '/stdin', crate + '/stdout') if os.path.exists(path))
        print(f'{code:8} {os.path.basename(crate)}, and {texts} bytes of text')
        whole += code
    print(f'{whole:8} in all')


main(sys.argv[1] if sys.argv[1:] else os.path.join(os.path.dirname(os.path.abspath(__file__)), '..'))
