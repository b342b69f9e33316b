"""A command over a store that was drawn, and what it must come to: the programs hostile_*.py make such rows, and
.ci/drawn plays them. Nothing here is shared with the program.
"""
import random
import sys
from collections import namedtuple

from journal import SHORT, WHOLE, respelled
from store_file import framed, header

COUNT = 100
# both files before, the words, what the command writes on either output and its status, and both files then
Drawn = namedtuple('Drawn', 'shape before words out err status after')


def looked(shape, content, words, out='', err='', status=0):
    """A command that writes to no file."""
    return Drawn(shape, (content, b''), words, out, err, status, (content, b''))


def journal(payloads, spelled=SHORT, generation=1):
    """The file of a journal whose payloads are given in format 2, in either."""
    return framed(header(spelled, generation), payloads if spelled == SHORT else respelled(payloads, SHORT, WHOLE))


def draws(shapes, count):
    """Each shape so many times, with what it is drawn from."""
    for number, shape in enumerate(shapes):
        for seed in range(count):
            yield shape, random.Random(1_000_000 * number + seed)


def lines_of(row):
    yield f'shape {row.shape}'
    yield from ('file ' + (content.hex() or '-') for content in row.before)
    yield '> ' + row.words
    yield from (row.out + row.err).splitlines()
    if row.status:
        yield f'status {row.status}'
    if row.after != row.before:
        yield from ('file ' + (content.hex() or '-') for content in row.after)


def main(rows):
    """Prints the rows of a program, as many of each shape as its first word says."""
    for row in rows(int(sys.argv[1]) if len(sys.argv) > 1 else COUNT):
        print('\n'.join(lines_of(row)))
