"""What two files stand for, as docs/FORMATS.md has it under "A journal's files": no store, a damaged file, or the payloads of a
journal.

Whether a batch may follow those before it is not looked at: who asks compares the payloads with those of a journal that is known.
It shares nothing with the program.
"""
import struct

from journal import HEADER, SHORT, WHOLE, format_of, frames, respelled

MAGIC = b'BSPJ'
MOST_PAYLOAD, MOST_END = 65_536, 268_435_456


def generation(content):
    return int.from_bytes(content[6:HEADER], 'big')


def is_open(content):
    """Whether the header of a file is open."""
    return len(content) >= HEADER and content[0] == 1 and content[1:5] == MAGIC


def journal_file(files):
    """The number of the file that has the journal, or None."""
    opened = [number for number in (0, 1) if is_open(files[number])]
    return max(opened, key=lambda number: (generation(files[number]), -number), default=None)


def first_damage(content):
    """The place that shows the damage of a journal's file, or None."""
    if format_of(content) not in (WHOLE, SHORT):
        return 5
    at = HEADER
    while True:
        if at >= len(content):
            return at
        if content[at] != 1:
            return None
        if len(content) < at + 5:
            return at
        size, = struct.unpack_from('>I', content, at + 1)
        if not 1 <= size <= MOST_PAYLOAD or len(content) < at + 5 + size or at + 6 + size > MOST_END:
            return at
        at += 5 + size


def stands(files):
    """`('none',)`, `('damaged', FILE, PLACE)`, or `('journal', FORMAT, PAYLOADS)`."""
    number = journal_file(files)
    if number is None:
        return ('none',)
    content = files[number]
    damage = first_damage(content)
    if damage is not None:
        return ('damaged', number, damage)
    return ('journal', format_of(content), tuple(payload for _, payload in frames(content)))


def in_short(spelled, payloads):
    """The payloads of a journal in format 2, whichever they are spelled in."""
    return tuple(payloads) if spelled == SHORT else tuple(respelled(payloads, WHOLE, SHORT))
