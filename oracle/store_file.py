"""The file of a store, byte by byte as docs/FORMATS.md has it, and what the commands print of it.

It shares nothing with the program: the layout and the lines are written here anew.
"""
import struct

from digests import group_id, message_id

CLOSED = b'\x00'
OPEN = b'\x01'


def header(spelled, generation):
    """The open header of a file in this format."""
    return b'\x01BSPJ' + struct.pack('>BQ', spelled, generation)


# of a store that was begun in format 2, and in format 1, in which stores were begun before
HEADER = header(2, 1)
OLD_HEADER = header(1, 1)
# of a journal of format 1 that was written anew
NEXT_HEADER = header(2, 2)

GROUP = group_id(b'note', 0, b'd')


class Note:
    """A note that was written here: its two batches, and its lines."""

    def __init__(self, time, size):
        self.time = time
        self.body = f'note {time} '.encode().ljust(size, b'x')
        self.id = message_id(GROUP, time, self.body)

    def batches(self, number):
        """As the message of this number."""
        return self.said(), steps(struct.pack('>I', number))

    def old_batches(self):
        """In format 1."""
        return self.said(), steps(self.id)

    def said(self):
        return struct.pack('>B32sQH', 6, GROUP, self.time, len(self.body)) + self.body

    def state_line(self):
        return f'message {self.id.hex()} {GROUP.hex()} delivered\n'

    def inbox_line(self):
        return f'{self.id.hex()} {GROUP.hex()} {self.time} self {len(self.body)}\n'


def steps(name):
    """The batch that settles a message at once. Its name is its arrival number in four bytes, and in format 1 its id."""
    return b'\x08' + name + b'\x09' + name


def first_batches():
    """Contact 0, the group `note` `d`, and its level for the contact."""
    group = struct.pack('>BB4sIH', 2, 4, b'note', 0, 1) + b'd'
    return b'\x01\x00', group, struct.pack('>BB32sB', 3, 0, GROUP, 2)


def frame(payload):
    """A frame behind its gate: the length, the payload, and the next gate, which is closed."""
    return struct.pack('>I', len(payload)) + payload + CLOSED


def together(payloads):
    """The frames of batches that are added as one group: the gates between them are open."""
    return OPEN.join(frame(payload)[:-1] for payload in payloads) + CLOSED


def framed(head, payloads):
    """A file with this header and these payloads."""
    return head + b''.join(OPEN + frame(payload)[:-1] for payload in payloads) + CLOSED


def file_bytes(notes, head=HEADER):
    """A store with these notes, of format 2."""
    payloads = list(first_batches())
    for number, note in enumerate(notes):
        payloads += note.batches(number)
    return framed(head, payloads)


def old_file_bytes(notes):
    """The same of format 1."""
    payloads = list(first_batches())
    for note in notes:
        payloads += note.old_batches()
    return framed(OLD_HEADER, payloads)


def show_text(notes):
    head = f'contacts 1\ngroup {GROUP.hex()} {b"note".hex()} 0 {b"d".hex()}\nlevel 0 {GROUP.hex()} shared\n'
    return head + ''.join(note.state_line() for note in notes) + 'sessions 0\n'


def inbox_text(notes):
    return ''.join(note.inbox_line() for note in notes)
