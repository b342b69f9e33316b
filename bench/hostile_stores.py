"""Stores of what contacts may send, or bring a person to say, so that a command has much to do; and honest ones of as many bytes.
Each is a legal journal of format 2, whose bytes are those of docs/FORMATS.md. A maker gives the payloads of its batches.
"""
import struct

from digests import group_id, message_id
from journal import SEND
from journal_files import NOW, THREAD, begins, chain, name, out, star
from store_file import GROUP, HEADER, Note, first_batches, framed, steps

SHARING = group_id(b'sharing', 0, b'd')
NAMES = 255
NOTE_SIZE = 200
# behind so many notes stand the levels
LEVEL_NOTES = 20_000
INTERACTIVE = 0


def group(client):
    return struct.pack('>BB', 2, len(client)) + client + struct.pack('>IH', 0, 1) + b'd'


def level(contact, id, value):
    return struct.pack('>BB32sB', 3, contact, id, value)


def arrives(place, group, time, body):
    """The batch by which contact 0 brings a message as record `place` of session 0."""
    return struct.pack('>BIQ', 5, 0, place) + struct.pack('>BI32sQH', 7, 0, group, time, len(body)) + body


def spoken(client, group_of, bodies):
    """Messages of contact 0 that are each delivered as they come."""
    yield b'\1\0'
    yield group(client)
    yield level(0, group_of, 1)
    yield begins(0, 0)
    for place, body in enumerate(bodies):
        yield arrives(place, group_of, place, body)
        yield steps(name(place))


# ---- replies

def scatter(n):
    """A number that looks random."""
    x = n * 0x9e3779b97f4a7c15 & 0xffffffffffffffff
    x ^= x >> 29
    x = x * 0xbf58476d1ce4e5b9 & 0xffffffffffffffff
    return x ^ x >> 32


PARENTS = {
    'chain': lambda n: n - 1,
    'star': lambda n: 0,
    'random': lambda n: scatter(n) % n,
}


def replies(shape, count):
    def bodies():
        ids = []
        for n in range(count):
            body = b'\1' + ids[PARENTS[shape](n)] + b't' if n else b'\0t'
            ids.append(message_id(THREAD, n, body))
            yield body
    return spoken(b'thread', THREAD, bodies())


# ---- messages that wait

def fan(count):
    """Messages that name the same 255, which come one by one behind them."""
    roots = [b'\0%d' % n for n in range(NAMES)]
    ids = [message_id(THREAD, n, body) for n, body in enumerate(roots)]
    body = bytes([NAMES]) + b''.join(ids)
    yield b'\1\0'
    yield group(b'thread')
    yield level(0, THREAD, 1)
    yield begins(0, 0)
    for place in range(count):
        yield arrives(place, THREAD, NAMES + place, body)
        yield b'\x08' + name(place)
    for n, root in enumerate(roots):
        yield arrives(count + n, THREAD, n, root)
        if n < NAMES - 1:
            yield steps(name(count + n))
    # a step is that of the first message that has one, so all that waited are delivered behind the last root
    told = [b'\x08' + name(count + NAMES - 1), b'\x09' + name(count + NAMES - 1), *(b'\x09' + name(place) for place in range(count))]
    for at in range(0, len(told), 256):
        yield b''.join(told[at:at + 256])


# ---- what is due to a contact

def notes_of(count):
    return [Note(number, NOTE_SIZE) for number in range(count)]


def invalid(count):
    """An invalid note of contact 0 and notes behind it, in a group shared with contact 1, to which they are sent on."""
    yield from first_batches()
    yield b'\1\1'
    yield level(1, GROUP, 2)
    yield begins(0, 0)
    yield arrives(0, GROUP, 0, b'\xff')
    yield b'\x08' + name(0) + b'\x0a' + name(0)
    for number, note in enumerate(notes_of(count), 1):
        yield struct.pack('>BIQ', 5, 0, number) + b'\7' + name(0) + note.said()[1:]
        yield steps(name(number))
    yield begins(1, 1)
    for number in range(1, count + 1):
        yield out(1, SEND, [number])


def asked(count):
    """Notes that were written here, of which contact 0 asks as often for the first and the last, and is sent them."""
    yield from first_batches()
    for number, note in enumerate(notes_of(count)):
        yield from note.batches(number)
    yield struct.pack('>BIBBIB', 4, 0, 0, INTERACTIVE, 1_000, 0)
    ends = 0, count - 1
    for place in range(count):
        yield struct.pack('>BIQ', 5, 0, place) + b''.join(b'\x0e' + name(0) + name(number) for number in ends)
        for number in ends:
            yield out(0, SEND, [number])


# ---- levels and words

def levels(count, notes):
    """Level entries behind notes."""
    yield from first_batches()
    for number, note in enumerate(notes_of(notes)):
        yield from note.batches(number)
    for number in range(count):
        yield level(0, GROUP, 1 + number % 2)


def words(count):
    """Words of contact 0, each of its own definition, in a `sharing` group."""
    def bodies():
        above = bytes(32)
        for n in range(count):
            body = b'\1' + above + struct.pack('>B4sIHI', 4, b'note', 0, 4, n)
            above = message_id(SHARING, n, body)
            yield body
    return spoken(b'sharing', SHARING, bodies())


# ---- an honest store

def honest(length):
    """Notes that were written here, as many as there are in so many bytes."""
    base = framed(HEADER, first_batches())
    each = len(framed(HEADER, Note(0, NOTE_SIZE).batches(0))) - len(framed(HEADER, ()))
    for_notes = max(1, (length - len(base)) // each)
    yield from first_batches()
    for number, note in enumerate(notes_of(for_notes)):
        yield from note.batches(number)


MAKERS = {
    'tree_chain': lambda count: replies('chain', count),
    'tree_star': lambda count: replies('star', count),
    'tree_random': lambda count: replies('random', count),
    'audit_chain': chain,
    'audit_star': star,
    'audit_fan': fan,
    'audit_invalid': invalid,
    'audit_asked': asked,
    'levels': lambda count: levels(count, LEVEL_NOTES),
    'agree': words,
}
