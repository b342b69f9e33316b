"""Journals that are measured: notes that were heard and sent on, notes that were sent again, and messages that wait for each other.
The bytes are those of docs/FORMATS.md."""
import struct

from digests import group_id, message_id
from journal import ACKS, SEND
from store_file import GROUP, first_batches, steps

AT_ONCE, LATENCY, NOW = 1_000, 1_000, 5_000
TWO_DAYS, SLOWEST = 172_800_000, 2 ** 32 - 1
# how many steps a batch of settling has at most
MOST_STEPS = 256
THREAD = group_id(b'thread', 0, b'd')


def name(number):
    return struct.pack('>I', number)


# ---- notes

def begins(session, contact, latency=LATENCY):
    return struct.pack('>BIBBIB', 4, session, contact, 1, latency, 0)


def out(session, kind, numbers, now=NOW):
    named = b'' if kind == SEND else struct.pack('>H', len(numbers))
    return struct.pack('>BIQB', 15, session, now, kind) + named + b''.join(map(name, numbers))


def heard(notes, sessions):
    """Notes that contact 0 sent in so many sessions, and that were sent on to contact 1 in as many."""
    yield from first_batches()
    yield b'\1\1'
    yield struct.pack('>BB32sB', 3, 1, GROUP, 2)
    most = -(-len(notes) // sessions)
    for session in range(sessions):
        yield begins(2 * session, 0)
        part = range(session * most, min(len(notes), (session + 1) * most))
        for place, number in enumerate(part):
            yield struct.pack('>BIQ', 5, 2 * session, place) + b'\7' + name(2 * session) + notes[number].said()[1:]
            yield steps(name(number))
            if (place + 1) % AT_ONCE == 0 or number == part[-1]:
                yield out(2 * session, ACKS, part[place - place % AT_ONCE:place + 1])
        yield begins(2 * session + 1, 1)
        for number in part:
            yield out(2 * session + 1, SEND, [number])


def written(notes):
    """Notes that were written here."""
    yield from first_batches()
    for number, note in enumerate(notes):
        yield from note.batches(number)


def lost(notes):
    """Notes that a letter of two days took to contact 0, and nobody acknowledged."""
    yield from written(notes)
    yield begins(0, 0, TWO_DAYS)
    for number in range(len(notes)):
        yield out(0, SEND, [number])


def sooner(notes):
    """Notes of a letter that was lost, and all of them once more at that moment over a way of a second."""
    yield from lost(notes)
    yield begins(1, 0)
    for number in range(len(notes)):
        yield out(1, SEND, [number])


def by_turns(notes, at_once):
    """Notes of a letter that was lost, each once more over a way of ten seconds and then over one of a second, so many in a turn."""
    yield from lost(notes)
    yield begins(1, 0, 10 * LATENCY)
    yield begins(2, 0)
    for first in range(0, len(notes), at_once):
        for session in 1, 2:
            for number in range(first, min(len(notes), first + at_once)):
                yield out(session, SEND, [number])


def waiting(notes, now):
    """Notes that were sent from this time on over the slowest way there is, a sixth of them once and the first sixth six times; all
    wait, and none would be sooner over any way as slow."""
    yield from written(notes)
    yield begins(0, 0, SLOWEST)
    for tries in range(1, 7):
        for number in range(len(notes) * (7 - tries) // 6):
            yield out(0, SEND, [number], now)
        now += 2 ** tries * SLOWEST


# ---- messages that wait

def answers(messages, delivered):
    """Thread messages, each a time and a body, that contact 0 sent in one session, all but the last of which wait for it. They are
    then delivered in the order of these numbers."""
    yield b'\1\0'
    yield struct.pack('>BB6sIHs', 2, 6, b'thread', 0, 1, b'd')
    yield struct.pack('>BB32sB', 3, 0, THREAD, 1)
    yield begins(0, 0)
    for place, (time, body) in enumerate(messages):
        yield struct.pack('>BIQ', 5, 0, place) + struct.pack('>BI32sQH', 7, 0, THREAD, time, len(body)) + body
        if place < len(messages) - 1:
            yield b'\x08' + name(place)
    told = [b'\x08' + name(len(messages) - 1)] + [b'\x09' + name(number) for number in delivered]
    for at in range(0, len(told), MOST_STEPS):
        yield b''.join(told[at:at + MOST_STEPS])


def chain(count):
    """Messages in the worst order: each depends on the one that comes after it."""
    messages, parents = [], b'\0'
    for time in range(count):
        messages.append((time, parents + b't'))
        parents = b'\1' + message_id(THREAD, *messages[-1])
    return answers(messages[::-1], range(count - 1, -1, -1))


def star(count):
    """Messages that all depend on the one that comes last."""
    root = 0, b'\0r'
    body = b'\1' + message_id(THREAD, *root)
    return answers([(time, body) for time in range(count - 1)] + [root], [count - 1, *range(count - 1)])
