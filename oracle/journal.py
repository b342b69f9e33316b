"""The journal in a store's file, as docs/FORMATS.md has it: its frames, and its entries in either format. It shares nothing with
the program.
"""
import struct

from digests import message_id

HEADER = 14
WHOLE, SHORT = 1, 2
ID, NUMBER = 32, 4
# how many bytes name a message that is held
NAMED = {WHOLE: ID, SHORT: NUMBER}
ACKS, REQUESTS, OFFERS, SEND = range(4)
# how many bytes stand before the message that an entry brings
BEHIND = {6: 0, 7: 4, 17: 2}


def format_of(content):
    """The format of a file."""
    return content[5]


def frames(content):
    """The payloads of the frames in a file or a journal, each with its place, up to the closed gate."""
    at = HEADER
    while at < len(content) and content[at] == 1:
        size, = struct.unpack_from('>I', content, at + 1)
        yield at, content[at + 5:at + 5 + size]
        at += 5 + size


# how many bytes the frames that are added at once take at most
GROUP = 1 << 20


def groups_of(content):
    """In how many groups the frames of a file come where it is written anew: as many as fit are added at once."""
    groups, room = 0, 0
    for at, payload in frames(content):
        size = 5 + len(payload)
        if size > room:
            groups, room = groups + 1, GROUP
        room -= size
    return groups


# how many bytes the longest frame takes, and how many batches wait at most
LONGEST, MOST_BATCHES = 5 + 65_536, 4_096
# with which byte a payload of steps begins
STEPS = (8, 9, 10)


class Group:
    """Payloads that wait to be added together."""

    def __init__(self):
        self.payloads, self.size = [], 0

    def finds_room(self):
        """Whether one more joins them: the longest frame would find room behind them."""
        return len(self.payloads) < MOST_BATCHES and self.size + LONGEST <= GROUP

    def add(self, payload):
        self.payloads.append(payload)
        self.size += 5 + len(payload)


def joined(payloads):
    """The groups in which these are added, where each joins those before it while it finds room."""
    groups = []
    for payload in payloads:
        if not groups or not groups[-1].finds_room():
            groups.append(Group())
        groups[-1].add(payload)
    return [group.payloads for group in groups]


def gathered(payloads):
    """The groups in which a command adds these: the settling of a journal that was loaded stands by itself."""
    payloads = list(payloads)
    steps = next((place for place, payload in enumerate(payloads) if payload[0] not in STEPS), len(payloads))
    return joined(payloads[:steps]) + joined(payloads[steps:])


def journal_of(content):
    """The front of a file that has its journal, without the closed gate."""
    end = HEADER
    for at, payload in frames(content):
        end = at + 5 + len(payload)
    return content[:end]


def length_of(payload, at, spelled):
    """How many bytes the entry at a place of a payload has behind its tag, in this format."""
    tag, named = payload[at], NAMED[spelled]
    if tag in (16, 18, 19):
        return {16: 4, 18: 1 + named + 10, 19: 1 + ID}[tag]
    if tag in (1, 3, 5, 12):
        return {1: 1, 3: 34, 5: 12, 12: 4 + ID}[tag]
    if tag in (8, 9, 10):
        return named
    if tag in (11, 13, 14):
        return 4 + named
    at += 1
    if tag == 2:
        name = payload[at]
        descriptor, = struct.unpack_from('>H', payload, at + 1 + name + 4)
        return 1 + name + 4 + 2 + descriptor
    if tag == 4:
        return 11 + 16 * payload[at + 10]
    if tag in (6, 7, 17):
        front = 40 + BEHIND[tag]
        body, = struct.unpack_from('>H', payload, at + front)
        return front + 2 + body
    if tag == 15:
        kind = payload[at + 12]
        if kind == SEND:
            return 13 + named
        return 15 + (ID if kind == REQUESTS else named) * struct.unpack_from('>H', payload, at + 13)[0]
    raise ValueError(f'tag {tag}')


def entries(payload, spelled):
    """The entries of a payload in this format: the tag of each, and what is behind it."""
    at = 0
    while at < len(payload):
        size = length_of(payload, at, spelled)
        yield payload[at], payload[at + 1:at + 1 + size]
        at += 1 + size


def id_in(tag, rest):
    """The id of the message that an entry brings, or None."""
    if tag not in BEHIND:
        return None
    group, time, _ = struct.unpack_from('>32sQH', rest, BEHIND[tag])
    return message_id(group, time, rest[BEHIND[tag] + 42:])


def named_places(tag, rest, spelled):
    """The places behind the tag at which an entry names a message that is held."""
    if tag in (8, 9, 10):
        return range(1)
    if tag in (11, 13, 14):
        return range(4, 5)
    if tag == 18:
        return range(1, 2)
    if tag == 15 and rest[12] == SEND:
        return range(13, 14)
    if tag == 15 and rest[12] != REQUESTS:
        return range(15, len(rest), NAMED[spelled])
    return range(0)


def respelled(payloads, before, after):
    """These payloads of a whole journal in one format, in another: a held message has its id there, or its arrival number."""
    held, places_of = [], {}
    for payload in payloads:
        said = b''
        for tag, rest in entries(payload, before):
            places = named_places(tag, rest, before)
            front, tail = (rest[:places[0]], rest[places[-1] + NAMED[before]:]) if places else (rest, b'')
            names = [rest[place:place + NAMED[before]] for place in places]
            numbers = [places_of[name] if before == WHOLE else int.from_bytes(name, 'big') for name in names]
            told = [held[number] if after == WHOLE else struct.pack('>I', number) for number in numbers]
            said += bytes([tag]) + front + b''.join(told) + tail
        for id in [id for tag, rest in entries(payload, before) if (id := id_in(tag, rest))]:
            places_of[id] = len(held)
            held.append(id)
        yield said


def whole_entries(content):
    """The entries of a file, a held message by its id whatever the format."""
    payloads = respelled((payload for _, payload in frames(content)), format_of(content), WHOLE)
    return [entry for payload in payloads for entry in entries(payload, WHOLE)]


def acknowledged(content):
    """The ids that a peer said to have, in digits."""
    return {rest[4:].hex() for tag, rest in whole_entries(content) if tag == 13}


# ---- the entries of a file

def number(bytes_):
    return int.from_bytes(bytes_, 'big')


def message_of(rest):
    return rest[:32], number(rest[32:40]), rest[42:]


def out_of(rest, named):
    kind, told = rest[12], rest[13:] if rest[12] == 3 else rest[15:]
    if kind == 1:
        ids = [told[at:at + 32] for at in range(0, len(told), 32)]
    else:
        ids = [named(told[at:at + 4]) for at in range(0, len(told), 4)]
    return 'out', number(rest[:4]), number(rest[4:12]), ('acks', 'requests', 'offers', 'send')[kind], ids


def is_spelled(tag, rest, spelled, held):
    """Whether an entry of the kinds of a brief account, or a step, is spelled so: no further bytes of these have a meaning."""
    if tag in (8, 9, 10):
        return number(rest) < held
    if tag == 17:
        return rest[0] == 1 or rest[:2] == b'\0\0'
    if tag == 18:
        flags, tries, expiry = rest[5], rest[6], number(rest[7:])
        return number(rest[1:5]) < held and flags < 8 and tries <= 64 and (flags or tries) and (tries or not expiry)
    return tag < 16 or spelled == SHORT


def tried_of(rest, named):
    flags = rest[5]
    return 'tried', rest[0], named(rest[1:5]), bool(flags & 1), bool(flags & 2), bool(flags & 4), rest[6], number(rest[7:])


def group_of(rest):
    end = 1 + rest[0]
    return 'group', rest[1:end], number(rest[end:end + 4]), rest[end + 6:]


def session_of(rest):
    mode = ('interactive', 'batch')[rest[5]]
    return 'session', number(rest[:4]), rest[4], mode, number(rest[6:10]), rest[11:] if rest[10] else None


def entry_of(tag, rest, named):
    """The entry with this tag and these bytes behind it, where a name means this message."""
    simple = {8: 'judged', 9: 'deliver', 10: 'invalid'}
    heard = {11: 'again', 12: 'offered', 13: 'seen', 14: 'asked'}
    if tag in simple:
        return simple[tag], named(rest)
    if tag in heard:
        return heard[tag], number(rest[:4]), rest[4:] if tag == 12 else named(rest[4:])
    return {
        1: lambda: ('contact', rest[0]),
        2: lambda: group_of(rest),
        3: lambda: ('level', rest[0], rest[1:33], rest[33]),
        4: lambda: session_of(rest),
        5: lambda: ('take', number(rest[:4]), number(rest[4:])),
        6: lambda: ('author', message_of(rest)),
        7: lambda: ('arrive', number(rest[:4]), message_of(rest[4:])),
        15: lambda: out_of(rest, named),
        16: lambda: ('brief', number(rest)),
        17: lambda: ('kept', rest[1] if rest[0] else 'self', message_of(rest[2:])),
        18: lambda: tried_of(rest, named),
        19: lambda: ('want', rest[0], rest[1:]),
    }[tag]()
