"""Stores of format 1: what a command prints of them, and the journal that one which adds leaves in format 2. command_cases.py makes
cases of these.

What a node does is played by run_model.py and sharing.py, what is shown of its journal by world_model.py, and both formats are those of
journal.py. Nothing here is shared with the program.
"""
from digests import group_id, message_id
from journal import SHORT, entries, entry_of
from run_model import ACK, BATCH, INTERACTIVE, OFFER, REQUEST, SHARED, VISIBLE, message_record as message, record_bytes as record
from sharing import NOTE, SHARING, THREAD, Person
from world_model import Facts, shown

NOTES, THREADS, SHARINGS = (group_id(*definition) for definition in (NOTE, THREAD, SHARING))
X = message_id(NOTES, 0, b'x')
ROOT = message_id(THREADS, 5, b'\0root')


# ---- what is printed of a journal in format 2

def facts_of(payloads):
    facts = Facts()
    for payload in payloads:
        for tag, rest in entries(payload, SHORT):
            facts.apply(entry_of(tag, rest, facts.named))
    return facts


def show_text(payloads):
    return ''.join(line + '\n' for line in shown(facts_of(payloads)))


def inbox_text(payloads):
    facts = facts_of(payloads)
    held = [facts.find(id) for id in facts.delivered]
    return ''.join(f'{it.id.hex()} {it.group.hex()} {it.timestamp} {it.origin} {len(it.body)}\n' for it in held)


def tree_text(payloads, group):
    """The walk of a thread: a message replies to its first parent."""
    facts = facts_of(payloads)
    walk = [facts.find(id) for id in facts.delivered if facts.find(id).group == group]
    numbers = {it.id: number for number, it in enumerate(walk)}
    paths = []
    for it in walk:
        above = paths[numbers[it.body[1:33]]] if it.body[0] else []
        paths.append(above + [numbers[it.id]])
    size = {tuple(path): sum(other[:len(path)] == path for other in paths) for path in paths}
    return ''.join(f'{len(path) - 1} {size[tuple(path)]} {walk[path[-1]].id.hex()}\n' for path in sorted(paths))


# ---- stores

def bare(*definitions):
    person = Person()
    person.add_contact()
    for definition in definitions:
        person.add_group(*definition)
    return person


def fresh(*definitions):
    """A store with the note `x`, which is not judged yet."""
    person = bare(*definitions)
    person.unsettled(lambda: person.post(NOTES, 0, b'x'))
    return person


def held(*definitions):
    person = bare(*definitions)
    person.post(NOTES, 0, b'x')
    return person


def ended():
    """A note that a contact sent, which its client refuses."""
    person = bare(NOTE)
    person.share(0, NOTES, VISIBLE)
    person.attach(0, BATCH)
    person.hears(0, message(NOTES, 0, b'\xff'))
    return person


def spoken():
    """It was said here that a group is joined."""
    person = bare(SHARING)
    person.said(SHARINGS, 0, 'join', *NOTE)
    return person


def heard():
    """Two sessions, in which all was heard and sent that may be; messages in each state."""
    person = bare(NOTE, THREAD)
    person.add_contact()
    for contact, group, level in ((0, NOTES, SHARED), (0, THREADS, VISIBLE), (1, NOTES, SHARED), (1, THREADS, SHARED)):
        person.share(contact, group, level)
    person.post(NOTES, 0, b'x')
    person.post(THREADS, 5, b'\0root')
    person.attach(0, INTERACTIVE, nonce=bytes(15) + b'\7')
    reply, lost = b'\1' + ROOT + b'reply', b'\1' + X + b'lost'
    for group, time, body in ((NOTES, 1, b'hi'), (NOTES, 2, b'\xff'), (THREADS, 6, reply), (THREADS, 7, b'\1' + bytes(32) + b'lost')):
        person.hears(0, message(group, time, body))
    person.hears(0, message(THREADS, 8, lost))
    unknown = message_id(NOTES, 9, b'unknown')
    person.hears(0, record(OFFER, X + unknown + ROOT))
    person.hears(0, record(ACK, ROOT))
    person.send_due(0, now=1_000)
    person.hears(0, record(REQUEST, X))
    person.send_due(0, now=2_000)
    person.attach(1, BATCH)
    person.send_due(1, now=3_000)
    person.attach(1, INTERACTIVE, latency=1)
    person.hears(2, record(ACK, X))
    person.send_due(2, now=9_000)
    person.unsettled(lambda: person.hears(0, message(NOTES, 4, 'né'.encode())))
    return person


# ---- the tables

def adds_contact(person):
    person.store.settle()
    number = person.journal.contacts
    person.add_contact()
    return f'contact {number}\n'


def adds_group(person):
    return f'group {person.add_group(*NOTE).hex()}\n'


def sets_level(person):
    person.store.settle()
    person.share(0, NOTES, SHARED)
    return f'level 0 {NOTES.hex()} shared\n'


def posts(group, time, body):
    def does(person):
        person.store.settle()
        person.post(group, time, body)
        return f'posted {message_id(group, time, body).hex()}\n'
    return does


def says(person):
    _, id = person.said(SHARINGS, 1, 'leave', *NOTE)
    return f'posted {id.hex()}\n'


def agrees(person):
    return person.agree(0, SHARINGS)


SCENES = [
    (bare(), 'contact', b'', adds_contact),
    (fresh(NOTE), 'contact', b'', adds_contact),
    (bare(), 'group note 0 d', b'', adds_group),
    (ended(), f'share 0 {NOTES.hex()} shared', b'', sets_level),
    (held(NOTE, THREAD), f'post {THREADS.hex()} 5', b'\0root', posts(THREADS, 5, b'\0root')),
    (spoken(), f'say {SHARINGS.hex()} 1 leave note 0 d', b'', says),
    (spoken(), f'agree 0 {SHARINGS.hex()}', b'', agrees),
]


def looks_at(person):
    """What commands print that look at the store of `heard`: their words, and the bytes of the output."""
    payloads = list(person.batches)
    facts = facts_of(payloads)
    yield 'show', show_text(payloads).encode()
    yield 'inbox', inbox_text(payloads).encode()
    for it in facts.held:
        yield f'body {it.id.hex()}', it.body
    yield f'tree {THREADS.hex()} 0 10', tree_text(payloads, THREADS).encode()
