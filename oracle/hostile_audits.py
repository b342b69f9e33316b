#!/usr/bin/env python3
"""Stores of the shapes that a contact can choose to make an audit slow, and what an audit comes to over them.

    hostile_audits.py [COUNT]

prints for each shape so many stores (100) of small sizes, drawn from seeds, with what an audit tells of each; .ci/drawn plays them.
The stores are those of the model of run_model.py, and what is told of them is counted in audits.py by the rules. Behind each
store stands one that lacks a step: the first of a settling batch, or the whole batch, so that what follows may not stand there.
"""
from audits import Audited
from digests import message_id
from drawn import draws, journal, looked, main
from journal import SHORT, entries
from old_stores import NOTES, THREADS, bare
from run_model import ACK, BATCH, INTERACTIVE, INVISIBLE, OFFER, REQUEST, SHARED, VISIBLE, message_record, record_bytes
from sharing import NOTE, THREAD


def person_with(levels):
    person = bare(NOTE, THREAD)
    person.add_contact()
    for group in (NOTES, THREADS):
        for contact, level in enumerate(levels):
            person.share(contact, group, level)
    person.attach(0, BATCH)
    return person


def thread(parents, text):
    return bytes([len(parents)]) + b''.join(parents) + text


def named(message):
    return message_id(*message)


# ---- the shapes: each a list of messages in an order that is drawn or the worst

def chain(draw):
    """Each depends on the one before it, and perhaps on others; it comes in the worst order, or in a drawn one."""
    made = []
    for time in range(draw.randint(3, 12)):
        earlier = [named(m) for m in made]
        parents = earlier[-1:] + draw.sample(earlier[:-1], min(len(earlier[:-1]), draw.choice((0, 0, 1, 2))))
        text = draw.choice((b't', b't', b't', b't', b'\xff'))
        made.append((THREADS, time, thread(parents, text)))
    made.reverse()
    if draw.random() < 0.4:
        draw.shuffle(made)
    return made


def star(draw):
    """Many depend on one that comes last, which is good, refused, or of another group."""
    group, body = draw.choice(((THREADS, b'\0root'), (THREADS, b'\0root'), (THREADS, b'\0\xff'), (NOTES, b'note')))
    root = group, 0, body
    return [(THREADS, time, thread([named(root)], b'leaf')) for time in range(1, draw.randint(3, 12))] + [root]


def fan(draw):
    """Many name the same parents, which come one by one; some never come."""
    parents = []
    for time in range(draw.randint(2, 9)):
        group, body = draw.choice(((THREADS, b'\0p'),) * 6 + ((THREADS, b'\0\xff'), (NOTES, b'p')))
        parents.append((group, time, body))
    names = [named(m) for m in parents]
    children = []
    for time in range(20, 20 + draw.randint(2, 8)):
        draw.shuffle(names)
        children.append((THREADS, time, thread(names if draw.random() < 0.7 else names[:draw.randint(1, len(names))], b'c')))
    for time in range(40, 40 + draw.randint(0, 3)):
        children.append((THREADS, time, thread([named(draw.choice(children))], b'g')))
    coming = parents[:len(parents) - draw.choice((0, 0, 0, 1))]
    draw.shuffle(coming)
    heard = children + coming
    if draw.random() < 0.3:
        draw.shuffle(heard)
    return heard


# ---- the stores

def waits(shape):
    def store(draw):
        person = person_with((VISIBLE, draw.choice((SHARED, VISIBLE))))
        for message in shape(draw):
            person.hears(0, message_record(*message))
        return person
    store.__name__ = shape.__name__
    return store


def invalid_beside(draw):
    """Notes for a second contact, with some between them that never go; each is sent at a time of its own, and some are acknowledged."""
    person = person_with((VISIBLE, SHARED))
    link = 1
    person.attach(1, draw.choice((BATCH, INTERACTIVE)), latency=draw.choice((1, 2, 50)), nonce=None)
    now = 0
    for time in range(draw.randint(3, 10)):
        body = draw.choice((b'\xff', b'note', b'note'))
        person.hears(0, message_record(NOTES, time, body))
        if draw.random() < 0.3:
            person.post(NOTES, 100 + time, b'own')
        now += draw.choice((0, 1, 60, 500))
        if draw.random() < 0.7:
            person.send_due(link, now)
        sent = [it.id for it in person.journal.held]
        if draw.random() < 0.4:
            person.hears(link, record_bytes(ACK, draw.choice(sent)))
        if draw.random() < 0.15:
            person.share(1, NOTES, draw.choice((INVISIBLE, VISIBLE, SHARED)))
    person.send_due(link, now + 10_000)
    return person


def asks_again(draw):
    """A contact that asks again and again for the first and the last message, and for others."""
    person = person_with((VISIBLE, SHARED))
    for time in range(draw.randint(3, 8)):
        person.post(NOTES, time, b'note')
    person.hears(0, message_record(NOTES, 50, b'\xff'))
    person.attach(1, INTERACTIVE, latency=draw.choice((1, 2, 50)), nonce=bytes(15) + b'\7')
    ids = [it.id for it in person.journal.held]
    now = 0
    for turn in range(draw.randint(3, 10)):
        asked = draw.choice(([ids[0], ids[-1]], [ids[-1]], [ids[0]], [draw.choice(ids)]))
        person.hears(1, record_bytes(REQUEST, b''.join(asked)))
        if draw.random() < 0.7:
            now += draw.choice((0, 1, 60, 500))
            person.send_due(1, now)
        if draw.random() < 0.2:
            person.hears(1, record_bytes(ACK, draw.choice(ids)))
        if draw.random() < 0.2:
            person.post(NOTES, 60 + turn, b'more')
            ids = [it.id for it in person.journal.held]
        if draw.random() < 0.1:
            person.share(1, NOTES, draw.choice((VISIBLE, SHARED, SHARED)))
    return person


SHAPES = [waits(chain), waits(star), waits(fan), invalid_beside, asks_again]


# ---- a step is lacking

SETTLING, DAMAGED = (8, 9, 10), 5


def lacking(payloads, draw):
    """A journal that lacks a step, and the place of the batch that may not stand there; None where none is to be had."""
    batches = [at for at, payload in enumerate(payloads) if payload[0] in SETTLING]
    cut = [at for at in batches if len(list(entries(payloads[at], SHORT))) > 1]
    gone = [at for at in batches if at + 1 < len(payloads) and payloads[at + 1][0] not in SETTLING]
    if not cut and not gone:
        return None
    at = draw.choice(cut + gone)
    if at in cut:
        (tag, rest), *_ = entries(payloads[at], SHORT)
        spelled = payloads[at][1 + len(rest):]
        there = payloads[:at] + [spelled] + payloads[at + 1:]
    else:
        there = payloads[:at] + payloads[at + 1:]
    place = 14 + sum(5 + len(payload) for payload in payloads[:at])
    return there, f'damaged: file 0 at {place}\n'


def rows(count):
    for shape, draw in draws(SHAPES, count):
        payloads = shape(draw).batches
        yield looked(shape.__name__, journal(payloads), 'audit', Audited(payloads).line())
        other = lacking(payloads, draw)
        if other:
            yield looked(shape.__name__, journal(other[0]), 'audit', err=other[1], status=DAMAGED)


if __name__ == '__main__':
    main(rows)
