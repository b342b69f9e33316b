#!/usr/bin/env python3
"""Stores of the shapes that a contact can choose to make a walk of replies slow, and what `tree` lists of them.

    hostile_trees.py [COUNT]

prints for each shape so many stores (100) of small sizes, drawn from seeds, some in format 1, with what `tree` lists
of each from four places on; .ci/drawn plays them. The stores are those of the model of run_model.py. The walk is made
here as docs/FORMATS.md has it: of the paths of all delivered messages of the group, sorted.
"""
from digests import message_id
from drawn import draws, journal, looked, main
from hostile_audits import chain as late_chain, fan, person_with, star as late_star, thread
from journal import SHORT, WHOLE
from old_stores import NOTES, THREADS
from run_model import BATCH, VISIBLE, message_record
from sharing import NOTE, THREAD, Person

FEED = b'feed', 0, b'd'
MOST = 4_294_967_295


# ---- the walk, by the paths

def paths_of(told, group):
    """The delivered messages of a group, and the path of each."""
    members = [it for it in map(told.find, told.delivered) if it.group == group]
    numbers, paths = {}, []
    for number, it in enumerate(members):
        names = told.answer(it)[0]
        paths.append((*(paths[numbers[names[0]]] if names else ()), number))
        numbers[it.id] = number
    return members, paths


def walk(told, group, start, count):
    """The lines of a part of the walk."""
    members, paths = paths_of(told, group)
    text = ''
    for path in sorted(paths)[start:start + count]:
        size = sum(other[:len(path)] == path for other in paths)
        text += f'{len(path) - 1} {size} {members[path[-1]].id.hex()}\n'
    return text


# ---- the shapes: each a list of messages, with the parent of each drawn from those before it

def replies(parent_of):
    """Threads in which each message replies to the one that is drawn, and names some others behind it; now and then one
    is refused, or is named and never comes, and the rest comes in the order of the times or in a drawn one."""
    def shape(draw):
        made = []
        for number in range(draw.randint(3, 16)):
            names = [message_id(*it) for it in made]
            above = parent_of(draw, number)
            first = [] if above is None else [names[above]]
            others = [it for it in names if it not in first]
            also = draw.sample(others, min(len(others), draw.choice((0, 0, 0, 1, 3))))
            text = b'\xff' if draw.random() < 0.02 else b't'
            made.append((THREADS, number, thread(first + also if first else [], text)))
        coming = [it for it in made if draw.random() < 0.98]
        if draw.random() < 0.3:
            draw.shuffle(coming)
        return coming
    return shape


def chain(draw, number):
    return number - 1 if number else None


def star(draw, number):
    return 0 if number else None


def scattered(draw, number):
    return draw.randrange(number) if number and draw.random() < 0.9 else None


def comb(draw, number):
    """A chain of every second message, each with one beside it."""
    return (number - 1) // 2 * 2 if number else None


def deep_last(draw, number):
    """Many that reply to the first, and a chain below the last of them."""
    return (0 if number < 6 else number - 1) if number else None


def person_who_hears(shape, draw):
    person = person_with((VISIBLE, VISIBLE))
    for message in shape(draw):
        person.hears(0, message_record(*message))
    if draw.random() < 0.3:
        own = [it for it in person.journal.delivered if person.journal.find(it).group == THREADS]
        person.post(THREADS, 1_000, thread(own[-1:], b'own'))
    if draw.random() < 0.2:
        person.unsettled(lambda: person.hears(0, message_record(THREADS, 2_000, thread([], b'not judged'))))
    return person, THREADS


def threads(parent_of):
    def store(draw):
        return person_who_hears(replies(parent_of), draw)
    store.__name__ = parent_of.__name__
    return store


def waiting(draw):
    """Chains, stars and fans that wait for what comes last."""
    return person_who_hears(draw.choice((late_chain, late_star, fan)), draw)


def feeds(draw):
    """Messages that name one other at most, and none that is to be shown; some name what never comes."""
    person, feed = feed_person()
    made = []
    for number in range(draw.randint(2, 12)):
        above = draw.choice([bytes(32)] + [message_id(*it) for it in made[-3:]] * 3)
        made.append((feed, number, above + draw.choice((b't', b't', b't', b't', b'\xff'))))
    coming = made[:]
    if draw.random() < 0.3:
        draw.shuffle(coming)
    for message in coming:
        person.hears(0, message_record(*message))
    return person, feed


def feed_person():
    person = Person()
    person.add_contact()
    for definition in (NOTE, THREAD, FEED):
        group = person.add_group(*definition)
        person.share(0, group, VISIBLE)
    person.attach(0, BATCH)
    return person, group


def notes(draw):
    """Notes reply to nothing: the walk is their list."""
    person = person_with((VISIBLE, VISIBLE))
    for time in range(draw.randint(0, 8)):
        person.hears(0, message_record(NOTES, time, draw.choice((b'n', b'n', b'\xff'))))
    return person, NOTES


SHAPES = [*map(threads, (chain, star, scattered, comb, deep_last)), waiting, feeds, notes]


# ---- the rows

def rows(count):
    for shape, draw in draws(SHAPES, count):
        person, group = shape(draw)
        content = journal(person.batches, draw.choice((SHORT, SHORT, SHORT, WHOLE)))
        length = len(paths_of(person.journal, group)[0])
        drawn = draw.randint(0, length + 1), draw.randint(1, 20)
        for start, part in ((0, MOST), (length // 2, draw.randint(0, 3)), drawn, (length, MOST)):
            text = walk(person.journal, group, start, part)
            yield looked(shape.__name__, content, f'tree {group.hex()} {start} {part}', text)


if __name__ == '__main__':
    main(rows)
