#!/usr/bin/env python3
"""Words that a contact can say so that `agree` has much to do, and what it prints and adds over them.

    hostile_agrees.py [COUNT]

prints for each shape so many stores (100) of small sizes, drawn from seeds, some in format 1: what each `agree` over
one prints, and both files behind it; .ci/drawn plays them. The stores are those of the model of run_model.py, and what
follows from the words is found by sharing.py: the definitions in the order of their first naming, each with the last
word of either side.
"""
from digests import message_id
from drawn import Drawn, draws, journal, main
from journal import SHORT, WHOLE
from run_model import BATCH, INVISIBLE, SHARED, VISIBLE, message_record
from sharing import MOST_GROUPS, NOTE, OTHER, SHARING, THREAD, Person, saying

STANCES = 'join', 'join', 'leave'
# a few that are known, one that no client knows, one of another major version, and one that may not be named
KNOWN = [NOTE, (b'note', 0, b'e'), THREAD, (b'feed', 0, b'')]
FEW = [*KNOWN, (b'chat', 0, b'd'), (b'note', 1, b'd'), (b'sharing', 0, b'x')]


class Scene:
    """A store with a `sharing` group, and each `agree` that was asked for over it."""

    def __init__(self, shape, draw, contacts=1, groups=0):
        self.shape, self.draw, self.person, self.rows, self.time = shape.__name__, draw, Person(), [], 0
        for _ in range(contacts):
            self.person.add_contact()
        self.group, self.other = (self.person.add_group(*it) for it in (SHARING, OTHER))
        for number in range(groups):
            self.person.add_group(b'note', 0, b'g%d' % number)
        for contact in range(contacts):
            for group in (self.group, self.other):
                self.person.share(contact, group, draw.choice((VISIBLE, SHARED)))
            self.person.attach(contact, BATCH)

    def says(self, who, stance, definition):
        """A word of this device, which may not name `sharing`, or of a contact."""
        self.time += 1
        if who != 'own':
            self.person.hears(who, message_record(self.group, self.time, saying(stance, *definition)))
        elif definition[0] != b'sharing':
            self.person.said(self.group, self.time, stance, *definition)

    def agrees(self, contact=0, spelled=SHORT):
        """In a store of this format; one of format 1 is written anew into the other file."""
        before = journal(self.person.batches, spelled)
        self.person.store.settle()
        text = self.person.agree(contact, self.group)
        payloads = self.person.batches
        after = (journal(payloads), b'') if spelled == SHORT else (before, journal(payloads, generation=2))
        words = f'agree {contact} {self.group.hex()}'
        self.rows.append(Drawn(self.shape, (before, b''), words, text, '', 0, after))

    def agrees_in_either(self):
        self.agrees(spelled=WHOLE if self.draw.random() < 0.2 else SHORT)


def named(number):
    return b'note', 0, b'n%d' % number


# ---- the shapes

def each_its_own(draw):
    """Each word names another definition: of the contact, and of this device some."""
    scene = Scene(each_its_own, draw)
    for number in range(draw.randint(2, 14)):
        for who in draw.choice(([0], [0, 'own'], ['own', 0], ['own'])):
            scene.says(who, draw.choice(STANCES), named(number))
    scene.agrees_in_either()
    scene.agrees()
    return scene


def again_and_again(draw):
    """Many words on a few definitions, of which some are known here and have a level."""
    scene = Scene(again_and_again, draw)
    some = draw.sample(FEW, draw.randint(1, 3))
    for definition in some:
        if definition in KNOWN and draw.random() < 0.4:
            group = scene.person.add_group(*definition)
            scene.person.share(0, group, draw.choice((INVISIBLE, VISIBLE, SHARED)))
    for _ in range(draw.randint(3, 20)):
        scene.says(draw.choice(('own', 0, 0)), draw.choice(STANCES), draw.choice(some))
        if draw.random() < 0.1:
            scene.agrees()
    scene.agrees_in_either()
    return scene


def joins_and_leaves(draw):
    """The contact joins and leaves in turn, and each time it is agreed: a level is set each time."""
    scene = Scene(joins_and_leaves, draw)
    some = draw.sample(KNOWN, draw.randint(1, 3))
    for definition in some:
        scene.says('own', 'join', definition)
    for turn in range(draw.randint(2, 8)):
        scene.says(0, ('join', 'leave')[turn % 2], draw.choice(some))
        scene.agrees()
    return scene


def waits(draw):
    """Words that each name the one before, and come in the worst order or a drawn one; one may never come, or be
    refused; the last may not be judged yet."""
    scene = Scene(waits, draw)
    records, previous = [], bytes(32)
    for number in range(draw.randint(2, 10)):
        body = saying(draw.choice(STANCES), *draw.choice([named(number), *FEW]), previous=previous)
        records.append(message_record(scene.group, 1_000 + number, body))
        previous = message_id(scene.group, 1_000 + number, body)
    records.reverse()
    if draw.random() < 0.4:
        draw.shuffle(records)
    if draw.random() < 0.2:
        records.pop(draw.randrange(len(records)))
    for record in records[:-1]:
        scene.person.hears(0, record)
        if draw.random() < 0.3:
            scene.says('own', draw.choice(STANCES), named(draw.randrange(3)))
    hear_last = lambda: scene.person.hears(0, records[-1])
    if draw.random() < 0.3:
        scene.person.unsettled(hear_last)
    else:
        hear_last()
    scene.agrees_in_either()
    return scene


def of_others(draw):
    """Words of two contacts, in two groups: those of the other contact, and of the other group, say nothing."""
    scene = Scene(of_others, draw, contacts=2)
    for number in range(draw.randint(3, 14)):
        scene.group, scene.other = draw.choice(((scene.group, scene.other), (scene.other, scene.group)))
        scene.says(draw.choice(('own', 0, 1)), draw.choice(STANCES), draw.choice(FEW))
    for contact in draw.choice(((0,), (1,), (0, 1), (1, 0, 1))):
        scene.agrees(contact)
    return scene


def no_room(draw):
    """Nearly as many groups are known as may be, and more are named."""
    scene = Scene(no_room, draw, groups=MOST_GROUPS - 2 - draw.randint(0, 3))
    for number in range(draw.randint(1, 6)):
        definition = draw.choice((named(number), (b'note', 0, b'g%d' % draw.randrange(1_000))))
        for who in draw.choice((('own',), ('own', 0), (0,))):
            scene.says(who, draw.choice(STANCES), definition)
    scene.agrees()
    return scene


SHAPES = [each_its_own, again_and_again, joins_and_leaves, waits, of_others, no_room]


def rows(count):
    for shape, draw in draws(SHAPES, count):
        yield from shape(draw).rows


if __name__ == '__main__':
    main(rows)
