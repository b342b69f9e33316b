"""The two people who agree on the groups that they share, played plainly by docs/PROTOCOL.md and docs/FORMATS.md, and the steps
of the commands `say` and `agree` of which command_cases.py makes cases.

    sharing.py > examples/agree.txt

Nothing here is shared with the program.
"""
import random
import struct

from digests import group_id, message_id
from run_model import BATCH, CLIENTS, INVISIBLE, SHARED, VISIBLE, Node, Store, message_record

LEVELS = ['invisible', 'visible', 'shared']
STANCES = {'join': 1, 'leave': 2}
MOST_GROUPS = 1_024


def spelled(name, major, descriptor):
    """A definition, as it stands in a journal and in a body."""
    return bytes([len(name)]) + name + struct.pack('>IH', major, len(descriptor)) + descriptor


def read_definition(data):
    """The definition that is spelled by all of the bytes, or None."""
    if not data or len(data) < 7 + data[0]:
        return None
    name, rest = data[1:1 + data[0]], data[1 + data[0]:]
    (major, size), descriptor = struct.unpack_from('>IH', rest), rest[6:]
    try:
        name.decode()
    except UnicodeDecodeError:
        return None
    return (name, major, descriptor) if name and size == len(descriptor) <= 16_384 else None


def read_saying(body):
    """What a body says: whether it is to join, the previous id, and the definition; or None."""
    if len(body) < 33 or body[0] not in STANCES.values():
        return None
    definition = read_definition(body[33:])
    return definition and (body[0] == 1, body[1:33], definition)


def judge_sharing(_, body):
    said = read_saying(body)
    if said is None or said[2][0] == b'sharing':
        return None
    return ((said[1],) if any(said[1]) else ()), False


ALL_CLIENTS = CLIENTS | {b'sharing': judge_sharing}


class Person(Node):
    """A node with the client of `sharing` groups, whose commands print lines."""

    def __init__(self):
        super().__init__(Store(ALL_CLIENTS))

    def unsettled(self, does):
        """Does something behind which nothing is settled."""
        settles, self.store.gather_settling = self.store.gather_settling, lambda: None
        does()
        self.store.gather_settling = settles

    def said(self, group, time, stance, name, major, descriptor):
        """`say`: the body, and the id of its message."""
        delivered = map(self.journal.find, self.journal.delivered)
        own = [held.id for held in delivered if held.origin == 'self' and held.group == group]
        body = bytes([STANCES[stance]]) + (own[-1] if own else bytes(32)) + spelled(name, major, descriptor)
        self.post(group, time, body)
        return body, message_id(group, time, body)

    def words_with(self, contact, group):
        for held in map(self.journal.find, self.journal.delivered):
            said = read_saying(held.body)
            if held.group == group and said and held.origin in ('self', contact):
                yield held.origin == 'self', said[0], said[2]

    def targets(self, contact, group):
        """The definitions in the order of their first naming, each with its level."""
        stances = {}
        for own, join, definition in self.words_with(contact, group):
            stances.setdefault(definition, {})[own] = join
        for definition, by in stances.items():
            own, other = by.get(True, False), by.get(False, False)
            yield definition, (SHARED if other else VISIBLE) if own else INVISIBLE

    def agree(self, contact, group):
        """`agree`: what it prints."""
        lines = []
        for definition, level in list(self.targets(contact, group)):
            id = group_id(*definition)
            if not self.journal.group(id):
                if level == INVISIBLE:
                    continue
                if definition[0] not in self.journal.clients or definition[1] or len(self.journal.groups) >= MOST_GROUPS:
                    lines.append(f'skipped {id.hex()}\n')
                    continue
                self.add_group(*definition)
            if self.journal.level(contact, id) != level:
                self.share(contact, id, level)
            lines.append(f'level {contact} {id.hex()} {LEVELS[level]}\n')
        return ''.join(lines)


class Scene:
    """Steps over one store: the payloads before, and for each step its words, what it prints and the payloads that it adds."""

    def __init__(self, person):
        self.person, self.before, self.steps = person, len(person.batches), []

    def begun(self):
        return [batch.hex() for batch in self.person.batches[:self.before]]

    def step(self, words, done):
        """A step that does this, which says what it prints."""
        place = len(self.person.batches)
        text = done(self.person)
        self.steps.append((words, text, [batch.hex() for batch in self.person.batches[place:]]))

    def say(self, group, time, stance, name, major, descriptor):
        words = f'say {group.hex()} {time} {stance} {name.decode()} {major} {descriptor.decode()}'
        self.step(words, lambda it: f'posted {it.said(group, time, stance, name, major, descriptor)[1].hex()}\n')

    def agree(self, contact, group):
        self.step(f'agree {contact} {group.hex()}', lambda it: it.agree(contact, group))


def hears(person, link, group, time, body):
    """A message of the peer is taken, and the journal settled."""
    person.hears(link, message_record(group, time, body))


def saying(stance, name, major, descriptor, previous=bytes(32)):
    return bytes([STANCES[stance]]) + previous + spelled(name, major, descriptor)


# ---- the tables

def beginning(*definitions, contacts=1):
    """A store with contacts and groups, and the ids of the groups."""
    person = Person()
    for _ in range(contacts):
        person.add_contact()
    return person, [person.add_group(*definition) for definition in definitions]


SHARING, OTHER, NOTE, THREAD = (b'sharing', 0, b's'), (b'sharing', 0, b'o'), (b'note', 0, b'd'), (b'thread', 0, b'')


def says():
    """Joins and leaves in two groups of one store: the previous message is the last own one of the group."""
    person, (group, other) = beginning(SHARING, OTHER)
    scene = Scene(person)
    scene.say(group, 0, 'join', *NOTE)
    scene.say(group, 0, 'join', *NOTE)
    scene.say(other, 7, 'leave', b'chat', 4_294_967_295, b'')
    scene.say(group, 9_223_372_036_854_775_807, 'leave', *NOTE)
    scene.say(other, 7, 'join', 'né'.encode(), 0, 'dé'.encode())
    return scene


def says_behind():
    """The last message that was delivered came from a contact, and the last own one of the group stands before it."""
    person, (group, note) = beginning(SHARING, NOTE)
    person.share(0, group, VISIBLE)
    person.said(group, 1, 'join', *NOTE)
    person.attach(0, BATCH)
    hears(person, 0, group, 2, saying('join', *NOTE))
    person.post(note, 3, b'x')
    scene = Scene(person)
    scene.say(group, 4, 'leave', *NOTE)
    return scene


def says_open():
    """The last own message is not delivered yet, so that the one before it is the previous one; it is delivered first."""
    person, (group,) = beginning(SHARING)
    person.said(group, 1, 'join', *NOTE)
    person.unsettled(lambda: person.said(group, 2, 'leave', *NOTE))
    own = list(person.journal.delivered)
    scene = Scene(person)

    def done(it):
        body = saying('join', *THREAD, previous=own[-1])
        it.store.settle()
        it.post(group, 3, body)
        return f'posted {message_id(group, 3, body).hex()}\n'

    scene.step(f'say {group.hex()} 3 join thread 0 ', done)
    return scene


def agrees():
    """Both join one group, and then this side leaves it; of another one, whose client is not known, only a line is printed."""
    person, (group,) = beginning(SHARING)
    person.share(0, group, VISIBLE)
    person.said(group, 1, 'join', *NOTE)
    person.said(group, 2, 'join', b'chat', 0, b'd')
    scene = Scene(person)
    scene.agree(0, group)
    scene.agree(0, group)
    scene.say(group, 3, 'leave', *NOTE)
    scene.agree(0, group)
    scene.say(group, 4, 'leave', b'chat', 0, b'd')
    scene.agree(0, group)
    return scene


def agrees_behind():
    """A contact's word came, and was not judged: the journal is settled first."""
    person, (group,) = beginning(SHARING)
    person.share(0, group, VISIBLE)
    person.said(group, 1, 'join', *NOTE)
    person.attach(0, BATCH)
    person.unsettled(lambda: hears(person, 0, group, 2, saying('join', *NOTE)))
    scene = Scene(person)

    def done(it):
        it.store.settle()
        return it.agree(0, group)

    scene.step(f'agree 0 {group.hex()}', done)
    scene.say(group, 3, 'leave', *NOTE)
    scene.agree(0, group)
    scene.say(group, 4, 'join', *NOTE)
    scene.agree(0, group)
    return scene


def agrees_at_length():
    """Two groups that are added, and one whose level is set: five entries, each a frame."""
    person, (group, note) = beginning(SHARING, NOTE)
    person.share(0, group, VISIBLE)
    person.share(0, note, SHARED)
    person.said(group, 1, 'join', *THREAD)
    person.said(group, 2, 'leave', *NOTE)
    person.said(group, 3, 'join', b'feed', 0, b'd')
    person.attach(0, BATCH)
    hears(person, 0, group, 4, saying('join', *THREAD))
    scene = Scene(person)
    scene.agree(0, group)
    return scene


SPOKEN_OF = [NOTE, (b'note', 0, b'e'), THREAD, (b'feed', 0, b'd'), (b'chat', 0, b'd'), (b'note', 1, b'd')]


def agrees_at_random(seed):
    """Words of this device and of two contacts on a few groups, of which some are known."""
    dice = random.Random(seed)
    person, (group,) = beginning(SHARING, contacts=2)
    for contact in range(2):
        person.share(contact, group, VISIBLE)
        person.attach(contact, BATCH)
    for definition in SPOKEN_OF[:4]:
        if dice.random() < 0.4:
            known = person.add_group(*definition)
            for contact in range(2):
                level = dice.choice([INVISIBLE, VISIBLE, SHARED])
                if level:
                    person.share(contact, known, level)
    for time in range(dice.randrange(3, 16)):
        who, stance, definition = dice.choice(['own', 0, 1]), dice.choice(['join', 'join', 'leave']), dice.choice(SPOKEN_OF)
        if who == 'own':
            person.said(group, time, stance, *definition)
        else:
            hears(person, who, group, time, saying(stance, *definition))
    scene = Scene(person)
    scene.agree(0, group)
    scene.agree(1, group)
    scene.agree(0, group)
    return scene


SCENES = [
    ('SAYS', says), ('SAYS_BEHIND', says_behind), ('SAYS_OPEN', says_open),
    ('AGREES', agrees), ('AGREES_BEHIND', agrees_behind), ('AGREES_AT_LENGTH', agrees_at_length),
]
SEEDS = range(1, 13)


# ---- the session of examples/agree.sh

def session():
    """What the two type, and what it prints."""
    group, notes = group_id(*SHARING), group_id(*NOTE)
    first, second = (message_id(group, time, saying('join', *NOTE)) for time in (1, 2))
    last = message_id(group, 5, saying('leave', *NOTE, previous=second))
    hers, his, own = (message_id(notes, time, text) for time, text in [(3, b'shall we meet?'), (4, b'at noon'), (6, b'by myself')])

    def typed(who, words, *lines):
        return [f'{who}$ bsp {words}', *lines]

    def level(who, word):
        return typed(who, f'agree 0 {group.hex()}', f'level 0 {notes.hex()} {word}')

    def inbox(who, *messages):
        return typed(who, 'inbox', *(f'{id.hex()} {of.hex()} {time} {origin} {size}' for id, of, time, origin, size in messages))

    meet = [*typed('alice', 'sync 10000 1000 0 batch 1000 unixlisten:../meet', 'link 0: clean'),
            *typed('bob', 'sync 10000 30 0 batch 1000 unix:../meet', 'link 0: quiet')]
    lines = []
    for who in ('alice', 'bob'):
        lines += typed(who, 'init', 'ready') + typed(who, 'contact', 'contact 0')
        lines += typed(who, 'group sharing 0 s', f'group {group.hex()}')
        lines += typed(who, f'share 0 {group.hex()} shared', f'level 0 {group.hex()} shared')
    lines += typed('alice', f'say {group.hex()} 1 join note 0 d', f'posted {first.hex()}')
    lines += typed('bob', f'say {group.hex()} 2 join note 0 d', f'posted {second.hex()}')
    lines += level('alice', 'visible') + meet + level('alice', 'shared') + level('bob', 'shared') + ['']
    lines += typed('alice', f'post {notes.hex()} 3', f'posted {hers.hex()}')
    lines += typed('bob', f'post {notes.hex()} 4', f'posted {his.hex()}')
    lines += meet
    held = [(first, group, 1, 'self', 45), (second, group, 2, 0, 45), (hers, notes, 3, 'self', 14), (his, notes, 4, 0, 7)]
    lines += inbox('alice', *held)
    lines += inbox('bob', (second, group, 2, 'self', 45), (first, group, 1, 0, 45), (his, notes, 4, 'self', 7), (hers, notes, 3, 0, 14))
    lines += ['', *typed('bob', f'say {group.hex()} 5 leave note 0 d', f'posted {last.hex()}'), *level('bob', 'invisible')]
    lines += typed('bob', f'post {notes.hex()} 6', f'posted {own.hex()}') + meet
    lines += inbox('alice', *held, (last, group, 5, 0, 45)) + level('alice', 'visible')
    return lines


if __name__ == '__main__':
    print('\n'.join(session()).rstrip())
