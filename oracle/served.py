"""A node that serves, by the pages alone (docs/FORMATS.md, "Requests and answers"): what it answers to drawn lists of requests, what
its files are then, and what stands at each call of the disk. command_cases.py makes cases of these; nothing here is shared with the
program.

What a request does to a journal is played by run_model.py and sharing.py, and what is shown of it by old_stores.py and audits.py.
"""
import random

from audits import Audited
from digests import group_id, message_id
from help_texts import texts_of
from journal import SHORT, frames, gathered, groups_of, journal_of
from old_stores import NOTES, SHARINGS, THREADS
from run_model import ACK, OFFER, REQUEST, VERSIONS, Mail, calls_of_clear, message_record, record_bytes
from sharing import ALL_CLIENTS, LEVELS, NOTE, SHARING, THREAD, Person
from store_file import framed, header
from world_model import shown

GREETING = b'node 1\n'
DONE, USAGE, EXISTS, REFUSED, DISK_FAULT, READ_FAULT, BAD, TOO_MUCH = 0, 1, 3, 4, 6, 8, 9, 14
NO_REQUEST = b'usage: no request\n'
MOST_BYTES, MOST_BODY = 268_435_456, 32_768
# what of a group of frames, and of a journal that is written anew, may be there already when a call fails, by what a crash leaves of
# what was not synced: the gate is written and synced last
GATE = 2
BEFORE_GATE = {'old': 0, 'zero': 0, 'new': GATE, 'ones': GATE, 'left': 1}
APPEND = 4


def spelled(words, given):
    """A request: its words and its input, or what is said in the place of one."""
    told = b''.join(word.encode() + b'\0' for word in words)
    size = given if isinstance(given, str) else str(len(given))
    return b'%d %s\n' % (len(told), size.encode()) + told + (b'' if isinstance(given, str) else given)


def parts_of(status, out, err):
    """The parts in which an answer is written."""
    return [b'%d %d %d\n' % (status, len(out), len(err)), out, err]


class Move:
    """Calls of the disk that end in one gate, and the state once it is open."""

    def __init__(self, calls, state):
        self.calls, self.state = calls, state

    def shows(self, pick, call):
        """Whether the new state stands where the call of this number failed."""
        return call >= self.calls - BEFORE_GATE[pick]


class State:
    """The journal at one moment: its payloads, and its file up to the closed gate."""

    def __init__(self, store):
        self.file = store.files[store.at]
        self.payloads = [payload for _, payload in frames(self.file)]
        self.front = journal_of(self.file)


class Answered:
    """A request, what was answered, and the moves that it made."""

    def __init__(self, words, given, answer, moves):
        self.words, self.given, self.answer, self.moves = words, given, answer, moves


def refused(why):
    return REFUSED, b'', b'refused: %s\n' % why.encode()


def told(text):
    return DONE, text.encode() if isinstance(text, str) else text, b''


class Served:
    """A node over a store with these payloads, which are settled."""

    def __init__(self, payloads, generation=1):
        self.person = Person()
        self.store = self.person.store
        self.store.read(framed(header(SHORT, generation), payloads))
        self.store.journal.clients = ALL_CLIENTS
        assert not self.store.journal.next_step()
        self.begun, self.first = State(self.store), list(self.store.files)
        self.answered = []

    @property
    def journal(self):
        return self.store.journal

    def payloads(self):
        return list(self.person.batches)

    def ask(self, words, given=b''):
        """Asks for these words with an input, or with `failed` or `long` in its place."""
        place, at = len(self.payloads()), self.store.at
        cleared = calls_of_clear(self.store.files[1 - at])
        before = State(self.store)
        answer = self.does(words, given)
        self.answered.append(Answered(words, given, answer, self.moves_since(before, place, at, cleared)))
        return answer

    def moves_since(self, before, place, at, cleared):
        after = State(self.store)
        if self.store.at != at:
            return [Move(cleared + 2 + APPEND * groups_of(after.file) + GATE, after)]
        moves, added, state = [], after.payloads[place:], before
        for group in gathered(added):
            state = Partly(state, group)
            moves.append(Move(APPEND, state))
        return moves

    # ---- what each command comes to, over a settled journal

    def does(self, words, given):
        does = getattr(self, 'does_' + (words[0] if words else ''), None)
        return does(given, *words[1:]) if does else (USAGE, b'', b'usage: word 0\n')

    def does_init(self, _):
        return EXISTS, b'', b'store exists\n'

    def does_contact(self, _):
        number = self.journal.contacts
        self.person.add_contact()
        return told(f'contact {number}\n')

    def does_group(self, _, name, major, descriptor):
        definition = name.encode(), int(major), descriptor.encode()
        if definition[0] not in ALL_CLIENTS or definition[1]:
            return refused('unknown client')
        if self.journal.group(group_id(*definition)):
            return refused('group exists')
        return told(f'group {self.person.add_group(*definition).hex()}\n')

    def does_share(self, _, contact, group, level):
        if int(contact) >= self.journal.contacts:
            return refused('unknown contact')
        if not self.journal.group(bytes.fromhex(group)):
            return refused('unknown group')
        self.person.share(int(contact), bytes.fromhex(group), LEVELS.index(level))
        return told(f'level {contact} {group} {level}\n')

    def does_post(self, given, group, time):
        id_ = bytes.fromhex(group)
        if not self.journal.group(id_):
            return refused('unknown group')
        if given == 'failed':
            return READ_FAULT, b'', b'read fault\n'
        if given == b'':
            return refused('empty body')
        if given == 'long' or len(given) > MOST_BODY:
            return refused('body too long')
        return self.posts(id_, int(time), given)

    def posts(self, group, time, body):
        if self.journal.find(message_id(group, time, body)):
            return refused('already held')
        answer = ALL_CLIENTS[self.journal.group(group)[0]](time, body)
        if answer is None:
            return refused('invalid post')
        for id_ in answer[0]:
            held = self.journal.find(id_)
            if not held or held.group != group or id_ not in self.journal.delivered:
                return refused('dependency not delivered')
        self.person.post(group, time, body)
        return told(f'posted {message_id(group, time, body).hex()}\n')

    def does_say(self, _, group, time, stance, name, major, descriptor):
        id_ = bytes.fromhex(group)
        known = self.journal.group(id_)
        if not known:
            return refused('unknown group')
        if known[:2] != (b'sharing', 0):
            return refused('not a sharing group')
        if name == 'sharing':
            return refused('invalid post')
        _, message = self.person.said(id_, int(time), stance, name.encode(), int(major), descriptor.encode())
        return told(f'posted {message.hex()}\n')

    def does_agree(self, _, contact, group):
        id_ = bytes.fromhex(group)
        if int(contact) >= self.journal.contacts:
            return refused('unknown contact')
        if not self.journal.group(id_):
            return refused('unknown group')
        if self.journal.group(id_)[:2] != (b'sharing', 0):
            return refused('not a sharing group')
        return told(self.person.agree(int(contact), id_))

    def does_show(self, _):
        # (of the sessions that an account tells of only the number is known)
        return told(''.join(line + '\n' for line in [*shown(self.journal)[:-1], f'sessions {self.journal.begun}']))

    def delivered(self, first, count):
        return list(map(self.journal.find, self.journal.delivered))[int(first):int(first) + int(count)]

    def does_inbox(self, _, first='0', count=str(2 ** 32 - 1)):
        lines = (f'{it.id.hex()} {it.group.hex()} {it.timestamp} {it.origin} {len(it.body)}\n' for it in self.delivered(first, count))
        return told(''.join(lines))

    def does_body(self, _, id_):
        held = self.journal.find(bytes.fromhex(id_))
        return told(held.body) if held else refused('unknown message')

    def does_tree(self, _, group, first, count):
        """The walk of a thread: a message replies to its first parent."""
        if not self.journal.group(bytes.fromhex(group)):
            return refused('unknown group')
        walk = [it for it in map(self.journal.find, self.journal.delivered) if it.group.hex() == group]
        numbers, paths = {it.id: number for number, it in enumerate(walk)}, []
        for it in walk:
            paths.append((paths[numbers[it.body[1:33]]] if it.body[0] else []) + [numbers[it.id]])
        lines = [f'{len(path) - 1} {sum(other[:len(path)] == path for other in paths)} {walk[path[-1]].id.hex()}\n' for path in sorted(paths)]
        return told(''.join(lines[int(first):int(first) + int(count)]))

    def does_audit(self, _):
        return told(Audited(self.payloads()).line())

    def does_status(self, _):
        states = [self.journal.state(it) for it in self.journal.held]
        end = len(self.person.file())
        free = MOST_BYTES - end - 10 * (2 * states.count('unknown') + states.count('pending'))
        return told(f'held {len(states)} delivered {len(self.journal.delivered)} sessions {self.journal.begun}\njournal {end} free {free}\n'
                    f'version {texts_of("bsp")["version"].split()[1]}\n')

    def does_compact(self, _):
        return told(self.store.compact() + '\n')

    def does_mailbox(self, given, way, contact, *rest):
        if int(contact) >= self.journal.contacts:
            return refused('unknown contact')
        return self.takes_mail(given, int(contact)) if way == 'in' else self.sends_mail(int(contact), *map(int, rest))

    def takes_mail(self, given, contact):
        if given == 'failed':
            return READ_FAULT, b'', b'read fault\n'
        if given == 'long':
            return TOO_MUCH, b'', b'input too long\n'
        status, err, text = Mail(self.store, contact).read(given)
        return status, text, err.encode()

    def sends_mail(self, contact, latency, count):
        return told(Mail(self.store, contact).write(0, latency, count)[2])

    def does_records(self, given):
        if isinstance(given, str):
            return (READ_FAULT, b'', b'read fault\n') if given == 'failed' else (TOO_MUCH, b'', b'input too long\n')
        return told('') if given == b'' else (BAD, b'', b'bad record at 0: wrong version\n')

    does_try = lambda self, given, *words: self.does_records(given)

    def does_sync(self, _, *words):
        return refused('a node holds the store')

    does_serve = does_sync

    def does_quit(self, _):
        return told('')


class Partly:
    """A journal with a group more."""

    def __init__(self, before, group):
        self.payloads = before.payloads + group
        self.file = before.file[:-1] + framed(b'', group)
        self.front = self.file[:-1]


# ---- lists of requests

def begun(rng):
    """A store to begin with, and its groups."""
    person = Person()
    for _ in range(rng.randrange(1, 3)):
        person.add_contact()
    groups = [person.add_group(*definition) for definition in (NOTE, THREAD, SHARING)[:rng.randrange(1, 4)]]
    if rng.random() < 0.7:
        person.share(0, groups[0], 2)
        person.post(groups[0], 0, b'x')
    return Served(person.batches)


def known(rng, served):
    """A group: mostly one that is known."""
    groups = [it[3] for it in served.journal.groups]
    return rng.choice(groups) if groups and rng.random() < 0.9 else bytes(32)


def drawn_body(rng, served, group):
    it = served.journal.group(group)
    if rng.random() < 0.15:
        return rng.choice([b'', b'\xff', 'failed', 'long'])
    text = bytes(rng.randrange(97, 123) for _ in range(rng.randrange(1, 30)))
    if it and it[0] == b'thread':
        inside = [held.id for held in served.journal.held if held.group == group and rng.random() < 0.4][:2] + [bytes(32)] * (rng.random() < 0.1)
        return bytes([len(inside)]) + b''.join(inside) + text
    return text


def adds(rng, served, time):
    """A request that may add something."""
    group = known(rng, served)
    kind = rng.randrange(10)
    if kind == 0:
        return ['contact'], b''
    if kind == 1:
        return ['group', *rng.choice([('note', '0', 'd'), ('note', '0', f'd{time}'), ('thread', '0', 't'), ('feed', '0', 'f'), ('sharing', '0', 's'),
                                      ('chat', '0', 'c'), ('note', '1', 'd')])], b''
    if kind == 2:
        return ['share', str(rng.randrange(3)), group.hex(), rng.choice(LEVELS)], b''
    if kind == 3:
        return ['say', rng.choice([SHARINGS, SHARINGS, group]).hex(), str(time), rng.choice(['join', 'leave']),
                *rng.choice([('note', '0', 'd'), ('thread', '0', 't'), ('chat', '0', 'c'), ('sharing', '0', 's')])], b''
    if kind == 4:
        return ['agree', str(rng.randrange(2)), rng.choice([SHARINGS, group]).hex()], b''
    if kind == 5:
        return ['compact'], b''
    again = served.journal.held and rng.random() < 0.1
    if again:
        held = rng.choice(served.journal.held)
        return ['post', held.group.hex(), str(held.timestamp)], held.body
    return ['post', group.hex(), str(time)], drawn_body(rng, served, group)


def asks(rng, served, time):
    """A request of any kind but those that add an entry alone."""
    ids = [held.id for held in served.journal.held] + [bytes(32)]
    if rng.random() < 0.2:
        contact = str(rng.randrange(2))
        if rng.random() < 0.5:
            return ['mailbox', 'out', contact, '1000', str(rng.randrange(1, 4))], b''
        records = [message_record(NOTES, time + n, b'theirs %d' % n) for n in range(rng.randrange(3))]
        records += [record_bytes(rng.choice([ACK, OFFER, REQUEST]), rng.choice(ids))] * (rng.random() < 0.5)
        given = 'failed' if rng.random() < 0.1 else record_bytes(VERSIONS, b'\0') + b''.join(records)
        return ['mailbox', 'in', contact], given
    return rng.choice([
        (['show'], b''), (['inbox'], b''), (['inbox', str(rng.randrange(3)), str(rng.randrange(3))], b'unread'), (['status'], 'failed'),
        (['body', rng.choice(ids).hex()], b''), (['audit'], b''), (['init'], b''), (['serve', 'std'], b''),
        (['sync', '1', '1', '0', 'batch', '1', 'std'], b''), (['records'], b''), (['records'], b'\xff'), (['records'], 'failed'), (['try', 'note', 'd'], b'\xff'),
        (['nothing', 'of', 'it'], b'given'), ([], b''), (['tree', THREADS.hex(), '0', '9'], b''),
    ])


def drawn(seed):
    """A node that is asked for anything."""
    rng = random.Random(seed)
    served = begun(rng)
    for time in range(10, 10 + rng.randrange(6, 20)):
        served.ask(*(adds if rng.random() < 0.55 else asks)(rng, served, time * 10))
    if rng.random() < 0.3:
        served.ask(['quit'])
    return served


def stopped(seed):
    """One that is asked for what adds something, with a few looks between, none of which makes calls of the disk."""
    rng = random.Random(seed)
    served = begun(rng)
    for time in range(10, 10 + rng.randrange(3, 7)):
        served.ask(*adds(rng, served, time * 10))
        if rng.random() < 0.3:
            served.ask(*rng.choice([(['inbox'], b''), (['status'], b''), (['show'], b'')]))
    return served


def looked_at(payloads):
    """What `show` prints of a settled journal with these payloads."""
    return Served(payloads).does_show(b'')[1]


# ---- what is told of a life

def text_of(answered):
    return GREETING + b''.join(b''.join(parts_of(*it.answer)) for it in answered)


def fault_text(answered):
    """Behind these a request met a fault of the disk."""
    return text_of(answered) + b''.join(parts_of(DISK_FAULT, b'', b'disk fault\n'))


def fronts_of(answered, most):
    """How many bytes of the output were written when each call of it is made, of so many bytes at most, and of how many requests."""
    fronts, written = [], 0
    for number, part in [(0, GREETING)] + [(number + 1, part) for number, it in enumerate(answered) for part in parts_of(*it.answer)]:
        for at in range(0, len(part), most):
            fronts.append((written + at, number))
        written += len(part)
    return fronts


def states_at(served, pick):
    """What stands when each call of the disk fails: before the first request, at each call of one, and behind the last."""
    state, states = served.begun, [served.begun]
    for move in (move for it in served.answered for move in it.moves):
        states += [move.state if move.shows(pick, call) else state for call in range(move.calls)]
        state = move.state
    return states + [state]


def texts_at(served):
    """What was told, and whether the node met a fault, in the same places."""
    texts = [(b'', True)]
    for number, it in enumerate(served.answered):
        texts += [(fault_text(served.answered[:number]), True)] * sum(move.calls for move in it.moves)
    return texts + [(text_of(served.answered), False)]
