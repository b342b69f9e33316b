#!/usr/bin/env python3
"""A node by plain scans, written from the protocol's pages alone (docs/PROTOCOL.md, docs/FORMATS.md), beside
the proved one and sharing nothing with it: its digest is hashlib's, its rules look at whole lists. A `Run` is a
run of `sync` whose calls may fail; a `Node` is told each of its calls.

`run_model.py CASES` plays the cases of a file, as the program test_runs does, and prints what that program must
print. What a case is stands in crates/test_runs/src/main.rt."""
import collections
import copy
import hashlib
import re
import sys

from digests import group_id, message_id
from journal import SHORT, WHOLE, Group, entries, entry_of, format_of, frames, gathered, groups_of, is_spelled, number, respelled
from store_file import CLOSED, HEADER, OPEN, framed, header

MAX64 = 2**64 - 1
PIECE, MAX_STEPS, MAX_ROWS, MAX_WANTED, MAX_IDS, MAX_OUTS = 65_536, 256, 1000, 1000, 1536, 64
ACK, MESSAGE, OFFER, REQUEST, VERSIONS, PRIORITY = range(6)
INVISIBLE, VISIBLE, SHARED = range(3)
INTERACTIVE, BATCH = 'interactive', 'batch'
IDLE, END = ('idle',), ('end',)
STEPS = ('judged', 'deliver', 'invalid')
ACCOUNT = ('contact', 'group', 'level', *STEPS, 'kept', 'tried', 'want')


# ---- clients

def is_text(bytes_):
    try:
        bytes_.decode('utf-8')
        return True
    except UnicodeDecodeError:
        return False


# what each client says of a time and a body: None for a refusal, else the dependencies and whether the message is shared on

def judge_note(_, body):
    return ([], True) if is_text(body) else None


def judge_thread(_, body):
    count = body[0]
    ids = [body[1 + 32 * i:33 + 32 * i] for i in range(count)]
    whole = len(body) >= 1 + 32 * count
    if not whole or len(set(ids)) < count or not is_text(body[1 + 32 * count:]):
        return None
    return (ids, True)


def judge_feed(_, body):
    if len(body) < 32 or not is_text(body[32:]):
        return None
    return ([] if body[:32] == bytes(32) else [body[:32]], False)


CLIENTS = {b'note': judge_note, b'thread': judge_thread, b'feed': judge_feed}


def crossed(*ids):
    """The clients of every name that refuse nothing: a message of time 1 depends on the second of two ids, each other on the first."""
    return collections.defaultdict(lambda: lambda timestamp, _: ([ids[timestamp == 1]], True))


class Held:
    def __init__(self, group, timestamp, body, origin):
        self.group, self.timestamp, self.body, self.origin = group, timestamp, body, origin
        self.id = message_id(group, timestamp, body)


def expiry_after(now, latency, tries):
    return min(now + 2 * latency * 2**(tries - 1), MAX64)


class Row:
    def __init__(self):
        self.seen = self.owed = self.asked = False
        self.tries = self.expiry = 0


class Journal:
    """What the batches of a journal come to."""

    def __init__(self, clients=CLIENTS):
        self.clients = clients
        # `empty` without an entry, `opening` where it is a brief account so far, else `going`
        self.start = 'empty'
        self.contacts = 0
        self.groups = []
        self.levels = {}
        # the number of sessions, and those that are live, by number
        self.begun = 0
        self.sessions = {}
        self.takes = {}
        self.held, self.places = [], {}
        self.judged, self.invalid, self.delivered = set(), set(), []
        self.rows = {}
        self.wanted = {}

    # ---- look-ups
    def find(self, id_):
        return next((h for h in self.held if h.id == id_), None)

    def named(self, name):
        return self.held[number(name)].id

    def name(self, id_):
        """How an entry names a message that is held."""
        return self.places[id_].to_bytes(4, 'big')

    def group(self, gid):
        return next((g for g in self.groups if g[3] == gid), None)

    def level(self, contact, gid):
        return self.levels.get((contact, gid), 0)

    def row(self, contact, id_):
        return self.rows.setdefault((contact, id_), Row())

    def wants(self, contact):
        return self.wanted.setdefault(contact, [])

    def answer(self, held):
        return self.clients[self.group(held.group)[0]](held.timestamp, held.body)

    def state(self, held):
        return ('delivered' if held.id in self.delivered else 'invalid' if held.id in self.invalid else
                'pending' if held.id in self.judged else 'unknown')

    # ---- entries
    def apply(self, entry):
        kind, rest = entry[0], entry[1:]
        if self.start == 'empty' and kind == 'brief':
            self.start = 'opening'
        elif self.start == 'empty' or kind not in ACCOUNT:
            self.start = 'going'
        if kind == 'contact':
            self.contacts += 1
        elif kind == 'group':
            name, major, descriptor = rest
            self.groups.append((name, major, descriptor, group_id(name, major, descriptor)))
        elif kind == 'level':
            self.levels[(rest[0], rest[1])] = rest[2]
        elif kind == 'session':
            self.sessions[rest[0]] = rest
            self.begun += 1
        elif kind == 'brief':
            self.begun += rest[0]
        elif kind == 'take':
            self.takes[rest[0]] = rest[1] + 1
        elif kind in ('author', 'arrive', 'kept'):
            origin = {'author': lambda: 'self', 'arrive': lambda: self.sessions[rest[0]][1], 'kept': lambda: rest[0]}[kind]()
            held = Held(*rest[-1], origin)
            self.places[held.id] = len(self.held)
            self.held.append(held)
            for wants in self.wanted.values():
                if held.id in wants:
                    wants.remove(held.id)
            if kind == 'arrive':
                row = self.row(origin, held.id)
                row.seen = row.owed = True
        elif kind == 'tried':
            contact, id_, seen, owed, asked, tries, expiry = rest
            row = self.row(contact, id_)
            row.seen, row.owed, row.asked, row.tries, row.expiry = row.seen or seen, owed, asked, tries, expiry
        elif kind == 'want':
            self.wants(rest[0]).append(rest[1])
        elif kind == 'judged':
            self.judged.add(rest[0])
        elif kind == 'deliver':
            self.delivered.append(rest[0])
        elif kind == 'invalid':
            self.invalid.add(rest[0])
        elif kind == 'out':
            self.put_out(*rest)
        else:
            session, id_ = rest
            contact = self.sessions[session][1]
            row = self.row(contact, id_)
            if kind == 'again':
                row.seen = row.owed = True
            elif kind == 'seen':
                row.seen = True
            elif kind == 'asked':
                row.asked, row.tries, row.expiry = True, 0, 0
            elif kind == 'offered':
                self.wants(contact).append(id_)

    def put_out(self, session, now, what, ids):
        contact, latency = self.sessions[session][1], self.sessions[session][3]
        for id_ in ids:
            row = self.row(contact, id_)
            if what == 'acks':
                row.owed = False
            elif what == 'requests':
                self.wants(contact).remove(id_)
            else:
                row.tries = min(row.tries + 1, 64)
                row.expiry = expiry_after(now, latency, row.tries)
                if what == 'send':
                    row.asked = False

    # ---- settling
    def step(self, held):
        if held.id not in self.judged:
            return ('judged', held.id)
        if held.id in self.invalid or held.id in self.delivered:
            return None
        answer = self.answer(held)
        if answer is None:
            return ('invalid', held.id)
        deps = [(d, self.find(d)) for d in answer[0]]
        if any(d in self.invalid or (h and h.group != held.group) for d, h in deps):
            return ('invalid', held.id)
        if all(h and d in self.delivered for d, h in deps):
            return ('deliver', held.id)
        return None

    def next_step(self):
        for held in self.held:
            step = self.step(held)
            if step:
                return step
        return None

    def settling(self):
        """All steps that are open, in batches, each taken."""
        batches = []
        while step := self.next_step():
            if not batches or len(batches[-1]) == MAX_STEPS:
                batches.append([])
            self.apply(step)
            batches[-1].append(step)
        return batches

    # ---- which batch may follow, of the kinds of a brief account
    def allows(self, batch):
        kind, rest = batch[0][0], batch[0][1:]
        if kind == 'brief':
            return len(batch) == 1 and self.start == 'empty'
        if kind in STEPS:
            return len(batch) <= MAX_STEPS and self.follows(batch, lambda journal, entry: journal.next_step() == entry)
        if self.next_step():
            return False
        if kind in ('tried', 'want'):
            return self.start == 'opening' and len(batch) <= MAX_ROWS and self.follows(batch, Journal.suits)
        if len(batch) > 1:
            return False
        if kind == 'contact':
            return rest[0] == self.contacts
        if kind == 'group':
            return rest[0] in self.clients and rest[1] == 0 and not self.group(group_id(*rest))
        if kind == 'level':
            return rest[0] < self.contacts and bool(self.group(rest[1]))
        if kind == 'author':
            return self.may_keep('self', rest[0])
        if kind == 'session':
            return rest[0] == self.begun and rest[1] < self.contacts
        if kind == 'out':
            return rest[0] in self.sessions and self.due(*rest[:2]) == rest[2:]
        return kind == 'kept' and self.start == 'opening' and self.may_keep(*rest)

    def follows(self, batch, test):
        journal = copy.deepcopy(self)
        for entry in batch:
            if not test(journal, entry):
                return False
            journal.apply(entry)
        return True

    def may_keep(self, origin, message):
        held = Held(*message, origin)
        if not self.group(held.group) or self.find(held.id):
            return False
        if origin != 'self':
            return origin < self.contacts
        answer = self.answer(held)
        deps = [(d, self.find(d)) for d in answer[0]] if answer else []
        return answer is not None and all(h and h.group == held.group and d in self.delivered for d, h in deps)

    def suits(self, entry):
        if entry[0] == 'tried':
            _, contact, id_, *_ = entry
            row = self.row(contact, id_)
            return contact < self.contacts and not (row.seen or row.owed or row.asked or row.tries)
        if entry[0] == 'want':
            _, contact, id_ = entry
            wants = self.wants(contact)
            return contact < self.contacts and not self.find(id_) and id_ not in wants and len(wants) < MAX_WANTED
        return False

    # ---- what a record is taken as
    def taken(self, session, record):
        contact = self.sessions[session][1]
        kind = record[0]
        if kind == 'message':
            group, timestamp, body = record[1:]
            if not self.group(group) or self.level(contact, group) == 0:
                return []
            id_ = message_id(group, timestamp, body)
            held = self.find(id_)
            if not held:
                return [('arrive', session, record[1:])]
            return [('again', session, id_)] if self.level(contact, held.group) else []
        if kind in ('versions', 'priority', 'skipped'):
            return []
        entries, room = [], MAX_WANTED - len(self.wants(contact))
        for id_ in dict.fromkeys(record[1]):
            held = self.find(id_)
            shown = held and self.level(contact, held.group)
            if kind == 'ack':
                if shown and not self.row(contact, id_).seen:
                    entries.append(('seen', session, id_))
            elif kind == 'request':
                if shown:
                    entries.append(('asked', session, id_))
            elif held:
                if shown:
                    entries.append(('again', session, id_))
            elif room > 0 and id_ not in self.wants(contact):
                room -= 1
                entries.append(('offered', session, id_))
        return entries

    # ---- what is due
    def due(self, session, now):
        _, contact, mode, latency, _ = self.sessions[session]
        owed = [h.id for h in self.held if self.row(contact, h.id).owed]
        if owed:
            return ('acks', owed[:MAX_IDS])
        if mode == 'interactive' and self.wants(contact):
            return ('requests', self.wants(contact)[:MAX_IDS])
        sendable = [h for h in self.held
                    if h.id in self.delivered and self.level(contact, h.group) == 2
                    and not self.row(contact, h.id).seen and (h.origin == 'self' or self.answer(h)[1])]
        for h in sendable:
            row = self.row(contact, h.id)
            if row.asked if mode == 'interactive' else row.expiry <= now:
                return ('send', [h.id])
        if mode == 'interactive':
            ids = [h.id for h in sendable
                   if not self.row(contact, h.id).asked and self.row(contact, h.id).expiry <= now]
            if ids:
                return ('offers', ids[:MAX_IDS])
        sooner = [h.id for h in sendable if self.is_sooner(self.row(contact, h.id), latency, now)]
        if not sooner:
            return None
        return ('offers', sooner[:MAX_IDS]) if mode == 'interactive' else ('send', sooner[:1])

    def is_sooner(self, row, latency, now):
        """A try now, on a session of this latency, sets an expiry less than the one that stands."""
        return not row.asked and expiry_after(now, latency, min(row.tries + 1, 64)) < row.expiry


# ---- the brief account of a journal

def brief(journal):
    """The batches of another journal with the same contacts, groups, levels, messages with their states, and what each
    contact has seen, is owed, wants and was tried."""
    told = Journal(journal.clients)
    levels = [('level', c, g[3], journal.level(c, g[3])) for c in range(journal.contacts) for g in journal.groups
              if journal.level(c, g[3])]
    batches = [[e] for e in [('brief', journal.begun), *(('contact', c) for c in range(journal.contacts)),
                             *(('group', *g[:3]) for g in journal.groups), *levels]]
    for batch in batches:
        told.apply(batch[0])
    for held in journal.held:
        kept = ('kept', held.origin, (held.group, held.timestamp, held.body))
        told.apply(kept)
        batches.append([kept])
        batches += told.settling()
    rows = []
    for contact in range(journal.contacts):
        for held in journal.held:
            row = journal.row(contact, held.id)
            if row.seen or row.owed or row.asked or row.tries:
                rows.append(('tried', contact, held.id, row.seen, row.owed, row.asked, row.tries, row.expiry))
        rows += [('want', contact, id_) for id_ in journal.wants(contact)]
    return batches + [rows[at:at + MAX_ROWS] for at in range(0, len(rows), MAX_ROWS)]


# ---- bytes of entries, of files and of records

def message_bytes(message):
    group, timestamp, body = message
    return group + timestamp.to_bytes(8, 'big') + len(body).to_bytes(2, 'big') + body


def entry_bytes(entry, name):
    """The bytes of an entry, where a message that is held has this name."""
    kind, rest = entry[0], entry[1:]
    if kind == 'contact':
        return bytes([1, rest[0]])
    if kind == 'group':
        name, major, descriptor = rest
        return (bytes([2, len(name)]) + name + major.to_bytes(4, 'big') + len(descriptor).to_bytes(2, 'big')
                + descriptor)
    if kind == 'level':
        return bytes([3, rest[0]]) + rest[1] + bytes([rest[2]])
    if kind == 'session':
        number, contact, mode, latency, nonce = rest
        return (b'\x04' + number.to_bytes(4, 'big') + bytes([contact, 0 if mode == 'interactive' else 1])
                + latency.to_bytes(4, 'big') + (b'\x00' if nonce is None else b'\x01' + nonce))
    if kind == 'take':
        return b'\x05' + rest[0].to_bytes(4, 'big') + rest[1].to_bytes(8, 'big')
    if kind == 'author':
        return b'\x06' + message_bytes(rest[0])
    if kind == 'arrive':
        return b'\x07' + rest[0].to_bytes(4, 'big') + message_bytes(rest[1])
    if kind in ('judged', 'deliver', 'invalid'):
        return bytes([{'judged': 8, 'deliver': 9, 'invalid': 10}[kind]]) + name(rest[0])
    if kind in ('again', 'offered', 'seen', 'asked'):
        tag = {'again': 11, 'offered': 12, 'seen': 13, 'asked': 14}[kind]
        return bytes([tag]) + rest[0].to_bytes(4, 'big') + (rest[1] if kind == 'offered' else name(rest[1]))
    if kind == 'brief':
        return b'\x10' + rest[0].to_bytes(4, 'big')
    if kind == 'kept':
        return (b'\x11\x00\x00' if rest[0] == 'self' else bytes([17, 1, rest[0]])) + message_bytes(rest[1])
    if kind == 'tried':
        contact, id_, seen, owed, asked, tries, expiry = rest
        return bytes([18, contact]) + name(id_) + bytes([seen + 2 * owed + 4 * asked, tries]) + expiry.to_bytes(8, 'big')
    if kind == 'want':
        return bytes([19, rest[0]]) + rest[1]
    session, now, what, ids = rest
    head = b'\x0f' + session.to_bytes(4, 'big') + now.to_bytes(8, 'big')
    if what == 'send':
        return head + b'\x03' + name(ids[0])
    names = ids if what == 'requests' else map(name, ids)
    return head + bytes([{'acks': 0, 'requests': 1, 'offers': 2}[what]]) + len(ids).to_bytes(2, 'big') + b''.join(names)


def record_bytes(kind, payload):
    return bytes([0, kind]) + len(payload).to_bytes(2, 'big') + payload


def message_record(group, timestamp, body):
    return record_bytes(MESSAGE, group + timestamp.to_bytes(8, 'big') + body)


REASONS = {'version': 'wrong version', 'long': 'too long', 'empty': 'empty id list', 'ragged': 'ragged id list',
           'short': 'short message', 'body': 'body too long', 'time': 'bad timestamp', 'versions': 'bad versions',
           'nonce': 'bad nonce'}


def refused_header(kind, length):
    if length > 49152:
        return 'long'
    if kind in (0, 2, 3):
        return 'empty' if length == 0 else 'ragged' if length % 32 else None
    if kind == 1:
        return 'short' if length < 41 else 'body' if length > 32808 else None
    if kind == 4:
        return 'versions' if not 1 <= length <= 10 else None
    if kind == 5:
        return 'nonce' if length != 16 else None
    return None


def read_one(bytes_):
    """('more',), ('bad', reason) or (record, number of bytes)."""
    if not bytes_:
        return ('more',)
    if bytes_[0] != 0:
        return ('bad', 'version')
    if len(bytes_) < 4:
        return ('more',)
    kind, length = bytes_[1], int.from_bytes(bytes_[2:4], 'big')
    reason = refused_header(kind, length)
    if reason:
        return ('bad', reason)
    if len(bytes_) < 4 + length:
        return ('more',)
    payload = bytes_[4:4 + length]
    if kind == 1:
        timestamp = int.from_bytes(payload[32:40], 'big')
        if timestamp >= 2**63:
            return ('bad', 'time')
        return (('message', payload[:32], timestamp, payload[40:]), 4 + length)
    if kind in (0, 2, 3):
        ids = [payload[i:i + 32] for i in range(0, length, 32)]
        return (({0: 'ack', 2: 'offer', 3: 'request'}[kind], ids), 4 + length)
    if kind == 4:
        return (('versions', payload), 4 + length)
    if kind == 5:
        return (('priority', payload), 4 + length)
    return (('skipped',), 4 + length)


# ---- a store

def calls_of_clear(content):
    """The first byte is read; a closed gate is written and synced where it is open or not there; the length is asked; a file
    that is longer is cut and synced."""
    return 2 + 2 * (content[:1] in (b'', OPEN)) + 2 * (len(content) > 1)


class DiskFault(Exception):
    """The call of the disk that was to fail was made."""


class Store:
    # the file of format 2 that a journal of format 1 is to be written anew into
    anew = None
    # how many calls of the disk were made, and which of them is to fail
    calls, failing = 0, None

    def __init__(self, clients=CLIENTS):
        self.journal = Journal(clients)
        # both files, and the number of the one that has the journal
        self.files, self.at = [HEADER + CLOSED, b''], 0
        # what waits to be added, and the payloads of each group that was
        self.waiting, self.groups = Group(), []

    def read(self, content):
        """The store of a file of either format, and an empty one."""
        payloads = [payload for _, payload in frames(content)]
        self.files, self.at, self.anew = [content, b''], 0, None
        if format_of(content) == WHOLE:
            payloads = list(respelled(payloads, WHOLE, SHORT))
            self.anew = framed(header(SHORT, min(self.generation() + 1, MAX64)), payloads)
        self.journal = Journal()
        for payload in payloads:
            for tag, rest in entries(payload, SHORT):
                self.journal.apply(entry_of(tag, rest, self.journal.named))

    def generation(self):
        return number(self.files[self.at][6:14])

    def move_to(self, content):
        self.at = 1 - self.at
        self.files[self.at] = content

    def migrate(self):
        """Whether the journal is in format 2 then: behind the last generation there is none."""
        if self.anew and self.generation() < MAX64:
            self.move_to(self.anew)
            self.anew = None
        return self.anew is None

    def compact(self):
        """The line of the command, the store being settled; None where there is no further generation."""
        if self.generation() == MAX64:
            return None
        old = len(self.files[self.at])
        batches = brief(self.journal)
        self.move_to(framed(header(2, self.generation() + 1), map(self.spelled, batches)))
        self.journal.sessions, self.journal.takes = {}, {}
        return 'compacted %d %d' % (old, len(self.files[self.at]))

    def calls_of_compact(self):
        """How many calls of the disk the command makes, by docs/FORMATS.md."""
        twin = copy.deepcopy(self)
        frames_of = lambda store: len(list(frames(store.files[store.at])))
        read = frames_of(twin)
        calls = 6 + 2 * read
        if twin.anew:
            calls += 4 + 2 * read + calls_of_clear(twin.files[1 - twin.at]) + 4
            twin.migrate()
            calls += 4 * groups_of(twin.files[twin.at])
        twin.settle()
        steps = [payload for _, payload in list(frames(twin.files[twin.at]))[read:]]
        calls += 4 * len(gathered(steps)) + calls_of_clear(twin.files[1 - twin.at])
        twin.compact()
        return calls + 4 + 4 * groups_of(twin.files[twin.at])

    def spelled(self, batch):
        return b''.join(entry_bytes(e, self.journal.name) for e in batch)

    # ---- batches are added in groups
    def wait(self, batch):
        """A batch joins those that wait; where it finds no room behind them they are added first."""
        if not self.waiting.finds_room():
            self.flush()
        self.waiting.add(self.spelled(batch))

    def flush(self):
        """Those that wait are added, none of them or all at each moment."""
        group, self.waiting = self.waiting.payloads, Group()
        if group:
            self.append(group)
            self.groups.append(group)

    def call(self):
        self.calls += 1
        if self.failing == self.calls - 1:
            raise DiskFault

    def append(self, group):
        """Four calls of the disk: behind the closed gate all is written, and synced; then the gate is, and synced."""
        stood, added = self.files[self.at], framed(b'', group)
        self.call()
        self.files[self.at] = stood + added[1:]
        self.call()
        self.call()
        self.files[self.at] = stood[:-1] + added
        self.call()

    def load(self, failing):
        """A load of a journal of format 2, of which no call fails: both files are synced, two headers and the length are read, and
        each frame by two calls, and the closed gate."""
        assert not self.anew
        self.calls, self.failing = 2 + 2 + 1 + 2 * len(list(frames(self.files[self.at]))) + 1, failing
        assert failing is None or failing >= self.calls

    def gather(self, batch):
        self.wait(batch)
        for entry in batch:
            self.journal.apply(entry)

    def gather_settling(self):
        for batch in self.journal.settling():
            self.wait(batch)

    def commit(self, batch):
        self.gather(batch)
        self.flush()

    def settle(self):
        self.gather_settling()
        self.flush()

    def extend(self, batch):
        self.gather(batch)
        self.settle()


# ---- a host and a run

class Host:
    def __init__(self):
        self.answers = {}
        self.readings, self.nonces = [], []
        self.failing_dials, self.failing_sends = set(), set()
        self.dials = self.sends = self.reads = 0
        self.sent = []

    def now(self):
        if not self.readings:
            return 0
        at = self.readings[min(self.reads, len(self.readings) - 1)]
        self.reads += 1
        return at


class Link:
    def __init__(self, session, nonce):
        self.session, self.nonce = session, nonce
        self.rest, self.place, self.stands = b'', 0, 'going'


class Run:
    def __init__(self, store, host, turns, quiet, words):
        self.store, self.host, self.turns, self.quiet, self.words = store, host, turns, quiet, words
        self.links = []

    def send(self, link, bytes_):
        number = self.host.sends
        self.host.sends += 1
        if number in self.host.failing_sends:
            self.host.sent[link] += bytes_[:len(bytes_) // 2]
            return False
        self.host.sent[link] += bytes_
        return True

    def dial(self):
        nonces = []
        for contact, mode, latency, spec in self.words:
            number = self.host.dials
            self.host.dials += 1
            if number in self.host.failing_dials:
                return None, len(nonces)
            self.host.sent.append(b'')
            nonce = None
            if mode == 'interactive' and (spec.startswith('tcp:') or spec.startswith('unix:')):
                if not self.host.nonces:
                    return None, len(nonces)
                nonce = self.host.nonces.pop(0)
            nonces.append(nonce)
        return nonces, None

    def attach_all(self, nonces):
        for i, (contact, mode, latency, _) in enumerate(self.words):
            number = self.store.journal.begun
            self.store.commit([('session', number, contact, mode, latency, nonces[i])])
            link = Link(number, nonces[i])
            greeting = [record_bytes(4, b'\x00')] + ([record_bytes(5, nonces[i])] if nonces[i] else [])
            for bytes_ in greeting:
                if not self.send(i, bytes_):
                    link.stands = 'failed'
                    break
            self.links.append(link)

    def take(self, link, record, place):
        j = self.store.journal
        s = link.session
        self.store.gather([('take', s, j.takes.get(s, 0))] + j.taken(s, record))
        self.store.gather_settling()
        if record[0] == 'priority' and link.nonce is None:
            link.nonce = record[1]
        if record[0] == 'versions' and 0 not in record[1]:
            link.stands = 'no common version at %d' % place

    def items(self, link):
        while link.stands == 'going':
            read = read_one(link.rest)
            if read[0] == 'more':
                return
            if read[0] == 'bad':
                link.stands = 'bad record at %d: %s' % (link.place, REASONS[read[1]])
                return
            record, length = read
            place = link.place
            link.rest, link.place = link.rest[length:], link.place + length
            if record[0] != 'skipped':
                self.take(link, record, place)

    def hear(self, i, link):
        """Whether the answer was Idle."""
        script = self.host.answers.get(i, [])
        answer = script.pop(0) if script else END
        if answer[0] == 'idle':
            return True
        if answer[0] == 'fail':
            link.stands = 'failed'
        elif answer[0] == 'end':
            read = read_one(link.rest)
            if read[0] == 'bad':
                link.stands = 'bad record at %d: %s' % (link.place, REASONS[read[1]])
            else:
                link.stands = 'clean' if not link.rest else 'ended inside a record at %d' % link.place
        else:
            if answer[1][PIECE:]:
                script.insert(0, ('got', answer[1][PIECE:]))
            link.rest += answer[1][:PIECE]
            self.items(link)
            self.store.flush()
        return False

    def put(self, i, link):
        """How many outputs were due. They are added together, and then sent in one call."""
        now, records = self.host.now(), []
        while len(records) < MAX_OUTS and link.stands in ('going', 'clean') and (bytes_ := self.put_one(link, now)):
            records.append(bytes_)
        self.store.flush()
        if records and not self.send(i, b''.join(records)):
            link.stands = 'failed'
        return len(records)

    def put_one(self, link, now):
        """The record of what is due, which is gathered; None where nothing is."""
        j = self.store.journal
        due = j.due(link.session, now)
        if not due:
            return None
        what, ids = due
        self.store.gather([('out', link.session, now, what, ids)])
        if what == 'send':
            h = j.find(ids[0])
            return message_record(h.group, h.timestamp, h.body)
        return record_bytes({'acks': ACK, 'requests': REQUEST, 'offers': OFFER}[what], b''.join(ids))

    def close_redundant(self):
        for contact in range(256):
            known = [(i, l) for i, l in enumerate(self.links)
                     if l.stands == 'going' and l.nonce is not None and self.words[i][0] == contact]
            best = max((l.nonce for _, l in known), default=None)
            kept = next((i for i, l in known if l.nonce == best), None)
            for i, l in known:
                if i != kept:
                    l.stands = 'redundant'

    def turn(self):
        still = True
        for i, link in enumerate(self.links):
            if link.stands == 'going':
                still = self.hear(i, link) and still
            if link.stands in ('going', 'clean'):
                still = self.put(i, link) == 0 and still
        self.close_redundant()
        return still

    def play(self):
        """The status and the error text."""
        if any(w[0] >= self.store.journal.contacts for w in self.words):
            return 4, 'refused: unknown contact\n'
        if self.store.journal.begun + len(self.words) > 2 ** 32 - 1:
            return 4, 'refused: too many sessions\n'
        nonces, failed = self.dial()
        if nonces is None:
            return 7, 'link %d: failed\n' % failed
        if not self.store.migrate():
            return 10, 'full\n'
        self.store.settle()
        self.attach_all(nonces)
        still = made = 0
        over = False
        while made < self.turns and not over:
            still = still + 1 if self.turn() else 0
            made += 1
            asked = any(l.stands == 'going' for l in self.links)
            over = still > 0 and (not asked or self.quiet <= still)
        lines = [{'going': 'quiet', 'clean': 'clean'}.get(l.stands, l.stands) if over or
                 l.stands not in ('going', 'clean') else 'unfinished' for l in self.links]
        bad = next((line for line in lines if line not in ('clean', 'quiet', 'redundant')), None)
        status = 0 if bad is None else 7 if bad == 'failed' else 11 if bad == 'unfinished' else 9
        return status, ''.join('link %d: %s\n' % (i, line) for i, line in enumerate(lines))


# ---- mailbox files

class Mail(Run):
    """A mailbox file from or for a contact: its session and all its records, or all its outputs, are added together."""

    def __init__(self, store, contact):
        super().__init__(store, Host(), 0, 0, [])
        self.contact = contact

    def begin(self, latency):
        session = self.store.journal.begun
        self.store.gather([('session', session, self.contact, BATCH, latency, None)])
        return Link(session, None)

    def read(self, content):
        """The status, the line on the error output, and the text."""
        link = self.begin(1)
        link.rest = content
        self.items(link)
        self.store.flush()
        if link.stands == 'going':
            link.stands = 'ended inside a record at %d' % link.place if link.rest else 'clean'
        taken = self.store.journal.takes.get(link.session, 0)
        status, err = (0, '') if link.stands == 'clean' else (9, link.stands + '\n')
        return status, err, b'taken %d\n' % taken

    def write(self, now, latency, count):
        """The same; the text is the file."""
        link, records = self.begin(latency), [record_bytes(VERSIONS, b'\0')]
        while len(records) <= count and (bytes_ := self.put_one(link, now)):
            records.append(bytes_)
        self.store.flush()
        return 0, '', b''.join(records)


# ---- a node that is told each call

class Node(Run):
    """A node over a store, on a clock that is handed in, each of whose calls on its host ends well."""

    def __init__(self, store=None):
        super().__init__(store or Store(), Host(), 0, 0, [])

    @property
    def journal(self):
        return self.store.journal

    @property
    def batches(self):
        return [payload for _, payload in frames(self.file())]

    def file(self):
        return self.store.files[self.store.at]

    # ---- what is added here
    def add_contact(self):
        self.store.commit([('contact', self.journal.contacts)])

    def add_group(self, name, major=0, descriptor=b'd'):
        self.store.commit([('group', name, major, descriptor)])
        return group_id(name, major, descriptor)

    def share(self, contact, group, level):
        self.store.commit([('level', contact, group, level)])

    def post(self, group, timestamp, body):
        self.store.extend([('author', (group, timestamp, body))])

    # ---- sessions
    def attach(self, contact, mode, latency=1_000, nonce=None):
        session = self.journal.begun
        self.store.commit([('session', session, contact, mode, latency, nonce)])
        self.words.append((contact,))
        self.links.append(Link(session, nonce))
        self.host.sent.append(record_bytes(VERSIONS, b'\0') + (record_bytes(PRIORITY, nonce) if nonce else b''))

    def set_clock(self, now):
        self.host.readings = [now]

    def say(self, number, *answers):
        """Answers of a link that are to come: bytes, IDLE or END."""
        told = [answer if isinstance(answer, tuple) else ('got', answer) for answer in answers]
        self.host.answers.setdefault(number, []).extend(told)

    def receive(self, number):
        """Asks a link once; whether nothing came for now."""
        return self.hear(number, self.links[number])

    def hears(self, number, record):
        """Takes a record that is whole, and came by itself."""
        self.take(self.links[number], read_one(record)[0], 0)
        self.store.flush()

    def takes_on(self, number):
        return self.journal.takes.get(self.links[number].session, 0)

    def send_due(self, number, now=0):
        """Sends what is due on a link; how many outputs that were."""
        self.set_clock(now)
        return self.put(number, self.links[number])

    def turn_at(self, now=0):
        """Makes a turn; whether it was still."""
        self.set_clock(now)
        return self.turn()


# ---- the cases

def short(bytes_):
    return bytes_.hex() if len(bytes_) <= 120 else '%d %s' % (len(bytes_), hashlib.blake2b(bytes_, digest_size=32).hexdigest())


class Cases:
    def __init__(self, out):
        self.out = out
        # what the same files left, read in another order
        self.left = None
        self.name = ''
        self.begin()

    def begin(self):
        self.store, self.host, self.input = Store(), Host(), b''
        # the call of the disk that is to fail in the next run
        self.failing = None
        # the store as it would be had it not been compacted
        self.twin = None

    def line(self, line):
        words = line.split(' ')
        kind = words[0]
        if kind == 'case':
            self.begin()
            self.name = line
            print(line, file=self.out)
        elif kind == 'do':
            self.do(words[1:])
        elif kind == 'crossed':
            self.store.journal.clients = crossed(*map(bytes.fromhex, words[1:]))
        elif kind == 'states':
            states = ['message %s %s %s' % (h.id.hex(), h.group.hex(), self.store.journal.state(h)) for h in self.store.journal.held]
            self.out.write(''.join(state + '\n' for state in states))
            if self.name.startswith('case five files'):
                self.left = self.left or sorted(states)
                assert self.left == sorted(states), self.name
        elif kind == 'old':
            self.store.read(bytes.fromhex(words[1]))
            self.twin = None
        elif kind == 'other':
            print('other %s' % short(self.store.files[1]), file=self.out)
        elif kind == 'compact':
            self.compact()
        elif kind == 'input':
            self.input = bytes.fromhex(words[1])
        elif kind == 'got':
            self.host.answers.setdefault(int(words[1]), []).append(('got', bytes.fromhex(words[2])))
        elif kind in ('idle', 'end', 'fail'):
            self.host.answers.setdefault(int(words[1]), []).extend([(kind,)] * int(words[2]))
        elif kind == 'clock':
            self.host.readings.append(int(words[1]))
        elif kind == 'nonce':
            self.host.nonces.append(bytes.fromhex(words[1]))
        elif kind == 'faildial':
            self.host.failing_dials.add(int(words[1]))
        elif kind == 'faildisk':
            self.failing = int(words[1])
        elif kind == 'failsend':
            self.host.failing_sends.add(int(words[1]))
        elif kind == 'sync':
            self.sync(words)
        elif kind == 'mailbox':
            self.mailbox(words)
        elif kind == 'load':
            print(loaded(bytes.fromhex(words[1])), file=self.out)
        elif line == 'stops compact':
            self.stops_of_compact()
        elif kind == 'stops':
            self.stops(words[1:])

    def compact(self):
        line = None
        if self.store.migrate():
            self.store.settle()
            self.twin = copy.deepcopy(self.twin or self.store)
            line = self.store.compact()
        print(line or 'status 10', file=self.out)
        for name, content in zip(('file', 'other'), self.store.files):
            print(name, short(content), file=self.out)

    def mailbox(self, words):
        """A file that is read or written: the status, the line, the output, and both files."""
        status, err, text = 4, 'refused: unknown contact\n', b''
        if int(words[2]) < self.store.journal.contacts:
            status, err, text = 10, 'full\n', b''
            if self.store.migrate():
                self.store.settle()
                mail = Mail(self.store, int(words[2]))
                status, err, text = mail.read(self.input) if words[1] == 'in' else mail.write(self.host.now(), *map(int, words[3:]))
        print('status %d' % status, file=self.out)
        self.out.write(err)
        print('out %s' % short(text), file=self.out)
        for name, content in zip(('file', 'other'), self.store.files):
            print(name, short(content), file=self.out)
        self.host, self.input, self.twin = Host(), b'', None

    def do(self, words):
        self.do_on(self.store, words)
        if self.twin:
            self.do_on(self.twin, words)

    def do_on(self, store, words):
        j = store.journal
        store.migrate()
        store.settle()
        if words[0] == 'contact':
            store.commit([('contact', j.contacts)])
        elif words[0] == 'group':
            store.commit([('group', words[1].encode(), int(words[2]), words[3].encode())])
        elif words[0] == 'share':
            level = {'invisible': 0, 'visible': 1, 'shared': 2}[words[3]]
            store.commit([('level', int(words[1]), bytes.fromhex(words[2]), level)])
        elif words[0] == 'post':
            store.commit([('author', (bytes.fromhex(words[1]), int(words[2]), self.input))])
            store.settle()

    def sync(self, words):
        links = [(int(words[i]), words[i + 1], int(words[i + 2]), words[i + 3]) for i in range(3, len(words), 4)]
        if self.twin:
            self.compare(words, links)
        run = Run(self.store, self.host, int(words[1]), int(words[2]), links)
        if self.failing is not None:
            self.store.load(self.failing)
        try:
            status, err = run.play()
        except DiskFault:
            status, err = 6, 'disk fault\n'
            self.store = Store()
            self.store.read(run.store.files[0])
        self.store.failing = self.failing = None
        print('status %d' % status, file=self.out)
        self.out.write(err)
        for i, sent in enumerate(self.host.sent):
            if sent:
                print('sent %d %s' % (i, short(sent)), file=self.out)
        print('file %s' % short(self.store.files[0]), file=self.out)
        self.host = Host()

    def compare(self, words, links):
        """A compacted store says and sends what it would have without: also from then on."""
        came = []
        for store in (copy.deepcopy(self.store), self.twin):
            host = copy.deepcopy(self.host)
            came.append((Run(store, host, int(words[1]), int(words[2]), links).play(), host.sent))
        assert came[0] == came[1], (words, came)

    def stops_of_compact(self):
        """Of each call the four images. A call that is stopped leaves no trace, so the account is there in two of those at the last
        call, the sync of its header's gate: in what was written, and where what is not synced is ones."""
        before, behind = 4 * self.store.calls_of_compact() - 2, 2
        print('stopped: %d before, %d behind, 0 apart' % (before, behind), file=self.out)

    def stops(self, words):
        """No image is apart; and was something acknowledged by the end?"""
        if words[0] == 'mailbox':
            return self.stops_of_mailbox(words)
        links = [(int(words[i]), words[i + 1], int(words[i + 2]), words[i + 3]) for i in range(3, len(words), 4)]
        Run(self.store, self.host, int(words[1]), int(words[2]), links).play()
        self.tell_stops(self.host.sent)
        self.host = Host()

    def stops_of_mailbox(self, words):
        """Only a file that is written acknowledges. The store stays as it was."""
        mail = Mail(copy.deepcopy(self.store), int(words[2]))
        self.tell_stops([mail.write(self.host.now(), *map(int, words[3:]))[2]] if words[1] == 'out' else [])
        self.host, self.input = Host(), b''

    def tell_stops(self, sent):
        acked = any(kind == 0 for bytes_ in sent for kind in kinds_of(bytes_))
        print('stopped: 0 apart, acknowledged %s' % str(acked).lower(), file=self.out)


def loaded(content):
    """What a load comes to of a file whose journal has the kinds of a brief account, posts, sessions and outputs alone."""
    journal, spelled = Journal(), format_of(content)
    for at, payload in frames(content):
        parts = list(entries(payload, spelled)) if set_of_tags(payload) else []
        if not parts or not all(is_spelled(*part, spelled, len(journal.held)) for part in parts):
            return 'status 5\ndamaged: file 0 at %d' % at
        batch = [entry_of(*part, journal.named) for part in parts]
        if not journal.allows(batch):
            return 'status 5\ndamaged: file 0 at %d' % at
        for entry in batch:
            journal.apply(entry)
    return 'status 0'


def set_of_tags(payload):
    return payload[0] in range(1, 20)


def kinds_of(bytes_):
    while bytes_:
        yield bytes_[1]
        bytes_ = bytes_[4 + int.from_bytes(bytes_[2:4], 'big'):]


def expanded(text):
    """A line in which `{TEXT*N}` stands for N times TEXT."""
    return re.sub(r'\{([^*]*)\*(\d+)\}', lambda of: of[1] * int(of[2]), text)


def main():
    cases = Cases(sys.stdout)
    for line in open(sys.argv[1], encoding='utf-8'):
        line = line.rstrip('\n')
        if line and not line.startswith('#'):
            cases.line(expanded(line))


if __name__ == '__main__':
    main()
