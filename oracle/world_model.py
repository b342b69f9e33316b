#!/usr/bin/env python3
"""Worlds of several devices by plain scans, written from the pages of docs/ alone, beside the proved program and sharing nothing
with it: nodes are those of run_model.py, scripts are read by scripts.py, a disk keeps what is pending in it.

    world_model.py [gen SEED COUNT] < SCRIPT      what `bsp_replay` must print, on both outputs, and its status
    world_model.py cases < crates/test_worlds/stdin > crates/test_worlds/stdout

What a case is stands in crates/test_worlds/src/main.rt. Where a case's name ends with `checked`, what holds of all devices is
looked for behind each step.
"""
import re
import sys

from digests import group_id, message_id
from journal import SHORT, Group, entries, entry_of, frames, number
from run_model import CLIENTS, Journal, Node, Store, entry_bytes
from scripts import generated, has_form, is_number
from store_file import CLOSED, HEADER, OPEN, framed

PIECE, MOST_LINKS, MOST_SCRIPT, MOST_BODY, MOST_GROUPS = 65_536, 8, 1_048_576, 32_768, 1_024
FIRST_CLOCK, MOST_COUNT, MAX64 = 1_000, 100_000, 2**64 - 1
LEVELS = ('invisible', 'visible', 'shared')


class Stopped(Exception):
    """The call of a disk that was to fail was made."""


class Refused(Exception):
    """A step that the world does not make."""


# ---- a disk

class Disk:
    """A file that only grows, and what was written into it since it was synced: where, what stood there, and what was written.
    The other file stays empty."""

    def __init__(self, content):
        self.content, self.unsynced = bytearray(content), []
        self.calls, self.stop = 0, None

    def call(self):
        fails = self.stop is not None and self.stop[0] == self.calls
        self.calls += 1
        if fails:
            raise Stopped

    def write(self, at, written):
        self.unsynced.append((at, bytes(self.content[at:at + len(written)]), written))
        self.call()
        self.content[at:at + len(written)] = written

    def sync(self):
        self.call()
        self.unsynced = []

    def image(self, pick):
        left = bytearray(self.content)
        for at, stood, written in reversed(self.unsynced) if pick == 'old' else self.unsynced:
            size = len(written)
            left[at:at + size] = {'old': stood, 'new': written, 'zero': bytes(size), 'ones': b'\1' * size}[pick]
        return left


# ---- a store on a disk

class Ids(dict):
    """Ids in the order in which they were put in."""

    def append(self, id_):
        self[id_] = True


class Facts(Journal):
    """The facts of a journal, with its messages by their ids."""

    def __init__(self):
        super().__init__()
        self.delivered, self.by_id = Ids(), {}

    def apply(self, entry):
        super().apply(entry)
        if entry[0] in ('author', 'arrive'):
            self.by_id[self.held[-1].id] = self.held[-1]

    def find(self, id_):
        return self.by_id.get(id_)


class DiskStore(Store):
    """A store over a disk: it is loaded, and each group of batches is four calls."""

    def __init__(self, disk):
        self.disk, self.journal, self.end = disk, Facts(), len(HEADER) + 1
        self.waiting, self.groups = Group(), []
        for _ in ('sync of file 0', 'sync of file 1', 'header of file 0', 'header of file 1', 'length'):
            disk.call()
        for at, payload in frames(bytes(disk.content)):
            disk.call()
            disk.call()
            self.end = at + 6 + len(payload)
            for tag, rest in entries(payload, SHORT):
                entry = entry_of(tag, rest, self.journal.named)
                assert entry_bytes(entry, self.journal.name) == bytes([tag]) + rest
                self.journal.apply(entry)
        disk.call()
        self.settle()

    def append(self, group):
        added = framed(b'', group)
        self.disk.write(self.end, added[1:])
        self.disk.sync()
        self.disk.write(self.end - 1, OPEN)
        self.disk.sync()
        self.end += len(added) - 1


# ---- a device

class Device(Node):
    """A node over a disk, which runs since its store was loaded."""

    def __init__(self, disk, clock):
        super().__init__(DiskStore(disk))
        self.set_clock(clock)

    def add(self, entry):
        self.store.extend([entry])

    def text(self, place, is_shown):
        journal = self.store.journal
        states = [journal.state(held) for held in journal.held]
        told = [f'{fate} {states.count(fate)}' for fate in ('delivered', 'invalid', 'pending', 'unknown')]
        lines = [f'device {place} held {len(states)} ' + ' '.join(told)]
        return lines + (shown(journal) if is_shown else [])


def shown(journal):
    """What `show` tells of a journal."""
    groups = [f'group {id_.hex()} {name.hex()} {major} {text.hex()}' for name, major, text, id_ in journal.groups]
    levels = [f'level {contact} {group[3].hex()} {LEVELS[journal.level(contact, group[3])]}'
              for contact in range(journal.contacts) for group in journal.groups if journal.level(contact, group[3])]
    held = [f'message {held.id.hex()} {held.group.hex()} {journal.state(held)}' for held in journal.held]
    return [f'contacts {journal.contacts}', *groups, *levels, *held, f'sessions {len(journal.sessions)}']


class End:
    """An end of a link: the number that the link has at its device, what it was given and not heard, and what is in flight."""

    def __init__(self, device):
        self.device, self.at, self.given, self.flight, self.looked = device, None, b'', [], 0


def records_of(bytes_):
    records = []
    while bytes_:
        size = 4 + number(bytes_[2:4])
        records.append(bytes_[:size])
        bytes_ = bytes_[size:]
    return records


# ---- a world

class World:
    def __init__(self, count):
        self.clock, self.links, self.labels, self.posts = FIRST_CLOCK, [], [], []
        self.shown = set()
        self.devices = [Device(Disk(HEADER + CLOSED), self.clock) for _ in range(count)]
        for device in self.devices:
            for contact in range(count - 1):
                device.add(('contact', contact))

    # ---- names
    def device(self, d):
        if d >= len(self.devices):
            raise Refused
        return self.devices[d]

    def link(self, number_):
        if number_ >= len(self.links):
            raise Refused
        return self.links[number_]

    def group(self, label):
        """Kind, descriptor and id of a group."""
        if label >= len(self.labels):
            raise Refused
        kind, descriptor = self.labels[label]
        return kind, descriptor, group_id(kind, 0, descriptor)

    @staticmethod
    def contact(d, e):
        return e if e < d else e - 1

    # ---- crashes
    def leave(self, d):
        for link in self.links:
            for end in link['ends']:
                if end.device == d:
                    end.at = None
                    self.cut_off(link)

    @staticmethod
    def cut_off(link):
        link['cut'] = True
        for end in link['ends']:
            end.flight = []

    def crash(self, d):
        disk = self.disks(d)
        self.devices[d] = None
        self.leave(d)
        self.devices[d] = Device(Disk(disk.image(disk.stop[1])), self.clock)

    def disks(self, d):
        return self.devices[d].store.disk

    def tries(self, d, call):
        """Does something with a device, which may crash; whether it did not."""
        try:
            call(self.devices[d])
        except Stopped:
            self.crash(d)
            return False
        return True

    # ---- steps, by the first word of their lines
    def do_group(self, d, kind, descriptor):
        device = self.device(d)
        known = device.store.journal.groups
        if (kind, 0, descriptor) in [group[:3] for group in known] or len(known) >= MOST_GROUPS or len(descriptor) > 16_384:
            raise Refused
        if (kind, descriptor) not in self.labels:
            self.labels.append((kind, descriptor))
        self.tries(d, lambda device: device.add(('group', kind, 0, descriptor)))

    def do_share(self, d, e, label, level):
        self.device(e)
        id_ = self.group(label)[2]
        if d == e or not self.device(d).store.journal.group(id_):
            raise Refused
        self.tries(d, lambda device: device.add(('level', self.contact(d, e), id_, LEVELS.index(level))))

    def body(self, kind, parents, text):
        ids = [self.posts[label] for label in parents]
        if kind == b'thread':
            if len(set(parents)) < len(parents) or len(parents) > 255:
                raise Refused
            return bytes([len(ids)]) + b''.join(ids) + text
        if len(parents) > (1 if kind == b'feed' else 0):
            raise Refused
        return text if kind == b'note' else (ids[0] if ids else bytes(32)) + text

    def do_post(self, d, label, time, parents, text):
        journal = self.device(d).store.journal
        kind, _, group = self.group(label)
        if any(parent >= len(self.posts) for parent in parents) or not journal.group(group):
            raise Refused
        body = self.body(kind, parents, text)
        id_ = message_id(group, time, body)
        if len(body) > MOST_BODY or journal.find(id_):
            raise Refused
        answer = CLIENTS[kind](time, body)
        if answer is None or not all(dep in journal.delivered and journal.find(dep).group == group for dep in answer[0]):
            raise Refused
        self.posts.append(id_)
        self.tries(d, lambda device: device.add(('author', (group, time, body))))

    def do_link(self, d, e, mode, latency):
        if d == e or any(len(self.device(side).links) >= MOST_LINKS for side in (d, e)):
            raise Refused
        nonce = (len(self.links) + 1).to_bytes(16, 'big') if mode == 'interactive' else None
        link = {'ends': [End(d), End(e)], 'cut': False}
        self.links.append(link)
        for end, other, own in ((link['ends'][0], e, nonce), (link['ends'][1], d, None)):
            here = end.device
            if not self.tries(here, lambda device: device.attach(self.contact(here, other), mode, latency, own)):
                return
            end.at = len(self.devices[here].links) - 1
            self.look(link, end)

    def look(self, link, end):
        """What was sent at an end since it was looked at is in flight, or dropped."""
        device = self.devices[end.device]
        sent = device.host.sent[end.at]
        if not link['cut']:
            end.flight += records_of(sent[end.looked:])
        end.looked = len(sent)
        if device.links[end.at].stands not in ('going', 'clean'):
            self.cut_off(link)

    def ends_of(self, d):
        return [(link, end) for link in self.links for end in link['ends'] if end.device == d and end.at is not None]

    def do_turn(self, d):
        """Whether all was still, or None where the device crashed."""
        device, still = self.device(d), []
        for link, end in self.ends_of(d):
            if device.links[end.at].stands == 'going':
                piece, end.given = end.given[:PIECE], end.given[PIECE:]
                device.host.answers[end.at] = [('got', piece) if piece else ('end',) if link['cut'] else ('idle',)]
        if not self.tries(d, lambda device: still.append(device.turn())):
            return None
        for link, end in self.ends_of(d):
            self.look(link, end)
        return still[0]

    def from_side(self, number_, d, least=1):
        """The end of a link at a device from which so much is in flight, and the other end."""
        self.device(d)
        near, far = self.link(number_)['ends']
        for end, other in ((near, far), (far, near)):
            if end.device == d and len(end.flight) >= least:
                return end, other
        raise Refused

    def do_carry(self, number_, d):
        end, other = self.from_side(number_, d)
        other.given += end.flight.pop(0)

    def do_lose(self, number_, d):
        self.from_side(number_, d)[0].flight.pop(0)

    def do_repeat(self, number_, d):
        end, other = self.from_side(number_, d)
        other.given += end.flight[0]

    def do_swap(self, number_, d):
        flight = self.from_side(number_, d, 2)[0].flight
        flight[:2] = flight[1::-1]

    def do_cut(self, number_):
        link = self.link(number_)
        if link['cut']:
            raise Refused
        self.cut_off(link)

    def do_clock(self, clock):
        self.clock = clock
        for device in self.devices:
            device.set_clock(clock)

    def do_stop(self, d, calls, pick):
        self.device(d)
        disk = self.disks(d)
        disk.stop = (disk.calls + calls, pick)

    def do_restart(self, d):
        self.device(d)
        self.leave(d)
        disk = self.disks(d)
        try:
            self.devices[d] = Device(disk, self.clock)
        except Stopped:
            self.crash(d)

    def do_rest(self, rounds):
        for _ in range(rounds):
            some = False
            for d, device in enumerate(self.devices):
                if device.links:
                    still = self.do_turn(d)
                    if still is None:
                        return
                    some |= not still
            for link in self.links:
                near, far = link['ends']
                for end, other in ((near, far), (far, near)):
                    some |= end.flight != []
                    other.given += b''.join(end.flight)
                    end.flight = []
            if not some:
                return

    def do_show(self, d):
        self.device(d)
        self.shown.add(d)

    def text(self):
        lines = [line for d, device in enumerate(self.devices) for line in device.text(d, d in self.shown)]
        return ''.join(line + '\n' for line in lines)


# ---- what holds of all devices, looked for behind each step

class Checks:
    """What the promises say of a world, by plain scans of the journals. No turn of it hears a part of a record."""

    def __init__(self, world):
        self.world, self.before = world, [b''] * len(world.devices)

    def holds(self):
        journals = [device.store.journal for device in self.world.devices]
        written = {held.id for journal in journals for held in journal.held if held.origin == 'self'}
        for d, device in enumerate(self.world.devices):
            disk, journal = device.store.disk, journals[d]
            assert disk.unsynced == [] and disk.content.startswith(self.before[d])
            self.before[d] = bytes(disk.content[:device.store.end - 1])
            assert journal.next_step() is None
            assert all(held.id in written for held in journal.held)
            self.seen_is_held(d, journals)
            self.states_are_those_of_rounds(journal)
            self.stands_in_order(device)
        for link in self.world.links:
            self.in_flight_is_held(link, journals)
        self.nothing_due_is_all_held(journals)

    def other(self, d, contact):
        return contact if contact < d else contact + 1

    def seen_is_held(self, d, journals):
        for (contact, id_), row in journals[d].rows.items():
            assert not row.seen or journals[self.other(d, contact)].find(id_)

    def states_are_those_of_rounds(self, journal):
        good, bad = set(), set()
        for _ in journal.held:
            good |= {held.id for held in journal.held if self.is_good(journal, held, good)}
            bad |= {held.id for held in journal.held if self.is_bad(journal, held, bad)}
        assert set(journal.delivered) == good and journal.invalid == bad

    @staticmethod
    def is_good(journal, held, good):
        answer = journal.answer(held)
        return answer is not None and all(dep in good and journal.find(dep).group == held.group for dep in answer[0])

    @staticmethod
    def is_bad(journal, held, bad):
        answer = journal.answer(held)
        deps = answer[0] if answer else []
        return answer is None or any(dep in bad or journal.find(dep) and journal.find(dep).group != held.group for dep in deps)

    @staticmethod
    def stands_in_order(device):
        """Each message is held once and delivered once, and behind all that it depends on."""
        journal, held, delivered = device.store.journal, set(), set()
        for _, payload in frames(bytes(device.store.disk.content)):
            for tag, rest in entries(payload, SHORT):
                kind, *rest = entry_of(tag, rest, journal.named)
                if kind in ('author', 'arrive'):
                    id_ = message_id(*rest[-1])
                    assert id_ not in held
                    held.add(id_)
                elif kind == 'deliver':
                    assert rest[0] in held and rest[0] not in delivered
                    assert set(journal.answer(journal.find(rest[0]))[0]) <= delivered
                    delivered.add(rest[0])

    @staticmethod
    def in_flight_is_held(link, journals):
        for end, other in (link['ends'], link['ends'][::-1]):
            for record in end.flight + records_of(other.given):
                if record[1] in (0, 2):
                    ids = [record[at:at + 32] for at in range(4, len(record), 32)]
                elif record[1] == 1:
                    ids = [message_id(record[4:36], number(record[36:44]), record[44:])]
                else:
                    ids = []
                assert all(journals[end.device].find(id_) for id_ in ids)

    def nothing_due_is_all_held(self, journals):
        now = self.world.clock
        for a, journal in enumerate(journals):
            for session, (_, contact, *_) in journal.sessions.items():
                rows = [journal.row(contact, held.id) for held in journal.held]
                if journal.due(session, now) is None and all(row.expiry <= now for row in rows):
                    b = journals[self.other(a, contact)]
                    for held in journal.held:
                        is_open = journal.level(contact, held.group) == 2 and held.id in journal.delivered
                        if is_open and (held.origin == 'self' or journal.answer(held)[1]):
                            assert b.find(held.id)


# ---- scripts

def step_of(line):
    """The first word of a line and its other words, as the method of that name takes them."""
    word = line.split(b' ')[0]
    words = line.split(b' ', 5 if word == b'post' else -1)[1:]
    if word == b'post':
        d, label, time, parents, text = words
        parents = [] if parents == b'-' else [int(parent) for parent in parents.split(b',')]
        return 'post', (int(d), int(label), int(time), parents, text)
    if word == b'group':
        return 'group', (int(words[0]), words[1], words[2])
    return word.decode(), tuple(int(word) if word.isdigit() else word.decode() for word in words)


def played(script, is_checked):
    """The world of a script, or the number of the first bad line."""
    lines = script.split(b'\n')
    world, checks = None, None
    for place, line in enumerate(lines, 1):
        if line == b'':
            continue
        if world is None:
            found = re.fullmatch(rb'devices ([2-8])', line)
            if not found:
                return place
            world = World(int(found[1]))
            checks = Checks(world)
            continue
        if not has_form(line):
            return place
        word, words = step_of(line)
        try:
            getattr(world, 'do_' + word)(*words)
        except Refused:
            return place
        if is_checked:
            checks.holds()
    return world or 1


def usage_of(words):
    """The first wrong word, or None."""
    limits = [(0, MAX64), (1, MOST_COUNT)]
    if not words:
        return None
    if words[0] != 'gen':
        return 0
    for place, (least, most) in enumerate(limits, 1):
        if place >= len(words) or not is_number(words[place].encode(), least, most):
            return place
    return 3 if len(words) > 3 else None


def replay(words, script, is_checked=False):
    """The status, and the texts on both outputs."""
    wrong = usage_of(words)
    if wrong is not None:
        return 1, '', f'usage: word {wrong}\n'
    if words:
        script = '\n'.join(generated(int(words[1]), int(words[2]))).encode()
    elif len(script) > MOST_SCRIPT:
        return 14, '', 'input too long\n'
    world = played(script, is_checked)
    if isinstance(world, int):
        return 15, '', f'bad script: line {world}\n'
    return 0, world.text(), ''


# ---- cases

def case_of(case):
    """The name of a case, its words, its script, and what is apart in it."""
    name, words, how, script = case.split(b'\n', 3)
    length = {b'longest': MOST_SCRIPT, b'too long': MOST_SCRIPT + 1}.get(how, 0)
    script += b'\n' * (length - len(script))
    return name.decode(), words.decode().split(' ') if words else [], script, how


def print_case(case):
    name, words, script, how = case_of(case)
    status, out, err = replay(words, script, name.endswith('checked'))
    if how == b'no source':
        status, out, err = 8, '', 'read fault\n'
    elif how == b'no sink':
        status, out, err = 13, '', 'write fault\n'
    elif how == b'no errors':
        err = ''
    print(f'-- {name}\nstatus {status}\n{out}{err}', end='', flush=True)


def main():
    words = sys.argv[1:]
    if words == ['cases']:
        for case in sys.stdin.buffer.read().split(b'\0'):
            print_case(case)
        return
    status, out, err = replay(words, b'' if words else sys.stdin.buffer.read())
    print(out, end='')
    print(err, end='', file=sys.stderr)
    sys.exit(status)


if __name__ == '__main__':
    main()
