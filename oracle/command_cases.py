#!/usr/bin/env python3
"""The cases of crates/test_commands and what they must print.

    command_cases.py          writes crates/test_commands/stdin and stdout
    command_cases.py --count  prints how many cases each part has

Cases by hand stand in commands.txt beside it, each with its answer; those of sharing.py, old_stores.py and audits.py are added, and what
crashes and failing calls leave is told here by the layout of a journal and the order of the writes, as docs/FORMATS.md has both. Nothing
is shared with the program.

A line of commands.txt is one of the driver's (crates/test_play says which), or one of these. `$NAME` is what `let NAME ..` says.

    = LINE, =x HEX, ! N LINE     behind a command: it prints this, or these bytes; its status and the line on the error output
    + PAYLOAD ..                 it adds frames of these payloads to file 0
    @ F G .., @1 F G ..          file 0, or file 1, is then a journal in format F of generation G with these payloads
    refuse WORDS                 `try`, and `loaded` beside it: both are refused alike
    alone WORDS                  `try` of a command that uses no store
    usage N WORDS                the word of this number is wrong
    words WORDS                  what is read of these words, with its parts; the line behind it says what
    find FOUND                   FOUND is `none`, `damaged FILE PLACE` or `contacts N`
    bases HEX ..                 the files that the next lines change: `invert PLACE FOUND`, `set PLACE VALUE FOUND`, `cut LENGTH FOUND` (the
                                 same in file 1) and `raw HEX FOUND`, of what stands in the place of the closed gate
    grow A B C D                 `contact` makes of files A and B these
    unfit F P .. / PAYLOAD       the last payload may not follow the others in format F
    foreign HEX                  bytes of no store, in either file and in both: `init` begins one in file 0
    scene WORDS                  a command that is crashed, and all of whose calls fail in turn: with `begins` over no store, else `journal F G P ..`
    unwritten WORDS              a command whose writes of the error output fail in turn
"""
import hashlib
import itertools
import os
import random
import re
import sys

from audits import Audited, rows as audit_rows
from digests import group_id, message_id
from help_texts import texts_of
from journal import MOST_BATCHES, SHORT, WHOLE, frames, gathered, groups_of, respelled
from migration import migrated
from old_stores import NOTES, SCENES as OLD_SCENES, THREADS, adds_contact, bare, facts_of, fresh, heard, held, looks_at, show_text, spoken
from run_model import ACK, BATCH, OFFER, SHARED, VERSIONS, VISIBLE, Journal, Mail, Store, calls_of_clear, crossed, expanded, message_record
from run_model import record_bytes
from served import GREETING, NO_REQUEST, begun as begun_node, drawn as drawn_life, fronts_of, looked_at, spelled as spelled_request
from served import states_at, stopped as stopped_life, text_of, texts_at
from sharing import ALL_CLIENTS, NOTE, SCENES as SHARING_SCENES, SEEDS, THREAD, Person, agrees_at_length, agrees_at_random
from standing import stands
from store_file import CLOSED, OPEN, framed, header

FOLDER = os.path.dirname(os.path.abspath(__file__))
CRATE = os.path.join(FOLDER, '..', 'crates', 'test_commands')
NO_STORE, EXISTS, DAMAGED, DISK_FAULT, READ_FAULT, WRITE_FAULT = 2, 3, 5, 6, 8, 13
# an append writes a frame behind the closed gate, syncs, writes the gate and syncs: which of its calls fails when the gate may already
# read as open, by what a crash leaves of what was not synced; and with no crash
OPENED = {'old': 4, 'new': 2, 'zero': 4, 'ones': 2, 'left': 3}
APPEND = 4
PROGRAM = texts_of('bsp')['version'].split()[1]
# the most bytes of an output that go into one call, and the parts in which an input comes
PIECE = 7
# what a node does otherwise than the command by itself
ALONE = ('sync', 'serve', 'quit')
# how many bytes the words of a request have at most, a zero byte behind each
MOST_WORDS = 32_768


def told_bytes(data):
    return data.hex() if len(data) <= 120 else f'{len(data)} {hashlib.blake2b(data, digest_size=32).hexdigest()}'


def told_output(data):
    """The lines of an output, or its digits where it does not end in a line's end."""
    if data.endswith(b'\n'):
        try:
            return data.decode().split('\n')[:-1]
        except UnicodeDecodeError:
            pass
    return ['bytes ' + told_bytes(data)] if data else []


def unhex(digits):
    return b'' if digits == '-' else bytes.fromhex(expanded(digits))


def typed(words):
    """Words as they are written in a case, with no space at the end."""
    return words if words and not words.endswith(' ') else (words[:-1] + '{ *1}' if words else '{*0}')


def line_of(text):
    return text.encode() + b'\n'


class Outcome:
    """What a command comes to: both outputs, its status, the files that it changes, and whether it asked the disk."""

    def __init__(self, out=b'', status=0, err=b'', after=(), asks=True):
        self.out, self.status, self.err, self.after, self.asks = out, status, err, dict(after), asks

    def answer(self):
        return told_output(self.out) + ([f'status {self.status}'] if self.status else []) + told_output(self.err)

    def lines(self, files):
        changed = [f'file {file} {told_bytes(data)}' for file, data in sorted(self.after.items()) if files[file] != data]
        return self.answer() + ([] if self.asks else ['no call']) + changed


class Text:
    """The cases and the answers, and the files as they then stand."""

    def __init__(self):
        self.cases, self.answers, self.files, self.counts, self.part = [], [], [b'', b''], {}, ''
        # how many commands of the case are asked of a node too, the clients of every group where there are such, and what was found
        # of files that were met
        self.asked, self.crossed, self.known = 0, None, {}

    def count(self, number=1):
        self.counts[self.part] = self.counts.get(self.part, 0) + number

    def say(self, *lines):
        self.cases += lines

    def case(self, name):
        self.end()
        self.crossed = None
        self.say('case ' + name)
        self.answers.append('case ' + name)
        self.part, self.files = name, [header(SHORT, 1) + CLOSED, b'']

    def end(self):
        """Of the case it is told how many commands were asked of a node too, each of which answered as the command by itself."""
        if self.asked:
            self.say('asked')
            self.answers.append(f'asked {self.asked}')
        self.asked = 0

    def is_held(self):
        """Whether a node holds the files as they are: they stand for a journal of format 2 that is settled."""
        key = tuple(self.files), bool(self.crossed)
        if key not in self.known:
            found = stands(self.files)
            self.known[key] = found[0] == 'journal' and found[1] == SHORT and self.is_settled(found[2])
        return self.known[key]

    def is_settled(self, payloads):
        store = Store()
        try:
            store.read(framed(header(SHORT, 1), payloads))
        except (ValueError, IndexError):
            # a payload is no list of entries
            return False
        store.journal.clients = self.crossed or ALL_CLIENTS
        return not store.journal.next_step()

    def put_files(self, first, second=b''):
        self.say(f'files {first.hex() or "-"} {second.hex() or "-"}')
        self.files = [first, second]

    def journal(self, spelled, generation, payloads):
        self.say(f'journal {spelled} {generation}', *(['add ' + ' '.join(it.hex() for it in payloads)] if payloads else []))
        self.files = [framed(header(spelled, generation), payloads), b'']

    def tell(self, kind, words, outcome, *prepared):
        """A command of one of the kinds `try`, `run`, `loaded` and `words`."""
        self.say(*prepared, f'{kind} {typed(words)}')
        self.answers += [f'> {expanded(words)}', *outcome.lines(self.files)]
        self.crossed = next((crossed(*map(bytes.fromhex, it.split()[1:])) for it in prepared if it.startswith('crossed ')), self.crossed)
        if kind in ('run', 'try') and expanded(words).split(' ')[0] not in ALONE and outcome.status != DAMAGED and not any(
                it.startswith('fail') for it in prepared) and len(expanded(words).encode()) < MOST_WORDS and self.is_held():
            self.asked += 1
        if kind == 'run':
            for file, data in outcome.after.items():
                self.files[file] = data
        self.count()

    def find(self, found):
        """What the files are found to be."""
        self.say('find')
        kind, *numbers = found.split()
        if kind == 'contacts':
            count, = numbers
            self.answers += [f'contacts {count}', 'sessions 0', '> audit', f'legal {count} {count} 0 0 settled']
        elif kind == 'none':
            self.answers += [f'status {NO_STORE}', 'no store']
        else:
            self.answers += [f'status {DAMAGED}', 'damaged: file {} at {}'.format(*numbers)]
        self.count()

    # ---- crashes

    def seen(self, title, views):
        """The rows of what is seen in each view, and then what that is; behind a title."""
        self.answers += [title, *self.seen_lines(views)]

    @staticmethod
    def seen_lines(views):
        kinds, rows = [], []
        for name, seen in views:
            row = []
            for kind in seen:
                if kind not in kinds:
                    kinds.append(kind)
                number = kinds.index(kind)
                if row and row[-1][1] == number:
                    row[-1][0] += 1
                else:
                    row.append([1, number])
            rows.append(name + f' {row[0][1]}' + ''.join(f', {count} {number}' for count, number in row[1:]))
        for number, kind in enumerate(kinds):
            rows += [f'seen {number}', *kind]
        return rows


def state(audit, answer, journal):
    """What is seen of files: an audit, what the next command came to, and the journal then."""
    first, *rest = audit
    return ['audit ' + first, *rest, *answer, 'journal ' + told_bytes(journal) if journal else 'no journal']


def stages_at(name, stages):
    """The number of the stage at each call of the appends, and behind the last."""
    return [0] + [at // APPEND + (at % APPEND >= OPENED[name]) for at in range(APPEND * stages)] + [stages]


def crashed(outcome, states, names):
    """The views of a command which fails at each call and then comes to its end; its appends lead from state to state."""
    fault = Outcome(status=DISK_FAULT, err=b'disk fault\n').answer()
    views = [('answer', [fault, outcome.answer()])]
    return views + [(name, [states[stage] for stage in stages_at(name, len(states) - 1)]) for name in names]


CRASH, FAIL = ('old', 'new', 'zero', 'ones'), ('left',)


def stores_of(begun, payloads, adds):
    """The payloads of each journal that a command leads through, the one before it first; None where there is no store."""
    stores = [list(payloads)] if begun else [None, []]
    for group in gathered(adds):
        stores.append(stores[-1] + group)
    return stores


def front_of(spelled, generation, payloads):
    return framed(header(spelled, generation), payloads)[:-1]


def audit_of(payloads):
    if payloads is None:
        return Outcome(status=NO_STORE, err=b'no store\n').answer()
    return [Audited(payloads).line()[:-1]]


def shown_state(payloads):
    """What `show` sees of a journal in format 2 of generation 1."""
    if payloads is None:
        return state(audit_of(None), Outcome(status=NO_STORE, err=b'no store\n').answer(), b'')
    return state(audit_of(payloads), told_output(show_text(payloads).encode()), front_of(SHORT, 1, payloads))


def pieces_of(text):
    """What was written of a text when the call of each number fails."""
    return [text[:at] for at in range(0, len(text), PIECE)]


def reads_of(given):
    """How many reads give all bytes of an input and find its end."""
    return -(-len(given) // (len(given) // 4 + 1)) + 1 if given else 0


def play_scene(text, words, begun, payloads, given, outcome, adds):
    stores = stores_of(begun, payloads, adds)
    prepared = ['input ' + given.hex()] if given else []
    for kind, names in (('crash', CRASH), ('fails', FAIL)):
        text.say(*prepared, f'{kind} {words} / show')
        text.seen(f'> {kind} {words} / show', crashed(outcome, [shown_state(it) for it in stores], names))
        text.count()
    for call in range(reads_of(given)):
        text.tell('try', words, Outcome(status=READ_FAULT, err=b'read fault\n'), *prepared, f'failread {call}')
    for call, front in enumerate(pieces_of(outcome.out)):
        told = Outcome(front, WRITE_FAULT, b'write fault\n', outcome.after)
        text.tell('try', words, told, *prepared, f'failout {call}')


def play_begun_twice(text):
    """An `init` is crashed, a second one on each image, and a third one is run on what that leaves."""
    text.case('an init that is crashed, and crashed again')
    text.put_files(b'')
    text.say('twice init / init')
    ready, exists = Outcome(b'ready\n'), Outcome(status=EXISTS, err=b'store exists\n')
    over = {None: ready, True: exists}
    front = front_of(SHORT, 1, [])
    none, store = (state(audit_of(it), over[None if it is None else True].answer(), front) for it in (None, []))
    again = [Text.seen_lines(crashed(outcome, states, CRASH)) for outcome, states in ((ready, [none, store]), (exists, [store]))]
    views = [(name, [again[stage] for stage in stages_at(name, 1)]) for name in CRASH]
    text.seen('> twice init / init', views)
    text.count()


# ---- the text by hand

class Reader:
    """Reads commands.txt, line by line: a command waits for the lines that say what it must come to."""

    def __init__(self, text):
        self.text, self.prepared, self.given, self.command, self.bases = text, [], b'', None, []
        old = respelled(heard().batches, SHORT, WHOLE)
        self.names = {'OLD_HEARD': ' '.join(payload.hex() for payload in old)}
        self.outcome, self.adds, self.scene = None, [], None

    def read(self, lines):
        for line in lines:
            if line and not line.startswith('#'):
                self.take(re.sub(r'\$([A-Z_]+)', lambda of: self.names[of[1]], line))
        self.close()

    def take(self, line):
        kind, _, rest = line.partition(' ')
        if kind in ('=', '=x', '!', '+', '@', '@1'):
            return self.expect(kind, rest)
        self.close()
        if kind == 'let':
            name, _, value = rest.partition(' ')
            self.names[name] = value
        elif kind in ('run', 'try', 'words', 'refuse', 'alone', 'unwritten'):
            self.command, self.outcome, self.adds = (kind, rest), Outcome(), []
        elif kind == 'scene':
            self.text.case('a command that fails: ' + rest)
            self.scene = rest
        elif kind == 'begins':
            self.text.put_files(b'')
            self.command, self.outcome, self.adds, self.before = ('begins', self.scene), Outcome(), [], []
        elif kind == 'input':
            self.prepared.append(line)
            self.given = unhex(rest)
        elif kind.startswith('fail') or kind == 'crossed':
            self.prepared.append(line)
        else:
            self.play(kind, rest)

    def expect(self, kind, rest):
        it = self.outcome
        if kind == '=':
            it.out += line_of(rest)
        elif kind == '=x':
            it.out += bytes.fromhex(rest)
        elif kind == '!':
            status, _, line = rest.partition(' ')
            it.status, it.err = int(status), line_of(line) if line else b''
        elif kind == '+':
            self.adds = [unhex(digits) for digits in rest.split()]
            it.after[0] = self.text.files[0][:-1] + framed(b'', self.adds)
        else:
            spelled, generation, *payloads = rest.split()
            it.after[int(kind[1:] or 0)] = framed(header(int(spelled), int(generation)), [unhex(digits) for digits in payloads])

    def close(self):
        """The command that waits is played."""
        if not self.command:
            return
        (kind, words), self.command = self.command, None
        given, prepared = self.given, self.prepared
        self.given, self.prepared = b'', []
        if kind == 'alone':
            self.outcome.asks = False
        if kind in ('scene', 'begins'):
            play_scene(self.text, words, kind == 'scene', self.before, given, self.outcome, self.adds)
        elif kind == 'unwritten':
            for call, front in enumerate(pieces_of(self.outcome.err)):
                # faulty words and `quit` look at no file
                asks = self.outcome.status != 1 and words != 'quit'
                self.text.tell('try', words, Outcome(b'', self.outcome.status, front, asks=asks), 'input 78', f'failerr {call}')
        elif kind == 'refuse':
            for each in ('try', 'loaded'):
                self.text.tell(each, words, self.outcome, *prepared)
        else:
            self.text.tell(kind if kind in ('run', 'words') else 'try', words, self.outcome, *prepared)

    def play(self, kind, rest):
        text, words = self.text, rest.split()
        if kind == 'case':
            text.case(rest)
        elif kind == 'files':
            text.put_files(*map(unhex, words))
        elif kind == 'journal':
            payloads = [unhex(digits) for digits in words[2:]]
            text.journal(int(words[0]), int(words[1]), payloads)
            if self.scene:
                self.command, self.outcome, self.adds, self.before = ('scene', self.scene), Outcome(), [], payloads
                self.scene = None
        elif kind == 'add':
            text.say(f'add {rest}')
            text.files[0] = text.files[0][:-1] + framed(b'', map(unhex, words))
        elif kind == 'count':
            count, size, front = int(words[0]), int(words[1]), unhex(words[2])
            text.say(f'count {rest}')
            text.files[0] = text.files[0][:-1] + framed(b'', [front + number.to_bytes(size, 'big') for number in range(count)])
        elif kind == 'usage':
            told = Outcome(status=1, err=line_of('usage: word ' + words[0]), asks=False)
            text.tell('try', rest.partition(' ')[2], told, 'input 78')
        else:
            self.play_damage(kind, rest, words)

    def play_damage(self, kind, rest, words):
        text = self.text
        if kind == 'find':
            text.find(rest)
        elif kind == 'bases':
            self.bases = [unhex(digits) for digits in words]
        elif kind == 'grow':
            first, second, *after = map(unhex, words)
            text.put_files(first, second)
            text.tell('try', 'contact', Outcome(b'contact 0\n', after=enumerate(after)))
        elif kind == 'unfit':
            (spelled, *before), last = words[:-2], unhex(words[-1])
            text.journal(int(spelled), 1, [unhex(digits) for digits in before if digits != '-'])
            place = len(text.files[0]) - 1
            text.say('add ' + last.hex())
            text.find(f'damaged 0 {place}')
        elif kind == 'foreign':
            for files in ((unhex(rest), b''), (b'', unhex(rest)), (unhex(rest), unhex(rest))):
                text.put_files(*files)
                text.find('none')
                text.tell('try', 'init', Outcome(b'ready\n', after=[(0, header(SHORT, 1) + CLOSED)]))
        else:
            for base in self.bases:
                self.change(kind, base, words)

    def change(self, kind, base, words):
        """A file that is changed at a place is looked at; `set` has a value too."""
        place, found = words[0], ' '.join(words[2 if kind == 'set' else 1:])
        if kind == 'raw':
            self.text.put_files(base[:-1] + unhex(place))
        elif kind == 'cut':
            self.text.put_files(base[:int(place)])
            self.text.find(found)
            self.text.put_files(b'', base[:int(place)])
            found = found.replace('damaged 0', 'damaged 1')
        else:
            at = int(place)
            value = int(words[1]) if kind == 'set' else 255 - base[at]
            self.text.put_files(base[:at] + bytes([value]) + base[at + 1:])
        self.text.find(found)


# ---- what the models of the other programs say

def play_sharing(text):
    made = [(name.lower().replace('_', ' '), scene()) for name, scene in SHARING_SCENES]
    made += [(f'drawn {seed}', agrees_at_random(seed)) for seed in SEEDS]
    for name, scene in made:
        text.case('say and agree: ' + name)
        text.journal(SHORT, 1, [bytes.fromhex(digits) for digits in scene.begun()])
        for words, out, adds in scene.steps:
            after = text.files[0][:-1] + framed(b'', map(bytes.fromhex, adds))
            text.tell('run', words, Outcome(out.encode(), after=[(0, after)]))
    play_agree_again(text, agrees_at_length())


def play_agree_again(text, scene):
    """An `agree` of several frames is crashed, and run again: it ends the work."""
    text.case('an agree that is crashed, and run again')
    before = [bytes.fromhex(digits) for digits in scene.begun()]
    text.journal(SHORT, 1, before)
    (words, out, adds), = scene.steps
    stores = stores_of(True, before, [bytes.fromhex(digits) for digits in adds])
    done = Outcome(out.encode())
    states = [state(audit_of(it), done.answer(), front_of(SHORT, 1, stores[-1])) for it in stores]
    text.say(f'crash {words} / {words}')
    text.seen(f'> crash {words} / {words}', crashed(done, states, CRASH))
    text.count()


def person_of(payloads):
    """A person whose journal has these payloads."""
    person = Person()
    person.store.read(framed(header(SHORT, 1), payloads))
    person.store.journal.clients = ALL_CLIENTS
    return person


def with_contact(payloads):
    """What `contact` prints over a journal of these payloads, and the payloads then."""
    person = person_of(payloads)
    out = adds_contact(person)
    return out, person.batches


def play_old(text):
    person = heard()
    payloads = list(person.batches)
    first = framed(header(WHOLE, 1), respelled(payloads, SHORT, WHOLE))
    text.case('a store of format 1 that is looked at, and what it becomes')
    for files in ((first, b''), (first, framed(header(SHORT, 2), payloads)), (framed(header(WHOLE, 2 ** 64 - 1), respelled(payloads, SHORT, WHOLE)), b'')):
        text.put_files(*files)
        for words, out in looks_at(person):
            text.tell('try', words, Outcome(out))
    for number, (person, words, given, does) in enumerate(OLD_SCENES + [(heard(), 'contact', b'', adds_contact)]):
        text.case('a store of format 1 that is added to: ' + words)
        before = list(person.batches)
        out = does(person).encode()
        adds = person.batches[len(before):]
        old = list(respelled(before, SHORT, WHOLE))
        text.journal(WHOLE, 1, old)
        prepared = ['input ' + given.hex()] if given else []
        done = Outcome(out, after=[(1, framed(header(SHORT, 2), before + adds))])
        text.tell('try', words, done, *prepared)
        if number < len(OLD_SCENES):
            play_old_crashes(text, words, prepared, done, before, adds, old)


def play_old_crashes(text, words, prepared, done, before, adds, old):
    """The journal is written anew first, which ends like an append: its header's gate is written and synced."""
    stores = [before] + stores_of(True, before, adds)
    fronts = [front_of(WHOLE, 1, old)] + [front_of(SHORT, 2, it) for it in stores[1:]]
    shows = [state(audit_of(it), told_output(show_text(it).encode()), front) for it, front in zip(stores, fronts)]
    goes_on = []
    for it in stores:
        out, after = with_contact(it)
        goes_on.append(state(audit_of(it), told_output(out.encode()), front_of(SHORT, 2, after)))
    for kind, names, next_words, states in (('crash', CRASH, 'show', shows), ('crash', CRASH, 'contact', goes_on), ('fails', FAIL, 'show', shows)):
        title = f'{kind} {words} / {next_words}'
        text.say(*prepared, title)
        text.seen('> ' + title, crashed(done, states, names))
        text.count()


def play_migrated(text):
    """Stores of format 1 that other programs made by the bytes, and what a command that adds makes of them."""
    text.case('stores of format 1 that are written anew')
    for label, old, new in migrated():
        text.say('# ' + label)
        text.put_files(old)
        number = int(label != 'no batch')
        text.tell('try', 'contact', Outcome(b'contact %d\n' % number, after=[(1, new[:-1] + framed(b'', [bytes([1, number])]))]))


def left_at_each_call(second, new, frames, is_copied):
    """What the other file reads as behind each call of a journal's being written anew that fails, in order: a migration, in which the
    old frames are read and copied, or a compaction. Its frames are added in groups. Once its closed gate is on the disk, and before the
    write that opens it, the file is cut to its first byte."""
    shut = CLOSED + second[1:]
    before = [second] * (3 if is_copied else 0)
    gate = [second] + ([second, shut] if second[:1] in (b'', OPEN) else [])
    clear = gate + [CLOSED] * (calls_of_clear(second) - len(gate))
    reads = [CLOSED] * (2 * frames + 1) if is_copied else []
    return before + clear + [CLOSED] * 2 + reads + [CLOSED] * APPEND * groups_of(new) + [CLOSED + new[1:], new]


def play_taken_back(text):
    """A migration and a compaction of which each call of the disk fails, over another file that is empty, and over an older journal."""
    payloads = list(held(NOTE).batches)
    first, older = (framed(header(WHOLE, generation), respelled(payloads, SHORT, WHOLE)) for generation in (2, 1))
    new = framed(header(SHORT, 3), payloads)
    store = Store(ALL_CLIENTS)
    store.read(framed(header(SHORT, 2), payloads))
    plain = store.files[0]
    assert not list(store.journal.settling())
    store.compact()
    account = store.files[1]
    scenes = (('contact', first, new, len(payloads), True), ('compact', plain, account, len(list(frames(account))), False))
    for words, journal, anew, count, is_copied in scenes:
        text.case('a journal that is written anew, and a call that fails: ' + words)
        # a load syncs both files, reads two headers and the length, each frame by two calls, and the closed gate
        load = 2 + 2 + 1 + 2 * len(list(frames(journal))) + 1
        for second in (b'', older):
            text.put_files(journal, second)
            for call, left in enumerate(left_at_each_call(second, anew, count, is_copied)):
                fault = Outcome(status=DISK_FAULT, err=b'disk fault\n', after=[(1, left)])
                text.tell('try', words, fault, f'faildisk {load + call}')


def play_settled(text):
    """A post that is crashed: what is left is settled by the next command that adds."""
    text.case('a post that is crashed, and settled')
    before, added = held(NOTE).batches[:2], held(NOTE).batches[2:]
    words = f'post {NOTES.hex()} 0'
    text.journal(SHORT, 1, before)
    text.say('input 78', f'crash {words} / contact')
    stores = stores_of(True, before, added)
    states = []
    for it in stores:
        out, after = with_contact(it)
        states.append(state(audit_of(it), told_output(out.encode()), front_of(SHORT, 1, after)))
    posted = f'posted {message_id(NOTES, 0, b"x").hex()}\n'
    text.seen(f'> crash {words} / contact', crashed(Outcome(posted.encode()), states, CRASH))
    text.count()


# ---- mailbox files

VERSION = record_bytes(VERSIONS, b'\0')


def mail_of(person, words, given):
    """What a mailbox file comes to over a person's store, which it changes."""
    kind, contact, *rest = words.split()[1:]
    before = list(person.batches)
    mail = Mail(person.store, int(contact))
    status, err, out = mail.read(given) if kind == 'in' else mail.write(0, *map(int, rest))
    after = framed(header(SHORT, 1), person.batches)
    return Outcome(out, status, err.encode(), [(0, after)]), person.batches[len(before):]


def friend():
    """A store with two notes, which a contact is to have."""
    person = bare(NOTE)
    person.share(0, NOTES, SHARED)
    for time in (5, 6):
        person.post(NOTES, time, b'mine')
    return person


def play_mail(text):
    """Mailbox files of which each call fails: all that is taken or sent is there, with the session, or nothing."""
    note = lambda time: message_record(NOTES, time, b'theirs')
    whole = [VERSION, note(1), record_bytes(ACK, message_id(NOTES, 5, b'mine')), note(2), record_bytes(OFFER, bytes(32)), note(1)]
    for name, words, given in (
            ('a whole one', 'mailbox in 0', b''.join(whole)),
            ('with what is no record in its middle', 'mailbox in 0', b''.join([*whole, b'\1', note(3)])),
            ('that ends inside a record', 'mailbox in 0', b''.join([*whole, note(3)[:-1]])),
            ('of another version', 'mailbox in 0', b''.join([*whole[:2], record_bytes(VERSIONS, b'\1'), note(3)])),
            ('that is empty', 'mailbox in 0', b''),
            ('that is written', 'mailbox out 0 1000 10', b''),
            ('that is written, and has not all', 'mailbox out 0 1000 1', b'')):
        person = friend()
        before = list(person.batches)
        outcome, adds = mail_of(person, words, given)
        text.case('a mailbox file that fails, ' + name)
        text.journal(SHORT, 1, before)
        play_scene(text, words, True, before, given, outcome, adds)
    play_old_mail(text)
    play_long_mail(text)


def play_old_mail(text):
    """Before a file is read into a store of format 1 the journal is written anew and settled."""
    person = heard()
    before = list(person.batches)
    given = VERSION + message_record(NOTES, 9, b'new')
    person.store.settle()
    outcome, _ = mail_of(person, 'mailbox in 0', given)
    adds = person.batches[len(before):]
    old = list(respelled(before, SHORT, WHOLE))
    text.case('a store of format 1 into which a mailbox file is read')
    text.journal(WHOLE, 1, old)
    outcome.after = {1: framed(header(SHORT, 2), before + adds)}
    play_old_crashes(text, 'mailbox in 0', ['input ' + given.hex()], outcome, before, adds, old)


def play_long_mail(text):
    """Files whose batches are more than a group has, and whose frames are longer than one is."""
    long = b'x' * 32_768
    for name, spelled in (('of more records than a group has batches', '{%s*%d}' % (VERSION.hex(), MOST_BATCHES + 100)),
                          ('of more bytes than a group has', ''.join('%s{78*32768}' % message_record(NOTES, time, long)[:44].hex() for time in range(33)))):
        person = friend()
        before = list(person.batches)
        outcome, adds = mail_of(person, 'mailbox in 0', unhex(spelled))
        groups = gathered(adds)
        assert len(groups) == 2
        text.case('a mailbox file ' + name)
        text.journal(SHORT, 1, before)
        # a load syncs both files, reads two headers and the length, each frame by two calls, and the closed gate
        load = 2 + 2 + 1 + 2 * len(before) + 1
        stood = framed(header(SHORT, 1), before)
        for number, group in enumerate(groups):
            behind = stood[:-1] + framed(b'', group)
            for call, left in enumerate((stood, stood + behind[len(stood):], stood + behind[len(stood):], behind)):
                fault = Outcome(status=DISK_FAULT, err=b'disk fault\n', after=[(0, left)])
                text.tell('try', 'mailbox in 0', fault, 'input ' + spelled, f'faildisk {load + APPEND * number + call}')
            stood = behind
        text.tell('try', 'mailbox in 0', outcome, 'input ' + spelled)


WAITING = 599


def play_cascade(text):
    """Messages that wait for one which arrives last: their settling takes three batches, which are added together or not at all."""
    person = bare(THREAD)
    person.share(0, THREADS, VISIBLE)
    person.attach(0, BATCH)
    root = b'\0r'
    parent = message_id(THREADS, 0, root)
    for time in range(WAITING):
        person.hears(0, message_record(THREADS, time, b'\1' + parent + b'.'))
    person.unsettled(lambda: person.hears(0, message_record(THREADS, 0, root)))
    text.case(f'{WAITING} messages that wait for one')
    before = list(person.batches)
    text.journal(SHORT, 1, before)
    out = adds_contact(person)
    added = person.batches[len(before):]
    # a step of format 2 has five bytes
    assert [len(it) // 5 for it in added[:-1]] == [256, 256, 89]
    # a load syncs both files, reads two headers and the length, each frame by two calls, and the closed gate
    load = 2 + 2 + 1 + 2 * len(before) + 1
    # behind the closed gate of the first all three are written before it is opened
    front, steps = framed(header(SHORT, 1), before)[:-1], framed(b'', added[:-1])
    for call, left in ((0, front + CLOSED), (2, front + CLOSED + steps[1:]), (APPEND, front + steps)):
        text.tell('try', 'contact', Outcome(status=DISK_FAULT, err=b'disk fault\n', after=[(0, left)]), f'faildisk {load + call}')
    text.tell('run', 'contact', Outcome(out.encode(), after=[(0, framed(header(SHORT, 1), before + added))]))


# which messages of a diamond come in which order: 1 its root, 2 and 3 its sides, 4 its end; 0 is an ACK, and 101 is of another group.
# And whether the root is refused
PLAYS = (([1, 2, 3, 4], False), ([4, 3, 2, 1], False), ([2, 4, 1, 3], False), ([4, 1, 3, 2], False), ([1, 1, 2, 1, 2], False),
         ([2, 0, 101, 1, 0], False), ([4, 2, 3, 1], True), ([1, 2], True), ([2, 4, 3], False), ([101, 0], False))
# which messages each of a chain, and each of a diamond, names
CHAIN, DIAMOND = ((), (0,), (1,), (2,)), ((), (0,), (0,), (1, 2))


def told_of(group, messages):
    """What `try` prints of these messages, by the model of a node: each step as it is taken, and what is pending at the end."""
    journal, told = Journal(), []
    for entry in (('contact', 0), ('group', *group), ('level', 0, group_id(*group), VISIBLE), ('session', 0, 0, BATCH, 1000, None)):
        journal.apply(entry)
    line = lambda kind, id: f'{kind} {id.hex()} {journal.find(id).timestamp} {len(journal.find(id).body)}\n'
    for message in messages:
        for entry in journal.taken(0, ('message', *message)):
            journal.apply(entry)
        for batch in journal.settling():
            told += [line(kind, id) for kind, id in batch if kind != 'judged']
    told += [line('pending', held.id) for held in journal.held if journal.state(held) == 'pending']
    return ''.join(told).encode()


def woven(group, parents_of, time, text_of):
    """Thread messages, each of which names some before it: by its number how they are named, when it was written, and its text."""
    messages = []
    for number, parents in enumerate(parents_of):
        ids = [message_id(*messages[parent]) for parent in parents]
        messages.append((group, time(number), bytes([len(ids)]) + b''.join(ids) + text_of(number)))
    return messages


def play_tries(text):
    """Messages that wait for others, in many orders."""
    group = (b'thread', 0, b'd')
    own, other = group_id(*group), group_id(b'thread', 0, b'e')

    def hear(records, messages):
        told = Outcome(told_of(group, messages), asks=False)
        text.tell('try', 'try thread d', told, 'input ' + b''.join(records).hex())

    text.case('streams of a diamond, of which some are refused, some come twice, and some not at all')
    for heard, refuses in PLAYS:
        texts = [b'\xff' if refuses and number == 0 else bytes([number + 1]) * (number + 1) for number in range(4)]
        named, away = (woven(it, DIAMOND, lambda number: 1001 + number, lambda number: texts[number]) for it in (own, other))
        acknowledged = record_bytes(0, message_id(*named[0]))
        messages = [(away if number > 100 else named)[number % 100 - 1] for number in heard if number]
        hear([acknowledged if number == 0 else message_record(*(away if number > 100 else named)[number % 100 - 1]) for number in heard], messages)
    text.case('a chain and a diamond in every order')
    for order in itertools.permutations(range(4)):
        for parents_of in (CHAIN, DIAMOND):
            named = woven(own, parents_of, lambda number: 5, lambda number: b'abcd'[number:number + 1])
            messages = [named[number] for number in order]
            hear([message_record(*message) for message in messages], messages)


LEFT = 268435456
ROOM = {WHOLE: 38, SHORT: 10}


def status_text(spelled, generation, payloads):
    """What `status` prints of a journal: a step that is left keeps its room, two for a message that is not judged and one for another
    that is neither delivered nor invalid."""
    facts = facts_of(payloads if spelled == SHORT else respelled(payloads, WHOLE, SHORT))
    states = [facts.state(it) for it in facts.held]
    end = len(framed(header(spelled, generation), payloads))
    free = LEFT - end - ROOM[spelled] * (2 * states.count('unknown') + states.count('pending'))
    counts = f'held {len(states)} delivered {len(facts.delivered)} sessions {facts.begun}\n'
    return f'{counts}journal {end} free {free}\nversion {PROGRAM}\n'.encode()


def play_status(text, names):
    """The journals that commands.txt names, and one whose account tells of sessions before."""
    text.case('the status of each journal by hand')
    journals = [(WHOLE if name.startswith('OLD_') else SHORT, value) for name, value in names.items()
                if value.startswith(('0100 ', '1000000000 '))]
    account = names['ACCOUNT_GONE']
    for spelled, value in journals + [(SHORT, account.replace('1000000000', '1000000007').replace('040000000000', '040000000700'))]:
        payloads = [unhex(digits) for digits in value.split()]
        text.journal(spelled, 3, payloads)
        text.tell('try', 'status', Outcome(status_text(spelled, 3, payloads)))


# ---- a node that serves

def prepare(text, answered):
    """The lines of some requests."""
    for it in answered:
        words = typed(' '.join(it.words))
        if isinstance(it.given, str):
            text.say(f'{it.given} {words}')
        else:
            text.say(*(['input ' + it.given.hex()] if it.given else []), 'ask ' + words)


def serves(text, outcome, *prepared):
    text.say(*prepared, 'serve')
    text.answers += ['> serve std', *outcome.lines(text.files)]
    text.count()


def lives(seeds, life=drawn_life):
    return [(seed, life(seed)) for seed in seeds]


def begin_life(text, name, served):
    text.case('a node that serves: ' + name)
    text.journal(SHORT, 1, served.begun.payloads)


def answered_of(served, number):
    """A node that was asked the first so many requests: its answers, and its files."""
    again = type(served)(served.begun.payloads)
    for it in served.answered[:number]:
        again.ask(it.words, it.given)
    return again.answered, dict(enumerate(again.store.files))


def play_served(text):
    for seed, served in lives(range(60)):
        begin_life(text, f'drawn {seed}', served)
        prepare(text, served.answered)
        serves(text, Outcome(text_of(served.answered), after=enumerate(served.store.files)))
    for seed, served in lives(range(100, 130), stopped_life):
        begin_life(text, f'stopped {seed}', served)
        given = b''.join(spelled_request(it.words, it.given) for it in served.answered)
        for kind, names in (('crash', CRASH), ('fails', FAIL)):
            text.say('input ' + given.hex(), f'{kind} serve std / show')
            told = [Outcome(out, DISK_FAULT if failed else 0, b'disk fault\n' if failed else b'').answer() for out, failed in texts_at(served)]
            shown = {}

            def seen(it):
                if it.front not in shown:
                    shown[it.front] = state(audit_of(it.payloads), told_output(looked_at(it.payloads)), it.front)
                return shown[it.front]
            text.seen(f'> {kind} serve std / show', [('answer', told)] + [(name, list(map(seen, states_at(served, name)))) for name in names])
            text.count()
    play_served_beginnings(text)
    play_served_streams(text)
    play_served_faults(text)


def play_served_beginnings(text):
    """What a node finds: no store, a damaged one, one that is not settled, one of format 1, and one of these with no next generation."""
    text.case('a node that serves: what it finds')
    text.put_files(b'')
    text.tell('try', 'serve std', Outcome(status=NO_STORE, err=b'no store\n'), 'input 78')
    text.put_files(header(SHORT, 1))
    text.tell('try', 'serve std', Outcome(status=DAMAGED, err=b'damaged: file 0 at 14\n'), 'input 78')
    for person in (fresh(NOTE), spoken(), heard()):
        before = list(person.batches)
        person.store.settle()
        old, after = list(respelled(before, SHORT, WHOLE)), person.batches
        shown = show_text(after).encode()
        told = GREETING + b'0 %d 0\n' % len(shown) + shown
        for spelled, payloads, file in ((SHORT, before, (0, framed(header(SHORT, 1), after))), (WHOLE, old, (1, framed(header(SHORT, 2), after)))):
            text.journal(spelled, 1, payloads)
            serves(text, Outcome(told, after=[file]), 'ask show')
    text.put_files(framed(header(WHOLE, 2 ** 64 - 1), old))
    text.tell('try', 'serve std', Outcome(status=10, err=b'full\n'), 'input 78')


def play_served_streams(text):
    """Reads and writes that fail, and a stream that ends at each of its bytes."""
    for seed, served in lives(range(200, 206)):
        begin_life(text, f'streams {seed}', served)
        parts = [spelled_request(it.words, it.given) for it in served.answered]
        given, quits = b''.join(parts), served.answered[-1].words == ['quit']
        ends = list(itertools.accumulate(map(len, parts)))
        whole = reads_of(given)
        piece = len(given) // 4 + 1
        for call in range(whole - quits):
            number = sum(end <= call * piece for end in ends)
            answered, after = answered_of(served, number)
            prepare(text, served.answered)
            serves(text, Outcome(text_of(answered), READ_FAULT, b'read fault\n', after), f'failread {call}')
            text.journal(SHORT, 1, served.begun.payloads)
        fronts = fronts_of(served.answered, PIECE)
        for call in (*range(6), len(fronts) // 2, len(fronts) - 1):
            length, number = fronts[call]
            after = answered_of(served, number)[1]
            prepare(text, served.answered)
            serves(text, Outcome(text_of(served.answered)[:length], WRITE_FAULT, b'write fault\n', after), f'failout {call}')
            text.journal(SHORT, 1, served.begun.payloads)
    for seed, served in lives((300, 301), stopped_life):
        begin_life(text, f'cuts {seed}', served)
        prepare(text, served.answered)
        text.say('cuts')
        text.answers.append('> cuts')
        cut, last = 0, None
        for number in range(len(served.answered) + 1):
            answered, after = answered_of(served, number)
            lines = Outcome(text_of(answered), after=after).lines(text.files)
            if lines != last:
                text.answers += [f'from {cut}', *lines]
            last = lines
            if number < len(served.answered):
                cut += len(spelled_request(served.answered[number].words, served.answered[number].given))
        text.count()


FAULTS = (b'\n', b'x\n', b'5\n', b' 5 0\n', b'5  0\n', b'5 0 \n', b'05 0\n', b'5 00\n', b'+5 0\n', b'-5 0\n', b'5\t0\n', b'5 0\r\n', b'5 Long\n', b'5 fail\n',
          b'32769 0\n', b'0 268435457\n', b'18446744073709551621 0\n'[:16], b'\xff\xff\n', b'0123456789abcdef', b'4 0\nshow', b'1 failed\nx')
HALVES = (b'5', b'5 0', b'0123456789abcde', b'5 0\n', b'5 0\nshow', b'5 3\nshow\0ab', b'32768 268435456')


def play_served_faults(text):
    """What is no request behind one that is, half of one, and words that are none."""
    served = begun_node(random.Random(1))
    served.ask(['contact'])
    told, after = text_of(served.answered), list(enumerate(served.store.files))
    begin_life(text, 'what is no request', served)
    for fault in FAULTS:
        prepare(text, served.answered)
        text.say('raw ' + fault.hex())
        prepare(text, served.answered)
        serves(text, Outcome(told + b'1 0 18\n' + NO_REQUEST, 1, NO_REQUEST, after))
        text.journal(SHORT, 1, served.begun.payloads)
    begin_life(text, 'half a request', served)
    for half in HALVES:
        prepare(text, served.answered)
        serves(text, Outcome(told, after=after), 'raw ' + half.hex())
        text.journal(SHORT, 1, served.begun.payloads)
    begin_life(text, 'words that are none', served)
    for data, place in ((b'0 0\n', 0), (b'0 3\nabc', 0), (b'0 failed\n', 0), (b'0 long\n', 0), (b'1 0\n\0', 0), (b'2 0\n\xff\0', 0), (b'7 1\nbody\0\xff\0i', 1),
                        (b'6 0\nshow\0\0', 1), (b'5 0\nhelp\0', 0), (b'6 0\nserve\0', 1), (b'12 0\nserve\0sockt\0', 1), (b'12 0\nserve\0std\0x\0', 2)):
        line = b'usage: word %d\n' % place
        serves(text, Outcome(GREETING + b'1 0 %d\n' % len(line) + line), 'raw ' + data.hex())


def play_audits(text):
    text.case('audits')
    for first, second, line in audit_rows():
        text.put_files(bytes.fromhex(first), bytes.fromhex(second))
        status = {'legal': 0, 'no': NO_STORE, 'damaged:': DAMAGED}[line.split()[0]]
        text.tell('try', 'audit', Outcome(err=line.encode(), status=status) if status else Outcome(line.encode()))


def made():
    text = Text()
    reader = Reader(text)
    with open(os.path.join(FOLDER, 'commands.txt')) as lines:
        reader.read(lines.read().split('\n'))
    play_begun_twice(text)
    play_sharing(text)
    play_old(text)
    play_migrated(text)
    play_taken_back(text)
    play_settled(text)
    play_mail(text)
    play_cascade(text)
    play_tries(text)
    play_audits(text)
    play_status(text, reader.names)
    play_served(text)
    text.end()
    return text


def main(words):
    text = made()
    if words == ['--count']:
        return print('\n'.join(f'{count:6} {name}' for name, count in text.counts.items()), f'\n{sum(text.counts.values()):6} in all')
    for name, lines in (('stdin', text.cases), ('stdout', text.answers)):
        with open(os.path.join(CRATE, name), 'w') as file:
            file.write('\n'.join(lines) + '\n')


if __name__ == '__main__':
    main(sys.argv[1:])
