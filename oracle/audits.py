"""What `audit` comes to over two files: command_cases.py makes cases of these.

The stores are those of old_stores.py and of the worked rows of docs/FORMATS.md; what is told of a journal is counted here: good and bad
by rounds over all held messages and what their clients say of them, judged or not, and the journal is open while run_model.py finds
a step. Nothing here is shared with the program.
"""
from digests import message_id
from journal import SHORT, WHOLE, entries, entry_of, frames, respelled
from old_stores import NOTES, THREADS, bare, ended, fresh, heard, held, spoken
from run_model import BATCH, VISIBLE, Journal, Store, message_record
from sharing import ALL_CLIENTS, NOTE, THREAD
from store_file import CLOSED, framed, header


class Audited(Journal):
    """The facts of a journal, and how often there was a batch and an entry."""

    def __init__(self, payloads):
        super().__init__(ALL_CLIENTS)
        self.batches = self.entries = 0
        for payload in payloads:
            # but for settling, a batch stands behind a settled journal
            assert payload[0] in (8, 9, 10) or not self.next_step()
            self.batches += 1
            for tag, rest in entries(payload, SHORT):
                self.entries += 1
                self.apply(entry_of(tag, rest, self.named))

    def are_beside(self, it, ids):
        """Whether each of the ids is one of a message of the same group that is held."""
        return all((other := self.find(id)) and other.group == it.group for id in ids)

    def rounds(self):
        """The ids of the good and of the bad messages, each set grown for as many rounds as messages are held."""
        good, bad = set(), set()
        for _ in self.held:
            said = [(it, self.answer(it)) for it in self.held]
            good |= {it.id for it, answer in said if answer and set(answer[0]) <= good and self.are_beside(it, answer[0])}
            bad |= {it.id for it, answer in said if answer is None or set(answer[0]) & bad
                    or any(self.find(id) and not self.are_beside(it, [id]) for id in answer[0])}
        return good, bad

    def line(self):
        good, bad = self.rounds()
        step = self.next_step()
        assert step or good == set(self.delivered) and bad == self.invalid
        return f'legal {self.batches} {self.entries} {len(good)} {len(bad)} {"open" if step else "settled"}\n'


# ---- stores

def last_unjudged():
    """A note, a refused one, a reply to a message that is not held, one to a note, a reply to that one, and a chain of replies that
    waits for its root, which comes last and is not judged: four are good, of which one is delivered.
    """
    person = bare(NOTE, THREAD)
    for group in (NOTES, THREADS):
        person.share(0, group, VISIBLE)
    person.attach(0, BATCH)

    def hear(group, time, body):
        person.hears(0, message_record(group, time, body))
        return message_id(group, time, body)
    root = message_id(THREADS, 1, b'\0root')
    reply = message_id(THREADS, 2, b'\1' + root + b'reply')
    note = hear(NOTES, 4, b'note')
    hear(THREADS, 8, b'\1' + bytes(32) + b'lost')
    crossed = hear(THREADS, 5, b'\1' + note + b'crossed')
    hear(THREADS, 6, b'\2' + crossed + root + b'behind it')
    hear(NOTES, 7, b'\xff')
    hear(THREADS, 3, b'\2' + root + reply + b'both')
    hear(THREADS, 2, b'\1' + root + b'reply')
    person.unsettled(lambda: hear(THREADS, 1, b'\0root'))
    return person


def settled(person):
    person.store.settle()
    return person


def brief_of(payloads):
    """The payloads of the brief account of a journal that is settled."""
    store = Store()
    store.read(framed(header(SHORT, 1), payloads))
    store.settle()
    assert store.compact()
    return [payload for _, payload in frames(store.files[store.at])]


STORES = [it.batches for it in (bare(), fresh(NOTE), held(NOTE), held(NOTE, THREAD), ended())] + [
    ended().batches[:-1], spoken().batches, spoken().batches[:-1], heard().batches, settled(heard()).batches,
    last_unjudged().batches, settled(last_unjudged()).batches,
]


# ---- the rows

def rows():
    yield '', '', 'no store\n'
    yield '00', '014253504a02', 'no store\n'
    yield (header(SHORT, 1) + CLOSED).hex(), '', 'legal 0 0 0 0 settled\n'
    yield '', (header(WHOLE, 2 ** 64 - 1) + CLOSED).hex(), 'legal 0 0 0 0 settled\n'
    for payloads in STORES:
        line = Audited(payloads).line()
        yield framed(header(SHORT, 1), payloads).hex(), '', line
        yield '', framed(header(WHOLE, 1), respelled(payloads, SHORT, WHOLE)).hex(), line
    for person in (held(NOTE), heard(), last_unjudged()):
        account = brief_of(person.batches)
        yield framed(header(SHORT, 2), account).hex(), '', Audited(account).line()
    # of two files the one with the greater generation, and of two equal ones the first
    one, other = bare().batches, held(NOTE).batches
    for first, second, of in ((1, 2, other), (2, 1, one), (7, 7, one)):
        yield framed(header(SHORT, first), one).hex(), framed(header(SHORT, second), other).hex(), Audited(of).line()
    # a contact, then its payload with another kind or another number, and its file cut
    contact = framed(header(SHORT, 1), one)
    for at, value in ((19, 0x63), (20, 5)):
        yield contact[:at].hex() + f'{value:02x}' + contact[at + 1:].hex(), '', 'damaged: file 0 at 14\n'
    for length, place in ((19, 14), (21, 21)):
        yield contact[:length].hex(), '', f'damaged: file 0 at {place}\n'
        yield '', contact[:length].hex(), f'damaged: file 1 at {place}\n'
    yield (header(3, 1) + CLOSED).hex(), '', 'damaged: file 0 at 5\n'
