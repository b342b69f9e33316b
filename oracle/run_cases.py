#!/usr/bin/env python3
"""Writes the cases of crates/test_runs: `run_cases.py >stdin`, and `run_model.py stdin >stdout` is what they must print.
The named ones come first; then some that are drawn, the same each time."""
import io
import random

from digests import group_id, message_id
from journal import SHORT, WHOLE, respelled
from old_stores import bare, heard
from sharing import NOTE
from store_file import framed, header
from run_model import Cases, IDLE, Node, PIECE, SHARED, entry_bytes, expanded, record_bytes

NOTES, THREADS, FEEDS, CYCLE = (group_id(name, 0, b'd') for name in (b'note', b'thread', b'feed', b'cycle'))
ROW_8 = '0004000100 00090002aabb 00050010000102030405060708090a0b0c0d0e0f'.replace(' ', '')


def say(*lines):
    for line in lines:
        print(line)


def case(name, *lines):
    say('case ' + name, *lines)


def message(group, timestamp, body):
    return record_bytes(1, group + timestamp.to_bytes(8, 'big') + body)


def ids_record(kind, ids):
    return record_bytes(kind, b''.join(ids))


def some_ids(first, count):
    return [message_id(NOTES, n, b'unknown') for n in range(first, first + count)]


def group(name, gid, *levels):
    say('do group %s 0 d' % name)
    for contact, level in levels:
        say('do share %d %s %s' % (contact, gid.hex(), level))


def contacts(count):
    for _ in range(count):
        say('do contact')


def post(gid, timestamp, body):
    say('input ' + body.hex(), 'do post %s %d' % (gid.hex(), timestamp))
    return message_id(gid, timestamp, body)


def reply(parents, text):
    return bytes([len(parents)]) + b''.join(parents) + text


# ---- the named ones

def one_contact(level='shared'):
    contacts(1)
    group('note', NOTES, (0, level))


def named():
    case('a posted message goes out on an empty link')
    one_contact()
    post(NOTES, 0, b'x')
    say('end 0 1', 'sync 10 1 0 batch 1000 std')

    case('two links to one contact, the lesser nonce is closed')
    contacts(1)
    say('nonce ' + '00' * 15 + '01', 'nonce ' + '00' * 15 + '02', 'idle 0 5', 'idle 1 5')
    say('sync 5 1 0 interactive 1000 tcp:x 0 interactive 1000 tcp:y')

    case('equal nonces, the first link is kept; another contact is left alone')
    contacts(2)
    say(*['nonce ' + '07' * 16] * 3, 'idle 0 9', 'idle 1 9', 'idle 2 9')
    say('sync 9 2 0 interactive 1000 tcp:x 0 interactive 1000 unix:y 1 interactive 5 tcp:z')

    case('a listening link has the nonce that it heard')
    contacts(1)
    say('nonce ' + '05' * 16, 'got 1 ' + record_bytes(5, b'\x09' * 16).hex(), 'idle 0 9', 'idle 1 9')
    say('sync 9 1 0 interactive 1000 tcp:x 0 interactive 1000 listen:y')

    case('versions without 0')
    contacts(1)
    say('got 0 0004000101', 'sync 5 1 0 batch 1000 std')

    case('always idle, dialled and interactive')
    contacts(1)
    say('nonce 000102030405060708090a0b0c0d0e0f', 'idle 0 9', 'sync 10 3 0 interactive 1000 tcp:x')
    say('nonce 000102030405060708090a0b0c0d0e0f', 'idle 0 9', 'sync 2 3 0 interactive 1000 tcp:x')

    case('a dial that fails, and a nonce')
    contacts(2)
    say('faildial 0', 'sync 3 1 0 batch 1000 tcp:x')
    say('faildial 1', 'sync 3 1 0 batch 1000 tcp:x 1 batch 1000 tcp:y')
    say('nonce ' + '01' * 16, 'sync 3 1 0 interactive 9 tcp:x 1 interactive 9 unix:y 0 batch 9 std')
    say('sync 3 1 0 batch 1 std 7 batch 1 unix:y')

    case('calls that fail')
    one_contact()
    post(NOTES, 0, b'x')
    say('fail 0 1', 'sync 3 1 0 batch 1000 std')
    say('failsend 0', 'idle 0 3', 'sync 3 1 0 batch 1000 std')
    say('failsend 1', 'idle 0 3', 'clock 5000', 'sync 3 1 0 batch 1000 std')
    say('failsend 1', 'nonce ' + '02' * 16, 'sync 3 1 0 interactive 10 tcp:x')
    say('fail 1 1', 'clock 1000000', 'end 0 1', 'sync 4 1 0 batch 9 std 0 batch 9 listen:x')

    case('a group that is invisible, then visible, then shared with another')
    contacts(2)
    group('note', NOTES)
    one = message(NOTES, 3, b'hello')
    held = message_id(NOTES, 3, b'hello')
    for record in (one, ids_record(0, [held]), ids_record(3, [held]), ids_record(2, [held])):
        say('got 0 ' + record.hex())
    say('end 0 1', 'sync 9 1 0 batch 1000 std')
    say('do share 0 %s visible' % NOTES.hex(), 'do share 1 %s visible' % NOTES.hex())
    say('got 0 ' + one.hex(), 'end 0 1', 'end 1 1', 'sync 9 1 0 batch 1000 std 1 batch 1000 listen:x')
    say('do share 1 %s shared' % NOTES.hex(), 'end 0 1', 'end 1 1')
    say('sync 9 1 1 batch 1000 std 0 batch 1000 listen:x')

    case('ids that are not known')
    one_contact()
    for kind in (0, 3):
        say('got 0 ' + ids_record(kind, some_ids(0, 5) + some_ids(2, 5)).hex())
    say('end 0 1', 'sync 9 1 0 batch 1000 std')

    case('1,536 offered ids and again; 1,000 are requested')
    contacts(1)
    offer = ids_record(2, some_ids(0, 1536)).hex()
    say('got 0 ' + offer, 'got 0 ' + offer, 'sync 2 1 0 batch 1000 std')
    say('idle 0 9', 'sync 9 1 0 interactive 1000 listen:x')

    case('offered, requested, sent and acknowledged')
    one_contact()
    mine = post(NOTES, 1, b'mine')
    theirs = message(NOTES, 2, b'theirs')
    say('nonce ' + '03' * 16, 'got 0 0004000100', 'idle 0 1')
    say('got 0 ' + (ids_record(3, [mine]) + ids_record(2, [message_id(NOTES, 2, b'theirs')])).hex())
    say('got 0 ' + (ids_record(0, [mine]) + theirs).hex(), 'idle 0 3')
    say('clock 1000', 'sync 9 2 0 interactive 30000 unix:p')

    case('offered again later and later')
    one_contact()
    post(NOTES, 1, b'mine')
    for now in (1000, 60999, 61000, 181000, 421000, 421001):
        say('nonce ' + '03' * 16, 'idle 0 2', 'clock %d' % now, 'sync 1 1 0 interactive 30000 tcp:p')
    say('idle 0 2', 'clock 18446744073709551615', 'sync 1 1 0 batch 4294967295 std')

    case('more than 64 messages are due')
    one_contact()
    for n in range(70):
        post(NOTES, n, b'%d' % n)
    say('idle 0 9', 'sync 1 1 0 batch 1000 std', 'idle 0 9', 'clock 3000', 'sync 9 2 0 batch 1000 std')

    case('599 replies before their root')
    contacts(1)
    group('thread', THREADS, (0, 'visible'))
    root = reply([], b'root')
    parent = message_id(THREADS, 0, root)
    for n in range(599):
        say('got 0 ' + message(THREADS, 1 + n, reply([parent], b'')).hex())
    say('got 0 ' + message(THREADS, 0, root).hex(), 'end 0 1', 'sync 700 1 0 batch 1000 std')

    case('the same message on two links of one turn')
    contacts(2)
    group('note', NOTES, (0, 'shared'), (1, 'shared'))
    for link in (0, 1):
        say('got %d ' % link + message(NOTES, 5, b'twice').hex(), 'end %d 1' % link)
    say('sync 9 1 0 batch 10 std 1 batch 10 listen:x')

    case('what one contact brings goes on to the other')
    contacts(2)
    group('thread', THREADS, (0, 'shared'), (1, 'shared'))
    last, ids = [], []
    for n in range(12):
        body = reply(last, b'letters ' * 25)
        say('got 0 ' + message(THREADS, n, body).hex())
        last = [message_id(THREADS, n, body)]
        ids += last
    say('end 0 1', 'idle 1 14', 'got 1 ' + ids_record(3, ids).hex(), 'idle 1 2')
    say('got 1 ' + ids_record(0, ids).hex(), 'idle 1 3', 'clock 1000')
    say('sync 30 4 0 interactive 1000 listen:x 1 interactive 1000 listen:y')

    case('a wrong reply makes those that wait for it invalid')
    contacts(1)
    group('thread', THREADS, (0, 'shared'))
    bad = reply([], b'\xff')
    second = reply([message_id(THREADS, 1, bad)], b'b')
    third = reply([message_id(THREADS, 2, second)], b'c')
    for time, body in ((3, third), (2, second), (1, bad)):
        say('got 0 ' + message(THREADS, time, body).hex())
    say('end 0 1', 'sync 9 1 0 batch 10 std')


# ---- a record at a time, what is due behind it, and when

def each_record():
    """A table: what each record is taken as, by the level of the contact. It has seen one message, and another id is wanted of it."""
    unknown, wanted = some_ids(0, 1), some_ids(1, 1)
    held, seen = (message_id(NOTES, 7, body) for body in (b'h', b's'))
    table = (('versions', record_bytes(4, b'\0')), ('a priority', record_bytes(5, b'\1' * 16)), ('a message of no group', message(bytes(32), 7, b'n')),
             ('acks', ids_record(0, [held, seen, *unknown, held])), ('offers', ids_record(2, [*unknown, held, *wanted, *unknown, held])),
             ('requests', ids_record(3, [seen, *unknown, held, seen])), ('a message that is held', message(NOTES, 7, b'h')),
             ('another message', message(NOTES, 7, b'n')))
    for level in ('invisible', 'visible', 'shared'):
        for name, record in table:
            case('of a group that is %s: %s' % (level, name))
            contacts(2)
            group('note', NOTES, (0, 'visible'))
            post(NOTES, 7, b'h')
            post(NOTES, 7, b's')
            say('got 0 ' + (ids_record(0, [seen]) + ids_record(2, wanted)).hex(), 'sync 1 1 0 batch 1 std')
            say('do share 0 %s %s' % (NOTES.hex(), level), 'got 0 ' + record.hex(), 'sync 1 1 0 batch 1 std')


def unknown_ids():
    case('offers of unknown ids, up to the limit of those that are wanted')
    one_contact()
    for ids in (some_ids(1, 1) * 1536, some_ids(0, 999), some_ids(998, 3), some_ids(0, 1536)):
        say('got 0 ' + ids_record(2, ids).hex(), 'sync 1 1 0 batch 1 std')
    say('idle 0 1', 'sync 1 1 0 interactive 1 listen:x')


def all_due():
    for mode in ('interactive', 'batch'):
        case('all that may be due: ' + mode)
        one_contact()
        for body in (b'h', b'b', b'a'):
            post(NOTES, 7, body)
        asks = ids_record(3, [message_id(NOTES, 7, b'a')])
        say('got 0 ' + (message(NOTES, 7, b'h') + ids_record(2, some_ids(1, 1)) + asks).hex(), 'sync 1 1 0 %s 1 listen:x' % mode)


def shut():
    case('a group that is shut to its sender, and then open; another contact sees it')
    contacts(2)
    group('note', NOTES, (1, 'visible'))
    for level in ('invisible', 'visible'):
        say('do share 0 %s %s' % (NOTES.hex(), level))
        say('got 0 ' + message(NOTES, 7, b'm').hex(), 'sync 1 1 0 batch 1000 std', 'states')
    for mode in ('interactive', 'batch'):
        say('idle 0 1', 'sync 1 1 1 %s 1000 listen:x' % mode)


def waits():
    def at(now, mode='interactive', latency=30_000, *before):
        say(*before or ['idle 0 1'], 'clock %d' % now, 'sync 1 1 0 %s %d listen:x' % (mode, latency))

    for mode in ('interactive', 'batch'):
        case('each offer waits twice as long, and so does what was sent: ' + mode)
        one_contact()
        mine = post(NOTES, 7, b'm')
        for now in (1000, 60_999, 61_000, 180_999, 181_000, 420_999):
            at(now)
        at(200_000, 'interactive', 30_000, 'got 0 ' + ids_record(3, [mine]).hex())
        for now in (259_999, 260_000):
            at(now, mode)
        at(260_001, mode)

    case('a wait of many tries ends at the last time that there is')
    account = [b'\x10' + bytes(4), b'\x01\0', b'\x02\x04note' + bytes(4) + b'\0\x01d', b'\x03\0' + NOTES + b'\2',
               b'\x11\0\0' + NOTES + bytes(8) + b'\0\x01m', b'\x08' + bytes(4) + b'\x09' + bytes(4), b'\x12\0' + bytes(4) + b'\0\x27' + bytes(8)]
    say('old ' + framed(header(SHORT, 2), account).hex())
    for now in (0, 2 ** 64 - 2, 2 ** 64 - 1):
        at(now, 'interactive', 2 ** 32 - 1)


def redundant():
    low, high = '01' * 16, '02' * 16
    for nonces in ((low, high, high), (high, low, high), (low, low, low), (low, low, high)):
        case('three links to one contact: ' + ' '.join(nonce[:2] for nonce in nonces))
        contacts(1)
        say(*['nonce ' + nonce for nonce in nonces], *['idle %d 2' % link for link in range(3)])
        say('sync 2 2' + ''.join(' 0 interactive 1000 tcp:%s' % name for name in 'abc'))
    for versions in (b'\0\1', b'\1\0', b'\1\2'):
        case('versions ' + versions.hex())
        contacts(1)
        say('got 0 ' + record_bytes(4, versions).hex(), 'end 0 1', 'sync 2 2 0 batch 1000 std')


def away():
    case('messages that rest on one that is refused, or on one of another group')
    contacts(1)
    group('thread', THREADS, (0, 'visible'))
    others = group_id(b'thread', 0, b'other')
    say('do group thread 0 other', 'do share 0 %s visible' % others.hex())
    bad, elsewhere = reply([], b'\xff'), reply([], b'elsewhere')
    second = reply([message_id(THREADS, 5, bad)], b'b')
    third = reply([message_id(THREADS, 5, second)], b'c')
    crossing = reply([message_id(others, 5, elsewhere)], b'x')
    for gid, body in ((THREADS, third), (THREADS, second), (THREADS, crossing), (THREADS, bad), (others, elsewhere)):
        say('got 0 ' + message(gid, 5, body).hex(), 'sync 1 1 0 batch 1000 std', 'states')


def goes_on():
    case('of a note, a thread and a feed the feed stays with whom it came to')
    contacts(2)
    for name, gid in (('note', NOTES), ('thread', THREADS), ('feed', FEEDS)):
        group(name, gid, (0, 'shared'), (1, 'shared'))
    for gid, body in ((NOTES, b'x'), (THREADS, reply([], b'x')), (FEEDS, bytes(32) + b'x')):
        say('got 0 ' + message(gid, 5, body).hex())
    say('sync 4 1 0 batch 1000 std', 'states', 'sync 1 1 1 batch 1000 std')


# ---- what is heard in pieces, and how a link ends

WHOLE_STREAM = bytes.fromhex(ROW_8) + message(NOTES, 0, b'x')
CLOSING = ('01', 'ff000020', '0000c001', '0009c001', '00000000', '00020021', '00010028', '00018029', '00040000', '0004000b', '0005000f', '00050011',
           '00010029' + '00' * 32 + '8000000000000000' + '78', '0004000100' + '000900020707' + '01', '0004000101' + '0004000100')


def closing():
    """What closes a link on which a message is due: nothing more is taken of it, and nothing but VERSIONS is sent."""
    for bytes_ in CLOSING:
        case('bytes that close a link: %s, %d' % (bytes_[:8], len(bytes_) // 2))
        one_contact()
        post(NOTES, 0, b'x')
        say('got 0 ' + bytes_, 'got 0 0004000100', 'sync 3 1 0 batch 1000 std')


def pieces():
    """A front of VERSIONS, a record of no known type, PRIORITY and a MESSAGE, of each length; and all of it, cut in two there."""
    for place in range(len(WHOLE_STREAM) + 1):
        for behind in dict.fromkeys((b'', WHOLE_STREAM[place:])):
            case('a stream that is %s at %d' % ('cut' if behind else 'at its end', place))
            one_contact()
            say(*['got 0 ' + piece.hex() for piece in (WHOLE_STREAM[:place], behind) if piece])
            say('end 0 1', 'sync 4 1 0 batch 1000 std', 'states')


def sends_behind_the_end():
    case('a link whose other side has ended gets what is due then, and what comes later')
    contacts(2)
    group('note', NOTES, (0, 'shared'), (1, 'shared'))
    post(NOTES, 0, b'x')
    say('end 0 1', 'idle 1 2', 'got 1 ' + message(NOTES, 1, b'y').hex(), 'sync 5 1 0 batch 1000 std 1 batch 1000 listen:x')


def failing_calls():
    for send in (None, 0, 1, 2):
        case('a link that fails ' + ('at its first answer' if send is None else 'at its send %d' % send))
        one_contact()
        post(NOTES, 0, b'x')
        say('nonce ' + '07' * 16, *['fail 0 1'] if send is None else ['failsend %d' % send, 'idle 0 1', 'fail 0 1'])
        say('got 0 0004000100', 'sync 3 1 0 interactive 1000 tcp:x')


# ---- records that name what is not known, not seen or of another client, and what comes twice

def bad_input():
    end = ('idle 0 1', 'sync 9 1 0 interactive 1000 listen:x', 'states')
    case('an ACK and a REQUEST of ids that are not known')
    one_contact()
    say('got 0 0004000100', *['got 0 ' + ids_record(kind, some_ids(0, 2)).hex() for kind in (0, 3)], *end)
    case('records of a group that the contact does not see')
    contacts(1)
    group('note', NOTES)
    mine = post(NOTES, 0, b'x')
    say('got 0 0004000100', *['got 0 ' + message(NOTES, 0, body).hex() for body in (b'x', b'y')])
    say(*['got 0 ' + ids_record(kind, [mine]).hex() for kind in (0, 2, 3)], *end)
    case('a message of no known client, and a note among threads')
    one_contact()
    group('thread', THREADS, (0, 'shared'))
    say('got 0 0004000100', *['got 0 ' + message(gid, 0, b'x').hex() for gid in (group_id(b'chat', 0, b'd'), THREADS)], *end)
    for second in (1, 0):
        case('the same message in one turn on two links, with %s' % ('two contacts' if second else 'one contact'))
        contacts(1 + second)
        group('note', NOTES, *[(contact, 'shared') for contact in range(1 + second)])
        for link in range(2):
            say('got %d 0004000100%s' % (link, message(NOTES, 0, b'x').hex()))
        say('sync 1 1 0 batch 1000 std %d batch 1000 listen:x' % second, 'states')


# ---- which link is kept: of each its contact, its own nonce, and the one that comes on it

LINKS = (((0, 1, None), (0, 2, None), (0, None, None)), ((0, 2, None), (0, 1, None), (0, None, None)), ((0, 2, None), (0, 2, None), (0, 2, None)),
         ((0, 1, None), (0, 2, None), (0, 2, None)), ((0, 1, None), (1, 2, None), (0, None, None)), ((0, 1, None), (1, 2, None), (0, 3, None)),
         ((0, None, 3), (0, None, 4), (0, 1, None)), ((0, None, 3), (0, None, None), (0, None, 3)))


def nonce(last):
    return bytes(15) + bytes([last])


def play_links(links, *behind):
    """These links in two turns, all of them interactive, and a session in batch mode behind them, on which this comes."""
    contacts(2)
    words = []
    for link, (contact, own, heard_) in enumerate(links):
        if own:
            say('nonce ' + nonce(own).hex())
        if heard_:
            say('got %d %s' % (link, record_bytes(5, nonce(heard_)).hex()))
        say('idle %d 2' % link)
        words.append('%d interactive 1000 %s' % (contact, 'tcp:%d' % link if own else 'listen:%d' % link))
    say(*['got %d %s' % (len(links), bytes_.hex()) for bytes_ in behind])
    say(' '.join(['sync 2 2', *words, *['0 batch 1000 std' for _ in behind]]))


def kept_links():
    for links in LINKS:
        case('links ' + ' '.join('%d:%s:%s' % tuple('-' if part is None else part for part in link) for link in links))
        play_links(links)
    case('two quiet links, of which the first is closed')
    play_links(LINKS[0][:2])
    case('a link whose other side has ended is neither kept nor closed')
    contacts(1)
    say('nonce ' + nonce(2).hex(), 'nonce ' + nonce(1).hex(), 'end 0 1', 'idle 1 2')
    say('sync 3 1 0 interactive 1000 tcp:0 0 interactive 1000 tcp:1')
    case('the first PRIORITY counts, also in batch mode, where the link has no nonce')
    play_links(LINKS[1][:1], bytes.fromhex('0004000100') + record_bytes(5, nonce(1)) + record_bytes(5, nonce(3)))


# ---- two nodes, each of which hears what the other sends

def forty(mode, nonces, rounds):
    """What each of two nodes hears while 40 messages of 2,000 letters go from one to the other, by the model of both."""
    ends, heard_ = [], ([], [])
    for own in nonces:
        node = Node()
        node.add_contact()
        node.add_group(b'note')
        node.share(0, NOTES, SHARED)
        if not ends:
            for time in range(40):
                node.post(NOTES, time, b'a' * 2_000)
        node.attach(0, mode, nonce=own)
        ends.append(node)
    carried = [0, 0]
    for _ in range(rounds):
        for hears in (1, 0):
            new = ends[1 - hears].host.sent[0][carried[hears]:]
            carried[hears] += len(new)
            heard_[hears].append(new)
            ends[hears].say(0, new or IDLE)
            for _ in range(max(1, -(-len(new) // PIECE))):
                ends[hears].turn_at()
    assert len(ends[1].journal.delivered) == 40
    return heard_


def pairs():
    for mode, own, rounds in (('batch', None, 3), ('interactive', b'\7' * 16, 5)):
        heard_ = forty(mode, (own, None), rounds)
        for number, pieces_ in enumerate(heard_):
            case('40 messages of 2,000 letters, %s: who %s them' % (mode, 'gets' if number else 'has'))
            one_contact()
            for time in range(0 if number else 40):
                post(NOTES, time, b'a' * 2_000)
            say(*['nonce ' + own.hex()] if own and not number else [], *['got 0 ' + piece.hex() if piece else 'idle 0 1' for piece in pieces_], 'idle 0 1')
            say('sync 20 1 0 %s 1000 %s' % (mode, 'listen:x' if number else 'tcp:x'), 'states')


def nodes():
    closing()
    pieces()
    sends_behind_the_end()
    failing_calls()
    bad_input()
    kept_links()
    pairs()


def sessions():
    each_record()
    unknown_ids()
    all_due()
    shut()
    waits()
    redundant()
    away()
    goes_on()


# ---- runs that are stopped at each call of the disk

def crossed():
    case('two messages that wait for each other stay pending, and the runs are done')
    contacts(2)
    say('crossed %s %s' % (message_id(CYCLE, 1, b'a').hex(), message_id(CYCLE, 2, b'b').hex()))
    group('cycle', CYCLE, (0, 'shared'), (1, 'shared'))
    both = ROW_8[:10] + message(CYCLE, 1, b'a').hex() + message(CYCLE, 2, b'b').hex()
    say('got 0 ' + both, 'idle 0 3', 'idle 1 3')
    say('sync 9 2 0 batch 1000 std 1 batch 1000 tcp:x', 'states')
    say('got 0 ' + both, 'clock 900000', 'clock 900000', 'sync 9 2 0 interactive 1000 std 1 interactive 1000 listen:x', 'states')


def stopped():
    case('a run that sends is stopped')
    one_contact()
    post(NOTES, 0, b'x')
    say('end 0 1', 'stops sync 10 1 0 batch 1000 std')

    case('a run that takes, settles and acknowledges is stopped')
    one_contact()
    mine = post(NOTES, 1, b'mine')
    say('nonce ' + '03' * 16, 'got 0 0004000100')
    say('got 0 ' + (ids_record(3, [mine]) + message(NOTES, 2, b'theirs')).hex())
    say('got 0 ' + ids_record(0, [mine]).hex(), 'idle 0 3', 'clock 1000')
    say('stops sync 9 2 0 interactive 30000 unix:p')

    case('a run that hears an offer of 200 unknown ids twice is stopped')
    one_contact()
    say('nonce ' + '04' * 16, *2 * ['got 0 ' + ids_record(2, some_ids(0, 200)).hex()], 'idle 0 3')
    say('stops sync 4 2 0 interactive 1000 tcp:x')

    case('a run that hears a message on two links with two contacts is stopped')
    both_say()
    say('end 0 1', 'end 1 1', TWO_LINKS.replace('sync', 'stops sync'))


TWO_LINKS = 'sync 3 2 0 batch 1000 std 1 batch 1000 tcp:x'


def both_say(*silent):
    """Two contacts with whom the note group is shared, and the same message from each but those that are silent."""
    contacts(2)
    group('note', NOTES, (0, 'shared'), (1, 'shared'))
    for link in range(2):
        if link not in silent:
            say('got %d ' % link + ROW_8[:10] + message(NOTES, 0, b'x').hex())


def failing_links():
    """Each answer and each send of two links fails in turn: that link is closed, and the other goes on."""
    for failing in range(2):
        case('the first answer of link %d fails' % failing)
        both_say(failing)
        say('fail %d 1' % failing, 'end %d 1' % (1 - failing), TWO_LINKS)
        case('the second answer of link %d fails' % failing)
        both_say()
        say('fail %d 1' % failing, 'end %d 1' % (1 - failing), TWO_LINKS)
    for send in range(4):
        case('send %d of two links fails' % send)
        both_say()
        say('failsend %d' % send, 'end 0 1', 'end 1 1', TWO_LINKS)


# ---- what comes or goes together

VERSION = record_bytes(4, b'\0')


def note(time, text=b'theirs'):
    return message(NOTES, time, text)


def friend(contacts_=1):
    """A store with two notes of ours, in a group that is shared with so many contacts."""
    person = bare(NOTE)
    for contact in range(1, contacts_):
        person.add_contact()
    for contact in range(contacts_):
        person.share(contact, NOTES, SHARED)
    for time in (5, 6):
        person.post(NOTES, time, b'mine')
    return person


def each_call(name, person, groups, *lines):
    """A run of which each call of the disk fails in turn, of so many groups, and then none: what was sent by then."""
    case('each call of the disk fails: ' + name)
    file = framed(header(SHORT, 1), person.batches)
    whole = Cases(io.StringIO())
    for line in ('old ' + file.hex(), *lines):
        whole.line(expanded(line))
    assert len(whole.store.groups) == groups, (name, len(whole.store.groups))
    # a load syncs both files, reads two headers and the length, each frame by two calls, and the closed gate
    load = 2 + 2 + 1 + 2 * len(person.batches) + 1
    for call in range(load, load + 4 * groups + 1):
        say('old ' + file.hex(), *lines[:-1], 'faildisk %d' % call, lines[-1])


def together():
    mine = [message_id(NOTES, time, b'mine') for time in (5, 6)]
    piece = [VERSION, note(1), ids_record(0, mine[:1]), note(2), note(1), ids_record(2, some_ids(0, 2))]
    one = 'sync 3 1 0 batch 1000 std'
    got = lambda link, *records: 'got %d %s' % (link, b''.join(records).hex())
    many = lambda count, *records: 'got 0 {%s*%d}%s' % (VERSION.hex(), count, b''.join(records).hex())
    # the session, what is heard, what is sent
    each_call('a piece of six records, two of which are acknowledged and one answered', friend(), 3, got(0, *piece), 'end 0 1', one)
    each_call('the same on an interactive link', friend(), 5, 'nonce ' + '07' * 16, got(0, *piece), got(0, ids_record(3, mine)), 'idle 0 2',
              'sync 2 1 0 interactive 1000 tcp:x')
    each_call('a bad record among others', friend(), 2, got(0, *piece, b'\1', note(3)), 'end 0 1', one)
    each_call('a VERSIONS without 0 among others', friend(), 2, got(0, *piece, record_bytes(4, b'\1'), note(3)), 'end 0 1', one)
    each_call('a peer that is gone', friend(), 3, got(0, *piece, note(3)[:-1]), 'fail 0 1', one)
    each_call('a peer that ends inside a record', friend(), 3, got(0, *piece, note(3)[:-1]), 'end 0 1', one)
    each_call('the records end in the second piece', friend(), 5, got(0, *piece, note(3)[:9]), got(0, note(3)[9:], note(4)), 'end 0 1', one)
    each_call('two links, of which each hears and sends', friend(2), 6, *(got(link, *piece) for link in range(2)), *('end %d 1' % link for link in range(2)),
              'sync 3 1 0 batch 1000 std 1 batch 1000 listen:x')
    each_call('a send that fails', friend(), 3, got(0, *piece), 'failsend 1', 'end 0 1', one)
    each_call('more records than a group has batches', friend(), 4, many(4_097), 'end 0 1', 'sync 1 1 0 batch 1000 std')

    for mode in ('batch', 'interactive'):
        case('a send of five records fails, and what it had is due again: ' + mode)
        one_contact()
        ids = [post(NOTES, n, b'%d' % n) for n in range(5)]
        say('got 0 ' + ids_record(3, ids).hex(), 'failsend 1', 'idle 0 9', 'clock 1000', 'sync 3 2 0 %s 1000 listen:x' % mode)
        for now in (1000, 2999, 3000):
            say('idle 0 9', 'clock %d' % now, 'sync 3 2 0 %s 1000 listen:x' % mode)
    for send in (1, 2, 3):
        case('70 messages are due, and send %d fails' % send)
        one_contact()
        for n in range(70):
            post(NOTES, n, b'%d' % n)
        say('idle 0 9', 'failsend %d' % send, 'sync 3 1 0 batch 1000 std', 'idle 0 9', 'clock 3000', 'sync 9 2 0 batch 1000 std')

    case('a run that hears many records at once and sends many is stopped')
    one_contact()
    for n in range(4):
        post(NOTES, n, b'mine')
    say(got(0, *piece, *(note(9 + n) for n in range(9))), 'idle 0 1', got(0, note(30), note(31), b'\1', note(32)), 'stops ' + one)
    case('a run that hears more records than a group has batches is stopped')
    one_contact()
    say(many(4_090, *(note(n) for n in range(9))), 'stops sync 1 1 0 batch 1000 std')
    case('two runs of records whose last is cut by the piece')
    one_contact()
    heads = [note(n, b'x' * 20_000)[:44].hex() for n in range(4)]
    say('got 0 ' + ''.join(head + '{78*20000}' for head in heads), 'end 0 1', 'sync 5 1 0 batch 1000 std', 'states')


# ---- what ends a stream

REFUSED = ['01', '0000c001', '00000000', '00000021', '00010028', '00018029', '00040000', '0004000b', '0005000f',
           '00010029' + '00' * 32 + '8000000000000000' + '78', '0009c001']


def endings():
    for refused in REFUSED:
        case('refused ' + refused[:8])
        contacts(1)
        say('got 0 0004000100' + refused, 'sync 3 1 0 batch 10 std')
    for length in range(0, len(ROW_8), 2):
        case('a stream of %d bytes' % (length // 2))
        contacts(1)
        if length:
            say('got 0 ' + ROW_8[:length])
        say('end 0 1', 'sync 4 1 0 interactive 10 listen:x')


# ---- drawn ones

class Drawn:
    def __init__(self, seed):
        self.draw = random.Random(seed)
        self.known, self.contacts = [], self.draw.randint(1, 3)

    def body(self, gid):
        text = b'text %d' % self.draw.randint(0, 5) if self.draw.random() < 0.9 else b'\xff'
        among = [id_ for g, id_ in self.known if g == gid]
        if gid == THREADS:
            return reply(self.draw.sample(among, min(len(among), self.draw.randint(0, 2))), text)
        if gid == FEEDS:
            return (self.draw.choice(among) if among and self.draw.random() < 0.7 else bytes(32)) + text
        return text

    def message(self):
        gid = self.draw.choice([NOTES, THREADS, FEEDS])
        timestamp, body = self.draw.randint(0, 30), self.body(gid)
        self.known.append((gid, message_id(gid, timestamp, body)))
        return message(gid, timestamp, body)

    def record(self):
        kind = self.draw.choice([0, 1, 1, 1, 1, 2, 3, 4, 5, 9])
        if kind == 1:
            return self.message()
        if kind in (0, 2, 3):
            ids = [id_ for _, id_ in self.known] + some_ids(0, 4)
            return ids_record(kind, [self.draw.choice(ids) for _ in range(self.draw.randint(1, 6))])
        if kind == 4:
            return record_bytes(4, b'\x00\x02' if self.draw.random() < 0.9 else b'\x02')
        return record_bytes(kind, bytes([self.draw.randint(0, 3)]) * 16)

    def pieces(self, link):
        stream = b''.join(self.record() for _ in range(self.draw.randint(0, 12)))
        stream += self.draw.choice([b'', b'', b'', b'\x00\x04', b'\x01'])
        while stream:
            size = self.draw.randint(1, 120)
            say('got %d %s' % (link, stream[:size].hex()))
            stream = stream[size:]
            if self.draw.random() < 0.3:
                say('idle %d %d' % (link, self.draw.randint(1, 3)))
        say(self.draw.choice(['end %d 1', 'idle %d 40', 'idle %d 40', 'fail %d 1']) % link)

    def run(self):
        links = self.draw.randint(1, 4)
        words = ['sync %d %d' % (self.draw.randint(1, 40), self.draw.randint(1, 4))]
        for link in range(links):
            self.pieces(link)
            say('nonce ' + '%02x' % self.draw.randint(0, 3) * 16)
            spec = self.draw.choice(['tcp:h:1', 'unix:p', 'listen:h:1', 'unixlisten:p'])
            mode = self.draw.choice(['interactive', 'interactive', 'batch'])
            words.append('%d %s %d %s' % (self.draw.randrange(self.contacts), mode, self.draw.choice([1, 10, 100]), spec))
        if self.draw.random() < 0.2:
            say('failsend %d' % self.draw.randint(0, 12))
        now = 0
        for _ in range(self.draw.randint(1, 60)):
            now += self.draw.choice([0, 1, 50, 1000])
            say('clock %d' % now)
        say(' '.join(words))

    def mail(self):
        """Some mailbox files, one behind the other: a few are for a contact that there is not."""
        now = self.draw.randint(0, 3000)
        for _ in range(self.draw.randint(1, 3)):
            contact = self.draw.choice([*range(self.contacts)] * 5 + [self.contacts])
            if self.draw.random() < 0.5:
                read_file(*[self.record() for _ in range(self.draw.randint(0, 12))], self.draw.choice([b'', b'', b'\x00\x04', b'\x01']),
                          contact=contact)
            else:
                now += self.draw.choice([0, 1, 50, 1000])
                say('clock %d' % now, 'mailbox out %d %d %d' % (contact, self.draw.choice([1, 10, 100]), self.draw.randint(1, 6)))

    def carry(self):
        """Runs and mailbox files in turns."""
        self.begin()
        for _ in range(self.draw.randint(2, 4)):
            self.mail()
            if self.draw.random() < 0.4:
                self.run()
        say('states')

    def play(self, after_run=()):
        self.begin()
        for _ in range(self.draw.randint(1, 3)):
            self.run()
            say(*after_run)

    def begin(self):
        contacts(self.contacts)
        for name, gid in (('note', NOTES), ('thread', THREADS), ('feed', FEEDS)):
            if self.draw.random() < 0.9:
                group(name, gid, *[(c, self.draw.choice(['shared', 'shared', 'visible', 'invisible']))
                                   for c in range(self.contacts)])


def old_file(person, generation=1):
    """The line for a store of format 1."""
    return 'old ' + framed(header(1, generation), respelled(person.batches, SHORT, WHOLE)).hex()


def visible():
    """A store with a note, whose group is visible to a contact."""
    person = bare(NOTE)
    person.share(0, NOTES, 1)
    person.post(NOTES, 0, b'x')
    return person


def old_stores():
    mine, theirs = message_id(NOTES, 0, b'x'), message(NOTES, 20, b'theirs')
    case('a store of format 1, heard and sent over')
    say(old_file(heard()), 'nonce ' + '04' * 16, 'got 0 ' + (ids_record(3, [mine]) + theirs).hex(), 'idle 0 5', 'clock 100000')
    say('sync 9 2 0 interactive 1000 tcp:x', 'other', 'states')
    say('end 0 1', 'end 1 1', 'clock 200000', 'sync 3 1 1 batch 1000 std 0 batch 5 listen:y', 'other')

    case('a store of format 1, whose links are not dialled')
    say(old_file(heard()), 'faildial 1', 'sync 3 1 0 batch 1000 tcp:x 1 batch 1000 tcp:y', 'other')
    say('sync 3 1 0 interactive 1000 tcp:x', 'other', 'sync 3 1 2 batch 1000 tcp:x', 'other')

    case('a store of format 1 and the last generation')
    say(old_file(heard(), 2 ** 64 - 1), 'faildial 0', 'sync 3 1 0 batch 1000 tcp:x', 'other')
    say('end 0 1', 'sync 3 1 0 batch 1000 tcp:x', 'other', 'states')

    case('a store of format 1, stopped')
    later = message(NOTES, 21, b'later')
    say(old_file(visible()), 'got 0 ' + theirs.hex(), 'idle 0 1', 'got 0 ' + later.hex(), 'idle 0 9', 'clock 0')
    say('stops sync 5 2 0 batch 1000 std')


# ---- journals in whose place a brief account is put

def odd_files():
    """Files of brief accounts in which something is not as it must be, and some in which all is."""
    brief, contact, other = bytes([16]) + bytes(4), b'\1\0', b'\1\1'
    group = b'\2\4note' + bytes(4) + b'\0\1d'
    thread = b'\2\6thread' + bytes(4) + b'\0\1d'
    level = b'\3\0' + NOTES + b'\2'
    body = lambda time, text: NOTES + time.to_bytes(8, 'big') + len(text).to_bytes(2, 'big') + text
    mine, theirs = bytes([17, 0, 0]) + body(0, b'x'), bytes([17, 1, 0]) + body(1, b'y')
    wrong = bytes([17, 1, 0]) + body(2, b'\xff')
    steps = lambda n: b'\x08' + n.to_bytes(4, 'big') + b'\x09' + n.to_bytes(4, 'big')
    tried = lambda contact, n, flags, tries, expiry: (bytes([18, contact]) + n.to_bytes(4, 'big') + bytes([flags, tries])
                                                      + expiry.to_bytes(8, 'big'))
    want = lambda contact, id_: bytes([19, contact]) + id_
    reply_to = lambda parent, text: THREADS + bytes(8) + (33 + len(text)).to_bytes(2, 'big') + b'\1' + parent + text
    unknown = some_ids(0, 1001)
    head = [brief, contact, group, level]
    both = [*head, mine, steps(0), theirs, steps(1)]
    row = tried(0, 0, 0, 1, 3000)
    journals = [
        both, [*both, row], [*both, row + tried(0, 1, 3, 0, 0) + want(0, unknown[0])], [*both, tried(0, 1, 7, 64, 2 ** 64 - 1)],
        [*both, want(0, unknown[0])], [*both, row, want(0, unknown[0])],
        # a brief that is not first, twice, or with something behind it in its batch
        [contact, brief], [brief, brief], [brief + contact], [contact, group, mine],
        # a message that is kept twice, of no group, of no contact, in the middle of settling, by its author though refused or
        # behind what is not delivered, and one from a contact all the same
        [*head, mine, steps(0), mine], [brief, contact, mine], [*head[:3], bytes([17, 1, 1]) + body(1, b'y')], [*head, mine, theirs],
        [*head, bytes([17, 0, 0]) + body(2, b'\xff')], [*head, thread, bytes([17, 0, 0]) + reply_to(unknown[0], b'r')],
        [*head, thread, bytes([17, 1, 0]) + reply_to(unknown[0], b'r'), b'\x08' + bytes(4)],
        [*head, wrong, b'\x08' + bytes(4) + b'\x0a' + bytes(4)], [*head, wrong, steps(0)],
        [*head, bytes([17, 0, 1]) + body(0, b'x')], [*head, bytes([17, 2, 0]) + body(0, b'x')],
        # a row of no contact, of no message, empty, twice, with 65 tries, with a wait and no try, with a further flag
        [*both, tried(1, 0, 1, 0, 0)], [*both, tried(0, 2, 1, 0, 0)], [*both, tried(0, 0, 0, 0, 0)], [*both, row + row], [*both, row, row],
        [*both, tried(0, 0, 1, 65, 9)], [*both, tried(0, 0, 1, 0, 9)], [*both, tried(0, 0, 8, 1, 9)], [*both, tried(0, 0, 8, 0, 0)],
        # an id that is held, wanted of no contact, twice, and the 1,001st
        [*both, want(0, message_id(NOTES, 0, b'x'))], [*both, want(1, unknown[0])], [*both, want(0, unknown[0]) * 2],
        [*both, want(0, unknown[0]), want(0, unknown[0])],
        [*head, b''.join(want(0, id_) for id_ in unknown[:1000])], [*head, b''.join(want(0, id_) for id_ in unknown)],
        [*head, b''.join(want(0, id_) for id_ in unknown[:1000]), want(0, unknown[1000])],
        [*head, other, b''.join(want(0, id_) for id_ in unknown[:1000]), b''.join(want(1, id_) for id_ in unknown[:1000])],
        [*head, other, b''.join(want(n // 501, id_) for n, id_ in enumerate(unknown))],
        # rows and a message in one batch, rows before the messages, and a group and a contact behind them
        [*both, row + mine], [*head, want(0, unknown[0]), mine, steps(0)], [*both, row, thread, other],
        # an account in the middle of which is something else
        [contact, want(0, unknown[0])], [contact, group, row],
    ]
    yield from (framed(header(2, 1), journal) for journal in journals)
    yield from (framed(header(1, 1), [entry]) for entry in (brief, mine, want(0, unknown[0])))
    yield framed(header(1, 1), [contact, group, row])

def read_file(*records, contact=0):
    say('input ' + b''.join(records).hex(), 'mailbox in %d' % contact)


def mailboxes():
    versions = record_bytes(4, b'\0')
    case('a file is written, and again when it is due')
    one_contact()
    post(NOTES, 0, b'x')
    for now in (1000, 1000, 3000):
        say('clock %d' % now, 'mailbox out 0 1000 10')

    case('a file is read twice, and what it brought is acknowledged')
    one_contact('visible')
    for _ in range(2):
        read_file(versions, message(NOTES, 0, b'x'))
        say('states')
    say('clock 1', 'mailbox out 0 1000 10', 'mailbox out 0 1000 10')

    case('so many outputs, and the rest in another file')
    one_contact()
    for n in range(5):
        post(NOTES, n, b'x')
    say('clock 5', 'mailbox out 0 9 2', 'clock 5', 'mailbox out 0 9 1', 'clock 5', 'mailbox out 0 9 1000000', 'mailbox out 1 9 1')

    case('files that are none, and files that end in the middle')
    one_contact('visible')
    read_file()
    read_file(b'\1')
    read_file(versions, message(NOTES, 0, b'x'), message(NOTES, 1, b'y')[:-1])
    read_file(versions, message(NOTES, 2, b'z'), b'\1', message(NOTES, 3, b'z'))
    read_file(record_bytes(9, b'passed over'), versions, record_bytes(5, b'n' * 16), ids_record(2, some_ids(0, 3)))
    read_file(versions, record_bytes(4, b'\1'), message(NOTES, 4, b'behind'))
    say('states', 'input 00', 'mailbox in 1', 'mailbox in 0', 'clock 7', 'mailbox out 0 1 9')

    case('a file is read into a store of format 1')
    say(old_file(heard()))
    read_file(versions, message(NOTES, 9, b'new'))
    say('states', old_file(heard()), 'clock 9', 'mailbox out 0 1 9', old_file(heard(), 2 ** 64 - 1), 'mailbox out 0 1 9')

    case('a file is read and one is written, and both are stopped')
    one_contact('visible')
    post(NOTES, 5, b'mine')
    theirs = (versions, message(NOTES, 0, b'x'), ids_record(3, some_ids(0, 1)), message(NOTES, 1, b'y'))
    for _ in range(2):
        say('input ' + b''.join(theirs).hex(), 'stops mailbox in 0')
        say('clock 1000', 'stops mailbox out 0 1 10')
        read_file(*theirs)

    root = reply([], b'root')
    root_id = message_id(THREADS, 0, root)
    files = [
        (versions, message(NOTES, 0, b'one')),
        (versions, message(THREADS, 1, reply([root_id], b'below')), message(NOTES, 0, b'one')),
        (versions, message(NOTES, 1, b'two'), ids_record(0, [message_id(NOTES, 7, b'own')])),
        (versions, message(THREADS, 0, root)),
        (versions, message(THREADS, 2, b'none'), ids_record(2, some_ids(0, 2))),
    ]
    drawn = random.Random(45)
    for number in range(30):
        case('five files, read in the order %d' % number)
        contacts(1)
        group('note', NOTES, (0, 'shared'))
        group('thread', THREADS, (0, 'visible'))
        post(NOTES, 7, b'own')
        order = list(range(5)) + [drawn.randrange(5) for _ in range(drawn.randrange(4))]
        drawn.shuffle(order)
        for n in order:
            read_file(*files[n])
        say('states')


def compacted():
    case('a note is compacted, and the account is the longer one')
    contacts(1)
    say('do group note 0 d')
    post(NOTES, 0, b'x')
    say('stops compact', 'compact', 'states', 'stops compact', 'compact')

    case('a note that was sent is compacted: it is sent again when it is due')
    one_contact()
    post(NOTES, 0, b'x')
    for now in (1000, 1000, 3000):
        say('end 0 1', 'clock %d' % now, 'sync 10 1 0 batch 1000 std')
        if now == 1000:
            say('stops compact', 'compact', 'states')

    case('an acknowledgement that is owed stays owed')
    one_contact('visible')
    say('got 0 ' + message(NOTES, 3, b'hello').hex() + '01', 'sync 3 1 0 batch 1000 std', 'compact', 'states')
    say('end 0 1', 'sync 3 1 0 batch 1000 std')

    case('what two contacts offered stays wanted, and is requested in order')
    contacts(2)
    for contact, first in ((0, 0), (1, 500)):
        say('got 0 ' + ids_record(2, some_ids(first, 1536)).hex(), 'sync 2 1 %d batch 1000 std' % contact)
    say('compact', 'idle 0 3', 'idle 1 3', 'sync 9 1 1 interactive 9 std 0 interactive 9 listen:x')

    case('requests, tries and waits go on')
    one_contact()
    ids = [post(NOTES, n, b'%d' % n) for n in range(4)]
    say('idle 0 9', 'clock 1000', 'sync 2 1 0 interactive 1000 listen:x')
    say('got 0 ' + ids_record(3, ids[1:3]).hex() + ids_record(0, ids[3:]).hex() + '01', 'clock 1500')
    say('sync 2 1 0 interactive 1000 listen:x', 'compact')
    for now in (2000, 2999, 3000, 9000):
        say('idle 0 9', 'clock %d' % now, 'sync 2 1 0 interactive 1000 listen:x')
    say('compact', 'idle 0 9', 'clock 10000', 'sync 9 1 0 batch 1000 std', 'compact')

    case('599 replies before their root, compacted')
    contacts(1)
    group('thread', THREADS, (0, 'visible'))
    root = reply([], b'root')
    for n in range(599):
        say('got 0 ' + message(THREADS, 1 + n, reply([message_id(THREADS, 0, root)], b'')).hex())
    say('got 0 ' + message(THREADS, 0, root).hex(), 'end 0 1', 'sync 700 1 0 batch 1000 std', 'compact', 'compact')

    case('messages that wait for each other are compacted, and refused ones')
    contacts(2)
    group('thread', THREADS, (0, 'shared'), (1, 'shared'))
    bad = reply([], b'\xff')
    second = reply([message_id(THREADS, 1, bad)], b'b')
    waits = reply([message_id(THREADS, 9, b'unknown')], b'w')
    for time, body in ((2, second), (1, bad), (4, waits)):
        say('got 0 ' + message(THREADS, time, body).hex())
    say('idle 0 3', 'idle 1 3', 'sync 5 2 0 batch 10 std 1 batch 10 listen:x', 'compact', 'states')
    say('do share 1 %s invisible' % THREADS.hex(), 'compact', 'end 0 1', 'sync 3 1 0 batch 10 std')

    case('a store of format 1 is compacted')
    say(old_file(heard()), 'stops compact', 'compact', 'states', 'idle 0 3', 'clock 200000', 'sync 3 2 0 interactive 1000 std')

    for generation in (2 ** 64 - 1, 2 ** 64 - 2, 2 ** 64 - 3):
        case('a store of format 1 and the generation %d' % generation)
        say(old_file(heard(), generation), 'compact', 'states')

    case('brief accounts that are none')
    for file in odd_files():
        say('load ' + file.hex())

    case('as many sessions as there may be, and one fewer')
    for number in (2 ** 32 - 1, 2 ** 32 - 2):
        say('old ' + framed(header(2, 7), [b'\x10' + number.to_bytes(4, 'big'), b'\x01\x00']).hex())
        for links in ('0 batch 1 std', '0 batch 1 std 0 batch 1 listen:x'):
            say('end 0 1', 'sync 1 1 ' + links)
        say('compact')


# ---- what goes again before its time, since a way is quicker

DAY, HOUR, YEAR = 86_400_000, 3_600_000, 31_536_000_000


def letter(now, latency, count):
    say('clock %d' % now, 'mailbox out 0 %d %d' % (latency, count))


def meet(now, mode, latency, *before):
    say(*before or ['idle 0 1'], 'clock %d' % now, 'sync 1 1 0 %s %d listen:x' % (mode, latency))


def lost_letters():
    for mode in ('interactive', 'batch'):
        for behind in ('', ', and the store is compacted'):
            case('a letter of a day is lost, and they meet an hour later%s: %s' % (behind, mode))
            one_contact()
            for n in range(3):
                post(NOTES, n, b'x')
            letter(0, DAY, 100)
            if behind:
                say('compact')
            for now in (HOUR, HOUR, HOUR + 3999, HOUR + 4000):
                meet(now, mode, 1000)
            letter(HOUR + 4000, DAY, 100)

        case('ten quick tries and a lost letter: ' + mode)
        one_contact()
        post(NOTES, 0, b'x')
        now = 0
        for tried in range(10):
            meet(now, 'batch', 1000)
            now += 2000 * 2 ** tried
        letter(now, DAY, 9)
        for days in (0, 1, 30, 365):
            letter(now + days * DAY, DAY, 9)
            meet(now + days * DAY, mode, 1000)

        case('a clock that was a year ahead: ' + mode)
        one_contact()
        post(NOTES, 0, b'x')
        meet(YEAR, mode, 1000)
        for now in (1000, 1000, 4999, 5000):
            meet(now, mode, 1000)

        case('what was asked for, and what is seen, does not go before its time: ' + mode)
        one_contact()
        ids = [post(NOTES, n, b'x') for n in range(4)]
        letter(0, DAY, 100)
        meet(HOUR, mode, 1000, 'got 0 ' + (ids_record(3, ids[:1]) + ids_record(0, ids[1:2])).hex())
        meet(HOUR, mode, 1000)


def quicker_letters():
    case('so many outputs: what was not tried goes before what goes again')
    one_contact()
    for n in range(4):
        post(NOTES, n, b'x')
    for latency in (DAY, HOUR, HOUR):
        letter(0, latency, 2)

    for latencies in ((60_000, 1000), (1000, 60_000), (2000, 1000)):
        case('two links in batch mode to one contact, of latencies %d and %d' % latencies)
        one_contact()
        for n in range(3):
            post(NOTES, n, b'x')
        say('idle 0 2', 'idle 1 2', 'clock 0', 'sync 2 1 0 batch %d listen:x 0 batch %d listen:y' % latencies)

    for mode in ('interactive', 'batch'):
        # behind a first try at 5,000 by a way of a second 7,000 stands, and a second try sets 4,000 more than the clock
        for before, behind in ((5000, 3000), (5000, 2999), (YEAR, 1000)):
            case('a clock that falls from %d to %d between two links of a turn: %s' % (before, behind, mode))
            one_contact()
            for n in range(3):
                post(NOTES, n, b'x')
            say('idle 0 3', 'idle 1 3', 'clock %d' % before, 'clock %d' % behind,
                'sync 2 2 0 %s 1000 listen:x 0 %s 1000 listen:y' % (mode, mode), 'states')
            meet(behind, mode, 1000)

    for mode in ('interactive', 'batch'):
        case('eight links of halving latency: ' + mode)
        one_contact()
        post(NOTES, 0, b'x')
        links = ['0 %s %d listen:%d' % (mode, 2 ** (20 - link), link) for link in range(8)]
        say(*('idle %d 2' % link for link in range(8)), 'clock 0', 'sync 2 1 ' + ' '.join(links))

        case('times and latencies at their borders: ' + mode)
        one_contact()
        post(NOTES, 0, b'x')
        for now, latency in ((0, 4_294_967_295), (0, 4_294_967_294), (0, 2_147_483_648), (0, 2_147_483_647), (0, 1), (0, 1), (2 ** 64 - 2, 1),
                             (2 ** 64 - 1, 1), (2 ** 64 - 2, 1), (0, 1), (0, 4_294_967_295)):
            meet(now, mode, latency)


def sooner_rows():
    """A row of each number of tries and each expiry, stated in a brief account, and what goes by it."""
    one = [(('contact', 0),), (('group', b'note', 0, b'd'),), (('level', 0, NOTES, 2),)]
    mine = message_id(NOTES, 0, b'x')
    held = [(('kept', 'self', (NOTES, 0, b'x')),), (('judged', mine), ('deliver', mine))]
    name = lambda id_: bytes(4)
    for tries, expiry in ((1, 4001), (1, 4000), (1, 2 ** 64 - 1), (61, 2 ** 64 - 1), (62, 2 ** 64 - 1), (63, 2 ** 64 - 1), (64, 2 ** 64 - 1)):
        for asked in (False, True):
            case('%d tries and %d, %s' % (tries, expiry, 'asked' if asked else 'not asked'))
            row = (('tried', 0, mine, False, False, asked, tries, expiry),)
            payloads = [b''.join(entry_bytes(entry, name) for entry in batch) for batch in [(('brief', 0),), *one, *held, row]]
            for latency in (1, 1000):
                for mode in ('interactive', 'batch'):
                    say('old ' + framed(header(2, 1), payloads).hex())
                    meet(0, mode, latency)


def wrong_outs():
    """Journals with an output that goes before its time: where it is due, and where something else is."""
    one = [(('contact', 0),), (('group', b'note', 0, b'd'),), (('level', 0, NOTES, 2),)]
    ids = [message_id(NOTES, n, b'x') for n in range(2)]
    name = lambda id_: ids.index(id_).to_bytes(4, 'big')
    note = lambda n: [(('author', (NOTES, n, b'x')),), (('judged', ids[n]), ('deliver', ids[n]))]
    session = lambda number, mode, latency: (('session', number, 0, mode, latency, None),)
    out = lambda number, now, what, n: (('out', number, now, what, [ids[n]]),)
    front = [*one, *note(0), session(0, 'batch', DAY), out(0, 0, 'send', 0)]
    new = note(1)
    for mode, what in (('batch', 'send'), ('interactive', 'offers')):
        case('outputs that go before their time, and others that may not: ' + mode)
        quick = session(1, mode, 1000)
        # a try behind a letter of a day is sooner, an hour later, by a way of less than 42,300 seconds
        first, second = out(1, HOUR, what, 0), out(1, HOUR, what, 1)
        for batches in (
                [quick, first], [quick, first, first], [session(1, mode, 42_300_000), first], [session(1, mode, 42_299_999), first], [*new, quick, first],
                [*new, quick, second, first], [*new, quick, second, first, out(1, HOUR, what, 1)], [quick, out(1, 2 * DAY, what, 0)]):
            payloads = [b''.join(entry_bytes(entry, name) for entry in batch) for batch in [*front, *batches]]
            say('load ' + framed(header(2, 1), payloads).hex())


def quicker():
    lost_letters()
    quicker_letters()
    sooner_rows()
    wrong_outs()


def main():
    named()
    sessions()
    nodes()
    crossed()
    stopped()
    failing_links()
    together()
    endings()
    old_stores()
    for seed in range(40):
        case('drawn %d' % seed)
        Drawn(seed).play()
    mailboxes()
    for seed in range(70, 110):
        case('drawn %d, with mailbox files' % seed)
        Drawn(seed).carry()
    compacted()
    for seed in range(40, 70):
        case('drawn %d, compacted behind each run' % seed)
        Drawn(seed).play(['compact', 'states'])
    quicker()


if __name__ == '__main__':
    main()
