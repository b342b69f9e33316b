#!/usr/bin/env python3
"""Writes the cases of crates/test_worlds: `world_cases.py >stdin`, and `world_model.py cases <stdin >stdout` is what they must
print. The named ones come first; then some that are drawn, the same each time. A zero byte stands between two cases."""
import random
import sys

from world_model import Refused, World, step_of

CASES = []


def case(name, *lines, words='', how='', end='\n'):
    """A case of these lines, of which each may be several."""
    lines = [line if isinstance(line, bytes) else line.encode() for line in lines]
    script = b'\n'.join(lines) + end.encode() if lines else b''
    CASES.append(b'\n'.join([name.encode(), words.encode(), how.encode(), script]))


def groups(kind, devices, descriptor='d'):
    return [f'group {d} {kind} {descriptor}' for d in range(devices)]


def shares(*pairs, label=0, level='shared'):
    return [f'share {d} {e} {label} {level}' for a, b in pairs for d, e in ((a, b), (b, a))]


PAIR = ['devices 2', *groups('note', 2), *shares((0, 1))]
HELLO = [*PAIR, 'post 0 0 5 - hello']
LINKED = [*HELLO, 'link 0 1 batch 1000']
SENT = [*LINKED, 'turn 0']
THREAD = ['devices 2', *groups('thread', 2), *shares((0, 1))]
SHOWN = ['show 0', 'show 1']
PICKS = ('old', 'new', 'zero', 'ones')


# ---- the named ones

def ordinary():
    case('a note goes by offer, request, message and ack', *HELLO, 'link 0 1 interactive 1000', 'rest 10')
    case('the same, and one device is shown', *HELLO, 'link 0 1 interactive 1000', 'rest 10', 'show 1')
    case('the same, and both are shown, one of them twice', 'devices 2', *SHOWN, *HELLO[1:], 'link 0 1 interactive 1000',
         'rest 10', 'show 1', end='')
    text = 'letters ' * 250
    posts = [f'post 0 0 {n} {n - 1 if n else "-"} {text}' for n in range(40)]
    case('40 replies over two links', 'devices 3', *groups('thread', 3), *shares((0, 1), (1, 2)), *posts,
         'link 0 1 interactive 1000', 'link 1 2 interactive 1000', 'rest 100', 'show 2')
    case('a line before its group', 'devices 2', 'post 0 0 5 - hello')
    lost = [*SENT, 'lose 0 0', 'lose 0 0', 'rest 10']
    case('a note is lost', *lost)
    case('a note is lost, and sent again once its time is over', *lost, 'clock 3000', 'rest 10')
    case('a note is lost, and its time is not over', *lost, 'clock 2999', 'rest 10')
    repeated = [*SENT, 'carry 0 0', 'repeat 0 0', 'carry 0 0']
    again = ['restart 0', 'link 0 1 batch 1000', 'clock 3000', 'rest 10']
    case('a note comes twice, and the disk stops', *repeated, 'stop 1 3 old', 'turn 1')
    case('the same, and the note is sent again', *repeated, 'stop 1 3 old', 'turn 1', *again, *SHOWN)
    case('a note comes twice', *repeated, 'turn 1', *SHOWN)
    case('a ring of eight', 'devices 8', *groups('thread', 8), *shares(*((d, (d + 1) % 8) for d in range(8))),
         *[f'link {d} {(d + 1) % 8} interactive 1000' for d in range(8)], *[f'post {d} 0 {d} - hello' for d in range(8)],
         'rest 100', 'post 7 0 9 0,1,2,3,4,5,6,7 all', 'rest 100', 'show 3')


def cascade():
    """599 replies before their root: at each swap it changes places with the reply behind it."""
    posts = ['post 0 0 0 - root', *[f'post 0 0 {n} 0 r' for n in range(1, 600)]]
    turns = ['turn 0', 'carry 0 0', *['swap 0 0', 'carry 0 0'] * 63, 'turn 1']
    for size in [64] * 8 + [24]:
        turns += ['turn 0', *['swap 0 0', 'carry 0 0'] * size, 'turn 1']
    front = [*THREAD, *posts, 'link 0 1 batch 1000', *turns, 'carry 0 0']
    case('a cascade of 599 replies', *front, 'turn 1')
    for call in (3, 6, 7):
        case(f'a cascade is stopped at call {call}', *front, f'stop 1 {call} old', 'turn 1')


def stops():
    for pick in PICKS:
        for call in range(10):
            case(f'a post is stopped at call {call}, {pick}', 'devices 2', 'group 0 note d', f'stop 0 {call} {pick}',
                 'post 0 0 5 - hello', 'show 0')
    for pick in PICKS:
        for call in range(5):
            case(f'a group and a level are stopped at call {call}, {pick}', 'devices 2', f'stop 0 {call} {pick}',
                 'group 0 note d', f'stop 1 {call} {pick}', 'group 1 note d', 'show 0', 'show 1')
            case(f'a level is stopped at call {call}, {pick}', *groups_of_two(), f'stop 0 {call} {pick}',
                 'share 0 1 0 visible', 'show 0')
            case(f'a link is stopped at call {call}, {pick}, where it is dialled', *HELLO, f'stop 0 {call} {pick}',
                 'link 0 1 batch 1000', 'rest 5', *SHOWN)
            case(f'a link is stopped at call {call}, {pick}, where it is waited for', *HELLO, f'stop 1 {call} {pick}',
                 'link 0 1 batch 1000', 'rest 5', 'link 0 1 batch 1000', 'rest 5', *SHOWN)
    for call in range(0, 40, 3):
        case(f'a rest is stopped at call {call}', *HELLO, 'link 0 1 interactive 1000', f'stop 1 {call} {PICKS[call % 4]}',
             'rest 9', 'link 0 1 interactive 10', 'clock 9000', 'rest 20', *SHOWN)
    together()
    case('a second stop takes the place of the first', *PAIR, 'stop 0 0 old', 'stop 0 9 old', 'post 0 0 5 - hello')
    case('a stop that is far away', *PAIR, 'stop 0 18446744073709551615 old', 'post 0 0 5 - hello')
    case('a stop is for one device', *PAIR, 'stop 1 0 old', 'post 0 0 5 - hello')
    case('a stop is armed until it is reached', *PAIR, 'stop 0 4 old', 'post 0 0 5 - hello', 'post 0 0 6 - more')
    for call in range(30):
        case(f'a restart before a stop at call {call}', *HELLO, f'stop 0 {call} new', 'restart 0', 'post 0 0 6 - more')
    case('a post that was stopped has its label', *THREAD, 'stop 0 1 old', 'post 0 0 5 - lost', 'post 0 0 6 - kept',
         'post 0 0 7 1 reply', 'show 0')
    case('a reply to a post that was stopped', *THREAD, 'stop 0 1 old', 'post 0 0 5 - lost', 'post 0 0 6 0 reply')
    case('the post that was stopped, again', *THREAD, 'stop 0 1 old', 'post 0 0 5 - lost', 'post 0 0 5 - lost',
         'post 0 0 6 0 reply')
    case('a group that was stopped has its label', 'devices 2', 'stop 0 1 old', 'group 0 note d', 'group 1 note d',
         'share 1 0 0 shared', 'group 0 note d', 'post 0 0 5 - hello')
    case('a group that was stopped is lacked', 'devices 2', 'stop 0 1 old', 'group 0 note d', 'post 0 0 5 - hello')


def together():
    """A stop falls at each call of the groups of a turn: of what it hears, four calls, and of what it sends."""
    three = [*PAIR, *[f'post 0 0 {n} - hello' for n in range(3)], 'link 0 1 batch 1000']
    here = [*three, 'turn 0', *['carry 0 0'] * 4]
    both = ['devices 3', *groups('note', 3), *shares((0, 1), (1, 2)), 'post 0 0 5 - one', 'post 0 0 6 - two', 'post 2 0 7 - three',
            'link 0 1 batch 1000', 'link 2 1 batch 1000', 'turn 0', 'turn 2', *['carry 0 0'] * 3, *['carry 1 2'] * 2]
    for pick in PICKS:
        for call in range(5):
            case(f'a turn that sends three notes is stopped at call {call}, {pick}', *three, f'stop 0 {call} {pick}', 'turn 0', *SHOWN,
                 'link 0 1 batch 1000', 'rest 9', 'clock 2999', 'rest 9', 'clock 3000', 'rest 9')
        for call in range(9):
            case(f'a turn that hears three notes is stopped at call {call}, {pick}', *here, f'stop 1 {call} {pick}', 'turn 1', *SHOWN)
        for call in range(17):
            case(f'a turn that hears on two links is stopped at call {call}, {pick}', *both, f'stop 1 {call} {pick}', 'turn 1', 'show 1', 'turn 0', 'turn 2')
    case('a turn that hears three notes is stopped, and all goes on', *here, 'stop 1 3 old', 'turn 1', 'restart 0', 'clock 3000', 'link 0 1 batch 1000',
         'rest 9', *SHOWN)


def groups_of_two():
    return ['devices 2', *groups('note', 2)]


def links():
    case('swapped', *PAIR, 'post 0 0 5 - one', 'post 0 0 6 - two', 'link 0 1 batch 1000', 'turn 0', 'carry 0 0', 'swap 0 0',
         'carry 0 0', 'turn 1', 'show 1')
    case('a reply before its parent', *THREAD, 'post 0 0 5 - one', 'post 0 0 6 0 two', 'link 0 1 batch 1000', 'turn 0',
         'carry 0 0', 'swap 0 0', 'carry 0 0', 'turn 1', 'show 1', 'carry 0 0')
    case('the reply and then its parent', *THREAD, 'post 0 0 5 - one', 'post 0 0 6 0 two', 'link 0 1 batch 1000', 'turn 0',
         'carry 0 0', 'swap 0 0', 'carry 0 0', 'turn 1', 'carry 0 0', 'turn 1', 'show 1')
    case('what was given is heard after a cut', *SENT, 'carry 0 0', 'carry 0 0', 'cut 0', 'turn 1', 'turn 1', 'show 1')
    case('what is in flight is dropped by a cut', *SENT, 'carry 0 0', 'cut 0', 'turn 1', 'show 1')
    case('a link of a device that was restarted', *SENT, 'carry 0 0', 'carry 0 0', 'restart 0', 'turn 1', 'turn 0', 'show 1')
    case('what was given to a device that was restarted', *SENT, 'carry 0 0', 'carry 0 0', 'restart 1', 'turn 1', 'show 1')
    case('sent on a cut link', *PAIR, 'link 0 1 batch 1000', 'rest 3', 'cut 0', 'post 0 0 5 - hello', 'turn 0', 'turn 0',
         'link 0 1 batch 1000', 'rest 9', 'show 1', 'clock 2999', 'rest 9')
    case('sent again after a cut link', *PAIR, 'link 0 1 batch 1000', 'cut 0', 'post 0 0 5 - hello', 'turn 0', 'clock 3000',
         'link 0 1 batch 1000', 'rest 9', 'show 1')
    case('of two links the later is kept', *HELLO, 'link 0 1 interactive 1000', 'link 0 1 interactive 1000', 'rest 20', *SHOWN)
    case('a link that was closed is cut', *HELLO, 'link 0 1 interactive 1000', 'link 0 1 interactive 1000', 'turn 0', 'cut 0')
    case('the other link is not', *HELLO, 'link 0 1 interactive 1000', 'link 0 1 interactive 1000', 'turn 0', 'cut 1')
    case('links both ways', *HELLO, 'link 0 1 interactive 1000', 'link 1 0 interactive 1000', 'rest 20', *SHOWN)
    case('batch and interactive', *HELLO, 'link 0 1 batch 1000', 'link 1 0 interactive 7', 'post 1 0 5 - other', 'rest 20',
         *SHOWN)
    eight = [f'link 0 1 batch {n}' for n in range(1, 9)]
    case('eight links', *HELLO, *eight, 'rest 9', *SHOWN)
    case('a ninth link', *HELLO, *eight, 'link 1 0 batch 9')
    case('a ninth link after a restart of one', *HELLO, *eight, 'restart 0', 'link 0 1 batch 9')
    case('a ninth link after a restart of both', *HELLO, *eight, 'restart 0', 'restart 1', 'link 0 1 batch 9', 'rest 9', *SHOWN)
    case('a device that had a link makes turns', *SENT, 'cut 0', 'stop 1 0 old', 'rest 1', 'post 1 0 5 - mine', 'show 1')
    case('a visible group is not sent on', 'devices 3', *groups('note', 3), *shares((0, 1)), *shares((1, 2), level='visible'),
         'post 0 0 5 - hello', 'link 0 1 batch 9', 'link 1 2 batch 9', 'rest 9', 'share 1 2 0 shared', 'rest 9', 'show 2')
    case('a feed is not sent on', 'devices 3', *groups('feed', 3), *shares((0, 1), (1, 2)), 'post 0 0 5 - one',
         'post 0 0 6 0 two', 'link 0 1 interactive 9', 'link 1 2 interactive 9', 'rest 20', 'show 1', 'show 2')
    case('an invisible group is not taken', 'devices 2', *groups('note', 2), 'share 0 1 0 shared', 'post 0 0 5 - hello',
         'link 0 1 batch 9', 'rest 9', 'show 1')
    large = ['x' * 32_768, 'y' * 30_000, 'z' * 32_000]
    case('a turn hears 65,536 bytes', *PAIR, *[f'post 0 0 {n} - {text}' for n, text in enumerate(large)], 'link 0 1 batch 9',
         'turn 0', *['carry 0 0'] * 4, 'turn 1', 'show 1')
    case('the next turn hears on', *PAIR, *[f'post 0 0 {n} - {text}' for n, text in enumerate(large)], 'link 0 1 batch 9',
         'turn 0', *['carry 0 0'] * 4, 'turn 1', 'turn 1', 'show 1')
    case('a clock that goes back', *PAIR, 'clock 18446744073709551615', 'post 0 0 5 - hello', 'link 0 1 batch 4294967295',
         'turn 0', 'clock 0', 'restart 1', 'link 0 1 batch 1', 'rest 5', 'show 1')
    case('ends early', *HELLO, 'link 0 1 interactive 1000', 'rest 1000000')


# a case of this name, behind these lines, is bad at its last line
def bad(name, front, line):
    case('bad: ' + name, *front, line)


def refusals():
    feed = ['devices 2', *groups('feed', 2), 'post 0 0 5 - one', 'post 0 0 6 0 two']
    thread = [*THREAD, 'post 0 0 5 - one', 'post 0 0 6 0 two']
    bad('a group twice', PAIR, 'group 0 note d')
    bad('a share with itself', PAIR, 'share 0 0 0 shared')
    bad('a share of a group that D lacks', ['devices 2', 'group 1 note d'], 'share 0 1 0 shared')
    bad('a post in a group that D lacks', ['devices 2', 'group 1 note d'], 'post 0 0 5 - hello')
    bad('a parent of itself', thread, 'post 0 0 7 2 x')
    bad('a parent to come', thread, 'post 0 0 7 0,3 x')
    bad('a parent twice', thread, 'post 0 0 7 0,1,0 x')
    bad('a note with a parent', HELLO, 'post 0 0 7 0 x')
    bad('a feed with two parents', feed, 'post 0 0 7 0,1 x')
    bad('a feed with a parent to come', feed, 'post 0 0 7 2 x')
    bad('the same post again', HELLO, 'post 0 0 5 - hello')
    bad('a parent that is not held', thread, 'post 1 0 7 0 x')
    bad('a parent in another group', [*thread, 'group 0 thread e'], 'post 0 1 7 0 x')
    bad('a parent that is pending', [*thread, 'link 0 1 batch 9', 'turn 0', 'carry 0 0', 'swap 0 0', 'carry 0 0', 'turn 1'],
        'post 1 0 7 1 x')
    bad('two parents with one id', [*THREAD, 'post 0 0 5 - one', 'post 1 0 5 - one'], 'post 0 0 7 0,1 x')
    bad('a note that is too long', PAIR, 'post 0 0 5 - ' + 'x' * 32_769)
    bad('a reply that is too long', thread, 'post 0 0 7 0 ' + 'x' * 32_736)
    bad('a feed that is too long', feed, 'post 0 0 7 - ' + 'x' * 32_737)
    bad('256 parents', [*THREAD, *[f'post 0 0 {n} - x' for n in range(256)]],
        f'post 0 0 999 {",".join(map(str, range(256)))} x')
    bad('a link with itself', PAIR, 'link 0 0 batch 9')
    for step in ('carry', 'lose', 'repeat', 'swap'):
        bad(f'{step}, nothing in flight', [*LINKED, 'lose 0 1'], f'{step} 0 1')
        bad(f'{step} on a cut link', [*SENT, 'cut 0'], f'{step} 0 0')
        bad(f'{step} from no end', ['devices 3', *SENT[1:]], f'{step} 0 2')
        bad(f'{step} on no link', SENT, f'{step} 1 0')
        bad(f'{step} from no device', SENT, f'{step} 0 2')
    bad('swap of one', [*SENT, 'carry 0 0'], 'swap 0 0')
    bad('a second cut', [*LINKED, 'cut 0'], 'cut 0')
    bad('a cut after a restart', [*LINKED, 'restart 1'], 'cut 0')
    bad('a cut of no link', LINKED, 'cut 1')
    for line in ('group 2 note d', 'share 2 0 0 shared', 'share 0 2 0 shared', 'share 0 1 1 shared', 'post 2 0 5 - x',
                 'post 0 1 5 - x', 'link 2 0 batch 9', 'link 0 2 batch 9', 'turn 2', 'turn 7', 'stop 2 0 old', 'restart 2',
                 'show 2', 'post 0 18446744073709551615 5 - x', 'cut 18446744073709551615', 'carry 18446744073709551615 0'):
        bad(line, LINKED, line)
    many = ['devices 2', *[f'group 0 note {n}' for n in range(1024)]]
    bad('a group too many', many, 'group 0 note more')
    case('1,024 groups', *many, 'group 1 note more', 'post 0 1023 5 - hello')
    case('the longest texts', *PAIR, *groups('thread', 2, 'e'), *groups('feed', 2, 'f'), 'post 0 0 5 - ' + 'x' * 32_768,
         'post 0 1 5 - ' + 'x' * 32_767, 'post 0 2 5 - ' + 'x' * 32_736)
    case('255 parents', *THREAD, *[f'post 0 0 {n} - x' for n in range(255)], f'post 0 0 999 {",".join(map(str, range(255)))} x')
    case('the longest descriptor', 'devices 2', 'group 0 note ' + 'x' * 16_384, 'post 0 0 5 - hello')
    bad('a descriptor that is too long', ['devices 2'], 'group 0 note ' + 'x' * 16_385)


def forms():
    lines = ['turn', 'turn ', 'turn 0 ', 'turn  0', ' turn 0', 'turn 0 0', 'turn\t0', 'turn 0\r', 'turn 00', 'turn 01',
             'turn +0', 'turn 8', 'turn 18446744073709551616', 'Turn 0', 'walk 0', ' ', '#', 'devices 2', 'group 0 note',
             'group 0 note ', 'group 0 chat d', 'group 0 note d e', 'share 0 1 0', 'share 0 1 0 open', 'post 0 0 5 -',
             'post 0 0 5 - ', 'post 0 0 5  x', 'post 0 0 5 0, x', 'post 0 0 5 -1 x', 'post 0 0 9223372036854775808 - x',
             'link 0 1 batch 0', 'link 0 1 batch 4294967296', 'link 0 1 fast 9', 'link 0 1 batch', 'carry 0', 'carry 0 0 0',
             'cut', 'clock', 'clock 18446744073709551616', 'stop 0 0', 'stop 0 0 any', 'stop 0 18446744073709551616 old',
             'restart', 'rest 0', 'rest 1000001', 'rest', 'show', b'post 0 0 6 - \xff', b'group 0 note \xc3', b'\xff',
             b'\xef\xbb\xbfturn 0']
    for place, line in enumerate(lines):
        bad(f'form {place}', LINKED, line)
    case('no script')
    case('a script of empty lines', '', '', '')
    case('a script of spaces', ' ')
    for place, first in enumerate(['turn 0', 'devices', 'devices 1', 'devices 9', 'devices 02', 'devices 2 ', 'devices 2\r',
                                  'Devices 2', b'\xff']):
        case(f'first line {place}', '', '', first, 'turn 0')
    case('devices alone', 'devices 8', end='')
    case('empty lines are counted', '', *PAIR[:1], '', *PAIR[1:], '', '', 'turn 9')
    case('texts with spaces', *PAIR, 'post 0 0 5 -  ', 'post 0 0 5 -  two  spaces ', b'post 0 0 5 - \xe2\x82\xac\r', 'show 0',
         end='')
    case('a word that is not plain', 'devices 2', b'group 0 note \xc3\xa9', 'show 0')
    case('the longest script', 'devices 2', how='longest')
    case('a script that is too long', 'devices 2', how='too long')
    case('a bad script that is too long', 'turn 0', how='too long')


def words():
    for asked in ('gen', 'gen 7', 'gen x 5', 'gen x', 'gen 7 0', 'gen 7 x', 'gen 7 100001', 'gen 7 5 x', 'gen 7 5 6 7',
                  'Gen 7 5', 'x', 'gen  7', 'gen 18446744073709551616 5', 'gen 07 5', 'gen 7 05', 'gen -1 5',
                  'gen 7 18446744073709551617'):
        case(f'words: {asked}', *PAIR, words=asked)
    for asked in ('gen 7 200', 'gen 0 1', 'gen 18446744073709551615 101', 'gen 1 100'):
        case(f'words: {asked}', 'this is not read', words=asked)
    case('a source that fails', *PAIR, how='no source')
    case('a sink that fails', *PAIR, how='no sink')
    case('a sink of errors that fails', 'turn 0', how='no errors')


# ---- those that are drawn

def drawn_line(dice, world):
    count = len(world.devices)
    d, e = dice.sample(range(count), 2)
    label = dice.randrange(len(world.labels) or 1)
    link = dice.randrange(len(world.links) or 1)
    parents = sorted(dice.sample(range(len(world.posts)), min(len(world.posts), dice.randrange(3))))
    return dice.choice([
        f'group {d} {dice.choice(["note", "thread", "feed"])} {dice.choice("de")}',
        f'share {d} {e} {label} {dice.choice(["invisible", "visible", "shared", "shared"])}',
        *[f'post {d} {label} {dice.randrange(9)} {",".join(map(str, parents)) or "-"} {dice.choice(["one", "two"])}'] * 4,
        *[f'link {d} {e} {dice.choice(["interactive", "batch"])} {dice.choice([1, 1000])}'] * 2,
        *[f'turn {d}'] * 4,
        *[f'carry {link} {d}'] * 6,
        f'lose {link} {d}', f'repeat {link} {d}', f'repeat {link} {d}', f'swap {link} {d}', f'swap {link} {d}',
        *[f'cut {link}'] * (dice.randrange(4) == 0),
        f'clock {world.clock + dice.choice([1, 3000, 100000])}',
        f'stop {d} {dice.randrange(12)} {dice.choice(PICKS)}',
        *[f'restart {d}'] * (dice.randrange(3) == 0),
        f'rest {dice.randrange(1, 4)}',
    ])


def drawn(seed):
    """A script of at most 60 lines, each of which is made; of some the last is bad."""
    dice = random.Random(seed)
    count = 2 + seed % 3
    lines = [f'devices {count}', *groups(dice.choice(['thread', 'thread', 'note', 'feed']), count)]
    lines += shares(*((a, b) for a in range(count) for b in range(a) if dice.random() < 0.8))
    world = World(count)
    for line in lines[1:]:
        make(world, line)
    last = 60 - dice.randrange(20)
    while len(lines) < last - count:
        line = drawn_line(dice, world)
        if make(world, line):
            lines.append(line)
    lines += [f'show {d}' for d in range(count)]
    case(f'drawn {seed}, checked', *lines)


def make(world, line):
    word, args = step_of(line.encode())
    try:
        getattr(world, 'do_' + word)(*args)
    except Refused:
        return False
    return True


def main():
    for some in (ordinary, cascade, stops, links, refusals, forms, words):
        some()
    for seed in range(60):
        drawn(seed)
    sys.stdout.buffer.write(b'\0'.join(CASES))


if __name__ == '__main__':
    main()
