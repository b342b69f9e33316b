"""The language of scripts, read by patterns, and the worlds that a seed makes, from docs/FORMATS.md.

    scripts.py cases > crates/test_scripts/stdin
    scripts.py said < crates/test_scripts/stdin > crates/test_scripts/stdout

Nothing here is shared with the program. A zero byte stands between two scripts.
"""
import re
import sys

NUM = rb'(0|[1-9][0-9]*)'
U64 = 2 ** 64 - 1

# a form, and for each of its groups the least and the greatest number, or None for a word
FORMS = [
    (rb'group %s (note|thread|feed) ([^ ]+)' % NUM, [(0, 7), None, None]),
    (rb'share %s %s %s (invisible|visible|shared)' % (NUM, NUM, NUM), [(0, 7), (0, 7), (0, U64), None]),
    (rb'post %s %s %s (-|[^ ]+) (.+)' % (NUM, NUM, NUM), [(0, 7), (0, U64), (0, 2 ** 63 - 1), 'labels', None]),
    (rb'link %s %s (interactive|batch) %s' % (NUM, NUM, NUM), [(0, 7), (0, 7), None, (1, 2 ** 32 - 1)]),
    (rb'turn %s' % NUM, [(0, 7)]),
    (rb'(?:carry|lose|repeat|swap) %s %s' % (NUM, NUM), [(0, U64), (0, 7)]),
    (rb'cut %s' % NUM, [(0, U64)]),
    (rb'clock %s' % NUM, [(0, U64)]),
    (rb'stop %s %s (old|new|zero|ones)' % (NUM, NUM), [(0, 7), (0, U64), None]),
    (rb'restart %s' % NUM, [(0, 7)]),
    (rb'rest %s' % NUM, [(1, 1_000_000)]),
    (rb'show %s' % NUM, [(0, 7)]),
]


def is_number(word, least, most):
    return re.fullmatch(NUM, word) is not None and least <= int(word) <= most


def suits(word, limit):
    if limit is None:
        return True
    if limit == 'labels':
        return word == b'-' or all(is_number(part, 0, U64) for part in word.split(b','))
    return is_number(word, *limit)


def has_form(line):
    try:
        line.decode('utf-8')
    except UnicodeDecodeError:
        return False
    for form, limits in FORMS:
        found = re.fullmatch(form, line, re.DOTALL)
        if found:
            return all(suits(word, limit) for word, limit in zip(found.groups(), limits))
    return False


def said(script):
    """What is printed for a script."""
    lines = script.split(b'\n')
    if lines[-1] == b'':
        lines.pop()
    devices = False
    for number, line in enumerate(lines, 1):
        if line == b'':
            continue
        if not devices:
            found = re.fullmatch(rb'devices ([2-8])', line)
            if not found:
                yield b'bad line %d' % number
                return
            devices = True
            yield line
        elif has_form(line):
            yield b'%d: %s' % (number, line)
        else:
            yield b'bad line %d' % number
            return
    yield b'end' if devices else b'bad line 1'


def generated(seed, count):
    yield from ['devices 2', 'group 0 thread gen', 'group 1 thread gen', 'share 0 1 0 shared', 'share 1 0 0 shared',
                'link 0 1 interactive 1000']
    x = seed
    last = {}
    for i in range(count):
        x = (x * 6364136223846793005 + 1442695040888963407) % 2 ** 64
        device = (x >> 33) % 2
        yield f'post {device} 0 {i} {last.get(device, "-")} m{i}'
        last[device] = i
        if (i + 1) % 100 == 0 or i + 1 == count:
            yield 'rest 1000'


LINES = [
    # each form once
    b'group 0 note d', b'group 7 thread \xc3\xa9', b'group 1 feed -', b'share 0 7 0 invisible', b'share 1 0 3 visible',
    b'share 0 1 18446744073709551615 shared', b'post 0 0 0 - x', b'post 7 1 9223372036854775807 0,1,1,18446744073709551615 \xe2\x82\xac',
    b'post 0 0 5 -  two  spaces ', b'post 0 0 5 3  ', b'link 0 1 interactive 1', b'link 1 1 batch 4294967295', b'turn 0', b'turn 7',
    b'carry 0 0', b'lose 1 7', b'repeat 18446744073709551615 1', b'swap 2 0', b'cut 0', b'clock 0', b'clock 18446744073709551615',
    b'stop 0 0 old', b'stop 1 18446744073709551615 new', b'stop 2 1 zero', b'stop 3 2 ones', b'restart 0', b'rest 1', b'rest 1000000',
    b'show 0', b'show 7', b'', b'post 0 0 5 - \ttab\r',
    # words that are no form
    b' ', b'x', b'Turn 0', b'turn', b'turn ', b'turn 0 ', b'turn  0', b' turn 0', b'turn 0 0', b'turn\t0', b'turn 0\r', b'\r', b'turn 00',
    b'turn +0', b'turn -1', b'turn 0x0', b'turn 8', b'turn 256', b'turn 18446744073709551616', b'turn ' + b'9' * 400, b'turn \xd9\xa3',
    b'turn \xff', b'\xef\xbb\xbfturn 0', b'devices 2', b'devices 3 ', b'group', b'group 0', b'group 0 note', b'group 0 note ',
    b'group 0 note d e', b'group 0 Note d', b'group 8 note d', b'group 0 note  d', b'group 0 note d ', b'group 0 note \xc3',
    b'share 0 1 0', b'share 0 8 0 shared', b'share 0 1 18446744073709551616 shared', b'share 0 1 0 Shared', b'share 0 1 0 shared x',
    b'share 0 1 shared', b'post 0 0 0 -', b'post 0 0 0 - ', b'post 0 0 9223372036854775808 - x', b'post 8 0 0 - x',
    b'post 0 18446744073709551616 0 - x', b'post 0 0 0 -, x', b'post 0 0 0 , x', b'post 0 0 0 0, x', b'post 0 0 0 ,0 x', b'post 0 0 0 0,,1 x',
    b'post 0 0 0 01 x', b'post 0 0 0 -1 x', b'post 0 0 0 18446744073709551616 x', b'post 0 0 0  x', b'post 0 0 0 0, 1 x', b'post 0 0 0 - \xff',
    b'link 0 1 batch', b'link 0 1 batch 0', b'link 0 1 batch 4294967296', b'link 0 1 Batch 1', b'link 0 8 batch 1', b'link 0 batch 1',
    b'link 0 1 batch 1 ', b'carry 0', b'carry 0 8', b'carry 18446744073709551616 0', b'lose 0', b'repeat 0 0 0', b'swap 0 x', b'cut', b'cut -',
    b'cut 0 0', b'clock', b'clock 18446744073709551616', b'clock 1 ', b'stop 0 0', b'stop 0 0 Old', b'stop 0 18446744073709551616 old',
    b'stop 8 0 old', b'stop 0 0 old x', b'restart', b'restart 8', b'restart 0 0', b'rest 0', b'rest 1000001', b'rest', b'rest 1 1',
    b'show', b'show 8', b'show 0 0',
]

SCRIPTS = [
    b'', b'\n', b'\n\n\n', b'devices 2', b'devices 8\n', b'\n\ndevices 3\n\nturn 0\n\n\nturn 1', b'devices 1\n', b'devices 9\n', b'devices 02\n',
    b'devices\n', b'devices 2 \n', b'devices 2\r\nturn 0\r\n', b'turn 0\ndevices 2\n', b'\nshow 0\n', b'devices 2\nturn 0\ndevices 2\nturn 1\n',
    b'devices 2\n\n\ndevices 2', b'devices 2\nturn 0\n turn 1\nturn 0', b'x', b'\xff\n', b'\n \n', b'devices 18446744073709551618\n',
    b'devices 2\ngroup 0 note d\ngroup 1 note d\nshare 0 1 0 shared\nshare 1 0 0 shared\npost 0 0 5 - hello\nlink 0 1 batch 1000\nturn 0\n'
    b'lose 0 0\nlose 0 0\nrest 10\n',
]

WORLDS = [(7, 203), (0, 1), (2 ** 64 - 1, 100), (1, 101)]


def main(task):
    out = sys.stdout.buffer
    if task == 'cases':
        out.write(b'\0'.join(SCRIPTS + [b'devices 8\n' + line for line in LINES]))
        return
    for place, script in enumerate(sys.stdin.buffer.read().split(b'\0')):
        out.write(b'-- script %d\n' % place)
        for line in said(script):
            out.write(line + b'\n')
    for seed, count in WORLDS:
        out.write(b'-- gen %d %d\n' % (seed, count))
        for line in generated(seed, count):
            out.write(line.encode() + b'\n')


if __name__ == '__main__':
    main(sys.argv[1])
