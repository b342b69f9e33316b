#!/bin/sh
# Trees of replies. First a tree alone (the part `tree` of crates/bench): 50,000 and 200,000 items as chains of 20,000, as a star and as
# replies that look random; the least processor time of RUNS (5) runs, and how much faster than linear in the items it grows; and the
# bytes an item, between 2,000,000 and 4,000,000. Then the command over a store of 200,000 messages, as a star and as such replies:
# `tree GROUP 100000 20`, in turns with `body` of an unknown id, which loads the same store and refuses; its text is compared with
# what is told of the same messages here. Last a chain of 20,000 messages and one of 100,000 (CHAINS). The last lines are
# `ratio NAME VALUE`. It takes some minutes.
set -eu
cd "$(dirname "$0")/.."
.ci/built bench || exit 1
bsp=$PWD/crates/bsp/out/bsp
.ci/built bsp || exit 1
export PYTHONPATH=bench:oracle PYTHONDONTWRITEBYTECODE=1
# The memory of a child counts from what its parent had when it was made, so it is measured from a small process, and between two
# trees that are both greater than that one.
python3 - <<'PY'
from measure import run

bench, few, many = 'crates/bench/out/bench', 2_000_000, 4_000_000
least, most = (run(bench, 'tree', 'star', str(count)).memory for count in (few, many))
print(f'ratio tree_bytes_an_item {(most - least) / (many - few):.1f}', flush=True)
PY
exec python3 - "$bsp" "${RUNS:-5}" "${CHAINS:-20000 100000}" <<'PY'
import os, struct, sys, tempfile

from digests import group_id, message_id
from measure import least, run
from store_file import CLOSED, HEADER, OPEN, frame, steps

bsp, runs, chains = sys.argv[1], int(sys.argv[2]), [int(word) for word in sys.argv[3].split()]
FEW, MANY, LENGTH, FROM, COUNT = 50_000, 200_000, 20_000, 100_000, 20
GROUP = group_id(b'thread', 0, b'd')
UNKNOWN = '0' * 64


# ---- a tree alone

def scatter(n):
    """The numbers of that part that look random."""
    x = n * 0x9e3779b97f4a7c15 & 0xffffffffffffffff
    x ^= x >> 29
    x = x * 0xbf58476d1ce4e5b9 & 0xffffffffffffffff
    return x ^ x >> 32


PARENTS = {
    'chains': lambda n: None if n % LENGTH == 0 else n - 1,
    'star': lambda n: 0 if n else None,
    'random': lambda n: scatter(n) % n if n else None,
    'chain': lambda n: n - 1 if n else None,
}


def tree_of(parents):
    """The depth and the size of each item, and the walk."""
    depths, sizes, below = [], [1] * len(parents), [[] for _ in parents]
    for n, parent in enumerate(parents):
        depths.append(0 if parent is None else depths[parent] + 1)
        if parent is not None:
            below[parent].append(n)
    for n in reversed(range(len(parents))):
        if parents[n] is not None:
            sizes[parents[n]] += sizes[n]
    walk, open_items = [], [n for n, parent in enumerate(parents) if parent is None][::-1]
    while open_items:
        n = open_items.pop()
        walk.append(n)
        open_items.extend(reversed(below[n]))
    return depths, sizes, walk


def parents_of(shape, count):
    return [PARENTS[shape](n) for n in range(count)]


def adds(shape, count):
    """A run of that part."""
    depths, _, walk = tree_of(parents_of(shape, count))
    told = f'{count} items, depths {sum(depths)}, {walk[count // 2]} in the middle\n'
    word = str(LENGTH) if shape == 'chains' else shape
    return lambda: run('crates/bench/out/bench', 'tree', word, str(count), want=told)


ratios = []
for shape in ('chains', 'star', 'random'):
    (short, _), (long, _), (start, _) = least(runs, *(adds(shape, count) for count in (FEW, MANY, 1)))
    growth = (long - start) / max(short - start, 0.001) / (MANY / FEW)
    print(f'{shape}: {FEW} in {short:.3f} s, {MANY} in {long:.3f} s, growth over linear {growth:.3f}', flush=True)
    ratios.append(f'ratio tree_add_{shape} {growth:.3f}')


# ---- the command

class Replies:
    """A store of a thread: its file, and what the walk shows of it."""

    def __init__(self, shape, count):
        self.parents = parents_of(shape, count)
        self.ids, payloads = [], [struct.pack('>BB6sIH', 2, 6, b'thread', 0, 1) + b'd']
        for n, parent in enumerate(self.parents):
            above = b'' if parent is None else self.ids[parent]
            body = bytes([len(above) // 32]) + above + f'reply {n}'.encode()
            self.ids.append(message_id(GROUP, n, body))
            payloads.append(struct.pack('>B32sQH', 6, GROUP, n, len(body)) + body)
            payloads.append(steps(struct.pack('>I', n)))
        self.file = HEADER + b''.join(OPEN + frame(payload)[:-1] for payload in payloads) + CLOSED

    def text(self, place, count):
        depths, sizes, walk = tree_of(self.parents)
        return ''.join(f'{depths[n]} {sizes[n]} {self.ids[n].hex()}\n' for n in walk[place:place + count])


def refuses(folder):
    """The load of a store: an id that is not held."""
    words = ('sh', '-c', f'"$0" body {UNKNOWN} 2>&1 || test $? = 4', bsp)
    return run(*words, folder=folder, want='refused: unknown message\n')


def window(shape, count, place, name):
    with tempfile.TemporaryDirectory() as folder:
        replies = Replies(shape, count)
        with open(os.path.join(folder, 'bsp.0'), 'wb') as file:
            file.write(replies.file)
        told = replies.text(place, COUNT)
        words = (bsp, 'tree', GROUP.hex(), str(place), str(COUNT))
        (shown, _), (load, _) = least(runs, lambda: run(*words, folder=folder, want=told), lambda: refuses(folder))
        print(f'{name}: {count} messages, load {load:.3f} s, tree {shown:.3f} s', flush=True)
        return f'ratio tree_{name} {shown / load:.3f}'


ratios += [window(shape, MANY, FROM, shape) for shape in ('star', 'random')]
ratios += [window('chain', count, count // 2, f'chain_{count}') for count in chains]
print('\n'.join(ratios))
PY
