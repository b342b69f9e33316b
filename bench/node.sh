#!/usr/bin/env bash
# `bsp sync` on one link, in batch mode, over files in memory: MANY (20,000) notes of 200 bytes are heard on its standard input, or
# sent on its standard output. Beside it stand a bare program that makes the same writes and syncs (bench/bare_append.c) and a load of
# the store that it leaves, which has the work of each batch but the node's: the least processor time of RUNS (5) runs of each, in
# turns, each with the start of its process. Growth, of `sync` alone from FEW (5,000) notes, is over linear. What a run leaves in the
# file and on its output is compared with what the rules say (oracle/store_file.py). The last lines are `ratio NAME VALUE`.
cd "$(dirname "$0")/.." || exit 1
bsp=${BSP:-$PWD/crates/bsp/out/bsp}
[ -x "$bsp" ] || .ci/built bsp || exit 1
folder=$(mktemp -d /dev/shm/node.XXXXXX) || exit 1
trap 'rm -rf "$folder"' EXIT
cc -O2 -o "$folder/bare_append" bench/bare_append.c || exit 1
PYTHONDONTWRITEBYTECODE=1 PYTHONPATH=bench:oracle python3 - "$bsp" "$folder" "${RUNS:-5}" "${FEW:-5000}" "${MANY:-20000}" <<'PY'
import os, struct, sys

from journal import ACKS, SEND, frames
from measure import least, run
from run_model import ACK, MAX_OUTS, VERSIONS, message_record, record_bytes
from store_file import GROUP, Note, file_bytes, steps, together

bsp, folder, runs, few, many = *sys.argv[1:3], *map(int, sys.argv[3:])
SIZE, LATENCY = 200, 600_000
STORE, SENT = os.path.join(folder, 'bsp.0'), os.path.join(folder, 'sent')
GREETING = record_bytes(VERSIONS, b'\0')
# a load and nothing else: there is no such contact
LOAD = 'sh', '-c', f'"$0" share 255 {GROUP.hex()} visible 2>&1 || test $? = 4', bsp
BEGINS = struct.pack('>BIBBIB', 4, 0, 0, 1, LATENCY, 0)


def expect(holds, what):
    if not holds:
        sys.exit(f'wrong: {what}')


def put(path, content):
    with open(path, 'wb') as file:
        file.write(content)


def content_of(path):
    with open(path, 'rb') as file:
        return file.read()


class Way:
    """What is heard or sent: the store before, the input, and what a run left of both."""

    def __init__(self, name, count):
        self.notes = [Note(number, SIZE) for number in range(count)]
        self.name, self.count, self.hears = name, count, name == 'hear'
        self.before = file_bytes([] if self.hears else self.notes)
        self.records = b''.join(message_record(GROUP, note.time, note.body) for note in self.notes)
        self.given = GREETING + self.records if self.hears else b''
        self.run()
        self.left = content_of(STORE)
        self.check(content_of(SENT))

    def run(self):
        """A run of `sync`."""
        put(STORE, self.before)
        put(SENT + '.in', self.given)
        with open(SENT + '.in', 'rb') as source, open(SENT, 'wb') as sink:
            words = bsp, 'sync', '1000000', '1', '0', 'batch', str(LATENCY), 'std'
            return run(*words, source=source, sink=sink, folder=folder)

    def added(self):
        return [payload for at, payload in frames(self.left) if at >= len(self.before) - 1]

    def groups(self):
        """The batches that were added, as they were added: the session, what a piece brought, and the outputs of a turn."""
        groups = []
        for payload in self.added():
            kind = payload[0] if payload[0] in (4, 15) else 5
            if not groups or groups[-1][0] != kind or kind == 4 or kind == 15 and len(groups[-1][1]) == MAX_OUTS:
                groups.append((kind, []))
            groups[-1][1].append(payload)
        return [payloads for _, payloads in groups]

    def check(self, sent):
        """The batches that were added, and what was sent: behind what was heard, acknowledgements in order."""
        outs = [payload for payload in self.added() if payload[0] == 15]
        kind = ACKS if self.hears else SEND
        expect(all(payload[13] == kind for payload in outs), 'outputs')
        order = b''.join(struct.pack('>I', number) for number in range(self.count))
        names = b''.join(payload[16:] if self.hears else payload[14:] for payload in outs)
        expect(names == order, 'the order of outputs')
        others = [payload for payload in self.added() if payload[0] != 15]
        expect(others == [BEGINS, *(self.taken() if self.hears else ())], 'the batches beside outputs')
        expect(sent == GREETING + (self.acknowledged(outs) if self.hears else self.records), 'the bytes sent')

    def taken(self):
        yield struct.pack('>BIQ', 5, 0, 0)
        for number, note in enumerate(self.notes):
            yield struct.pack('>BIQ', 5, 0, number + 1) + b'\7' + struct.pack('>I', 0) + note.said()[1:]
            yield steps(struct.pack('>I', number))

    def acknowledged(self, outs):
        ids, told = iter(note.id for note in self.notes), b''
        for payload in outs:
            told += record_bytes(ACK, b''.join(next(ids) for _ in range(len(payload[16:]) // 4)))
        return told

    def bare(self):
        """The same writes and syncs."""
        put(STORE, self.before)
        put(SENT + '.in', b''.join(map(together, self.groups())))
        with open(SENT + '.in', 'rb') as source:
            told = run(os.path.join(folder, 'bare_append'), 'bsp.0', 'bsp.1', source=source, folder=folder)
        expect(content_of(STORE) == self.left, 'the bare program')
        return told

    def load(self):
        """A load of what a run leaves."""
        put(STORE, self.left)
        return run(*LOAD, folder=folder, want='refused: unknown contact\n')


lines = []
for name in ('hear', 'send'):
    short, long = Way(name, few), Way(name, many)
    asked = least(runs, long.run, long.bare, long.load, short.run)
    ours, theirs, load, start = (seconds for seconds, _ in asked)
    print(f'{name}: {many} notes of {SIZE} bytes: sync {ours:.3f} s, the bare program {theirs:.3f} s, a load of what is left '
          f'{load:.3f} s; {few} notes: sync {start:.3f} s', flush=True)
    lines.append(f'ratio {name} {ours / (theirs + load):.2f}')
    lines.append(f'ratio {name}_growth {ours / start * few / many:.3f}')
print('\n'.join(lines))
PY
