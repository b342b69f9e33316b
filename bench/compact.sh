#!/usr/bin/env bash
# A journal in whose place its brief account is put. Files are made by this script and oracle/store_file.py, and each file that a run
# leaves is compared with what the rules say.
# - A store of COUNT (20,000) notes of 200 bytes, which contact 0 sent in 100 sessions and which were sent on to contact 1 in 100
#   more: its length before and after; the processor time of its load (`body` of an unknown id, the start of its process included)
#   before, after, and of a store that heard the same notes in one session, least of RUNS (7) runs; the greatest memory of `compact`
#   over that of the load.
# - The same of `compact` in a folder in memory, over the load of the store before.
# - `compact` over real files, in a folder of its own on a disk, beside the load alone and a bare program that makes the same writes
#   and syncs (bench/bare_append.c): medians of RUNS runs in turns, on the clock and of the processor. What the program takes beside
#   its load is compared.
# The last lines are `ratio NAME VALUE`.
cd "$(dirname "$0")/.." || exit 1
bsp=$PWD/crates/bsp/out/bsp
.ci/built bsp || exit 1
folder=$(mktemp -d) || exit 1
memory=$(mktemp -d /dev/shm/compact.XXXXXX) || exit 1
trap 'rm -rf "$folder" "$memory"' EXIT
case $(stat -f -c %T "$folder") in
tmpfs | ramfs) echo "$folder is in memory: set TMPDIR to a folder on a disk" && exit 1 ;;
esac
cc -O2 -o "$folder/bare_append" bench/bare_append.c || exit 1
PYTHONDONTWRITEBYTECODE=1 PYTHONPATH=bench:oracle python3 - "$bsp" "$folder" "$memory" "${RUNS:-7}" "${COUNT:-20000}" <<'PY'
import os, struct, subprocess, sys, tempfile, time
from collections import namedtuple
from statistics import median

from journal_files import LATENCY, NOW, heard, name
from store_file import GROUP, HEADER, Note, first_batches, frame, framed, header, steps

bsp, folder, memory, runs, count = *sys.argv[1:4], int(sys.argv[4]), int(sys.argv[5])
SIZE, SESSIONS = 200, 100
UNKNOWN = '0' * 64
Used = namedtuple('Used', 'clock processor')
# the greatest memory of a command, told by a process that is itself small
PEAK = """
import os, subprocess, sys
child = subprocess.Popen(sys.argv[2:], cwd=sys.argv[1], stdout=subprocess.DEVNULL, stderr=subprocess.DEVNULL)
print(os.wait4(child.pid, 0)[2].ru_maxrss * 1024)
"""


def expect(holds, what):
    if not holds:
        sys.exit(f'wrong: {what}')


# ---- the journals

def brief(notes, sessions):
    """The brief account of that journal."""
    group, level = first_batches()[1:]
    yield struct.pack('>BI', 16, 2 * sessions)
    yield from (b'\1\0', b'\1\1', group, level, struct.pack('>BB32sB', 3, 1, GROUP, 2))
    for number, note in enumerate(notes):
        yield b'\x11\1\0' + note.said()[1:]
        yield steps(name(number))
    rows = [struct.pack('>BBIBBQ', 18, 0, number, 1, 0, 0) for number in range(len(notes))]
    rows += [struct.pack('>BBIBBQ', 18, 1, number, 0, 1, NOW + 2 * LATENCY) for number in range(len(notes))]
    yield from (b''.join(rows[at:at + 1_000]) for at in range(0, len(rows), 1_000))


# ---- runs

def put(here, content):
    """A store of this file alone, which is on its device."""
    for file in ('bsp.0', 'bsp.1'):
        if os.path.exists(os.path.join(here, file)):
            os.remove(os.path.join(here, file))
    with open(os.path.join(here, 'bsp.0'), 'wb') as file:
        file.write(content)
        file.flush()
        os.fsync(file.fileno())


def left(here, old, new, what):
    for file, want in (('bsp.0', old), ('bsp.1', new)):
        with open(os.path.join(here, file), 'rb') as it:
            expect(it.read() == want, f'{file} after {what}')


def timed(here, words, given=b'', status=0, text=b''):
    with tempfile.TemporaryFile() as source:
        source.write(given)
        source.seek(0)
        start = time.perf_counter()
        child = subprocess.Popen(words, cwd=here, stdin=source, stdout=subprocess.PIPE, stderr=subprocess.DEVNULL)
        told = child.stdout.read()
        _, ended, usage = os.wait4(child.pid, 0)
        clock = time.perf_counter() - start
    child.returncode = os.waitstatus_to_exitcode(ended)
    expect((child.returncode, told) == (status, text), f'{words[:2]}: status {child.returncode}, {told[:100]}')
    return Used(clock, usage.ru_utime + usage.ru_stime)


def peak(here, content, *words):
    put(here, content)
    return int(subprocess.run((sys.executable, '-c', PEAK, here, *words), capture_output=True, check=True).stdout)


def load(here, content):
    put(here, content)
    return timed(here, (bsp, 'body', UNKNOWN), status=4)


def compact(here, old, new):
    put(here, old)
    used = timed(here, (bsp, 'compact'), text=b'compacted %d %d\n' % (len(old), len(new)))
    left(here, old, new, 'compact')
    return used


def bare(here, old, new, frames):
    put(here, old)
    used = timed(here, (os.path.join(folder, 'bare_append'), 'bsp.0', 'bsp.1', new[1:14].hex(), 'whole'), given=frames)
    left(here, old, new, 'the bare program')
    return used


def in_turns(kinds):
    used = {kind: [] for kind in kinds}
    for _ in range(runs):
        for kind, call in kinds.items():
            used[kind].append(call())
    return used


notes = [Note(number, SIZE) for number in range(count)]
payloads = list(brief(notes, SESSIONS))
old, new, once = framed(HEADER, heard(notes, SESSIONS)), framed(header(2, 2), payloads), framed(HEADER, heard(notes, 1))
print(f'{count} notes heard and sent on in {2 * SESSIONS} sessions: {len(old)} bytes, then {len(new)}; in 2 sessions {len(once)}')
lines = [f'ratio compact_length {len(new) / len(old):.3f}']

used = in_turns({
    'before': lambda: load(memory, old), 'after': lambda: load(memory, new), 'once': lambda: load(memory, once),
    'compact': lambda: compact(memory, old, new)})
least = {kind: min(it.processor for it in its) for kind, its in used.items()}
most = {'load': peak(memory, old, bsp, 'body', UNKNOWN), 'compact': peak(memory, old, bsp, 'compact')}
print('in memory, processor: ' + ', '.join(f'{kind} {seconds:.3f} s' for kind, seconds in least.items()))
print('greatest memory: ' + ', '.join(f'{kind} {bytes_ / 1e6:.1f} MB' for kind, bytes_ in most.items()))
lines.append(f'ratio compact_load {(least["compact"] - least["before"]) / least["before"]:.2f}')
lines.append(f'ratio load_after_before {least["after"] / least["before"]:.2f}')
lines.append(f'ratio load_after_once {least["after"] / least["once"]:.2f}')
lines.append(f'ratio compact_memory {most["compact"] / most["load"]:.2f}')

frames = b''.join(map(frame, payloads))
used = in_turns({
    'compact': lambda: compact(folder, old, new), 'load': lambda: load(folder, old), 'bare': lambda: bare(folder, old, new, frames)})
for place, what in enumerate(('clock', 'processor')):
    middle = {kind: median(it[place] for it in its) for kind, its in used.items()}
    print(f'on a disk, {what}: ' + ', '.join(f'{kind} {seconds:.3f} s' for kind, seconds in middle.items()))
    lines.append(f'ratio compact_bare_{what} {(middle["compact"] - middle["load"]) / middle["bare"]:.2f}')
print('\n'.join(lines))
PY
