#!/usr/bin/env bash
# A journal of format 1 that is written anew in format 2. Files are made by oracle/store_file.py, and each file that a run leaves is
# compared with what that module says.
# - A store of COUNT (200,000) notes of 200 bytes, read into a disk in memory: the least processor time of RUNS (3) runs of the
#   migration alone, as the part `store` of crates/bench takes it, against two loads of the same journal.
# - `contact` over such a store on real files, in a folder of its own on a disk, beside `body` of an unknown id, which loads the
#   store and refuses, and a bare program that makes the same writes and syncs (bench/bare_append.c): medians of RUNS runs, on the
#   clock and of the processor, each with the start of its process. What the program takes beside its load is compared. With COUNT
#   notes that are 1.6 million calls, so COUNT=20000 is a short run.
# - The length of a journal of 20,000 notes of 200 bytes in each format, which were all heard in one session, acknowledged by a
#   thousand, and sent in another session; `contact` migrates it in a folder in memory.
# The last lines are `ratio NAME VALUE`.
cd "$(dirname "$0")/.." || exit 1
bsp=$PWD/crates/bsp/out/bsp
.ci/built bsp || exit 1
.ci/built bench || exit 1
folder=$(mktemp -d) || exit 1
trap 'rm -rf "$folder"' EXIT
case $(stat -f -c %T "$folder") in
tmpfs | ramfs) echo "$folder is in memory: set TMPDIR to a folder on a disk" && exit 1 ;;
esac
cc -O2 -o "$folder/bare_append" bench/bare_append.c || exit 1
PYTHONDONTWRITEBYTECODE=1 PYTHONPATH=bench:oracle python3 - "$bsp" "$folder" "${RUNS:-3}" "${COUNT:-200000}" <<'PY'
import os, struct, subprocess, sys, tempfile, time
from statistics import median

from journal import ACKS, SEND, SHORT, WHOLE, respelled
from measure import least, run
from store_file import GROUP, NEXT_HEADER, OLD_HEADER, Note, file_bytes, first_batches, frame, framed, old_file_bytes, steps

bsp, folder, runs, count = sys.argv[1], sys.argv[2], int(sys.argv[3]), int(sys.argv[4])
PROGRAM = os.path.abspath('crates/bench/out/bench')
SIZE, HEARD, AT_ONCE = 200, 20_000, 1_000
UNKNOWN, CONTACT = '0' * 64, b'\1\1'


def expect(holds, what):
    if not holds:
        sys.exit(f'wrong: {what}')


def put(here, content):
    """A store of this file alone, which is on its device."""
    for name in ('bsp.0', 'bsp.1'):
        if os.path.exists(os.path.join(here, name)):
            os.remove(os.path.join(here, name))
    with open(os.path.join(here, 'bsp.0'), 'wb') as file:
        file.write(content)
        file.flush()
        os.fsync(file.fileno())


def left(here, old, new, what):
    """The file is as it was, and the other one has the journal anew."""
    for name, want in (('bsp.0', old), ('bsp.1', new)):
        with open(os.path.join(here, name), 'rb') as file:
            expect(file.read() == want, f'{name} after {what}')


def timed(words, given=b'', status=0):
    """Seconds on the clock and of the processor of one run in the folder, its start included."""
    with tempfile.TemporaryFile() as source:
        source.write(given)
        source.seek(0)
        start = time.perf_counter()
        child = subprocess.Popen(words, cwd=folder, stdin=source, stdout=subprocess.DEVNULL, stderr=subprocess.DEVNULL)
        _, ended, usage = os.wait4(child.pid, 0)
        clock = time.perf_counter() - start
    child.returncode = os.waitstatus_to_exitcode(ended)
    expect(child.returncode == status, f'{words[:3]}: status {child.returncode}')
    return clock, usage.ru_utime + usage.ru_stime


# ---- over a disk in memory

def step(here, name, end):
    """One run, whose seconds are those of the step alone, as the program tells them."""
    told = run(PROGRAM, 'store', name, folder=here, want=f'{count} held, {count} delivered, {end} bytes\n')
    return told._replace(seconds=int(told.err) / 1e6)


def compare_memory():
    notes = [Note(time, SIZE) for time in range(count)]
    old, new = old_file_bytes(notes), len(file_bytes(notes))
    with tempfile.TemporaryDirectory(dir='/dev/shm') as here:
        with open(os.path.join(here, 'bsp.0'), 'wb') as file:
            file.write(old)
        (load, _), (migrate, _) = least(runs, lambda: step(here, 'file', len(old)), lambda: step(here, 'migrate', new))
    print(f'{count} messages in memory: a load {load:.3f} s, the migration {migrate:.3f} s', flush=True)
    return f'ratio migrate_two_loads {migrate / (2 * load):.2f}'


# ---- over real files

def compare_files():
    notes = [Note(number, SIZE) for number in range(count)]
    old_payloads, payloads = list(first_batches()), list(first_batches())
    for number, note in enumerate(notes):
        old_payloads += note.old_batches()
        payloads += note.batches(number)
    payloads.append(CONTACT)
    old, new = framed(OLD_HEADER, old_payloads), framed(NEXT_HEADER, payloads)
    frames = b''.join(map(frame, payloads))
    bare_words = (os.path.join(folder, 'bare_append'), 'bsp.0', 'bsp.1', NEXT_HEADER[1:].hex())
    kinds = {'contact': ((bsp, 'contact'), b'', 0), 'load': ((bsp, 'body', UNKNOWN), b'', 4), 'bare': (bare_words, frames, 0)}
    used = {kind: [] for kind in kinds}
    for _ in range(runs):
        for kind, (words, given, status) in kinds.items():
            put(folder, old)
            used[kind].append(timed(words, given, status))
            if kind != 'load':
                left(folder, old, new, kind)
    lines = []
    for place, name in enumerate(('clock', 'processor')):
        middle = {kind: median(pair[place] for pair in pairs) for kind, pairs in used.items()}
        print(f'{count} messages on a disk, {name}: ' + ', '.join(f'{kind} {seconds:.3f} s' for kind, seconds in middle.items()), flush=True)
        lines.append(f'ratio migrate_bare_{name} {(middle["contact"] - middle["load"]) / middle["bare"]:.2f}')
    return lines


# ---- lengths

def name(number):
    return struct.pack('>I', number)


def out(session, kind, numbers):
    count = b'' if kind == SEND else struct.pack('>H', len(numbers))
    return struct.pack('>BIQB', 15, session, 0, kind) + count + b''.join(map(name, numbers))


def heard():
    """The payloads in format 2 of notes that contact 0 sent, and that were sent on to contact 1."""
    yield from first_batches()
    yield CONTACT
    yield struct.pack('>BB32sB', 3, 1, GROUP, 2)
    for session in range(2):
        yield struct.pack('>BIBBIB', 4, session, session, 1, 1_000, 0)
    for number in range(HEARD):
        note = Note(number, SIZE)
        yield struct.pack('>BIQ', 5, 0, number) + b'\7' + name(0) + note.said()[1:]
        yield steps(name(number))
        if number % AT_ONCE == AT_ONCE - 1:
            yield out(0, ACKS, range(number + 1 - AT_ONCE, number + 1))
    for number in range(HEARD):
        yield out(1, SEND, [number])


def compare_lengths():
    payloads = list(heard())
    old, new = framed(OLD_HEADER, respelled(payloads, SHORT, WHOLE)), framed(NEXT_HEADER, payloads)
    with tempfile.TemporaryDirectory(dir='/dev/shm') as here:
        put(here, old)
        told = subprocess.run((bsp, 'contact'), cwd=here, capture_output=True)
        expect((told.returncode, told.stdout) == (0, b'contact 2\n'), f'contact over {HEARD} notes: {told}')
        left(here, old, framed(NEXT_HEADER, payloads + [b'\1\2']), 'contact')
    print(f'{HEARD} notes that were heard and sent on: {len(old)} bytes in format 1, {len(new)} bytes in format 2')
    return f'ratio length_short_whole {len(new) / len(old):.3f}'


lines = [compare_lengths(), compare_memory(), *compare_files()]
print('\n'.join(lines))
PY
