#!/usr/bin/env bash
# Mailbox files of COUNT (20,000) notes of 200 bytes: `mailbox in` of a file that has them, into a store that has none, and `mailbox
# out` of a store that has them. Each is beside a bare program that makes the same writes and syncs (bench/bare_append.c), and the
# first beside `git fetch` of as many commits, medians of RUNS (3) runs in turns on the clock, in a folder of its own on a disk. The
# files, and the bytes that are written, are compared with what the rules say (oracle/store_file.py). The greatest memory of `mailbox
# in` is beside that of a load of the store that it leaves, its input and one record. The last lines are `ratio NAME VALUE`.
cd "$(dirname "$0")/.." || exit 1
bsp=${BSP:-$PWD/crates/bsp/out/bsp}
[ -x "$bsp" ] || .ci/built bsp || exit 1
folder=$(mktemp -d) || exit 1
trap 'rm -rf "$folder"' EXIT
case $(stat -f -c %T "$folder") in
tmpfs | ramfs) echo "$folder is in memory: set TMPDIR to a folder on a disk" && exit 1 ;;
esac
cc -O2 -o "$folder/bare_append" bench/bare_append.c || exit 1
PYTHONDONTWRITEBYTECODE=1 PYTHONPATH=bench:oracle python3 - "$bsp" "$folder" "${RUNS:-3}" "${COUNT:-20000}" <<'PY'
import os, struct, subprocess, sys, tempfile, time
from statistics import median

from commits import fetch, make_commits
from journal import SEND, joined
from store_file import GROUP, HEADER, Note, first_batches, framed, steps, together

bsp, folder, runs, count = *sys.argv[1:3], int(sys.argv[3]), int(sys.argv[4])
SIZE, LATENCY, RECORD, UNKNOWN = 200, 1_000, 49_156, '0' * 64
VERSIONS = bytes.fromhex('0004000100')
PEAK = """
import os, subprocess, sys
child = subprocess.Popen(sys.argv[2:], cwd=sys.argv[1], stdin=sys.stdin, stdout=subprocess.DEVNULL, stderr=subprocess.DEVNULL)
print(os.wait4(child.pid, 0)[2].ru_maxrss * 1024)
"""


def expect(holds, what):
    if not holds:
        sys.exit(f'wrong: {what}')


def begins(latency):
    return struct.pack('>BIBBIB', 4, 0, 0, 1, latency, 0)


def record(note):
    payload = GROUP + struct.pack('>Q', note.time) + note.body
    return struct.pack('>BBH', 0, 1, len(payload)) + payload


def takes():
    """The batches of a file that is read: its session, and each record's with the settling of its message."""
    yield begins(1)
    yield struct.pack('>BIQ', 5, 0, 0)
    for number, note in enumerate(notes):
        yield struct.pack('>BIQ', 5, 0, number + 1) + b'\7' + struct.pack('>I', 0) + note.said()[1:]
        yield steps(struct.pack('>I', number))


def sends(now):
    """The batches of a file that is written at this time."""
    yield begins(LATENCY)
    for number in range(count):
        yield struct.pack('>BIQBI', 15, 0, now, SEND, number)


def put(content):
    for file in ('bsp.0', 'bsp.1'):
        if os.path.exists(os.path.join(folder, file)):
            os.remove(os.path.join(folder, file))
    with open(os.path.join(folder, 'bsp.0'), 'wb') as file:
        file.write(content)
        file.flush()
        os.fsync(file.fileno())


def left():
    with open(os.path.join(folder, 'bsp.0'), 'rb') as file:
        return file.read()


def timed(before, words, given=b''):
    put(before)
    with tempfile.TemporaryFile() as source:
        source.write(given)
        source.seek(0)
        start = time.perf_counter()
        came = subprocess.run(words, cwd=folder, stdin=source, capture_output=True)
        clock = time.perf_counter() - start
    expect((came.returncode, came.stderr) == (0, b''), f'{words[:2]}: status {came.returncode}, {came.stderr}')
    return clock, came.stdout


def read():
    clock, told = timed(EMPTY, (bsp, 'mailbox', 'in', '0'), sent)
    expect(told == b'taken %d\n' % (count + 1) and left() == framed(HEADER, [*first_batches(), *takes()]), 'mailbox in')
    return clock


def write():
    clock, told = timed(FULL, (bsp, 'mailbox', 'out', '0', str(LATENCY), '1000000'))
    came = left()
    now, = struct.unpack_from('>Q', came, len(FULL) - 1 + 5 + len(begins(LATENCY)) + 5 + 5)
    expect(told == sent and came == FULL[:-1] + framed(b'', sends(now)), 'mailbox out')
    return clock


def bare(before, batches):
    batches = list(batches)
    clock, _ = timed(before, (os.path.join(folder, 'bare_append'), 'bsp.0', 'bsp.1'), b''.join(map(together, joined(batches))))
    expect(left() == before[:-1] + framed(b'', batches), 'the bare program')
    return clock


def peak(content, *words, given=b''):
    put(content)
    words = (sys.executable, '-c', PEAK, folder, *words)
    return int(subprocess.run(words, input=given, capture_output=True, check=True).stdout)


notes = [Note(number, SIZE) for number in range(count)]
EMPTY = framed(HEADER, first_batches())
FULL = framed(HEADER, [*first_batches(), *(it for number, note in enumerate(notes) for it in note.batches(number))])
sent = VERSIONS + b''.join(map(record, notes))

commits = make_commits(folder, notes)

kinds = {'in': read, 'in_bare': lambda: bare(EMPTY, takes()), 'git': lambda: fetch(folder, commits),
         'out': write, 'out_bare': lambda: bare(FULL, sends(1))}
clocks = {kind: [] for kind in kinds}
for _ in range(runs):
    for kind, call in kinds.items():
        clocks[kind].append(call())
middle = {kind: median(its) for kind, its in clocks.items()}
print(f'{count} notes of {SIZE} bytes: ' + ', '.join(f'{kind} {seconds:.2f} s' for kind, seconds in middle.items()))
whole = framed(HEADER, [*first_batches(), *takes()])
load, most = peak(whole, bsp, 'body', UNKNOWN), peak(EMPTY, bsp, 'mailbox', 'in', '0', given=sent)
print(f'greatest memory: in {most / 1e6:.1f} MB, load {load / 1e6:.1f} MB, input {len(sent) / 1e6:.1f} MB')
for kind in ('in', 'out'):
    print(f'ratio mailbox_{kind} {middle[kind] / middle[kind + "_bare"]:.2f}')
print(f'ratio mailbox_in_git {middle["in"] / middle["git"]:.2f}')
print(f'ratio mailbox_in_memory {most / (load + len(sent) + RECORD):.2f}')
PY
