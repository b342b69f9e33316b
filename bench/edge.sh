#!/usr/bin/env bash
# Counts the calls of the store's commands on a folder, by `strace` (`apt-get install strace` brings it). The store is begun by the
# program in a folder of its own on a disk; its 20,000 messages are put there by oracle/store_file.py.
# - each command syncs the folder at its first sync of a file, whether it made the file or not;
# - `show`, `inbox` and `body` of 20,000 messages make at most one read in 32 KiB of the file and two dozen calls beside, and open the
#   files for reading alone; they work in a folder that may only be read (as another user, where this is root).
# Then it times a whole `body` behind 200,000 messages against a load of the same file's bytes from memory alone: the least processor
# time of RUNS (5) runs of each.
# The last lines are `ratio NAME VALUE`: the reads of a look over the 32 KiB of the file, and real files over memory.
cd "$(dirname "$0")/.." || exit 1
bsp=$PWD/crates/bsp/out/bsp
.ci/built bsp || exit 1
.ci/built bench || exit 1
command -v strace >/dev/null || { echo 'strace is missing: apt-get install strace' && exit 1; }
folder=$(mktemp -d) || exit 1
trap 'chmod -R u+rwx "$folder"; rm -rf "$folder"' EXIT
PYTHONDONTWRITEBYTECODE=1 PYTHONPATH=bench:oracle python3 - "$bsp" "$folder" "${RUNS:-5}" <<'PY'
import math, os, re, subprocess, sys, tempfile

from measure import least, run
from store_file import GROUP, Note, file_bytes, inbox_text, show_text

bsp, folder, runs = sys.argv[1], os.path.realpath(sys.argv[2]), int(sys.argv[3])
bench = os.path.abspath('crates/bench/out/bench')
NOTES = [Note(time, 200) for time in range(20_000)]
STORE = os.path.join(folder, 'bsp.0')
PIECE, OTHERS = 32 << 10, 24


def expect(holds, what):
    if not holds:
        sys.exit(f'wrong: {what}')


def traced(words, given=b'', before=()):
    """What a run prints, and its calls on the folder and the files in it, in order: name, what they are on, arguments."""
    with tempfile.NamedTemporaryFile() as trace:
        child = subprocess.run(
            (*before, 'strace', '-f', '-qq', '-y', '-e', 'trace=file,desc', '-o', trace.name, bsp, *words) if not before
            else (*before, bsp, *words), cwd=folder, input=given, capture_output=True)
        expect(child.returncode == 0, f'{words}: {child}')
        lines = open(trace.name, errors='replace').read().splitlines()
    calls = []
    for line in lines:
        call = re.search(r'(\w+)\((.*)', line)
        if not call:
            continue
        name, rest = call.groups()
        opened = re.match(r'(?:AT_FDCWD<[^>]*>, )?"([^"]*)", (O_\w+)', rest) if name in ('open', 'openat') else None
        held = re.match(r'\d+<([^>]*)>', rest)
        on = os.path.normpath(os.path.join(folder, opened.group(1))) if opened else held.group(1) if held else ''
        if on == folder or os.path.dirname(on) == folder:
            calls.append((name, os.path.relpath(on, folder), opened.group(2) if opened else ''))
    return child.stdout, calls


def syncs(calls):
    return [on for name, on, _ in calls if name in ('fsync', 'fdatasync')]


def check_names():
    """Each run of a command syncs the folder behind its first sync of the store's file, also where another run made the file."""
    for words, given in ((('init',), b''), (('contact',), b''), (('group', 'note', '0', 'd'), b''),
                         (('share', '0', GROUP.hex(), 'shared'), b''), (('post', GROUP.hex(), '0'), NOTES[0].body)):
        _, calls = traced(words, given)
        order = syncs(calls)
        expect('bsp.0' in order and '.' in order, f'the syncs of {words[0]}: {order}')
        expect(order.index('.') == order.index('bsp.0') + 1 and order.count('.') <= 2, f'the syncs of {words[0]}: {order}')
        print(f'{words[0]}: syncs {", ".join("the folder" if on == "." else on for on in order)}')
    expect(open(STORE, 'rb').read() == file_bytes(NOTES[:1]), 'the file that the commands made')


def check_look(words, text):
    out, calls = traced(words)
    expect(out == text, f'the text of {words[0]}')
    modes = {mode for name, on, mode in calls if mode and on != '.'}
    expect(modes == {'O_RDONLY'}, f'{words[0]} opens the files by {modes}')
    size = os.path.getsize(STORE)
    reads = sum(name in ('read', 'pread64') for name, _, _ in calls)
    others = len(calls) - reads
    print(f'{words[0]}: {size} bytes in {reads} reads, {others} calls beside', flush=True)
    expect(reads <= math.ceil(size / PIECE) and others <= OTHERS, f'the calls of {words[0]}: {calls}')
    return f'ratio {words[0]}_reads {reads / (size / PIECE):.3f}'


def check_read_only():
    """The looks work where the folder may only be read."""
    os.chmod(STORE, 0o444)
    os.chmod(folder, 0o555)
    other = ('setpriv', '--reuid', '65534', '--regid', '65534', '--clear-groups') if os.geteuid() == 0 else ('env',)
    for words, text in LOOKS:
        out, _ = traced(words, before=other)
        expect(out == text, f'the text of {words[0]} in a folder that may only be read')
    os.chmod(folder, 0o755)
    print('a folder that may only be read: the same texts')


def compare_files():
    """A whole `body` behind 200,000 notes, over the load of the same bytes from memory."""
    notes = [Note(time, 200) for time in range(200_000)]
    with open(STORE, 'wb') as file:
        file.write(file_bytes(notes))

    def load():
        told = run(bench, 'store', 'file', folder=folder)
        return told._replace(seconds=int(told.err) / 1e6)

    (real, _), (memory, _) = least(runs, lambda: run(bsp, 'body', notes[7].id.hex(), folder=folder, want=notes[7].body.decode()), load)
    print(f'200000 messages: a body from real files {real:.3f} s, a load from memory {memory:.3f} s')
    return f'ratio files_over_memory {real / memory:.2f}'


LOOKS = ((('show',), show_text(NOTES).encode()), (('inbox',), inbox_text(NOTES).encode()), (('body', NOTES[7].id.hex()), NOTES[7].body))
check_names()
with open(STORE, 'wb') as file:
    file.write(file_bytes(NOTES))
lines = [check_look(words, text) for words, text in LOOKS]
check_read_only()
lines.append(compare_files())
print('\n'.join(lines))
PY
