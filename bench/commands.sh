#!/usr/bin/env bash
# Times the commands of a store on real files, in a folder of its own on a disk. The store's file is made by
# oracle/store_file.py, and every text and every file that a command leaves is compared with what that module says.
# - `post` of a note of 200 bytes to 1, 20, 1,000 and 20,000 messages, in turns with a bare program that makes the same writes
#   and syncs (bench/bare_append.c), with one INSERT by `sqlite3` at synchronous=FULL into a table of as many rows, and with
#   `body` of an unknown id, which loads the store and refuses: medians of RUNS (9) runs on the clock, each with the start of
#   its process, each on files written anew and synced.
# - `show` and `inbox` of 20,000 messages against 5,000: medians of the processor's time, and the pieces in which the text goes
#   out, where `strace` is there.
# The last lines are `ratio NAME VALUE`: post over each peer, the part of a post that is the load, and the growth over linear.
cd "$(dirname "$0")/.." || exit 1
bsp=${BSP:-$PWD/crates/bsp/out/bsp}
[ -x "$bsp" ] || .ci/built bsp || exit 1
folder=$(mktemp -d) || exit 1
trap 'rm -rf "$folder"' EXIT
case $(stat -f -c %T "$folder") in
tmpfs | ramfs) echo "$folder is in memory: set TMPDIR to a folder on a disk" && exit 1 ;;
esac
cc -O2 -o "$folder/bare_append" bench/bare_append.c || exit 1
PYTHONDONTWRITEBYTECODE=1 PYTHONPATH=bench:oracle python3 - "$bsp" "$folder" "${RUNS:-9}" <<'PY'
import os, re, shutil, subprocess, sys, time
from statistics import median

from store_file import GROUP, Note, file_bytes, inbox_text, show_text, together

bsp, folder, runs = sys.argv[1], sys.argv[2], int(sys.argv[3])
SIZE, MANY, FEW = 200, 20_000, 5_000
NOTES = [Note(time, SIZE) for time in range(MANY + 1)]
STORE, OTHER, INPUT, OUTPUT, TABLE, KEPT, TRACE = (
    os.path.join(folder, name) for name in ('bsp.0', 'bsp.1', 'input', 'output', 'table', 'kept', 'trace'))
UNKNOWN = '0' * 64


def expect(holds, what):
    if not holds:
        sys.exit(f'wrong: {what}')


def put(path, content):
    """A file with this content, on its device."""
    with open(path, 'wb') as f:
        f.write(content)
        f.flush()
        os.fsync(f.fileno())


def content_of(path):
    with open(path, 'rb') as f:
        return f.read()


def run(words, given=b'', status=0):
    """Seconds on the clock and of the processor of one run, its start included; its output is in OUTPUT."""
    put(INPUT, given)
    with open(INPUT, 'rb') as source, open(OUTPUT, 'wb') as out:
        start = time.perf_counter()
        child = subprocess.Popen(words, cwd=folder, stdin=source, stdout=out, stderr=subprocess.DEVNULL)
        _, ended, usage = os.wait4(child.pid, 0)
        clock = time.perf_counter() - start
    child.returncode = os.waitstatus_to_exitcode(ended)
    expect(child.returncode == status, f'{words[:3]}: status {child.returncode}')
    return clock, usage.ru_utime + usage.ru_stime


def post_run(count, before=()):
    new = NOTES[count]
    put(STORE, file_bytes(NOTES[:count]))
    used = run((*before, bsp, 'post', GROUP.hex(), str(new.time)), new.body)
    expect(content_of(OUTPUT) == f'posted {new.id.hex()}\n'.encode(), 'the text of post')
    expect(content_of(STORE) == file_bytes(NOTES[:count + 1]), 'the file after post')
    return used


def bare_run(count, before=()):
    put(STORE, file_bytes(NOTES[:count]))
    frames = together(NOTES[count].batches(count))
    used = run((*before, os.path.join(folder, 'bare_append'), STORE, OTHER), frames)
    expect(content_of(STORE) == file_bytes(NOTES[:count + 1]), 'the file after bare_append')
    return used


def load_run(count):
    put(STORE, file_bytes(NOTES[:count]))
    return run((bsp, 'body', UNKNOWN), status=4)


def row(note):
    return f"INSERT INTO message VALUES (x'{note.id.hex()}', x'{GROUP.hex()}', {note.time}, x'{note.body.hex()}', 'delivered');"


def make_table(count):
    if os.path.exists(KEPT):
        os.remove(KEPT)
    table = 'CREATE TABLE message (id BLOB PRIMARY KEY, grp BLOB, time INTEGER, body BLOB, state TEXT);'
    words = '\n'.join(('BEGIN;', table, *map(row, NOTES[:count]), 'COMMIT;'))
    subprocess.run(('sqlite3', KEPT), input=words.encode(), check=True)


def table_run(count):
    put(TABLE, content_of(KEPT))
    used = run(('sqlite3', TABLE, 'PRAGMA synchronous=FULL; ' + row(NOTES[count])))
    told = subprocess.run(('sqlite3', TABLE, 'SELECT count(*) FROM message'), capture_output=True, check=True).stdout
    expect(int(told) == count + 1, 'the rows of the table')
    return used


def measure_posts(count):
    """The medians on the clock at a store of so many messages, and their ratio lines."""
    make_table(count)
    kinds = {'post': post_run, 'bare': bare_run, 'sqlite': table_run, 'load': load_run}
    clocks = {kind: [] for kind in kinds}
    for _ in range(runs):
        for kind, one in kinds.items():
            clocks[kind].append(one(count)[0])
    middle = {kind: median(of) for kind, of in clocks.items()}
    spread = ', '.join(f'{kind} {middle[kind] * 1e3:.2f} ms ({min(of) * 1e3:.2f} to {max(of) * 1e3:.2f})' for kind, of in clocks.items())
    print(f'{count} messages: {spread}', flush=True)
    return [f'ratio post_{count}_bare {middle["post"] / middle["bare"]:.2f}',
            f'ratio post_{count}_sqlite {middle["post"] / middle["sqlite"]:.2f}',
            f'ratio load_of_post_{count} {middle["load"] / middle["post"]:.2f}']


def look_run(command, count, text):
    put(STORE, file_bytes(NOTES[:count]))
    used = run((bsp, command))[1]
    expect(content_of(OUTPUT) == text(NOTES[:count]).encode(), f'the text of {command}')
    expect(content_of(STORE) == file_bytes(NOTES[:count]), f'the file after {command}')
    return used


def measure_look(command, text):
    used = {count: [] for count in (FEW, MANY)}
    for _ in range(runs):
        for count, of in used.items():
            of.append(look_run(command, count, text))
    few, many = median(used[FEW]), median(used[MANY])
    print(f'{command}: {FEW} messages {few * 1e3:.1f} ms, {MANY} messages {many * 1e3:.1f} ms of the processor', flush=True)
    return f'ratio {command} {many / few / (MANY / FEW):.3f}'


def calls_on_files(one):
    """The writes and syncs of the store's files in a run under strace: what is called, and how many bytes it took."""
    one(1, ('strace', '-f', '-qq', '-y', '-e', 'trace=write,pwrite64,fsync,fdatasync', '-o', TRACE))
    calls = re.findall(r'(\w+)\(\d+<[^>]*/bsp\.[01]>.* = (\d+)', content_of(TRACE).decode(errors='replace'))
    return [(name.replace('pwrite64', 'write'), int(took)) for name, took in calls]


def compare_calls():
    post, bare = calls_on_files(post_run), calls_on_files(bare_run)
    expect(post == bare, f'post calls {post}, bare_append {bare}')
    print('calls of post and of bare_append:', ', '.join(f'{name} {took}' if name == 'write' else name for name, took in post))


def show_pieces(command):
    put(STORE, file_bytes(NOTES[:MANY]))
    run(('strace', '-f', '-qq', '-e', 'trace=write', '-o', TRACE, bsp, command))
    pieces = [int(took) for took in re.findall(r'write\(1, .* = (\d+)', content_of(TRACE).decode(errors='replace'))]
    expect(sum(pieces) == os.path.getsize(OUTPUT), f'the pieces of {command}')
    print(f'{command}: {sum(pieces)} bytes in {len(pieces)} pieces, the least before the last {min(pieces[:-1], default=pieces[-1])}')


if shutil.which('strace'):
    compare_calls()
    show_pieces('show')
    show_pieces('inbox')
else:
    print('calls and pieces were not seen: strace is not there')
ratios = [line for count in (1, 20, 1_000, MANY) for line in measure_posts(count)]
ratios += [measure_look('show', show_text), measure_look('inbox', inbox_text)]
print('\n'.join(ratios))
PY
