#!/usr/bin/env bash
# A node that serves (`serve std`), against peers that hold what they have, as it does. Stores are made by oracle/store_file.py, and
# what is answered is compared with what that module says, or with what the peer answers.
# - `post` of a note of 200 bytes behind 20,000 and behind 200,000 messages, asked of one node, in turns with one INSERT by SQLite in
#   one process, at synchronous=FULL with the journal that it takes by itself, into a table of as many rows, and with the two writes
#   and the two syncs of such a post alone: medians of POSTS (200) of each on the clock, on files on a disk.
# - 100,000 `body` of 200 bytes behind 100,000 messages, in a drawn order, against `git cat-file --batch` of as many packed objects
#   of these bytes, one at a time and 64 ahead, by the same client (bench/ask.c): the least of RUNS (5) runs in turns, by the
#   processor's time of the two servers from the first request to the last answer, and by the clock.
# - as many `inbox FROM 1` against these `body`, by the processor's time.
# - the memory of the node at the end of these over that before the first; what a long listing takes over its text, and inputs of
#   100 MB over their bytes: one that no command reads, one that is read as it comes, and a mailbox file.
# The last lines are `ratio NAME VALUE`.
cd "$(dirname "$0")/.." || exit 1
bsp=${BSP:-$PWD/crates/bsp/out/bsp}
[ -x "$bsp" ] || .ci/built bsp || exit 1
folder=$(mktemp -d) || exit 1
trap 'rm -rf "$folder"' EXIT
case $(stat -f -c %T "$folder") in
tmpfs | ramfs) echo "$folder is in memory: set TMPDIR to a folder on a disk" && exit 1 ;;
esac
cc -O2 -o "$folder/ask" bench/ask.c || exit 1
PYTHONDONTWRITEBYTECODE=1 PYTHONPATH=bench:oracle python3 - "$bsp" "$folder" "${RUNS:-5}" "${POSTS:-200}" <<'PY'
import os, random, sqlite3, subprocess, sys, time
from statistics import median

from store_file import GROUP, OPEN, Note, file_bytes, together

bsp, folder, runs, posts = os.path.realpath(sys.argv[1]), sys.argv[2], int(sys.argv[3]), int(sys.argv[4])
SIZE, MANY = 200, 100_000
BEHIND = (20_000, 200_000)
NOTES = [Note(time, SIZE) for time in range(max(BEHIND) + posts)]
GIT = os.path.join(folder, 'git')


def expect(holds, what):
    if not holds:
        sys.exit(f'wrong: {what}')


def request(*words, body=b''):
    """A request of these words, with this input."""
    told = b''.join(str(word).encode() + b'\0' for word in words)
    return b'%d %d\n' % (len(told), len(body)) + told + body


def store(count):
    """A folder with the store of so many notes, on its device."""
    path = os.path.join(folder, f'store {count}')
    os.makedirs(path, exist_ok=True)
    with open(os.path.join(path, 'bsp.0'), 'wb') as file:
        file.write(file_bytes(NOTES[:count]))
        file.flush()
        os.fsync(file.fileno())
    return path


class Node:
    """A node that serves a store."""

    def __init__(self, path):
        self.it = subprocess.Popen((bsp, 'serve', 'std'), cwd=path, stdin=subprocess.PIPE, stdout=subprocess.PIPE)
        expect(self.it.stdout.readline() == b'node 1\n', 'the greeting')

    def ask(self, *words, body=b''):
        self.it.stdin.write(request(*words, body=body))
        self.it.stdin.flush()
        status, out, error = map(int, self.it.stdout.readline().split())
        return status, self.it.stdout.read(out), self.it.stdout.read(error)

    def memory(self):
        """The greatest memory so far, in bytes."""
        with open(f'/proc/{self.it.pid}/status') as file:
            return 1024 * int(next(line for line in file if line.startswith('VmHWM:')).split()[1])

    def end(self):
        expect(self.ask('quit') == (0, b'', b'') and self.it.wait() == 0, 'the end of a node')


class Table:
    """A table with the rows of some notes."""

    def __init__(self, count):
        self.path = os.path.join(folder, f'table {count}')
        self.base = sqlite3.connect(self.path, isolation_level=None)
        self.base.execute('PRAGMA synchronous=FULL')
        expect(self.base.execute('PRAGMA journal_mode').fetchone() == ('delete',), 'the journal of SQLite')
        self.base.execute('CREATE TABLE message (id BLOB PRIMARY KEY, grp BLOB, time INTEGER, body BLOB, state TEXT)')
        self.base.execute('BEGIN')
        self.base.executemany('INSERT INTO message VALUES (?, ?, ?, ?, ?)', map(self.row, NOTES[:count]))
        self.base.execute('COMMIT')

    @staticmethod
    def row(note):
        return note.id, GROUP, note.time, note.body, 'delivered'

    def insert(self, note):
        self.base.execute('INSERT INTO message VALUES (?, ?, ?, ?, ?)', self.row(note))

    def end(self, count):
        expect(self.base.execute('SELECT count(*) FROM message').fetchone() == (count,), 'the rows of the table')
        self.base.close()
        os.remove(self.path)


class Bare:
    """A file that gets what a post writes, and nothing else."""

    def __init__(self, count):
        self.path, self.count = os.path.join(folder, f'bare {count}'), count
        with open(self.path, 'wb') as file:
            file.write(file_bytes(NOTES[:count]))
        self.file, self.end = os.open(self.path, os.O_RDWR), os.path.getsize(self.path) - 1

    def post(self, note):
        frames = together(note.batches(self.count))
        os.pwrite(self.file, frames, self.end + 1)
        os.fdatasync(self.file)
        os.pwrite(self.file, OPEN, self.end)
        os.fdatasync(self.file)
        self.end += len(frames)
        self.count += 1

    def close(self):
        os.close(self.file)
        with open(self.path, 'rb') as file:
            expect(file.read() == file_bytes(NOTES[:self.count]), 'the bytes of the bare file')
        os.remove(self.path)


def measure_posts(count):
    path, table, bare = store(count), Table(count), Bare(count)
    node = Node(path)
    clocks = {'post': [], 'bare': [], 'sqlite': []}
    for note in NOTES[count:count + posts]:
        start = time.perf_counter()
        bare.post(note)
        clocks['bare'].append(time.perf_counter() - start)
        start = time.perf_counter()
        told = node.ask('post', GROUP.hex(), note.time, body=note.body)
        clocks['post'].append(time.perf_counter() - start)
        expect(told == (0, b'posted %s\n' % note.id.hex().encode(), b''), 'the text of post')
        start = time.perf_counter()
        table.insert(note)
        clocks['sqlite'].append(time.perf_counter() - start)
    node.end()
    table.end(count + posts)
    bare.close()
    # A post of a node is one group of frames, as that of the command.
    expect(os.path.getsize(os.path.join(path, 'bsp.0')) == len(file_bytes(NOTES[:count + posts])), 'the file after the posts')
    with open(os.path.join(path, 'bsp.0'), 'rb') as file:
        expect(file.read() == file_bytes(NOTES[:count + posts]), 'the bytes after the posts')
    os.remove(os.path.join(path, 'bsp.0'))
    middle = {kind: median(of) for kind, of in clocks.items()}
    print(f'behind {count} messages: ' + ', '.join(
        f'{kind} {middle[kind] * 1e3:.2f} ms ({min(of) * 1e3:.2f} to {max(of) * 1e3:.2f})' for kind, of in clocks.items()), flush=True)
    return '\n'.join(f'ratio serve_post_{count}_{peer} {middle["post"] / middle[peer]:.2f}' for peer in ('sqlite', 'bare'))


def make_git():
    """A repository whose pack has the bodies as objects: their names, in order."""
    subprocess.run(('git', 'init', '-q', '--bare', GIT), check=True, stdout=subprocess.DEVNULL)
    marks = os.path.join(folder, 'marks')
    words = b''.join(b'blob\nmark :%d\ndata %d\n' % (at + 1, SIZE) + note.body + b'\n' for at, note in enumerate(NOTES[:MANY]))
    subprocess.run(('git', 'fast-import', '--quiet', f'--export-marks={marks}'), cwd=GIT, input=words, check=True)
    with open(marks) as file:
        names = dict(line.split() for line in file)
    packs = [name for name in os.listdir(os.path.join(GIT, 'objects', 'pack')) if name.endswith('.pack')]
    expect(len(packs) == 1 and len(names) == MANY, 'the pack of git')
    return [names[f':{at + 1}'].encode() for at in range(MANY)]


def ask(form, ahead, requests, words, path):
    """The figures of one server that is asked these requests."""
    out = subprocess.run((os.path.join(folder, 'ask'), form, str(ahead), requests, *words), cwd=path, check=True, capture_output=True, text=True).stdout.split()
    return {name: value if name == 'sum' else float(value) for name, value in zip(out[::2], out[1::2])}


def written(name, requests):
    path = os.path.join(folder, name)
    with open(path, 'wb') as file:
        file.write(b''.join(requests))
    return path


def measure_bodies():
    names, path = make_git(), store(MANY)
    order = random.Random(60).sample(range(MANY), MANY)
    asked = {'body': ('node', written('bodies', (request('body', NOTES[at].id.hex()) for at in order)), (bsp, 'serve', 'std'), path),
             'git': ('git', written('objects', (names[at] + b'\n' for at in order)), ('git', 'cat-file', '--batch'), GIT),
             'inbox': ('node', written('places', (request('inbox', at, 1) for at in order)), (bsp, 'serve', 'std'), path)}
    least, ratios = {}, []
    for ahead in (1, 64):
        for _ in range(runs):
            for kind, (form, requests, words, where) in asked.items():
                told = ask(form, ahead, requests, words, where)
                expect(told['answers'] == MANY, f'the answers of {kind}')
                for figure in ('clock', 'processor', 'before'):
                    key = kind, ahead, figure
                    least[key] = min(least.get(key, told[figure]), told[figure])
                for figure in ('memory_before', 'memory'):
                    least[kind, ahead, figure] = max(least.get((kind, ahead, figure), 0), told[figure])
                least[kind, 'sum'] = told['sum'], told['bytes']
        expect(least['body', 'sum'] == least['git', 'sum'], 'the bodies of the two')
        for kind in asked:
            print(f'{MANY} of {kind}, {ahead} ahead: ' + ', '.join(f'{figure} {least[kind, ahead, figure]:.3f} s' for figure in ('clock', 'processor', 'before'))
                  + f', memory {least[kind, ahead, "memory_before"] / 1e6:.1f} and {least[kind, ahead, "memory"] / 1e6:.1f} MB', flush=True)
        for figure in ('processor', 'clock'):
            ratios.append(f'ratio serve_body_git_{ahead}_{figure} {least["body", ahead, figure] / least["git", ahead, figure]:.2f}')
        ratios.append(f'ratio serve_inbox_body_{ahead} {least["inbox", ahead, "processor"] / least["body", ahead, "processor"]:.2f}')
    ratios.append(f'ratio serve_memory {least["body", 64, "memory"] / least["body", 64, "memory_before"]:.3f}')
    return ratios


def measure_memory():
    """What one request and its answer take beside the store, over their bytes."""
    path, size, ratios = store(MANY), 100_000_000, []

    def takes(name, length, *words, body=b'', wanted=0):
        node = Node(path)
        before = node.memory()
        status, out, _ = node.ask(*words, body=body)
        expect(status == wanted, f'{words}: status {status}')
        more = node.memory() - before
        length = length or len(out)
        node.end()
        print(f'{" ".join(map(str, words))} of {length / 1e6:.1f} MB takes {more / 1e6:.1f} MB', flush=True)
        ratios.append(f'ratio serve_memory_{name} {more / length:.2f}')
    takes('listing', 0, 'inbox')
    takes('unread', size, 'status', body=bytes(size))
    # each begins with a record that is none, so that reading it takes no time
    takes('records', size, 'records', body=bytes(size), wanted=9)
    takes('mailbox', size, 'mailbox', 'in', 0, body=bytes(size), wanted=9)
    return ratios


ratios = measure_bodies()
ratios += [measure_posts(count) for count in BEHIND]
ratios += measure_memory()
print('\n'.join(ratios))
PY
