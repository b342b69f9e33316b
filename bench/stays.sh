#!/usr/bin/env bash
# A node that stays (`bsp serve`), on files on a disk. The stores are made by oracle/store_file.py, and each answer is looked at.
# - A `post` of 200 bytes behind 20,000 messages that the command itself hands over, in turns with one asked of `serve std` and with the
#   start of a process (`bsp --version`): medians of POSTS (200) on the clock; the first over the sum of the others.
# - From a post to the notice of one who watches at the socket: a median, in milliseconds.
# - A `body` beside eight links to peers that were written here: medians of POSTS, once where they say nothing, and once while each
#   brings 20,000 notes, which it has ready. What the node takes of a processor while all eight are still, for IDLE (60) seconds, in
#   percent; and how many bytes its memory and its journal grow meanwhile.
# - From a post on one node to the notice of one who watches on another, over a Unix socket: medians, in both modes.
# - 20,000 notes from one store to another: two nodes that stay over two runs of `sync`, each from the begin of who dials to the last
#   byte that the other one writes; the least times of RUNS (2), in turns.
# `bench/stays.sh PART` makes one part alone: handed_over, beside_links, told_over, meetings. The last lines are `ratio NAME VALUE`.
cd "$(dirname "$0")/.." || exit 1
bsp=${BSP:-$PWD/crates/bsp/out/bsp}
[ -x "$bsp" ] || .ci/built bsp || exit 1
folder=$(mktemp -d) || exit 1
trap 'rm -rf "$folder"' EXIT
case $(stat -f -c %T "$folder") in
tmpfs | ramfs) echo "$folder is in memory: set TMPDIR to a folder on a disk" && exit 1 ;;
esac
PYTHONDONTWRITEBYTECODE=1 PYTHONPATH=bench:oracle python3 - "$bsp" "$folder" "${POSTS:-200}" "${IDLE:-60}" "${RUNS:-2}" "${1:-}" <<'PY'
import os, re, shutil, signal, socket, struct, subprocess, sys, time
from statistics import median

from run_model import VERSIONS, message_record, record_bytes
from store_file import GROUP, HEADER, Note, file_bytes, first_batches, framed

bsp, folder, posts, idle, runs, only = os.path.realpath(sys.argv[1]), sys.argv[2], *map(int, sys.argv[3:6]), sys.argv[6]
MANY, SIZE, MOST, LINKS, VISIBLE = 20_000, 200, 600, 8, 1
GREETING = record_bytes(VERSIONS, b'\0')
NOTES = [Note(time, SIZE) for time in range(MANY + 3 * posts)]
POST = ('post', GROUP.hex())


def expect(holds, what):
    if not holds:
        sys.exit(f'wrong: {what}')


def store(name, content):
    path = os.path.join(folder, name)
    shutil.rmtree(path, ignore_errors=True)
    os.makedirs(path)
    with open(os.path.join(path, 'bsp.0'), 'wb') as file:
        file.write(content)
        file.flush()
        os.fsync(file.fileno())
    return path


def request(*words, body=b''):
    told = b''.join(str(word).encode() + b'\0' for word in words)
    return b'%d %d\n' % (len(told), len(body)) + told + body


class Asked:
    """A connection of a node."""

    def __init__(self, reads, writes):
        self.reads, self.writes = reads, writes
        expect(self.reads.readline() == b'node 1\n', 'greeting')

    def next(self):
        head = self.reads.readline().split()
        if head[0].isdigit():
            return int(head[0]), self.reads.read(int(head[1])), self.reads.read(int(head[2]))
        return head[0], int(head[1]), self.reads.read(int(head[2]))

    def ask(self, *words, body=b''):
        self.writes.write(request(*words, body=body))
        self.writes.flush()
        return self.next()


class Node:
    def __init__(self, path, *words):
        self.path = path
        pipe = subprocess.PIPE if words[0] == 'std' else subprocess.DEVNULL
        self.it = subprocess.Popen((bsp, 'serve', *map(str, words)), cwd=path, stdin=pipe, stdout=pipe, stderr=subprocess.DEVNULL)

    def client(self):
        for _ in range(3_000):
            it = socket.socket(socket.AF_UNIX)
            try:
                it.connect(os.path.relpath(os.path.join(self.path, 'bsp.sock')))
                return Asked(it.makefile('rb'), it.makefile('wb'))
            except OSError:
                time.sleep(0.01)
        sys.exit('no node')


def clocked(call, *given):
    began = time.perf_counter()
    got = call(*given)
    return time.perf_counter() - began, got


def run(path, *words, body=b''):
    return subprocess.run((bsp, *map(str, words)), cwd=path, input=body, capture_output=True, timeout=MOST)


ratios = []


def tell(name, value, form='.2f'):
    ratios.append((name, format(value, form)))
    print(f'{name} {value:{form}}', flush=True)


def handed_over():
    path = store('handed', file_bytes(NOTES[:MANY]))
    node, left = Node(path, 'std'), iter(NOTES[MANY:])
    asked, handed, starts = Asked(node.it.stdout, node.it.stdin), [], []
    own = []
    for _ in range(posts):
        note = next(left)
        took, got = clocked(lambda: asked.ask(*POST, note.time, body=note.body))
        expect(got[0] == 0, 'a post'), own.append(took)
        note = next(left)
        took, got = clocked(lambda: run(path, *POST, note.time, body=note.body))
        expect(got.returncode == 0, 'a post handed over'), handed.append(took)
        took, got = clocked(lambda: run(path, '--version'))
        starts.append(took)
    client, watcher, times = node.client(), node.client(), []
    expect(watcher.ask('watch', MANY + 2 * posts) == (0, b'', b''), 'watch')
    for _ in range(posts):
        note, began = next(left), time.perf_counter()
        expect(client.ask(*POST, note.time, body=note.body)[0] == 0, 'a post')
        expect(watcher.next()[2] == note.inbox_line().encode(), 'its line')
        times.append(time.perf_counter() - began)
    node.it.stdin.close()
    node.it.wait(MOST)
    print(f'post: asked {1e3 * median(own):.2f} ms, handed over {1e3 * median(handed):.2f} ms, start {1e3 * median(starts):.2f} ms')
    tell('post handed over, of one asked and the start of a process', median(handed) / (median(own) + median(starts)))
    tell('from a post to the notice of it, ms', 1e3 * median(times))


def with_contacts(notes):
    """A store with a contact for each link, to whom the group is visible, so that nothing is sent to them."""
    payloads = [*first_batches(), *(bytes((1, n)) for n in range(1, LINKS))]
    payloads += [struct.pack('>BB32sB', 3, n, GROUP, VISIBLE) for n in range(LINKS)]
    for number, note in enumerate(notes):
        payloads += note.batches(number)
    return framed(HEADER, payloads)


def reaches(path):
    """A peer's end of a link to a place, once somebody waits there, behind both greetings."""
    for _ in range(3_000):
        it = socket.socket(socket.AF_UNIX)
        try:
            it.connect(path)
            break
        except OSError:
            it.close()
            time.sleep(0.01)
    expect(it.recv(len(GREETING), socket.MSG_WAITALL) == GREETING, 'a greeting')
    it.sendall(GREETING)
    return it


def times_of_bodies(client, note, count):
    times = []
    for _ in range(count):
        took, got = clocked(client.ask, 'body', note.id.hex())
        expect(got == (0, note.body, b''), 'a body'), times.append(took)
    return times


def delivered(client):
    return int(client.ask('status')[1].split()[3])


def taken(node):
    """The nanoseconds of a processor that a node took, and the bytes of its memory and of its journal."""
    with open(f'/proc/{node.it.pid}/schedstat') as file:
        ran = int(file.read().split()[0])
    with open(f'/proc/{node.it.pid}/status') as file:
        memory = 1024 * int(re.search(r'VmRSS:\s*(\d+)', file.read())[1])
    return ran, memory, os.path.getsize(os.path.join(node.path, 'bsp.0'))


def begin_peer(link, content):
    """A process that has its bytes ready, sends them once it is told to, and hears what comes."""
    pid = os.fork()
    if pid:
        return pid
    signal.sigwait({signal.SIGUSR1})
    link.sendall(content)
    while link.recv(65_536):
        pass
    os._exit(0)


def beside_links():
    path, note = store('links', with_contacts(NOTES[:MANY])), NOTES[7]
    node = Node(path, 'socket', *(word for n in range(LINKS) for word in (n, 'batch', 600_000, f'unixlisten:meet{n}')))
    client = node.client()
    own = times_of_bodies(client, note, posts)
    links = [reaches(os.path.join(path, f'meet{n}')) for n in range(LINKS)]
    time.sleep(1)
    still = times_of_bodies(client, note, posts)
    before = taken(node)
    time.sleep(idle)
    ran, memory, journal = (late - early for late, early in zip(taken(node), before))
    print(f'still for {idle} s: {ran / 1e6:.1f} ms of a processor, memory {memory:+,} bytes, journal {journal:+,} bytes', flush=True)
    tell('body beside eight still links, ms', 1e3 * median(still), '.3f')
    tell('eight still links, percent of a processor', ran / 1e7 / idle, '.4f')
    watcher = node.client()
    expect(watcher.ask('watch', MANY + LINKS * MANY - 1) == (0, b'', b''), 'watch')
    signal.pthread_sigmask(signal.SIG_BLOCK, {signal.SIGUSR1})
    peers = []
    for number, link in enumerate(links):
        notes = (Note((number + 2) * 1_000_000 + n, SIZE) for n in range(MANY))
        peers.append(begin_peer(link, b''.join(message_record(GROUP, it.time, it.body) for it in notes)))
    time.sleep(1)
    began = time.perf_counter()
    for peer in peers:
        os.kill(peer, signal.SIGUSR1)
    beside = times_of_bodies(client, note, posts)
    came = delivered(client)
    expect(MANY < came < MANY + LINKS * MANY, f'they still bring: {came}')
    print(f'body: without links {1e3 * median(own):.3f} ms; beside eight that are still {1e3 * median(still):.3f} ms, at most '
          f'{1e3 * max(still):.1f}; that bring {1e3 * median(beside):.2f} ms, at most {1e3 * max(beside):.1f}', flush=True)
    tell('body beside eight links that bring, ms', 1e3 * median(beside))
    # (nothing is asked meanwhile, so whole pieces are heard)
    expect(watcher.next()[1] == MANY + LINKS * MANY - 1, 'all come')
    took = time.perf_counter() - began
    expect(client.ask('quit')[0] == 0 and node.it.wait(MOST) == 0, 'its end')
    for peer in peers:
        os.waitpid(peer, 0)
    for link in links:
        link.close()
    print(f'all came in {took:.1f} s', flush=True)


def meet(name, mode, latency, first, second):
    """Two nodes over these stores: who waits, and who dials."""
    a, b = store(f'{name}_a', first), store(f'{name}_b', second)
    waits = Node(a, 'socket', 0, mode, latency, 'unixlisten:../meet')
    while not os.path.exists(os.path.join(folder, 'meet')):
        expect(waits.it.poll() is None, 'nobody waits')
        time.sleep(0.001)
    began = time.time()
    return waits, Node(b, 'socket', 0, mode, latency, 'unix:../meet'), began


def end(*nodes):
    for node in nodes:
        expect(node.client().ask('quit')[0] == 0 and node.it.wait(MOST) == 0, 'its end')


def told_over():
    for mode in ('interactive', 'batch'):
        a, b, _ = meet('told', mode, 1_000, file_bytes(NOTES[:1_000]), file_bytes(NOTES[:1_000]))
        client, watcher, times = a.client(), b.client(), []
        expect(watcher.ask('watch', 1_000) == (0, b'', b''), 'watch')
        for note in NOTES[1_000:1_000 + posts]:
            began = time.perf_counter()
            expect(client.ask(*POST, note.time, body=note.body)[0] == 0, 'a post')
            expect(watcher.next()[2] == note.inbox_line().replace(' self ', ' 0 ').encode(), 'its line')
            times.append(time.perf_counter() - began)
        end(a, b)
        print(f'{mode}: from a post to its notice on another node {1e3 * median(times):.1f} ms, at most {1e3 * max(times):.1f}')
        tell(f'from a post to its notice on another node {mode}, ms', 1e3 * median(times))


def last_byte(path):
    """When the last byte was written behind which nothing comes for a second."""
    name = os.path.join(path, 'bsp.0')
    while time.time() - os.path.getmtime(name) < 1:
        time.sleep(0.05)
    return os.path.getmtime(name)


def meets_as_nodes():
    waits, dials, began = meet('all', 'batch', 600_000, file_bytes([]), file_bytes(NOTES[:MANY]))
    watching = waits.client()
    expect(watching.ask('watch', MANY - 1) == (0, b'', b'') and watching.next()[1] == MANY - 1, 'the last line')
    took = last_byte(waits.path) - began
    expect(delivered(watching) == MANY, 'all are there')
    end(waits, dials)
    return took


def meets_as_runs():
    a, b = store('all_a', file_bytes([])), store('all_b', file_bytes(NOTES[:MANY]))
    words, quiet = ('0', 'batch', '600000'), subprocess.DEVNULL
    waits = subprocess.Popen((bsp, 'sync', '1000000', '1000000', *words, 'unixlisten:../meet'), cwd=a, stdin=quiet, stderr=quiet)
    while not os.path.exists(os.path.join(folder, 'meet')):
        expect(waits.poll() is None, 'nobody waits')
        time.sleep(0.001)
    began = time.time()
    expect(subprocess.run((bsp, 'sync', '1000000', '100', *words, 'unix:../meet'), cwd=b, stdin=quiet, stderr=quiet).returncode == 0, 'a run')
    expect(waits.wait(MOST) == 0, 'its end')
    expect(len(run(a, 'inbox').stdout.splitlines()) == MANY, 'all are there')
    return os.path.getmtime(os.path.join(a, 'bsp.0')) - began


def meetings():
    nodes, apart = [], []
    for _ in range(runs):
        nodes.append(meets_as_nodes())
        apart.append(meets_as_runs())
    print(f'{MANY} notes: between two nodes {min(nodes):.2f} s ({", ".join(f"{it:.2f}" for it in nodes)}), by sync {min(apart):.2f} s '
          f'({", ".join(f"{it:.2f}" for it in apart)})')
    tell('notes between two nodes over sync', min(nodes) / min(apart))


for part in (handed_over, beside_links, told_over, meetings):
    if only in ('', part.__name__):
        part()
for name, value in ratios:
    print(f'ratio {name.replace(" ", "_").replace(",", "")} {value}')
PY
