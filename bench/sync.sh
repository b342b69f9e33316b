#!/usr/bin/env bash
# Times `bsp sync` between two processes over a Unix socket, each on a store of its own on a disk: 20,000 notes of 200 bytes,
# and 2,000 of 32,000, from one store to another that has none. The time is from the dial to the last byte that the store that hears
# writes, so the stillness that ends the run is not in it. In the same run come
# - a bare program that makes as many writes and syncs as the store that hears made, on its own file (bench/bare_append.c); what a
#   group of batches has is not told by the file, so its frames are dealt out evenly;
# - `git fetch` of as many commits, each of a file with as many bytes, into a repository that has none;
# - the exchange and the fetch once more where all syncs are left out, by a library that is loaded before (bench/syncs.c), which also
#   counts the syncs of each side.
# And a peer that was written here sends notes one by one, each once the one before it is acknowledged: how long that takes is a median
# of ONES (300), over the bare program's four syncs and two writes of frames for each.
# What the store that hears has at the end is compared with what oracle/store_file.py says, and the file of the bare program with
# its file. Turns and messages a turn are read from the journals (oracle/journal.py). Where `strace` is there, a tenth of the notes
# go over once more under it, which tells how long each side waits for the other and for its disk.
# MODE (batch) is that of the sessions, LATENCY (600000) theirs in milliseconds, so long that nothing is sent twice; RUNS (1) how
# many runs are made, in turns with the others; PART (1) takes that part of the notes. In interactive mode a latency of 3000 is
# enough, but an OFFER names 1,536 ids and a peer wants 1,000 at most: what it let fall is offered again once its time is over,
# and the time doubles, so the run waits for that, and STILL (100) still turns may be too few.
# The last lines are `ratio NAME VALUE`, of the least times: over the bare program, over git, over git with the syncs left out on both
# sides, and messages for each sync of either side; and of one note by itself.
cd "$(dirname "$0")/.." || exit 1
bsp=${BSP:-$PWD/crates/bsp/out/bsp}
[ -x "$bsp" ] || .ci/built bsp || exit 1
folder=$(mktemp -d) || exit 1
trap 'rm -rf "$folder"' EXIT
case $(stat -f -c %T "$folder") in
tmpfs | ramfs) echo "$folder is in memory: set TMPDIR to a folder on a disk" && exit 1 ;;
esac
cc -O2 -o "$folder/bare_append" bench/bare_append.c && cc -O2 -shared -fPIC -o "$folder/syncs.so" bench/syncs.c || exit 1
export MODE=${MODE:-batch} LATENCY=${LATENCY:-600000} STILL=${STILL:-100} PYTHONDONTWRITEBYTECODE=1 PYTHONPATH=bench:oracle
python3 - "$bsp" "$folder" "${RUNS:-1}" "${PART:-1}" "${ONES:-300}" <<'PY'
import os, re, shutil, socket, subprocess, sys, time
from collections import namedtuple
from statistics import median

from commits import fetch, make_commits
from journal import ACKS, OFFERS, SEND, SHORT, entries, frames
from run_model import ACK, VERSIONS, message_record, record_bytes
from store_file import GROUP, Note, file_bytes, together

bsp, folder, runs, part, ones = sys.argv[1], sys.argv[2], int(sys.argv[3]), float(sys.argv[4]), int(sys.argv[5])
mode, latency, still = os.environ['MODE'], os.environ['LATENCY'], os.environ['STILL']
CASES = (('small', 20_000, 200), ('large', 2_000, 32_000))
MOST, HEAD = 1_800, 44  # seconds of a run; bytes of a MESSAGE record before its body
START, PRELOADED = file_bytes([]), os.path.join(folder, 'syncs.so')
LEFT_OUT = {'LD_PRELOAD': PRELOADED, 'SYNCS_LEFT_OUT': '1'}


def expect(holds, what):
    if not holds:
        sys.exit(f'wrong: {what}')


def put(name, content):
    """A new folder with a store's file of this content, which is on its device."""
    here = os.path.join(folder, name)
    shutil.rmtree(here, ignore_errors=True)
    os.mkdir(here)
    with open(os.path.join(here, 'bsp.0'), 'wb') as file:
        file.write(content)
        file.flush()
        os.fsync(file.fileno())
    return here


def content_of(here):
    with open(os.path.join(here, 'bsp.0'), 'rb') as file:
        return file.read()


def begin(here, quiet, spec, before=(), env=()):
    words = (*before, bsp, 'sync', '1000000', str(quiet), '0', mode, latency, spec)
    return subprocess.Popen(words, cwd=here, stdin=subprocess.DEVNULL, stdout=subprocess.DEVNULL, stderr=subprocess.PIPE,
                            env=dict(os.environ, **dict(env)))


def end(node, lines):
    """Waits until a node ends by itself, and says how much of the processor it took."""
    text = node.stderr.read().decode()
    _, status, usage = os.wait4(node.pid, 0)
    node.returncode = os.waitstatus_to_exitcode(status)
    expect(node.returncode == 0 and text in lines, f'status {node.returncode}, {text!r}')
    return usage.ru_utime + usage.ru_stime


# the seconds on the clock; seconds of the processor, syncs, memory in KiB and file of each side; when it began
Exchange = namedtuple('Exchange', 'clock heard said hears_syncs hears_memory says_syncs says_memory hears says start')


def counted(side):
    """The syncs of a side, and its memory."""
    with open(os.path.join(folder, f'syncs.{side}')) as told:
        return map(int, told.read().split())


def exchange(notes, traces=('', ''), env=()):
    """All notes go from one store to another."""
    to, source = put('to', START), put('source', file_bytes(notes))
    before = [('strace', '-f', '-qq', '-y', '-ttt', '-T', '-o', trace) if trace else () for trace in traces]
    envs = []
    for side in ('hears', 'says'):
        told = os.path.join(folder, f'syncs.{side}')
        if os.path.exists(told):
            os.remove(told)
        envs.append({'LD_PRELOAD': PRELOADED, 'SYNCS_TO': told, **dict(env)} if not any(traces) else env)
    hears = begin(to, 1_000_000, 'unixlisten:../meet', before[0], envs[0])
    while not os.path.exists(os.path.join(folder, 'meet')):
        expect(hears.poll() is None, 'nobody waits')
        time.sleep(0.001)
    start = time.time()
    says = begin(source, still, 'unix:../meet', before[1], envs[1])
    said, heard = end(says, ('link 0: quiet\n',)), end(hears, ('link 0: clean\n',))
    clock = os.path.getmtime(os.path.join(to, 'bsp.0')) - start
    inbox = subprocess.run((bsp, 'inbox'), cwd=to, capture_output=True, check=True).stdout.decode().splitlines()
    want = [note.inbox_line().strip().replace(' self ', ' 0 ') for note in notes]
    expect(sorted(inbox) == sorted(want), 'the notes that came')
    told = (0, 0, 0, 0) if any(traces) else (*counted('hears'), *counted('says'))
    return Exchange(clock, heard, said, *told, content_of(to), content_of(source), start)


def bare(told):
    """As many writes and syncs as the store made that hears, behind what it began with; two syncs are those of its load."""
    here = put('bare', START)
    payloads = [payload for at, payload in frames(told.hears) if at >= len(START) - 1]
    groups = max(1, min(len(payloads), (told.hears_syncs - 2) // 2))
    places = [len(payloads) * number // groups for number in range(groups + 1)]
    given = b''.join(together(payloads[at:end]) for at, end in zip(places, places[1:]))
    start = time.perf_counter()
    words = (os.path.join(folder, 'bare_append'), 'bsp.0', 'bsp.1')
    subprocess.run(words, cwd=here, input=given, check=True)
    clock = time.perf_counter() - start
    expect(content_of(here) == told.hears, 'the file of bare_append')
    return clock


def outs(content):
    """How many messages each output of a session names, for each kind."""
    told = {kind: [] for kind in (ACKS, OFFERS, SEND)}
    for _, payload in frames(content):
        for tag, rest in entries(payload, SHORT):
            if tag == 15 and rest[12] in told:
                told[rest[12]].append(1 if rest[12] == SEND else rest[13] << 8 | rest[14])
    return told


def count_turns(name, notes, hears, says):
    acks, given = outs(hears)[ACKS], outs(says)
    print(f'{name}: {len(acks)} turns brought messages, {len(notes) / len(acks):.0f} of them a turn; '
          f'{len(given[SEND])} messages sent, {len(given[OFFERS])} offers', flush=True)


def waits(trace, since, until):
    """Seconds between two times in which a side waited for the other, sent to it, and waited for its disk."""
    told = {'peer': 0.0, 'sends': 0.0, 'disk': 0.0}
    with open(trace, errors='replace') as lines:
        for line in lines:
            call = re.match(r'\d+ +([\d.]+) (\w+)\((.*)<([\d.]+)>$', line.rstrip())
            if not call:
                continue
            at, name, rest, seconds = call.groups()
            if not since <= float(at) <= until - float(seconds):
                continue
            if name in ('fsync', 'fdatasync'):
                told['disk'] += float(seconds)
            elif re.search(r'<(UNIX|socket)', rest):
                told['sends' if name in ('write', 'writev', 'sendto', 'sendmsg') else 'peer'] += float(seconds)
    return told


def trace_waits(name, notes):
    traces = [os.path.join(folder, side) for side in ('trace.hears', 'trace.says')]
    it = exchange(notes, traces)
    for side, trace in zip(('hears', 'says'), traces):
        told = ', '.join(f'{seconds / it.clock:.0%} {what}' for what, seconds in waits(trace, it.start, it.start + it.clock).items())
        print(f'{name}, {len(notes)} notes under strace, {it.clock:.1f} s: the side that {side}: {told}', flush=True)


def measure(name, count, size):
    notes = [Note(at, size) for at in range(max(1, round(count * part)))]
    told, plain, fetched, unsynced, unsynced_fetched = [], [], [], [], []
    commits = make_commits(folder, notes)
    for _ in range(runs):
        told.append(exchange(notes))
        plain.append(bare(told[-1]))
        fetched.append(fetch(folder, commits))
        unsynced.append(exchange(notes, env=LEFT_OUT))
        unsynced_fetched.append(fetch(folder, commits, **LEFT_OUT))
    it, least = min(told), min(unsynced)
    plain, fetched, unsynced_fetched = min(plain), min(fetched), min(unsynced_fetched)
    size_of_all = sum(HEAD + len(note.body) for note in notes)
    print(f'{name}: {len(notes)} notes of {size} bytes in {it.clock:.2f} s, {size_of_all / it.clock / 1e6:.2f} MB a second; '
          f'of the processor {it.heard:.2f} s to hear, {it.said:.2f} s to say; of memory {it.hears_memory / 1024:.1f} and '
          f'{it.says_memory / 1024:.1f} MiB; {it.hears_syncs} syncs to hear, {it.says_syncs} to say', flush=True)
    count_turns(name, notes, it.hears, it.says)
    print(f'{name}: as many writes and syncs {plain:.2f} s, git fetch {fetched:.2f} s; with no syncs {least.clock:.2f} s, '
          f'git fetch {unsynced_fetched:.2f} s', flush=True)
    if shutil.which('strace'):
        trace_waits(name, notes[:max(1, len(notes) // 10)])
    return [f'ratio sync_{name}_bare {it.clock / plain:.2f}', f'ratio sync_{name}_git {it.clock / fetched:.1f}',
            f'ratio sync_{name}_git_unsynced {least.clock / unsynced_fetched:.2f}',
            f'ratio sync_{name}_hears {len(notes) / it.hears_syncs:.2f}', f'ratio sync_{name}_says {len(notes) / it.says_syncs:.2f}']


def one_by_one():
    """Seconds that a note takes to be acknowledged which comes by itself, and those of as many writes and syncs."""
    to = put('to', START)
    hears = begin(to, 1_000_000, 'unixlisten:../meet')
    while not os.path.exists(os.path.join(folder, 'meet')):
        expect(hears.poll() is None, 'nobody waits')
    told = []
    with socket.socket(socket.AF_UNIX) as link:
        link.connect(os.path.join(folder, 'meet'))
        with link.makefile('rb') as heard:
            link.sendall(record_bytes(VERSIONS, b'\0'))
            expect(heard.read(5) == record_bytes(VERSIONS, b'\0'), 'the greeting')
            for note in map(lambda at: Note(at, 200), range(ones)):
                start = time.perf_counter()
                link.sendall(message_record(GROUP, note.time, note.body))
                expect(heard.read(36) == record_bytes(ACK, note.id), 'an acknowledgement')
                told.append(time.perf_counter() - start)
    end(hears, ('link 0: clean\n',))
    whole = content_of(to)
    payloads = [payload for at, payload in frames(whole) if at >= len(START) - 1]
    # a session and a VERSIONS; then of each note a batch with its settling, and an output
    groups = [payloads[:1], payloads[1:2]] + [part_ for at in range(2, len(payloads), 3) for part_ in (payloads[at:at + 2], payloads[at + 2:at + 3])]
    here = put('bare', START)
    start = time.perf_counter()
    subprocess.run((os.path.join(folder, 'bare_append'), 'bsp.0', 'bsp.1'), cwd=here, input=b''.join(map(together, groups)), check=True)
    plain = (time.perf_counter() - start) / ones
    expect(content_of(here) == whole, 'the file of bare_append')
    return median(told), plain


def measure_one():
    told, plain = map(min, zip(*(one_by_one() for _ in range(max(2, runs)))))
    print(f'one note by itself: acknowledged in {told * 1e3:.2f} ms, as many writes and syncs {plain * 1e3:.2f} ms', flush=True)
    return [f'ratio sync_one_bare {told / plain:.2f}']


ratios = [line for case in CASES for line in measure(*case)]
print('\n'.join(ratios + measure_one()))
PY
