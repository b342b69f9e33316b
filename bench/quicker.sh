#!/usr/bin/env bash
# What goes again over a quicker way, of processor time in files in memory, the least of RUNS (3) runs:
# - `sync` on its standard output, in batch mode and in interactive, of COUNT (20,000) notes of 200 bytes that `mailbox out` wrote
#   into a letter of two days, beside the same of a store in which nothing was tried, each less a load of its store by the same command,
#   which is refused there for want of its contact. What it sends and leaves is compared with what the rules say (oracle/store_file.py).
# - TURNS (20,000) turns of `sync` with nothing due over WAITING (100,000) notes that were tried once to six times and wait, a byte
#   of a record being heard in each, less a run in which the record comes at once; beside as many over 100 such notes.
# - `audit` of journals that bench/journal_files.py makes, each against half as many tries, and over a load of the same store: COUNT
#   sooner tries behind a letter; as many by two ways of ten seconds and of one that take turns, 64 tries in a turn, as many as a
#   run makes; and a quarter of them by such ways with one try in a turn.
# PARTS are the words of the parts (letter turn audit). The last lines are `ratio NAME VALUE`, growth over linear.
cd "$(dirname "$0")/.." || exit 1
bsp=${BSP:-$PWD/crates/bsp/out/bsp}
[ -x "$bsp" ] || .ci/built bsp || exit 1
folder=$(mktemp -d /dev/shm/quicker.XXXXXX) || exit 1
trap 'rm -rf "$folder"' EXIT
PYTHONDONTWRITEBYTECODE=1 PYTHONPATH=bench:oracle python3 - "$bsp" "$folder" "${RUNS:-3}" "${COUNT:-20000}" "${WAITING:-100000}" \
    "${TURNS:-20000}" ${PARTS:-letter turn audit} <<'PY'
import fcntl, os, struct, subprocess, sys, termios, time

from digests import group_id
from journal import OFFERS, SEND, frames
from journal_files import TWO_DAYS, by_turns, sooner, waiting, written
from measure import Run, least, run
from run_model import VERSIONS, message_record, record_bytes
from store_file import GROUP, HEADER, Note, framed

bsp, folder, runs, count, wait, turns, *parts = *sys.argv[1:3], *map(int, sys.argv[3:7]), *sys.argv[7:]
SIZE, QUICK, SLOWEST, MOST_OFFERS, FEW = 200, 600_000, 2 ** 32 - 1, 1_536, 100
STORE, SENT = os.path.join(folder, 'bsp.0'), os.path.join(folder, 'sent')
GREETING = record_bytes(VERSIONS, b'\0')
# a record that says nothing, as long as there are turns: a message of a group that is not known here
STRANGE = message_record(group_id(b'note', 0, b'strange'), 0, bytes(turns))
LOAD = 'sh', '-c', f'"$0" body {"0" * 64} 2>&1 || test $? = 4', bsp


def expect(holds, what):
    if not holds:
        sys.exit(f'wrong: {what}')


def put(path, content):
    with open(path, 'wb') as file:
        file.write(content)


def content_of(path):
    with open(path, 'rb') as file:
        return file.read()


def notes_of(number):
    return [Note(place, SIZE) for place in range(number)]


def sync(before, mode, contact=0, status=0):
    """A run of `sync` whose input ends behind its greeting."""
    put(STORE, before)
    put(SENT + '.in', GREETING)
    with open(SENT + '.in', 'rb') as source, open(SENT, 'wb') as sink:
        words = bsp, 'sync', '1000000', '1', str(contact), mode, str(QUICK), 'std'
        return run(*words, source=source, sink=sink, folder=folder, status=status)


# ---- a letter that was lost

def load(before, mode):
    """A load and nothing else: there is no such contact."""
    return sync(before, mode, contact=1, status=4)


def letter():
    """The store behind a letter, which has all notes."""
    put(STORE, framed(HEADER, written(notes)))
    with open(SENT, 'wb') as sink:
        run(bsp, 'mailbox', 'out', '0', str(TWO_DAYS), str(len(notes)), sink=sink, folder=folder)
    expect(content_of(SENT) == GREETING + records, 'the letter')
    return content_of(STORE)


def check(before, mode):
    """What a run of `sync` sends and leaves: each note, or offers of all of them; and that the other one leaves all as it is."""
    expect(load(before, mode).err == 'refused: unknown contact\n' and content_of(STORE) == before, 'a load')
    sync(before, mode)
    payloads = [payload for at, payload in frames(content_of(STORE)) if at >= len(before) - 1]
    outs = [payload for payload in payloads if payload[0] == 15]
    kind, head, most = (SEND, 14, 1) if mode == 'batch' else (OFFERS, 16, MOST_OFFERS)
    expect(len(payloads) == len(outs) + 2 and all(it[13] == kind for it in outs), 'outputs')
    expect(b''.join(it[head:] for it in outs) == b''.join(struct.pack('>I', n) for n in range(count)), 'the order of outputs')
    expect(len(outs) == -(-count // most), 'how much an output has')
    if mode == 'batch':
        expect(content_of(SENT) == GREETING + records, 'the bytes sent')


def measure_letter():
    stores = framed(HEADER, written(notes)), letter()
    for mode in ('batch', 'interactive'):
        for before in stores:
            check(before, mode)
        asked = [lambda call=call, before=before: call(before, mode) for before in stores for call in (sync, load)]
        first, first_load, again, again_load = (seconds for seconds, _ in least(runs, *asked))
        print(f'{mode}: {count} notes for the first time {first:.3f} s, a load of them {first_load:.3f} s; behind a letter {again:.3f} s, '
              f'a load {again_load:.3f} s', flush=True)
        yield f'ratio quicker_{mode} {(again - again_load) / (first - first_load):.2f}'
        yield f'ratio quicker_{mode}_whole {again / first:.2f}'


# ---- turns with nothing due

def hear(before, pieces):
    """A run of `sync` that hears these pieces, the next one once one was read."""
    put(STORE, before)
    words = bsp, 'sync', '1000000', '1000000', '0', 'batch', str(SLOWEST), 'std'
    with open(SENT, 'wb') as sink:
        node = subprocess.Popen(words, cwd=folder, stdin=subprocess.PIPE, stdout=sink, stderr=subprocess.PIPE, bufsize=0)
    pipe, unread = node.stdin.fileno(), bytearray(4)
    for piece in pieces:
        os.write(pipe, piece)
        while fcntl.ioctl(pipe, termios.FIONREAD, unread) == 0 and any(unread):
            pass
    node.stdin.close()
    text = node.stderr.read().decode()
    _, status, usage = os.wait4(node.pid, 0)
    node.returncode = os.waitstatus_to_exitcode(status)
    expect((node.returncode, text) == (0, 'link 0: clean\n'), f'status {node.returncode}, {text!r}')
    expect(content_of(SENT) == GREETING, 'the bytes sent where nothing is due')
    return Run(usage.ru_utime + usage.ru_stime, usage.ru_maxrss * 1024, '', text)


def turn_of(number):
    """The least processor time of a turn with nothing due over so many notes that wait."""
    before = framed(HEADER, waiting(notes_of(number), time.time_ns() // 1_000_000))
    head = GREETING, STRANGE[:-turns]
    one_by_one = *head, *(STRANGE[len(STRANGE) - turns + place:][:1] for place in range(turns))
    at_once = *head, STRANGE[-turns:]
    (long, _), (short, _) = least(runs, lambda: hear(before, one_by_one), lambda: hear(before, at_once))
    return (long - short) / turns * 1e6


def measure_turn():
    many, few = turn_of(wait), turn_of(FEW)
    print(f'a turn with nothing due: {many:.2f} us over {wait} notes that wait, {few:.2f} us over {FEW}', flush=True)
    yield f'ratio quicker_turn {many / few:.2f}'


# ---- audits

def audit(payloads):
    """The least times of an audit and of a load."""
    put(STORE, framed(HEADER, payloads))
    judged = run(bsp, 'audit', folder=folder).out
    expect(judged.startswith('legal ') and judged.endswith(' settled\n'), judged)
    asked = (bsp, 'audit'), LOAD
    return [seconds for seconds, _ in least(runs, *(lambda it=it: run(*it, folder=folder) for it in asked))]


AUDITS = {
    'sooner': (count, sooner),
    'by_turns': (count, lambda notes: by_turns(notes[:len(notes) // 2], 64)),
    'one_by_one': (count // 4, lambda notes: by_turns(notes[:len(notes) // 2], 1)),
}


def measure_audit():
    for name, (tries, maker) in AUDITS.items():
        short, long = (audit(maker(notes[:number])) for number in (tries // 2, tries))
        print('audit of {} sooner tries, {}: {:.3f} s, of half as many {:.3f} s, load {:.3f} s'.format(
            tries, name.replace('_', ' '), long[0], short[0], long[1]), flush=True)
        yield f'ratio quicker_audit_{name} {long[0] / short[0] / 2:.2f}'
        yield f'ratio quicker_audit_{name}_load {long[0] / long[1]:.2f}'


notes = notes_of(count)
records = b''.join(message_record(GROUP, note.time, note.body) for note in notes)
KINDS = {'letter': measure_letter, 'turn': measure_turn, 'audit': measure_audit}
print('\n'.join([line for part in parts for line in KINDS[part]()]))
PY
