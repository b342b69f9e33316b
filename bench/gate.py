#!/usr/bin/env python3
"""Runs the gate, or part of it, and prints what each crate cost it, as a table of docs/COSTS.md.

    bench/gate.py                         the gate, `rt ci`
    bench/gate.py rt ci --anew            all of it anew, with a kit that keeps what an earlier run proved
    bench/gate.py --watch SEEN            each `rt ci` and `rt must-fail` of this machine, in whatever clone, until this is
                                          interrupted: it keeps in the file SEEN what they used, and adds to what stands there
    bench/gate.py --of SEEN LOG..         the table of what was kept so, with the functions that these logs tell of
    bench/gate.py --write ..              the table is written into docs/COSTS.md too; with any of these but --watch

What the gate prints goes to the error output as it comes, and the table to the standard output. The minutes are those of a
processor, read from /proc once a second: of each check of `rattle`, by the crate that its words name, whether it proves the
crate, the crate with its tests or an edit. A crate's functions are those of the gate's own count. Programs and tests that
run, and compiling, count as proof or tests of their crate where `rattle` does them, and else nowhere. Where several runs did
the same for a crate, the dearest one counts: a later one has less to prove, or proves it anew after a change.
"""
import collections
import glob
import json
import os
import re
import signal
import subprocess
import sys
import threading
import time

TICKS = os.sysconf('SC_CLK_TCK') * 60
KINDS = 'proof', 'tests', 'edits'
# the names of a check and of those that it starts to prove for it
CHECKS = 'rattle', 'antt-kernel'


def text_of(path):
    try:
        with open(path, errors='replace') as file:
            return file.read()
    except OSError:
        return ''


def processes():
    """Each process: its parent, its name, when it began, and the ticks that it used, alone and with its children that have ended."""
    found = {}
    for pid in filter(str.isdigit, os.listdir('/proc')):
        name, _, rest = text_of(f'/proc/{pid}/stat').partition('(')[2].rpartition(')')
        fields = rest.split()
        if len(fields) > 19:
            found[pid] = fields[1], name, fields[19], sum(map(int, fields[11:15]))
    return found


def gate_of(pid, found, is_gate):
    """The run of the gate that a process is below of; None where there is none."""
    while pid in found:
        if is_gate(pid):
            return pid
        pid = found[pid][0]
    return None


def is_any_gate(pid):
    words = text_of(f'/proc/{pid}/cmdline').split('\0')
    return any(os.path.basename(word) == 'rt' and words[place + 1] in ('ci', 'must-fail') for place, word in enumerate(words[:2]) if words[place + 1:])


def purpose(pid):
    """The crate that a check is of, and what it proves; None where it is none."""
    words = text_of(f'/proc/{pid}/cmdline').split('\0')
    if '--crate-name' not in words:
        return None
    try:
        place = os.readlink(f'/proc/{pid}/cwd')
    except OSError:
        return None
    crate = words[words.index('--crate-name') + 1]
    return crate, 'edits' if re.search(r'/rt-edits?-\w+(-|$)', place) else 'tests' if '--test' in words else 'proof'


class Costs:
    """What was used until now: of each check that is not below another one, with all below it."""

    def __init__(self, is_gate):
        self.is_gate, self.gates, self.ticks, self.purposes = is_gate, {}, {}, {}
        self.load, self.looks = 0, 0

    def look(self):
        found = processes()
        below = collections.Counter()
        for pid, (parent, name, _, used) in found.items():
            if name in CHECKS:
                root = pid
                while found.get(parent, ('', ''))[1] in CHECKS:
                    root, parent = parent, found[parent][0]
                below[root] += used
        for root, used in below.items():
            check = root, found[root][2]
            if check not in self.purposes:
                gate = gate_of(root, found, self.is_gate)
                self.gates[check] = gate and f'{gate} of {found[gate][2]}'
                self.purposes[check] = gate and purpose(root)
            self.ticks[check] = max(self.ticks.get(check, 0), used)
        if any(self.purposes[root, found[root][2]] for root in below):
            self.load += os.getloadavg()[0]
            self.looks += 1

    def seen(self):
        """The minutes of each run of the gate for each crate and what they went to, and the load of the machine meanwhile."""
        minutes = collections.Counter()
        for check, used in self.ticks.items():
            if self.purposes[check]:
                minutes[self.gates[check], *self.purposes[check]] += used / TICKS
        return {'used': [[*what, used] for what, used in minutes.items()], 'load': self.load, 'looks': self.looks}


def watch(costs, is_over):
    while not is_over():
        costs.look()
        time.sleep(1)


def crates():
    """The crates in the order of crates.txt."""
    with open('crates.txt') as file:
        return [line.split(':')[0].split()[0] for line in file if line.strip() and line[0] != '#']


def minutes_of(seen):
    """The minutes of each crate by what they went to, each in the run of the gate that took most for it."""
    minutes = collections.defaultdict(collections.Counter)
    for _, crate, kind, used in seen['used']:
        minutes[crate][kind] = max(minutes[crate][kind], used)
    return {crate: minutes[crate] for crate in crates() if crate in minutes}


def functions_of(log):
    """The functions that the gate proved of each crate."""
    functions, crate = {}, None
    for line in log:
        head = re.match(r'== (\w+)$', line)
        if head or line.startswith('== '):
            crate = head and head[1]
        verdict = re.match(r'logic=proved .*?functions=(\d+)', line)
        if verdict and crate:
            functions[crate] = int(verdict[1])
    return functions


def edits_of(crate):
    """How many wrong bodies the crate keeps."""
    return len(glob.glob(f'crates/{crate}/must-fail/*.edit'))


def table_of(minutes, functions):
    lines = ['| Crate | Functions | Proof | Tests | Wrong bodies | Refusing them | All |', '|---|---:|---:|---:|---:|---:|---:|']

    def add(name, number, used, tried):
        proof, tests, refusing = (f'{used[kind]:.1f}' for kind in KINDS)
        lines.append(f'| {name} | {number} | {proof} | {tests} | {tried} | {refusing} | {sum(used.values()):.1f} |')

    whole, all_functions, all_edits = collections.Counter(), 0, 0
    for name, used in minutes.items():
        tried = edits_of(name) if used['edits'] else 0
        add(f'`{name}`', functions.get(name, ''), used, tried)
        whole.update(used)
        all_functions += functions.get(name, 0)
        all_edits += tried
    add('all', all_functions, whole, all_edits)
    missing = [name for name in crates() if name not in minutes]
    if missing:
        lines += ['', f'Not in it, since no run that was watched proved them: {", ".join(missing)}.']
    return '\n'.join(lines)


def parts_of(minutes):
    """What the parts of the gate took: the wrong bodies, and beside them the crates that test, the one that measures and the others."""
    parts = collections.Counter()
    for name, used in minutes.items():
        part = 'crates that test' if name.startswith('test_') else 'the one that measures' if name == 'bench' else 'libraries and programs'
        parts[part] += used['proof'] + used['tests']
        parts['wrong bodies'] += used['edits']
    return ', '.join(f'{part} {parts[part]:.1f}' for part in ('libraries and programs', 'crates that test', 'the one that measures', 'wrong bodies'))


def write_table(text):
    """Puts the table, and what stands below it, behind its mark in docs/COSTS.md, in place of the one that was there."""
    path, mark = 'docs/COSTS.md', '<!-- the table is written by bench/gate.py --write -->\n'
    page = text_of(path)
    before, _, after = page.partition(mark)
    behind = after.index('\nWhat is dear')
    with open(path, 'w') as file:
        file.write(f'{before}{mark}\n{text}\n{after[behind:]}')


def keep(path, seen):
    with open(path + '.new', 'w') as file:
        json.dump(seen, file)
    os.replace(path + '.new', path)


def watch_all(path):
    """Watches every run of the gate, and keeps what it sees once a minute, and when it is interrupted."""
    before = json.loads(text_of(path) or '{"used": [], "load": 0, "looks": 0}')
    costs, over = Costs(is_any_gate), threading.Event()
    for number in signal.SIGINT, signal.SIGTERM:
        signal.signal(number, lambda *_: over.set())

    def keep_all():
        keep(path, {what: before[what] + told for what, told in costs.seen().items()})

    while not over.is_set():
        until = time.time() + 60
        watch(costs, lambda: over.is_set() or time.time() > until)
        keep_all()
    return 0


def run_gate(words):
    """Runs the gate. Answers what was seen, its log, and its status."""
    child = subprocess.Popen(words or ['rt', 'ci'], stdout=subprocess.PIPE, text=True, errors='replace')
    costs = Costs(lambda pid: pid == str(child.pid))
    looking = threading.Thread(target=watch, args=(costs, lambda: child.returncode is not None))
    looking.start()
    log = []
    for line in child.stdout:
        sys.stderr.write(line)
        log.append(line.rstrip('\n'))
    status = child.wait()
    looking.join()
    return costs.seen(), log, status


def main(here, words):
    if words[:1] == ['--watch']:
        return watch_all(os.path.join(here, words[1]))
    writes = words[:1] == ['--write']
    words = words[writes:]
    if words[:1] == ['--of']:
        seen, *logs = (text_of(os.path.join(here, path)) for path in words[1:])
        seen, log, status = json.loads(seen), [line for text in logs for line in text.splitlines()], 0
    else:
        seen, log, status = run_gate(words)
    runs = len({run for run, *_ in seen['used']})
    load = seen['load'] / max(seen['looks'], 1)
    told = (f'Runs of the gate: {runs}. The machine has {os.cpu_count()} processors, and its load was {load:.0f} meanwhile; '
            'what else runs makes a minute of a processor longer.')
    minutes = minutes_of(seen)
    text = f'{table_of(minutes, functions_of(log))}\n\nMinutes by part: {parts_of(minutes)}.\n\n{told}'
    print(text)
    if writes:
        write_table(text)
    return status


if __name__ == '__main__':
    folder = os.getcwd()
    os.chdir(os.path.join(os.path.dirname(os.path.abspath(__file__)), '..'))
    sys.exit(main(folder, sys.argv[1:]))
