#!/bin/sh
# An audit of journals that bench/journal_files.py makes, beside a load of the same file. Each time is the least processor time of
# RUNS (3) runs, which the program takes of that step alone; memory is what the step takes beside a program that only reads the file,
# each the median of PEAKS (5) runs, since the system counts pages in batches: single runs differ by 0.05 of the file.
# - FEW (5,000) and MANY (20,000) notes of 200 bytes, which contact 0 sent in 100 sessions and which were sent on to contact 1 in
#   100 more: how much faster than n log n the time grows, and at MANY the time and the memory beside those of a load and the file.
# - WORST (5,000) messages that wait for the last: a chain in which each waits for the next, and a star in which all wait for one.
# The last lines are `ratio NAME VALUE`.
set -eu
cd "$(dirname "$0")/.."
.ci/built bench || exit 1
exec env PYTHONPATH=bench:oracle PYTHONDONTWRITEBYTECODE=1 python3 - "${RUNS:-3}" "${FEW:-5000}" "${MANY:-20000}" "${WORST:-5000}" "${PEAKS:-5}" <<'PY'
import math, os, statistics, subprocess, sys, tempfile

from journal import SHORT, entries, frames
from journal_files import chain, heard, star
from measure import least, run
from store_file import HEADER, Note, framed

PROGRAM = os.path.abspath("crates/bench/out/bench")
SESSIONS, SIZE = 100, 200
# the greatest memory of a step, told by a process that is itself small
PEAK = """
import os, subprocess, sys
child = subprocess.Popen(sys.argv[2:], cwd=sys.argv[1], stdout=subprocess.DEVNULL, stderr=subprocess.DEVNULL)
print(os.wait4(child.pid, 0)[2].ru_maxrss * 1024)
"""
runs, few, many, worst, peaks = map(int, sys.argv[1:])


def step(folder, want, *words):
    """One run, which must print what is wanted; its seconds are those of the step alone, as the program tells them."""
    told = run(PROGRAM, "store", *words, folder=folder, want=want)
    return told._replace(seconds=int(told.err) / 1e6)


def peak(folder, *words):
    words = (sys.executable, "-c", PEAK, folder, PROGRAM, "store", *words)
    return statistics.median(int(subprocess.run(words, capture_output=True, check=True).stdout) for _ in range(peaks))


def measure(payloads, messages):
    """The length of the file, and time and memory of what only reads it, of a load and of an audit."""
    content = framed(HEADER, payloads)
    told = [sum(1 for _ in entries(payload, SHORT)) for _, payload in frames(content)]
    report = f"{len(told)} batches, {sum(told)} entries, {messages} good, 0 bad, settled\n"
    with tempfile.TemporaryDirectory(dir="/dev/shm") as folder:
        with open(os.path.join(folder, "bsp.0"), "wb") as file:
            file.write(content)
        texts = {
            "read": f"{len(content)} bytes\n",
            "file": f"{messages} held, {messages} delivered, {len(content)} bytes\n",
            "audit": report,
        }
        asked = [lambda word=word, text=text: step(folder, text, word) for word, text in texts.items()]
        seconds = [seconds for seconds, _ in least(runs, *asked)]
        return len(content), *((time, peak(folder, word)) for time, word in zip(seconds, texts))


def notes(count):
    return measure(heard([Note(number, SIZE) for number in range(count)], SESSIONS), count)


def say(what, length, read, load, audit):
    memory = (audit[1] - read[1]) / 1e6
    print(f"{what}, {length} bytes: load {load[0]:.3f} s, audit {audit[0]:.3f} s, {memory:.1f} MB", flush=True)


told = {count: notes(count) for count in (few, many)}
for count, figures in told.items():
    say(f"{count} notes", *figures)
length, read, load, audit = told[many]
growth = audit[0] / told[few][3][0] / (many * math.log2(many) / (few * math.log2(few)))
lines = [
    f"ratio audit_growth {growth:.3f}",
    f"ratio audit_load {audit[0] / load[0]:.2f}",
    f"ratio audit_memory {(audit[1] - read[1]) / length:.2f}",
]
for shape in (chain, star):
    figures = measure(shape(worst), worst)
    say(f"{shape.__name__} of {worst}", *figures)
    lines.append(f"ratio audit_{shape.__name__} {figures[3][0] / figures[2][0]:.1f}")
print("\n".join(lines))
PY
