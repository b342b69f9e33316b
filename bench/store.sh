#!/bin/sh
# A store of notes on a disk in memory: commits with their settling, loads, and the memory of held messages. Each time is the least
# processor time of RUNS (5) runs, which the program takes of that step alone; the file of a load is made here and read before. A load
# is compared with `b2sum -l 256` of the same journal's file in a folder in memory, and with computing the ids of its messages alone;
# growth is over linear. The group is shared with no contact, and once more with CONTACTS (1). The last lines are `ratio NAME VALUE`,
# and `memory NAME VALUE` of the bytes that a held message takes beside its body: of a load beside what only reads the file.
set -eu
cd "$(dirname "$0")/.."
.ci/built bench || exit 1
exec env PYTHONPATH=bench:oracle PYTHONDONTWRITEBYTECODE=1 python3 - "${RUNS:-5}" "${CONTACTS:-1}" <<'PY'
import os, struct, sys, tempfile

from digests import block_hash, group_id, id_over
from measure import least, run, run_silent
from store_file import CLOSED, HEADER, OPEN, frame, steps

runs, some = int(sys.argv[1]), int(sys.argv[2])
PROGRAM = os.path.abspath("crates/bench/out/bench")
GROUP = group_id(b"note", 0, b"")


def frames(count, length, contacts):
    """The payloads of the journal, and the id of each message."""
    yield b"\2\4note" + bytes(6), None
    for contact in range(contacts):
        yield bytes([1, contact]), None
        yield bytes([3, contact]) + GROUP + b"\2", None
    body = b"a" * length
    block = block_hash(body)
    for n in range(count):
        time = struct.pack(">Q", n)
        name = id_over(GROUP, n, block)
        yield b"\6" + GROUP + time + struct.pack(">H", length) + body, name
        yield steps(struct.pack(">I", n)), None


def write_journal(path, count, length, contacts):
    """Writes the journal's file; answers its length and the sum of the ids."""
    total = 0
    with open(path, "wb") as file:
        file.write(HEADER)
        for payload, name in frames(count, length, contacts):
            file.write(OPEN + frame(payload)[:-1])
            total ^= int.from_bytes(name or b"", "big")
        file.write(CLOSED)
        return file.tell(), f"{total:064x}\n"


def step(want, *words, folder=None):
    """One run, which must print what is wanted; its seconds are those of the step alone, as the program tells them."""
    told = run(PROGRAM, "store", *words, folder=folder, want=want)
    return told._replace(seconds=int(told.err) / 1e6)


def planned(name, count, length, contacts, want):
    """A step over messages that the program makes."""
    return step(want, name, str(count), str(length), str(contacts))


def told(count, end):
    return f"{count} held, {count} delivered, {end} bytes\n"


def hashed(path):
    return run_silent(path, "b2sum", "-l", "256")


lines = []
with tempfile.TemporaryDirectory(dir="/dev/shm") as folder:
    def loaded(count, length, contacts):
        """A folder with the file of so many messages, its length, and the sum of their ids."""
        here = os.path.join(folder, f"{count} {length} {contacts}")
        os.makedirs(here, exist_ok=True)
        end, names = write_journal(os.path.join(here, "bsp.0"), count, length, contacts)
        return here, end, names

    def timed(name, count, contacts):
        here, end, _ = loaded(count, 200, contacts)
        if name == "load":
            return lambda: step(told(count, end), "file", folder=here)
        return lambda: planned(name, count, 200, contacts, told(count, end))

    def compare_sizes(name, few, many, contacts, *others):
        (short, _), (long, _), *rest = least(runs, timed(name, few, contacts), timed(name, many, contacts), *others)
        growth = long / short * few / many
        print(f"{name}, {contacts} contacts: {few} messages of 200 bytes {short:.3f} s, {many} messages {long:.3f} s, {long / many * 1e6:.2f} us a message")
        return long, growth, [seconds for seconds, _ in rest]

    def compare_load(contacts, name):
        _, _, names = loaded(200_000, 200, contacts)
        ids = lambda: planned("ids", 200_000, 200, contacts, names)
        long, growth, (ids,) = compare_sizes("load", 50_000, 200_000, contacts, ids)
        print(f"ids of 200000 messages alone {ids:.3f} s, {ids / 200_000 * 1e6:.2f} us a message")
        lines.append(f"ratio load_small{name} {long / ids:.2f}")
        lines.append(f"ratio load_growth{name} {growth:.3f}")

    def compare_memory(contacts, name):
        peaks = []
        for count in (100_000, 200_000):
            here, end, _ = loaded(count, 200, contacts)
            held = step(told(count, end), "file", folder=here).memory
            read = step(f"{end} bytes\n", "read", folder=here).memory
            peaks.append(held - read)
        beside = (peaks[1] - peaks[0]) / 100_000 - 200
        print(f"a held message, {contacts} contacts: {beside:.0f} bytes of memory beside its body")
        lines.append(f"memory held{name} {beside:.0f}")

    for contacts, name in ((0, ""), (some, "_shared")):
        _, growth, _ = compare_sizes("commit", 5_000, 20_000, contacts)
        lines.append(f"ratio commit_growth{name} {growth:.3f}")
        compare_load(contacts, name)
        compare_memory(contacts, name)
    here, end, _ = loaded(8_000, 32_000, 0)
    load = lambda: step(told(8_000, end), "file", folder=here)
    (load, _), (theirs, _) = least(runs, load, lambda: hashed(os.path.join(here, "bsp.0")))
    print(f"load: 8000 messages of 32000 bytes, {end} bytes {load:.3f} s, b2sum {theirs:.3f} s")
    lines.append(f"ratio load_large {load / theirs:.2f}")
print("\n".join(lines))
PY
