#!/bin/sh
# What strangers may choose so that a command has much to do. First names: a store of messages that arrived, each of which depends on 100 names of its own that nobody holds. The
# chosen names meet under std's hasher of a fixed seed, as `fixed` below computes it; the others are random. Prints the least processor
# time of RUNS (3) loads for FEW (5000) and MANY (20000) messages, and that of an OFFER of 1,536 such ids, and of an OFFER whose ids
# share the one slot by which a session counts a list's ids; the program takes it of that step alone. Its lines `ratio NAME VALUE` are
# chosen over random at FEW and at MANY messages, how much faster than n log n the load of chosen names grows, and chosen and of one
# slot over random for the OFFER.
# Then shapes: the stores of bench/hostile_stores.py, each with the command that has most to do over it. SHAPES are their names (all),
# SCALE (1) shortens them. Each is made at n and at 2 n, some also of a size that fills much of what a store may hold, and `audit` must
# find it legal before it is measured. The lines are `ratio hostile_growth_NAME`, how much faster than n log n the command grows from
# n to 2 n; `hostile_own_NAME`, at 2 n the command over a load of the same store (of `levels`: over a load of its notes alone);
# `hostile_honest_NAME`, over a load of notes of as many bytes; and both with `_large` of the large ones.
set -eu
cd "$(dirname "$0")/.."
bsp=$PWD/crates/bsp/out/bsp
.ci/built bench bsp || exit 1
export PYTHONPATH=bench:oracle PYTHONDONTWRITEBYTECODE=1
python3 - "${RUNS:-3}" "${FEW:-5000}" "${MANY:-20000}" <<'PY'
import hashlib, math, os, struct, sys, tempfile

from digests import group_id, message_id
from measure import least, run
from store_file import CLOSED, HEADER, OPEN, frame

PROGRAM = os.path.abspath("crates/bench/out/bench")
runs, few, many = map(int, sys.argv[1:])
NAMES, IDS, ROUNDS = 100, 1536, 200
THREAD = group_id(b"thread", 0, b"")
WORD, START, MULTIPLIER = (1 << 64) - 1, 0x243F6A8885A308D3, 0x9E3779B97F4A7C15


def folded(a, b):
    return a * b & WORD ^ a * b >> 64


def fixed(name):
    """What std's hasher of a fixed seed makes of 32 bytes."""
    a, b, c, d = struct.unpack("<4Q", name)
    return folded(c ^ folded(a ^ START + 32, b ^ MULTIPLIER), d ^ MULTIPLIER)


def random_name(n):
    return hashlib.blake2b(struct.pack(">Q", n), digest_size=32).digest()


def chosen_name(n):
    return random_name(n)[:24] + struct.pack("<Q", MULTIPLIER)


def slot_name(n):
    return bytes(2) + random_name(n)[2:]


KINDS = {"random": random_name, "chosen": chosen_name}
OFFERED = {**KINDS, "of one slot": slot_name}


def payloads(count, name_of):
    """Contact 0, the group, its level, a session, and the messages, each with the step that follows it."""
    yield b"\1\0"
    yield struct.pack(">BB6sIH", 2, 6, b"thread", 0, 0)
    yield struct.pack(">BB32sB", 3, 0, THREAD, 2)
    yield struct.pack(">BIBBIB", 4, 0, 0, 0, 1, 0)
    for n in range(count):
        body = bytes([NAMES]) + b"".join(name_of(n * NAMES + k) for k in range(NAMES))
        take = struct.pack(">BIQ", 5, 0, n)
        yield take + struct.pack(">BI32sQH", 7, 0, THREAD, n, len(body)) + body
        yield struct.pack(">BI", 8, n)


def write_store(folder, count, name_of):
    """Writes the store's file into a new folder, and the ids of an OFFER beside it; answers the file's length."""
    os.mkdir(folder)
    with open(os.path.join(folder, "ids"), "wb") as file:
        file.write(b"".join(map(name_of, range(IDS))))
    with open(os.path.join(folder, "bsp.0"), "wb") as file:
        file.write(HEADER)
        for payload in payloads(count, name_of):
            file.write(OPEN + frame(payload)[:-1])
        file.write(CLOSED)
        return file.tell()


def step(folder, want, *words):
    """One run, which must print what is wanted; its seconds are those of the step alone, as the program tells them."""
    told = run(PROGRAM, "store", *words, folder=folder, want=want)
    return told._replace(seconds=int(told.err) / 1e6)


def each(kinds, count, want, *words):
    """The least time of a step over a store of so many messages with names of each kind."""
    with tempfile.TemporaryDirectory(dir="/dev/shm") as top:
        folders = [os.path.join(top, kind) for kind in kinds]
        ends = [write_store(folder, count, name_of) for folder, name_of in zip(folders, kinds.values())]
        asked = [lambda folder=folder, end=end: step(folder, want.format(end), *words) for folder, end in zip(folders, ends)]
        return [seconds for seconds, _ in least(runs, *asked)]


for kind, name_of in KINDS.items():
    hashes = len({fixed(name_of(n)) for n in range(few)})
    print(f"{few} {kind} names have {hashes} hashes under the fixed seed")
loads = {}
for count in (few, many):
    loads[count] = each(KINDS, count, f"{count} held, 0 delivered, {{}} bytes\n", "file")
    print("load, {} messages of {} names: random {:.3f} s, chosen {:.3f} s".format(count, NAMES, *loads[count]), flush=True)
print(f"under the fixed seed the chosen names of {many} messages would be compared {(many * NAMES) ** 2 / 2:.0e} times in a load")
offer = each(OFFERED, 0, "1001 entries\n", "offer", str(ROUNDS))
print("an OFFER of {} ids: random {:.0f} us, chosen {:.0f} us, of one slot {:.0f} us".format(IDS, *(time / ROUNDS * 1e6 for time in offer)))
growth = loads[many][1] / loads[few][1] / (many * math.log2(many) / (few * math.log2(few)))
for count, (random, chosen) in loads.items():
    print(f"ratio hostile_load_{count} {chosen / random:.2f}")
print(f"ratio hostile_growth {growth:.2f}")
print(f"ratio hostile_offer {offer[1] / offer[0]:.2f}")
print(f"ratio hostile_slot {offer[2] / offer[0]:.2f}")
PY
exec python3 - "$bsp" "${RUNS:-3}" "${SCALE:-1}" ${SHAPES:-} <<'PY'
import math, os, sys, tempfile
from collections import namedtuple

from hostile_stores import LEVEL_NOTES, MAKERS, SHARING, THREAD, honest, levels
from measure import least, run
from store_file import HEADER, framed

bsp, runs, scale, names = sys.argv[1], int(sys.argv[2]), float(sys.argv[3]), sys.argv[4:]
UNKNOWN, COUNT = "0" * 64, 20
# the load of a store: an id that is not held
LOAD = "sh", "-c", f'"$0" body {UNKNOWN} 2>&1 || test $? = 4', bsp
REFUSED = "refused: unknown message\n"
# n, how many messages are there in the large one, if there is one, and the words of the command at so many
Shape = namedtuple("Shape", "count large words")


def tree(count):
    return bsp, "tree", THREAD.hex(), str(count // 2), str(COUNT)


def audit(count):
    return bsp, "audit"


SHAPES = {
    "tree_chain": Shape(50_000, 500_000, tree),
    "tree_star": Shape(50_000, 500_000, tree),
    "tree_random": Shape(50_000, None, tree),
    "audit_chain": Shape(20_000, None, audit),
    "audit_star": Shape(20_000, None, audit),
    "audit_fan": Shape(1_000, 30_000, audit),
    "audit_invalid": Shape(20_000, None, audit),
    "audit_asked": Shape(10_000, None, audit),
    "levels": Shape(10_000, None, lambda count: LOAD),
    "agree": Shape(100_000, None, lambda count: (bsp, "agree", "0", SHARING.hex())),
}


def is_told(words, text, count):
    """Whether a command wrote what it does over such a store."""
    return {
        "tree": text.count("\n") == min(COUNT, count - count // 2),
        "audit": text.startswith("legal ") and text.endswith(" settled\n"),
        "agree": True,
    }.get(words[1], text == REFUSED)


def store(top, name, payloads):
    """The folder of a new store, and its file's length."""
    folder = os.path.join(top, name)
    os.mkdir(folder)
    content = framed(HEADER, payloads)
    with open(os.path.join(folder, "bsp.0"), "wb") as file:
        file.write(content)
    return folder, len(content)


def measure(name, shape, count):
    """The least time of the command, of a load of the store, and of one of an honest store of as many bytes."""
    with tempfile.TemporaryDirectory(dir="/dev/shm") as top:
        folder, length = store(top, "hostile", MAKERS[name](count))
        beside, _ = store(top, "honest", honest(length))
        plain = store(top, "plain", levels(0, LEVEL_NOTES))[0] if name == "levels" else folder
        words = shape.words(count)

        def asked():
            told = run(*words, folder=folder)
            if not is_told(words, told.out, count):
                sys.exit(f"{words}: {told.out[:200]!r}")
            return told

        judged = run(bsp, "audit", folder=folder).out
        if not judged.startswith("legal "):
            sys.exit(f"{name} of {count}: {judged!r}")
        load = lambda folder: lambda: run(*LOAD, folder=folder, want=REFUSED)
        times = [seconds for seconds, _ in least(runs, asked, load(plain), load(beside))]
        if os.path.getsize(os.path.join(folder, "bsp.0")) != length:
            sys.exit(f"{name} of {count} was changed by {words}")
        print("{} of {}, {} bytes: {:.3f} s, load {:.3f} s, honest load {:.3f} s".format(name, count, length, *times), flush=True)
        return times


def ratios(name, ending, times):
    command, own, beside = times
    yield f"ratio hostile_own_{name}{ending} {command / own:.2f}"
    yield f"ratio hostile_honest_{name}{ending} {command / beside:.2f}"


lines = []
for name, shape in SHAPES.items():
    if names and name not in names:
        continue
    few, many = (max(20, int(count * scale)) for count in (shape.count, 2 * shape.count))
    short, long = measure(name, shape, few), measure(name, shape, many)
    growth = long[0] / short[0] / (many * math.log2(many) / (few * math.log2(few)))
    lines += [f"ratio hostile_growth_{name} {growth:.2f}", *ratios(name, "", long)]
    if shape.large:
        lines += ratios(name, "_large", measure(name, shape, max(20, int(shape.large * scale))))
print("\n".join(lines))
PY
