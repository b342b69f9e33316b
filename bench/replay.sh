#!/usr/bin/env bash
# Times `bsp_replay`: `gen 7 COUNT` with 5,000 and 20,000 posts, a ring of eight devices in which each device writes 250 messages
# and all 2,000 come to each, and the peak of memory of `gen 7 100000` for each post. Prints the least processor time of RUNS (3)
# runs; what each prints is compared with what it must. The last lines are `memory gen VALUE`, bytes for each post of a world of
# two devices, of which each holds all; `ratio gen VALUE`, how much faster than linear the time grows between the two counts, which
# is to be at most 1.2; and `ratio ring VALUE`, the time that a message takes to come to a device of the ring over that in the
# generated world.
cd "$(dirname "$0")/.." || exit 1
replay=${REPLAY:-$PWD/crates/bsp_replay/out/bsp_replay}
[ -x "$replay" ] || .ci/built bsp_replay || exit 1
exec env PYTHONPATH=bench PYTHONDONTWRITEBYTECODE=1 python3 - "$replay" "${RUNS:-3}" <<'PY'
import os, sys, tempfile

from measure import least, run, run_on

replay, runs = sys.argv[1], int(sys.argv[2])
FEW, MANY, MOST, DEVICES, EACH = 5_000, 20_000, 100_000, 8, 250


def wanted(devices, held):
    return ''.join(f'device {d} held {held} delivered {held} invalid 0 pending 0 unknown 0\n' for d in range(devices))


def generated(count):
    return run(replay, 'gen', '7', str(count), want=wanted(2, count))


def ring():
    """A script: a ring of devices that write in turns, and come to rest behind each tenth turn."""
    lines = [f'devices {DEVICES}', *[f'group {d} thread ring' for d in range(DEVICES)]]
    for d in range(DEVICES):
        e = (d + 1) % DEVICES
        lines += [f'share {d} {e} 0 shared', f'share {e} {d} 0 shared', f'link {d} {e} interactive 1000']
    for n in range(EACH):
        lines += [f'post {d} 0 {n} {DEVICES * (n - 1) + d if n else "-"} message {n} of {d}' for d in range(DEVICES)]
        lines += ['rest 1000'] if n % 10 == 9 else []
    return '\n'.join(lines) + '\n'


with tempfile.TemporaryDirectory(dir='/dev/shm') as folder:
    path = os.path.join(folder, 'ring')
    with open(path, 'w') as file:
        file.write(ring())

    def play_ring():
        told = run_on(path, replay)
        if told.out != wanted(DEVICES, DEVICES * EACH):
            sys.exit(f'wrong text of the ring: {told.out[:200]!r}')
        return told

    (few, _), (many, _), (round_, _) = least(runs, lambda: generated(FEW), lambda: generated(MANY), play_ring)
_, memory, *_ = generated(MOST)
print(f'gen 7 {FEW}: {few:.3f} s; gen 7 {MANY}: {many:.3f} s, {many / MANY * 1e6:.0f} us a post')
step, ring_step = many / MANY / 2, round_ / EACH / DEVICES ** 2
print(f'a ring of {DEVICES} with {DEVICES * EACH} messages: {round_:.3f} s, {ring_step * 1e6:.0f} us a message and device')
print(f'gen 7 {MOST}: {memory / 2 ** 20:.0f} MiB')
print(f'memory gen {memory / MOST:.0f}')
print(f'ratio gen {many / few / (MANY / FEW):.3f}')
print(f'ratio ring {ring_step / step:.2f}')
PY
