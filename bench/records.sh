#!/usr/bin/env bash
# Times `bsp records` against `b2sum -l 256` on the same file in the same run: 200 MiB of MESSAGE records with bodies of 32,768
# bytes, and 50 MiB with bodies of 100 bytes. It reports the peak of memory as a part of the input. The last lines are
# `ratio records_small VALUE` and `ratio records VALUE`, of the small and of the large bodies.
cd "$(dirname "$0")/.." || exit 1
bsp=$PWD/crates/bsp/out/bsp
.ci/built bsp || exit 1
exec env PYTHONPATH=bench PYTHONDONTWRITEBYTECODE=1 python3 - "$bsp" "${RUNS:-5}" <<'PY'
import os, sys, tempfile

from measure import least, run_silent
from records_file import write_messages

bsp, runs = sys.argv[1], int(sys.argv[2])

ratios = []
with tempfile.TemporaryDirectory(dir='/dev/shm') as folder:
    path = os.path.join(folder, 'records')
    for name, told, size, length in (('small', 'records_small', 50 << 20, 100), ('large', 'records', 200 << 20, 32768)):
        written, number = write_messages(path, size, length, b'g' * 32)
        (ours, peak), (theirs, _) = least(
            runs,
            lambda: run_silent(path, bsp, 'records'),
            lambda: run_silent(path, 'b2sum', '-l', '256'),
        )
        ratio = ours / theirs
        print(f'{name}: {number} records, {written} bytes: bsp {ours:.3f} s, b2sum {theirs:.3f} s, '
              f'{ours / number * 1e9:.0f} ns a record, memory {peak / written:.2f} of the input, ratio {ratio:.2f}')
        ratios.append(f'ratio {told} {ratio:.2f}')
print('\n'.join(ratios))
PY
