#!/usr/bin/env bash
# Times `bsp try note d` on 200 MiB of MESSAGE records against `b2sum -l 256` on the same file in the same run: once with
# bodies of 32,768 bytes, and once with bodies of 100 bytes at a quarter, half and the whole of the size: the least processor
# time of RUNS (5) runs. It reports the peak of memory too. The last line is `ratio NAME VALUE`.
cd "$(dirname "$0")/.." || exit 1
bsp=$PWD/crates/bsp/out/bsp
.ci/built bsp || exit 1
exec env PYTHONPATH=bench:oracle PYTHONDONTWRITEBYTECODE=1 python3 - "$bsp" "${RUNS:-5}" <<'PY'
import os, sys, tempfile

from digests import group_id
from measure import least, run_silent
from records_file import write_messages

bsp, runs = sys.argv[1], int(sys.argv[2])
GROUP = group_id(b'note', 0, b'd')

with tempfile.TemporaryDirectory(dir='/dev/shm') as folder:
    path = os.path.join(folder, 'records')
    size = 200 << 20
    lines = []
    for name, part, length in (('small_quarter', size // 4, 100), ('small_half', size // 2, 100), ('small', size, 100), ('large', size, 32768)):
        written, number = write_messages(path, part, length, GROUP)
        (ours, peak), (theirs, _) = least(
            runs,
            lambda: run_silent(path, bsp, 'try', 'note', 'd'),
            lambda: run_silent(path, 'b2sum', '-l', '256'),
        )
        print(f'{name}: {number} records, {written} bytes: bsp {ours:.3f} s, b2sum {theirs:.3f} s, {ours / number * 1e9:.0f} ns a record')
        lines.append(f'memory {name} {peak / written:.2f}')
        lines.append(f'ratio {name} {ours / theirs:.2f}')
    print('\n'.join(lines))
PY
