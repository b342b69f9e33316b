#!/bin/sh
# The digest's speed: the part `hash` of crates/bench against `b2sum -l 256` on the same 256 MiB in memory, in turns.
# Prints each one's least time of RUNS (7) runs; the last line is `ratio hash VALUE`.
set -eu
cd "$(dirname "$0")/.."
.ci/built bench || exit 1
exec env PYTHONPATH=bench PYTHONDONTWRITEBYTECODE=1 python3 - "${RUNS:-7}" <<'PY'
import os, sys, tempfile

from measure import least, run_on

SIZE = 256 * 1024 * 1024
runs = int(sys.argv[1])
shm = "/dev/shm" if os.path.isdir("/dev/shm") and os.statvfs("/dev/shm").f_bavail * os.statvfs("/dev/shm").f_frsize > 2 * SIZE else None
digests = set()


def hashed(path, *words):
    told = run_on(path, *words)
    digests.add(told.out.split()[0])
    return told


with tempfile.NamedTemporaryFile(dir=shm) as data:
    block = os.urandom(1024 * 1024)
    for i in range(SIZE // len(block)):
        data.write(i.to_bytes(8, "big") + block[8:])
    data.flush()
    (ours, _), (theirs, _) = least(
        runs,
        lambda: hashed(data.name, "crates/bench/out/bench", "hash"),
        lambda: hashed(data.name, "b2sum", "-l", "256"),
    )
    if len(digests) != 1:
        sys.exit(f"the digests differ: {digests}")
    print(f"{SIZE} bytes, least processor time of {runs} runs in turns")
    print(f"bench hash {ours:.3f} s")
    print(f"b2sum      {theirs:.3f} s")
    print(f"ratio hash {ours / theirs:.3f}")
PY
