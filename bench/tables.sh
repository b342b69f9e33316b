#!/bin/sh
# The growth of the table of what is due: 8 contacts, each message ready for all of them and owed to them, asked for by each, sent
# twice, offered and acknowledged. Prints the least processor time of RUNS (5) runs for 100,000 and 400,000 messages, the bytes a row
# of one contact and message, and last `ratio tables VALUE`: how much faster than n log n the work grows.
set -eu
cd "$(dirname "$0")/.."
.ci/built bench || exit 1
exec env PYTHONPATH=bench PYTHONDONTWRITEBYTECODE=1 python3 - "${RUNS:-5}" <<'PY'
import math, sys

from measure import least, run

runs = int(sys.argv[1])
contacts, few, many = 8, 100_000, 400_000


def fill(count):
    rows = contacts * count
    told = f"{2 * rows} sent, {rows} offered, {rows} acknowledged\n"
    return lambda: run("crates/bench/out/bench", "tables", str(count), want=told)


(short, _), (long, memory), (_, empty) = least(runs, fill(few), fill(many), fill(1))
growth = long / short / (many * math.log2(many) / (few * math.log2(few)))
print(f"{few} messages in {short:.3f} s, {many} in {long:.3f} s, {(memory - empty) / (contacts * many):.0f} bytes a row")
print(f"ratio tables {growth:.3f}")
PY
