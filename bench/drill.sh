#!/bin/sh
# Entries of the journal that `qron drill` makes a second of processor time, all else that the run does included: two connections,
# their messages and replies, and the summary.
set -eu
root=$(cd "$(dirname "$0")/.." && pwd)
"$root/qron" pipe </dev/null

PYTHONDONTWRITEBYTECODE=1 PYTHONPATH="$root/bench" python3 - "$root/crates/qron_cli/out/qron_cli" <<'PYTHON'
import sys
from spent import spent

ROUNDS = 100_000
ENTRIES = 7 * ROUNDS

SAID = b"rounds %d\nentries %d\nequal %d\n" % (ROUNDS, ENTRIES, ROUNDS)
runs = sorted(ENTRIES / spent([sys.argv[1], "drill", str(ROUNDS)], SAID) for _ in range(9))
for rate in runs:
    print(f"{rate:,.0f} entries a second")
print(f"median: {runs[len(runs) // 2]:,.0f} entries a second")
PYTHON
