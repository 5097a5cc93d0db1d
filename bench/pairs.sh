#!/bin/sh
# Entangled pairs that the core makes over two nodes and measures at both, a second of processor time. What an empty
# run takes is left out. Each pair is four entries of the journal.
"$(dirname "$0")/timed.sh" core_timing <<'PYTHON'
import sys
from spent import spent

PAIRS = 200_000

def seconds(pairs):
    """The processor time of a run, in which all pairs agree."""
    return spent([sys.argv[1], str(pairs)], b"%d pairs, %d agree\n" % (pairs, pairs))

runs = sorted(PAIRS / (seconds(PAIRS) - seconds(0)) for _ in range(9))
for rate in runs:
    print(f"{rate:,.0f} pairs a second")
print(f"median: {runs[len(runs) // 2]:,.0f} pairs made and measured a second")
PYTHON
