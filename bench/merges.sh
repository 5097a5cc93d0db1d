#!/bin/sh
# Merges of two dense registers of 6 qubits in one of 12: microseconds of processor time for the verdict on a product
# and the product, reduced and balanced.
"$(dirname "$0")/timed.sh" gate_timing <<'PYTHON'
import sys
from spent import spent

# batches of 1,000 merges
BATCHES = 10

def seconds(words):
    """The processor time of a run that does as many merges as it was asked for."""
    return spent([sys.argv[1], "6"] + words, b"%d " % (1_000 * len(words)))

runs = sorted((seconds(["merges"] * BATCHES) - seconds([])) * 1e6 / (1_000 * BATCHES) for _ in range(9))
for each in runs:
    print(f"{each:.1f} us")
print(f"median: {runs[len(runs) // 2]:.1f} us for a merge of 6 and 6 qubits")
PYTHON
