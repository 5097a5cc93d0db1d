#!/bin/sh
# Draws a second, and removals of the measured qubit a second, on dense registers of 1, 4, 8 and 12 qubits, by
# processor time. A draw weighs the rows and compares with a word; a removal reduces what stays.
"$(dirname "$0")/timed.sh" gate_timing <<'PYTHON'
import sys
from spent import spent

# batches of 1,000 calls, of which those at places of the register count
BATCHES = {1: 400, 4: 200, 8: 40, 12: 3}

for qubits, batches in BATCHES.items():
    calls = batches * sum(k % 12 < qubits for k in range(1_000))
    words = [sys.argv[1], str(qubits)]
    start = spent(words)
    draws = spent(words + ["draws"] * batches) - start
    both = spent(words + ["removals"] * batches) - start
    print(f"{qubits:2} qubits: {calls / draws:12,.0f} draws a second   {calls / (both - draws):12,.0f} removals a second")
PYTHON
