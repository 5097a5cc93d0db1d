#!/bin/sh
# Calls that a hub answers to 1, 2, 4 and 8 threads, each at a node of its own, a second: turns of a qubit in a dense
# register of 12 qubits, and of a qubit alone, where the locks are the work. Beside them stands the core on one thread
# without locks. What the registers take to be made is left out.
"$(dirname "$0")/timed.sh" hub_timing <<'PYTHON'
import subprocess, sys, time

def seconds(kind, threads, rounds):
    """How long a run takes, in which all turns are answered."""
    began = time.perf_counter()
    said = subprocess.run([sys.argv[1], kind, str(threads), str(rounds)], check=True, stdout=subprocess.PIPE).stdout
    took = time.perf_counter() - began
    if said != b"%d calls\n" % (max(threads, 1) * rounds):
        raise SystemExit(said)
    return took

def rate(kind, threads, rounds):
    """The median of five rates."""
    rates = sorted(max(threads, 1) * rounds / (seconds(kind, threads, rounds) - seconds(kind, threads, 0)) for _ in range(5))
    return rates[2]

for kind, rounds in (("dense", 10_000), ("single", 100_000)):
    alone = rate(kind, 0, rounds)
    print(f"{kind}: {alone:,.0f} calls a second without locks")
    one = rate(kind, 1, rounds)
    for threads in (1, 2, 4, 8):
        reached = one if threads == 1 else rate(kind, threads, rounds)
        print(f"{kind}: {reached:,.0f} calls a second with {threads} threads, {reached / one:.2f} times those of one")
PYTHON
