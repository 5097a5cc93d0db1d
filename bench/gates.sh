#!/bin/sh
# Times gates on a dense register of 12 qubits, ours against libquantum's, in turn in one run, and prints
# microseconds of processor time and the ratio: for a Hadamard and a turn by an eighth, and for a CNOT.
# The Hadamard and turn stand beside the same in C too, in two layouts, of which the faster counts.
# libquantum runs on one thread, as ours does, and all on one core.
set -eu
root=$(cd "$(dirname "$0")/.." && pwd)
room=$(mktemp -d)
trap 'rm -rf "$room"' EXIT

if ! [ -e /usr/include/quantum.h ]; then
    apt-get update >"$room/apt.log" && apt-get install -y libquantum-dev >>"$room/apt.log"
fi
cc -O2 -fopenmp "$root/bench/gates_libquantum.c" -o "$room/theirs" -lquantum -lm
cc -O3 -march=x86-64-v2 "$root/bench/hadamard_bodies.c" -o "$room/bodies"
"$room/bodies" check >"$room/checked"

OMP_NUM_THREADS=1 "$root/bench/timed.sh" gate_timing "$room/theirs" "$room/bodies" <<'PYTHON'
import os, statistics, sys
from spent import spent

ours, theirs, bodies = sys.argv[1:]
os.sched_setaffinity(0, {min(os.sched_getaffinity(0))})

def each(program, word):
    """Microseconds for one: 10 words are 10,000 more than none."""
    return (spent([program] + [word] * 10) - spent([program])) * 1e6 / 10_000

def line(name, ours, others):
    beside = "".join(f"   {of} {time:6.1f} us   ratio {ours / time:.2f}" for of, time in others)
    return f"{name}: ours {ours:6.1f} us{beside}"

in_c = ("rows in C", bodies, "rows"), ("lists in C", bodies, "lists")
gates = (
    ("Hadamard and turn", "pairs", (("libquantum", theirs, "pairs"), *in_c)),
    ("CNOT", "nots", (("libquantum", theirs, "nots"),)),
)
for name, word, others in gates:
    ratios, ratios_in_c = [], []
    for _ in range(9):
        one = each(ours, word)
        times = [each(program, other) for _, program, other in others]
        ratios.append(one / times[0])
        ratios_in_c += [one / min(times[1:])] if times[1:] else []
        print(line(name, one, zip([of for of, _, _ in others], times)))
    print(f"{name}: median ratio {statistics.median(ratios):.2f}")
    if ratios_in_c:
        print(f"{name}: median ratio {statistics.median(ratios_in_c):.2f} to the faster body in C")
PYTHON
