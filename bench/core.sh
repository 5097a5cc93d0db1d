#!/bin/sh
# Commands a second of `qron pipe`, on one core: one-qubit gates, and a chain of CNOT over 12 qubits that are all
# measured, beside the same circuit over libquantum. What an empty input takes is left out.
set -eu
root=$(cd "$(dirname "$0")/.." && pwd)
room=$(mktemp -d)
trap 'rm -rf "$room"' EXIT
"$root/qron" pipe </dev/null

if ! [ -e /usr/include/quantum.h ]; then
    apt-get update >"$room/apt.log" && apt-get install -y libquantum-dev >>"$room/apt.log"
fi
cc -O2 -fopenmp "$root/bench/chain_libquantum.c" -o "$room/theirs" -lquantum -lm

OMP_NUM_THREADS=1 python3 - "$root/qron" "$room" <<'PYTHON'
import os, subprocess, sys, time

program, room = sys.argv[1], sys.argv[2]
os.sched_setaffinity(0, {min(os.sched_getaffinity(0))})

def command(qubit, number, extra=b""):
    return qubit.to_bytes(2, "big") + bytes([number, 0]) + extra

def message(body):
    return bytes([2, 1, 0, 0]) + len(body).to_bytes(4, "big") + body

def seconds(words, given=b""):
    start = time.perf_counter()
    done = subprocess.run(words, input=given, stdout=subprocess.DEVNULL)
    assert done.returncode == 0
    return time.perf_counter() - start

def best(words, given=b""):
    return min(seconds(words, given) for _ in range(5))

NEW, MEASURE, X, Z, H, CNOT = 1, 2, 10, 11, 17, 20
start = best([program, "pipe"])

gates = [command(0, n) for n in (H, X, H, Z)] * 4095
one = message(command(0, NEW)) + message(b"".join(gates)) * 3
count = 1 + 3 * len(gates)
spent = best([program, "pipe"], one) - start
print(f"one-qubit gates: {count / spent:,.0f} commands a second")

circuit = b"".join([command(0, NEW)] * 12 + [command(0, H)]
    + [command(q, CNOT, (q + 1).to_bytes(2, "big")) for q in range(11)] + [command(q, MEASURE) for q in range(12)])
rounds = 1000
ours = (best([program, "pipe"], message(circuit) * rounds) - start) / rounds
theirs = (best([f"{room}/theirs", str(rounds)]) - best([f"{room}/theirs", "0"])) / rounds
print(f"chain of 12 qubits: ours {ours * 1e6:.0f} us, {12 / ours:,.0f} gates a second; "
      f"libquantum {theirs * 1e6:.0f} us; ratio {ours / theirs:.2f}")
PYTHON
