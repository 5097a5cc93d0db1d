#!/usr/bin/env bash
# Messages a second and peak memory of `qron pipe`, on HELLO and on messages of NEW, H and MEASURE.
set -eu
top=$(cd "$(dirname "$0")/.." && pwd)
room=$(mktemp -d)
trap 'rm -rf "$room"' EXIT
"$top/qron" pipe </dev/null

# repeated FILE HEX COUNT: the message that many times
repeated() {
    python3 - "$@" <<'PYTHON'
import sys
name, text, count = sys.argv[1], sys.argv[2], int(sys.argv[3])
with open(name, "wb") as out:
    out.write(bytes.fromhex(text) * count)
PYTHON
}

# measured NAME FILE COUNT: the median of nine runs on one core
measured() {
    python3 - "$top/crates/qron_cli/out/qron_cli" "$@" <<'PYTHON'
import os, resource, statistics, subprocess, sys, time
program, name, path, count = sys.argv[1], sys.argv[2], sys.argv[3], int(sys.argv[4])
os.sched_setaffinity(0, {min(os.sched_getaffinity(0))})

def seconds():
    """How long one run takes."""
    with open(path, "rb") as given:
        start = time.perf_counter()
        subprocess.run([program, "pipe"], stdin=given, stdout=subprocess.DEVNULL, check=True)
        return time.perf_counter() - start

rate = count / statistics.median(seconds() for _ in range(9))
memory = resource.getrusage(resource.RUSAGE_CHILDREN).ru_maxrss / 1024
print(f"{name}: {rate:,.0f} messages a second, {memory:.1f} MB at most")
PYTHON
}

repeated "$room/hello" 0200000700000000 2000000
measured HELLO "$room/hello" 2000000

# the journal has room for 65,536 entries, three a message
repeated "$room/measure" 020100000000000c000001000000110000000200 21800
measured 'NEW, H, MEASURE' "$room/measure" 21800
