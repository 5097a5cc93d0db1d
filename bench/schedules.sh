#!/bin/sh
# How long `qron replay` reads schedules of 16 MB and of many turns, on one core. What a schedule of one line takes is left out.
set -eu
root=$(cd "$(dirname "$0")/.." && pwd)
room=$(mktemp -d)
trap 'rm -rf "$room"' EXIT
"$root/qron" pipe </dev/null

python3 - "$root" "$room" <<'PYTHON'
import os, subprocess, sys, time

root, room = sys.argv[1:]
program = f"{root}/qron"
os.sched_setaffinity(0, {min(os.sched_getaffinity(0))})

def seconds(words):
    start = time.perf_counter()
    done = subprocess.run([program, *words], stdout=subprocess.PIPE)
    assert done.returncode == 0
    return time.perf_counter() - start, done.stdout

def best(words):
    return min(seconds(words)[0] for _ in range(5))

def schedule(name, line, most):
    with open(f"{room}/{name}", "w") as text:
        text.write("c 0 0 -\n" + line * ((most - 8) // len(line)))
    return ["replay", f"{root}/examples/two_nodes.toml", f"{room}/{name}"]

most = 16_777_216
start = best(schedule("short", "s 0 1\n", 14))
for name, line in (("comments", "# " + 77 * "-" + "\n"), ("empty lines", "\n")):
    spent = best(schedule(name, line, most)) - start
    print(f"schedule of {name}: {most / spent / 1e6:,.0f} MB a second, {spent:.2f} seconds for 16 MB")
turns = schedule("turns", "s 0 1\n", 8 + 6 * 1_048_576)
spent = best(turns) - start
print(f"schedule of 1,048,576 turns, each on a line: {spent:.2f} seconds")
PYTHON
