#!/bin/sh
# The speed of `qron serve` over loopback. Round trips of HELLO and of NEW, H and MEASURE stand beside those of a bare echo
# server in C with requests and replies of the same sizes: one client in C asks both in turn, and the ratio is the median of
# those of 41 batches. Then come the commands a second that 1, 4 and 8 connections with large messages have answered.
set -eu
root=$(cd "$(dirname "$0")/.." && pwd)
room=$(mktemp -d)
trap 'rm -rf "$room"' EXIT
"$root/qron" pipe </dev/null
for name in echo_server round_trips; do
    cc -O2 -Wall -Wextra "$root/bench/$name.c" -o "$room/$name"
done

TMPDIR=$room PYTHONDONTWRITEBYTECODE=1 PYTHONPATH="$root/tests/serve" timeout 600 python3 - "$root/qron" "$room" <<'PYTHON'
import os, statistics, subprocess, sys, threading, time
from cqc import DONE, FACTORY, HELLO, MEASOUT, NEW_OK, NOTIFY, command, header, message
from server import Server, die_with_parent, free_ports

program, room = sys.argv[1:]
cores = sorted(os.sched_getaffinity(0))

def on(core):
    """What a program does before it runs, so that it stays on one core."""
    def begin():
        die_with_parent()
        os.sched_setaffinity(0, {core})
    return begin

def trips(request, reply, ours, client):
    """Nanoseconds of round trips in batches: with our server and with the bare one, both on one core, and the client on its own."""
    os.sched_setaffinity(0, {ours})
    with Server(program, 1, 1, 1, journal=1_048_576) as server:
        os.sched_setaffinity(0, cores)
        port = free_ports(1)[0]
        bare = subprocess.Popen([f"{room}/echo_server", str(port), str(len(request)), reply.hex()], preexec_fn=on(ours))
        asked = subprocess.run([f"{room}/round_trips", "1000", "41", request.hex(), reply.hex(), str(server.ports[0]), str(port)],
            stdout=subprocess.PIPE, preexec_fn=on(client), timeout=100, check=True)
        status, _, complained = server.finish()
        if (bare.wait(10), status) != (0, 0):
            raise SystemExit(f"round trips: {bare.returncode}, {status} {complained}")
    return [tuple(map(int, line.split())) for line in asked.stdout.splitlines()]

turn = command("new") + command("h") + command("measure")
kinds = (
    ("HELLO", message(0, b"", HELLO), header(HELLO, 0, 0)),
    ("NEW, H and MEASURE", message(0, turn), header(NEW_OK, 0, 2) + b"\0\0" + header(MEASOUT, 0, 1) + b"\0"),
)
placings = [("all on one core", cores[0], cores[0])]
if len(cores) > 1:
    placings.append(("the client on another core", cores[1], cores[0]))
for where, ours, client in placings:
    for name, request, reply in kinds:
        batches = trips(request, reply, ours, client)
        one, other = (statistics.median(side) / 1000 for side in zip(*batches))
        ratio = statistics.median(mine / theirs for mine, theirs in batches)
        print(f"{name}, {where}: {one:.1f} us a round trip, {other:.1f} us with a bare server, median ratio {ratio:.2f}")

# bodies of 65,536 bytes at most
SIZE = 16_384

def gates(app, qubits):
    """What is asked first and the size of its answer, a large message of H on the qubits in turn, its answer, and its commands."""
    made = b"".join(command("new") + command("h", qubit) for qubit in range(qubits))
    made += b"".join(command("cnot", 0, qubit) for qubit in range(1, qubits))
    body = b"".join(command("h", k % qubits) for k in range(SIZE - 1)) + command("h", 0, options=NOTIFY)
    return message(app, made), 10 * qubits, message(app, body), header(DONE, app, 0), SIZE

def measured(app):
    """The same for a FACTORY of NEW, H and MEASURE."""
    count = 255 * 20
    replies = (header(NEW_OK, app, 2) + b"\0\0" + header(MEASOUT, app, 1) + b"\0") * count + header(DONE, app, 0)
    return message(app, b"", HELLO), 8, message(app, bytes([255, NOTIFY]) + turn * 20, FACTORY), replies, 3 * count

def rate(links, nodes, load, messages):
    """Commands a second of so many connections that each ask so many messages, from the first byte to the last."""
    wrong, commands = [], []
    gate = threading.Barrier(links + 1)

    def ask(link, app):
        first, size, large, replies, count = load(app)
        link.send(first)
        link.take(size)
        gate.wait()
        link.send(large)
        for number in range(messages):
            # the next one is there when this one is answered
            if number + 1 < messages:
                link.send(large)
            got = bytearray(link.take(len(replies)))
            # outcomes may be 0 or 1
            got[18:-8:19] = bytes(len(got[18:-8:19]))
            if got != replies:
                wrong.append((app, number))
            commands.append(count)
        gate.wait()

    with Server(program, nodes, links // nodes, 1, journal=1_048_576) as server:
        open_links = [server.connect(number % nodes) for number in range(links)]
        for app, link in enumerate(open_links):
            threading.Thread(target=ask, args=(link, app), daemon=True).start()
        gate.wait(60)
        began = time.perf_counter()
        gate.wait(60)
        took = time.perf_counter() - began
        for link in open_links:
            link.close()
        status, _, complained = server.finish()
    if wrong or status != 0:
        raise SystemExit(f"{links} connections: {wrong} {status} {complained}")
    return sum(commands) / took

# on how many nodes the connections are
loads = (
    ("H in a dense register of 12 qubits, each connection at a node of its own", lambda links: links, lambda app: gates(app, 12), 8),
    ("H on a single qubit, each connection at a node of its own", lambda links: links, lambda app: gates(app, 1), 32),
    ("H on a single qubit, all connections at one node", lambda links: 1, lambda app: gates(app, 1), 32),
    ("NEW, H and MEASURE, each connection at a node of its own", lambda links: links, measured, 32),
)
for name, nodes, load, messages in loads:
    first = None
    for links in (1, 4, 8):
        reached = statistics.median(rate(links, nodes(links), load, messages // links) for _ in range(5))
        first = first or reached
        print(f"{name}: {reached:,.0f} commands a second of {links} connections, {reached / first:.2f} times those of one")
PYTHON
