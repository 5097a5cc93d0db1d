"""64 connections at 8 nodes beside each other, in rounds, with every answer judged: load.py PROGRAM SERVERS ROUNDS REPEATS GATES.

In a round each two nodes have two connections that share entangled pairs: one side makes a pair and entangles a further
qubit with its half, the other measures its half in place and sends it back. A further connection of each node turns a qubit.
"""
import itertools
import random
import sys
import time
from concurrent.futures import ThreadPoolExecutor

from checks import holds, run, same
from cqc import Script
from server import Server

PROGRAM = sys.argv[1]
SERVERS, ROUNDS, REPEATS, GATES = map(int, sys.argv[2:])

NODES = 8

# the most memory, and by how much it may grow behind the first round besides the journal's entries, in kB
MOST, GROWTH = 170_000, 2_000

# the bytes of an entry: the journal's memory is taken at the start, but counts as it is filled
ENTRY = 72


def games():
    """Each two nodes, once. The first makes the pairs: it does for three or four others, and needs three qubits for each."""
    for near in range(NODES):
        for step in (1, 2, 3, 4):
            if step < 4 or near < 4:
                yield near, (near + step) % NODES


def pairs(number, near, far):
    """Both sides' scripts and messages. Either waits for the other in each repeat."""
    one, other = Script(2 * number), Script(2 * number + 1)
    places = [(one.app, near), (other.app, far)]
    made, answered = itertools.count(), itertools.count()

    def make():
        this = next(made)
        half = one.epr(*places, ("pair", number, this))
        further = one.new()
        one.do("cnot", half, further)
        outcome = one.measure(half, ("outcome", number, this))
        one.measure(further, outcome)
        one.measure(one.recv(), outcome)

    def answer():
        this = next(answered)
        half = other.eprrecv(*places, ("pair", number, this))
        other.measure(half, ("outcome", number, this), name="inplace")
        other.send(half, *places[0])

    one.repeat(REPEATS, make)
    other.repeat(REPEATS, answer)
    return (one, one.go(repeats=REPEATS)), (other, other.go(repeats=REPEATS))


def turns(number):
    """A script of one qubit, and its messages: gates, and their inverses in turn."""
    script, chance, made = Script(number), random.Random(number), []
    while script.entries < GATES:
        qubit, back = script.new(), []
        for _ in range(60):
            name = chance.choice("hhxyzkt")
            script.do(name, qubit)
            back.append(("rotz", 256 - 32) if name == "t" else (name, b""))
        for name, operand in reversed(back):
            script.do(name, qubit, operand)
        script.measure(qubit, 0)
        made.append(script.go())
    return script, made


def one_server():
    """All rounds of a server. Its memory behind each, what the entries behind the first took, and the commands a second."""
    with Server(PROGRAM, NODES, 8, ROUNDS, journal=1_048_576, patience=20_000, wait_ms=1) as server:
        plans, entries, numbers, memory, spent = [], 0, [], [], 0.0
        for number, (near, far) in enumerate(games()):
            sides = pairs(number, server.ports[near], server.ports[far])
            plans += [(near, sides[0][0], [sides[0][1]], number), (far, sides[1][0], [sides[1][1]], number)]
        plans += [(node, *turns(1_000 + node), 1_000 + node) for node in range(NODES)]
        same("connections of a round", [8] * NODES, [sum(plan[0] == node for plan in plans) for node in range(NODES)])
        with ThreadPoolExecutor(len(plans)) as pool:
            for serial in range(ROUNDS):
                # what the two sides of a game learn is the same
                known = {plan[3]: {} for plan in plans}
                links = [server.connect(plan[0]) for plan in plans]

                def play(link, plan):
                    for made in plan[2]:
                        link.ask(made, known[plan[3]])

                began = time.perf_counter()
                list(pool.map(play, links, plans))
                spent += time.perf_counter() - began
                memory.append(server.memory())
                # all stay until the round is over, so each worker has one of them
                for link in links:
                    link.close()
                entries += sum(plan[1].entries for plan in plans)
                numbers += [value for each in known.values() for key, value in each.items() if key[0] == "pair"]
        holds("pairs are numbered from 0, each once", sorted(numbers) == list(range(28 * REPEATS * ROUNDS)))
        same("the record", server.all_clean(entries), server.finish())
    return memory, ENTRY * entries * (ROUNDS - 1) // ROUNDS // 1024, entries / spent


def all_servers():
    for _ in range(SERVERS):
        memory, kept, rate = one_server()
        print(f"{64 * ROUNDS} connections, 64 beside each other: all answers right, {rate:,.0f} commands a second, "
              f"{memory[0] / 1000:.1f} MB behind the first round and {memory[-1] / 1000:.1f} MB behind the last")
        holds(f"at most {MOST} kB: {memory[-1]}", memory[-1] <= MOST)
        holds(f"memory grows by at most {GROWTH} kB besides {kept} kB of entries: {memory}", memory[-1] - memory[0] <= GROWTH + kept)


run(all_servers, limit=60 + 60 * SERVERS)
