"""Peers that break off, say nothing, don't read or send nonsense, beside others that are served: peers.py PROGRAM."""
import random
import sys
import time
from concurrent.futures import ThreadPoolExecutor

from checks import holds, run, same
from cqc import COMMAND, HELLO, Script, UNSUPP, Words, command, header, message
from pieces import tour
from server import SEED, Server

PROGRAM = sys.argv[1]

HELLO_9 = message(9, b"", HELLO)

# a message of which half is there
HALF = header(COMMAND, 9, 8) + command("new")


class Deaf:
    """A peer that sends HELLO messages and reads no answer."""

    # seconds without a byte taken, after which the server is taken to be stuck
    IDLE = 0.3

    def __init__(self, server, node):
        self.link, self.many, self.at = server.connect(node, room=4_096), HELLO_9 * 8_192, 0
        self.link.socket.setblocking(False)
        self.fill()

    def fill(self):
        """Sends until nothing is taken any more."""
        end = time.monotonic() + 20
        moved = time.monotonic()
        while time.monotonic() < moved + self.IDLE:
            try:
                # goes on where the last piece ended, so that all messages are whole
                self.at = (self.at + self.link.socket.send(self.many[self.at :])) % len(self.many)
                moved = time.monotonic()
            except BlockingIOError:
                time.sleep(0.01)
            if time.monotonic() > end:
                raise TimeoutError("all that is sent is taken, though nothing is read")

    def close(self):
        self.fill()
        self.link.close()


def stayer(server, node):
    """A peer that sends half a header, and stays."""
    link = server.connect(node)
    link.send(HELLO_9[:4])
    return link


def broken(server, node, sent, answer=b""):
    """Sends bytes, reads their answer, and closes."""
    with server.connect(node) as link:
        link.send(sent)
        same("the answer before a close", answer, link.take(len(answer)))


def failing(server, node, sent):
    """Sends bytes behind a HELLO, and fails instead of closing."""
    link = server.connect(node)
    link.send(HELLO_9)
    same("the answer before a failure", HELLO_9, link.take(8))
    link.send(sent)
    link.reset()


def witness(server, node, serial):
    """A connection at a node of one worker: each answer is certain, or a word of its own says it. Its entries."""
    script, known, words = Script(node), {}, Words(SEED, node, serial)
    with server.connect(node) as link:
        for made in tour(script, random.Random(100 * node + serial), 2_000, 6):
            link.ask(made, known)
    holds(f"the words of connection {serial} at node {node}", all(words.half(key[2]) == value for key, value in known.items()))
    return script.entries


def bad_peers_change_nothing():
    """Each node has one worker. Nodes 0 to 2 have bad peers, while nodes 3 and 4 have good ones."""
    nonsense = random.Random(1).getrandbits(800_000).to_bytes(100_000, "big")
    with Server(PROGRAM, 5, 1, 5, journal=1_048_576) as server:
        silent = stayer(server, 0)
        loud = Deaf(server, 1)
        with ThreadPoolExecutor(2) as pool:
            served = [pool.submit(lambda node: sum(witness(server, node, serial) for serial in range(5)), node) for node in (3, 4)]
            broken(server, 2, HALF)
            broken(server, 2, header(COMMAND, 9, 2**32 - 1) + nonsense)
            broken(server, 2, b"\1" + header(HELLO, 9, 5)[1:] + b"12345" + HELLO_9[:7], header(UNSUPP, 9, 0))
            failing(server, 2, HALF)
            broken(server, 2, b"")
            entries = sum(each.result() for each in served)
        holds("half a header has no answer", silent.silent(0.05))
        silent.send(HELLO_9[4:])
        same("the rest of a header comes late", HELLO_9, silent.take(8))
        silent.close()
        loud.close()
        for node in (0, 1):
            for _ in range(4):
                broken(server, node, HELLO_9, HELLO_9)
        status, lines, complained = server.finish()
    clean = ["clean"] * 5
    ends = [clean, ["readfault"] + clean[1:], ["cut", "cut", "cut", "readfault", "clean"], clean, clean]
    want = [f"{node} {serial} {node} {ending}" for node in range(5) for serial, ending in enumerate(ends[node])]
    same("bad peers and good ones", (4, want + [f"entries {entries}"], "qron: fault\n"), (status, lines, complained))


def one_node_serves_on():
    """Of three workers of one node the first has half a header, the second doesn't come to write, and the third serves."""
    entries = 0
    with Server(PROGRAM, 1, 3, 4) as server:
        silent, loud = stayer(server, 0), Deaf(server, 0)
        for number in range(4):
            script, known = Script(4), {}
            with server.connect(0) as link:
                for made in [script.hello()] + tour(script, random.Random(number), 500, 8):
                    link.ask(made, known)
            entries += script.entries
        silent.close()
        loud.close()
        for _ in range(6):
            broken(server, 0, HELLO_9, HELLO_9)
        status, lines, complained = server.finish()
    same("a node serves on", (4, [f"entries {entries}"], "qron: fault\n"), (status, lines[12:], complained))
    columns = [[line.split() for line in lines[at : at + 4]] for at in (0, 4, 8)]
    for seat, column in enumerate(columns):
        same(f"seat {seat}", [[str(seat), str(serial), "0"] for serial in range(4)], [line[:3] for line in column])
    ends = sorted([line[3] for line in column] for column in columns)
    same("the endings of a node", [["clean"] * 4, ["cut"] + ["clean"] * 3, ["readfault"] + ["clean"] * 3], ends)


run(bad_peers_change_nothing, one_node_serves_on)
