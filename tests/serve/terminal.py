"""What a server says of its connections where its standard error is a terminal: terminal.py PROGRAM."""
import os
import pty
import sys
from concurrent.futures import ThreadPoolExecutor

from checks import children, run, same
from cqc import GENERAL, HELLO, NEW_OK, command, header, message
from server import Link, finish, free_ports, settings, start

PROGRAM = sys.argv[1]

HELLO_9 = message(9, b"", HELLO)


class Terminal:
    """A server whose standard error is a terminal, which is read beside it."""

    def __init__(self, reader, nodes, **keys):
        self.ports = free_ports(nodes)
        self.master, slave = pty.openpty()
        self.child = start(PROGRAM, settings(self.ports, **keys), errors=slave)
        os.close(slave)
        self.said = reader.submit(self.read)

    def __enter__(self):
        return self

    def __exit__(self, *_):
        if self.child in children:
            self.child.kill()
            self.child.communicate()
            children.remove(self.child)
        self.said.result()
        os.close(self.master)

    def read(self):
        """All that is said until nobody has the terminal any more."""
        said = b""
        while True:
            try:
                piece = os.read(self.master, 4_096)
            except OSError:
                piece = b""
            if not piece:
                return said.decode().replace("\r\n", "\n")
            said += piece

    def connect(self, node):
        return Link(self.ports[node], self.child)

    def listening(self):
        return [f"node {node} listens at 127.0.0.1 port {port}" for node, port in enumerate(self.ports)]

    def lines(self):
        """What was said, once the server has ended."""
        finish(self.child)
        return self.said.result().splitlines()


def greet(terminal, node):
    with terminal.connect(node) as link:
        link.send(HELLO_9)
        same("the answer", HELLO_9, link.take(8))


def each_ending_is_said():
    """One worker has one connection after the other, so the order of all lines is known."""
    with ThreadPoolExecutor(1) as reader, Terminal(reader, 1, connections=4, journal=1) as terminal:
        greet(terminal, 0)
        with terminal.connect(0) as link:
            link.send(HELLO_9[:3])
        with terminal.connect(0) as link:
            link.send(HELLO_9)
            same("the answer before a failure", HELLO_9, link.take(8))
            link.reset()
        with terminal.connect(0) as link:
            link.send(message(9, 2 * command("new")))
            answer = header(NEW_OK, 9, 2) + bytes(2) + header(GENERAL, 9, 0)
            same("the answer of a full journal", answer, link.take(18))
        ends = [
            "closed by its peer, 8 bytes read, 8 written",
            "closed by its peer, 3 bytes read, 0 written",
            "a read failed, 8 bytes read, 8 written",
            "closed by the node, 16 bytes read, 18 written",
        ]
        wanted = terminal.listening()
        for serial, end in enumerate(ends):
            wanted += [f"node 0: connection {serial} of seat 0 came", f"node 0: connection {serial} of seat 0 ended: {end}"]
        wanted += ["qron: fault", "a file, a place or the pipe could not be used"]
        same("what a terminal is told", wanted, terminal.lines())


def lines_of_workers_stay_whole():
    """Two workers of each of two nodes, whose lines come in any order."""
    with ThreadPoolExecutor(9) as pool, Terminal(pool, 2, workers=2, connections=8) as terminal:
        list(pool.map(lambda node: greet(terminal, node), [0, 1] * 16))
        wanted = terminal.listening()
        for seat in range(4):
            for serial in range(8):
                name = f"node {seat // 2}: connection {serial} of seat {seat}"
                wanted += [f"{name} came", f"{name} ended: closed by its peer, 8 bytes read, 8 written"]
        same("what a terminal is told of workers", sorted(wanted), sorted(terminal.lines()))


run(each_ending_is_said, lines_of_workers_stay_whole)
