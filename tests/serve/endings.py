"""What a server prints and answers at its end, and how long a call waits: endings.py PROGRAM."""
import socket
import sys
import time

from checks import holds, run, same
from cqc import COMMAND, GENERAL, HELLO, NEW_OK, TIMEOUT, Script, command, header, message
from server import Link, Server, finish, free_ports, settings, start

PROGRAM = sys.argv[1]

HELLO_9 = message(9, b"", HELLO)


def told(server, sent, answer, closes=False):
    """Sends bytes and reads their answer; then the server closes by itself, or we do."""
    with server.connect(0) as link:
        link.send(sent)
        same("the answer", answer, link.take(len(answer)))
        if closes:
            holds("the server closes", link.ended())


def each_ending_in_order():
    """One worker has one connection after the other, so the whole record is known."""
    script = Script(9)
    with Server(PROGRAM, 1, 1, 8, journal=10) as server:
        told(server, HELLO_9, HELLO_9)
        told(server, HELLO_9[:3], b"")
        script.measure(script.new(), 0)
        script.do("i", script.new())
        made = script.go()
        told(server, made.sent + header(COMMAND, 9, 8) + command("new"), made.wanted)
        told(server, b"", b"")
        for _ in range(6):
            script.do("x", 0)
        made = script.go()
        told(server, made.sent, made.wanted)
        same("the journal is full", 10, script.entries)
        told(server, HELLO_9 + message(9, command("i") * 3) + HELLO_9, HELLO_9 + header(GENERAL, 9, 0), closes=True)
        told(server, HELLO_9, HELLO_9)
        told(server, message(9, command("new")), header(GENERAL, 9, 0), closes=True)
        endings = ["clean", "cut", "cut", "clean", "clean", "full", "clean", "full"]
        want = [f"0 {serial} 0 {ending}" for serial, ending in enumerate(endings)] + ["entries 10"]
        same("each ending in order", (5, want, ""), server.finish())


def status_of(*peers):
    """The status, record and complaint of one worker that has these connections, with a journal of one entry."""
    with Server(PROGRAM, 1, 1, len(peers), journal=1) as server:
        for peer in peers:
            link = server.connect(0)
            link.send(HELLO_9)
            same("HELLO", HELLO_9, link.take(8))
            peer(link)
        return server.finish()


def statuses():
    """The status is that of all endings: a failure weighs more than a cut or a full journal, and these more than a clean end."""

    def clean(link):
        link.close()

    def cut(link):
        link.send(b"\2")
        link.close()

    def full(link):
        link.send(message(9, command("new") + command("measure")))
        link.take(10 + 8)
        holds("the server closes", link.ended())
        link.close()

    def failed(link):
        link.reset()

    def unread(link):
        link.send(HELLO_9)
        link.socket.recv(1, socket.MSG_PEEK)
        link.close()

    def record(*endings):
        return [f"0 {serial} 0 {ending}" for serial, ending in enumerate(endings)] + [f"entries {int('full' in endings)}"]

    same("all clean", (0, record("clean", "clean"), ""), status_of(clean, clean))
    same("the first cut", (5, record("cut", "clean"), ""), status_of(cut, clean))
    same("the last cut", (5, record("clean", "cut"), ""), status_of(clean, cut))
    same("a full journal", (5, record("full", "clean"), ""), status_of(full, clean))
    same("a link that failed", (4, record("readfault", "clean"), "qron: fault\n"), status_of(failed, clean))
    same("an answer that nobody read", (4, record("readfault", "clean"), "qron: fault\n"), status_of(unread, clean))
    same("cut and failed", (4, record("cut", "readfault"), "qron: fault\n"), status_of(cut, failed))
    same("failed, full and cut", (4, record("readfault", "full", "cut"), "qron: fault\n"), status_of(failed, full, cut))


def ports():
    """A port that is taken, or a place that isn't here, stops the server before it says anything."""
    with socket.socket() as door:
        door.bind(("127.0.0.1", free_ports(1)[0]))
        door.listen()
        taken = door.getsockname()[1]
        free = free_ports(1)
        same("the first port is taken", (4, "", "qron: fault\n"), finish(start(PROGRAM, settings([taken] + free))))
        same("the second port is taken", (4, "", "qron: fault\n"), finish(start(PROGRAM, settings(free + [taken]))))
    elsewhere = settings(free_ports(1)).replace("127.0.0.1", "192.0.2.1")
    same("an address of another machine", (4, "", "qron: fault\n"), finish(start(PROGRAM, elsewhere)))


def queue():
    """A worker serves one connection, and then those that came meanwhile."""
    known = {}
    with Server(PROGRAM, 1, 1, 3) as server:
        first = server.connect(0)
        others = [server.connect(0) for _ in range(2)]
        hello = Script(9).hello()
        for link in others:
            link.send(hello.sent)
        first.ask(hello, known)
        holds("one connection at a time", others[0].silent(0.1))
        first.close()
        others[0].read(hello, known)
        holds("one connection at a time", others[1].silent(0.1))
        others[0].close()
        others[1].read(hello, known)
        others[1].close()
        same("a queue", server.all_clean(0), server.finish())
    with Server(PROGRAM, 1, 1, 3) as server:
        first, gone, last = (server.connect(0) for _ in range(3))
        first.ask(hello, known)
        gone.reset()
        first.close()
        last.ask(hello, known)
        last.close()
        want = ["0 0 0 clean", "0 1 0 readfault", "0 2 0 clean", "entries 0"]
        same("one fails before its turn", (4, want, "qron: fault\n"), server.finish())


def nowhere_to_print():
    """A record that can't be printed is a failure, whatever the endings."""
    ports = free_ports(1)
    with open("/dev/full", "w") as full:
        child = start(PROGRAM, settings(ports, workers=1, connections=1), full)
    link = Link(ports[0], child)
    link.ask(Script(9).hello(), {})
    link.close()
    same("nowhere to print", (4, "", "qron: fault\n"), finish(child))


def waits():
    """A call that waits takes what comes meanwhile, gives up after its patience, holds up nobody, and doesn't end with its peer."""
    known = {}
    with Server(PROGRAM, 2, 2, 2, patience=20, wait_ms=50) as server:
        one, other = Script(1), Script(2)
        waiting, sending, near = server.connect(1), server.connect(0), server.connect(1)
        # it is asked before the qubit is there
        came = other.recv()
        other.measure(came, 1)
        asked = other.go()
        waiting.send(asked.sent)
        began = time.monotonic()
        holds("it waits", waiting.silent(0.1))
        # others of its node are served
        near_script = Script(3)
        near_script.measure(near_script.new(), 0)
        near.ask(near_script.go(), known)
        holds("nobody is held up", time.monotonic() < began + 0.8)
        sent = one.new()
        one.do("x", sent)
        one.send(sent, other.app, server.ports[1])
        sending.ask(one.go(), known)
        waiting.read(asked, known)
        # and one for which nothing comes
        other.fails(TIMEOUT, "eprrecv")
        other.measure(0)
        asked = other.go()
        began = time.monotonic()
        waiting.ask(asked, known)
        took = time.monotonic() - began
        holds(f"patience is kept: {took:.2f} seconds", 0.5 < took < 5)
        waiting.ask(other.hello(), known)
        # a peer that leaves while its call waits has its qubit all the same
        came = other.recv()
        gone = other.go()
        near.send(gone.sent)
        near.half_close()
        sent = one.new()
        one.send(sent, other.app, server.ports[1])
        sending.ask(one.go(), known)
        near.read(gone, known)
        other.measure(came, 0)
        waiting.ask(other.go(), known)
        for link in (waiting, sending, near):
            link.close()
        for node in (0, 0, 0, 1, 1):
            with server.connect(node) as link:
                link.ask(Script(9).hello(), known)
        same("waits", server.all_clean(one.entries + other.entries + near_script.entries), server.finish())
    with Server(PROGRAM, 1, 1, 1, patience=10, wait_ms=20) as server:
        link = server.connect(0)
        link.send(message(9, command("new") + command("recv")))
        same("the reply before a call that waits", header(NEW_OK, 9, 2) + b"\0\0", link.take(10))
        holds("it waits", link.silent(0.05))
        link.reset()
        same("a peer that fails while its call waits", (4, ["0 0 0 readfault", "entries 2"], "qron: fault\n"), server.finish())
    with Server(PROGRAM, 1, 1, 1, patience=0, wait_ms=1_000) as server:
        script = Script(0)
        with server.connect(0) as link:
            for name in ("recv", "eprrecv"):
                script.fails(TIMEOUT, name)
                link.ask(script.go(), known)
        same("no patience", server.all_clean(2), server.finish())


run(each_ending_in_order, statuses, ports, queue, nowhere_to_print, waits)
