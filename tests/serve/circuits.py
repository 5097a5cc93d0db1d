"""Connections one after the other and beside each other, with every answer judged: circuits.py PROGRAM."""
import random
import sys
from concurrent.futures import ThreadPoolExecutor
from threading import Lock

from checks import holds, run, same
from cqc import MEASOUT, NEW_OK, Message, Script, Words, command, header, message
from pieces import crowded, longest, tour
from server import SEED, Server

PROGRAM = sys.argv[1]


def talk(link, chance, made, known):
    """Asks messages in turn, or some of them at once, or in small pieces."""
    while made:
        some = made[: chance.choice((1, 1, 2, 8))]
        made = made[len(some) :]
        sent = b"".join(message.sent for message in some)
        if len(sent) < 2_000 and chance.random() < 0.2:
            while sent:
                size = chance.randint(1, 40)
                link.send(sent[:size])
                sent = sent[size:]
        link.send(sent)
        for message in some:
            link.read(message, known)


def follows(known, app, seat, serial):
    """Whether the outcomes that words alone say are those of this connection's words."""
    words = Words(SEED, seat, serial)
    return all(words.half(key[2]) == value for key, value in known.items() if key[:2] == ("word", app))


def one_after_the_other():
    """64 connections of one worker, each of thousands of commands. Their words are those of their serial numbers."""
    entries = 0
    with Server(PROGRAM, 1, 1, 64, journal=1_048_576) as server:
        for serial in range(64):
            chance = random.Random(serial)
            script = Script(chance.choice((0, 7, 65_535)))
            made = crowded(script) + (longest(script) if serial % 16 == 0 else [])
            made += tour(script, chance, script.entries + 2_000, 6)
            known = {}
            with server.connect(0) as link:
                talk(link, chance, made, known)
                link.half_close()
                holds("nothing is left to be read", link.ended())
            holds(f"the words of connection {serial}", follows(known, script.app, 0, serial))
            entries += script.entries
        same("connections one after the other", server.all_clean(entries), server.finish())


class Duo:
    """Two apps at two nodes, that share pairs and send each other qubits."""

    def __init__(self, server, number, nodes):
        self.chance = random.Random(number)
        self.scripts = [Script(2 * number), Script(2 * number + 1)]
        self.places = [(script.app, server.ports[node]) for script, node in zip(self.scripts, nodes)]
        self.links = [server.connect(node) for node in nodes]
        self.known, self.pairs = {}, 0

    def _ask(self, first=0):
        """Asks both messages, one before the other, and only then reads."""
        made = [script.go() for script in self.scripts]
        for side in (first, 1 - first):
            self.links[side].send(made[side].sent)
        for side in (0, 1):
            self.links[side].read(made[side], self.known)

    def _pair(self):
        """A pair of which each side has half. The ids."""
        number = "pair", self.places[0], self.pairs
        self.pairs += 1
        one, other = self.scripts
        return one.epr(*self.places, number), other.eprrecv(*self.places, number)

    def agree(self):
        """Both measure a pair in the same way, and one may turn its half before."""
        halves = self._pair()
        how, turned = self.chance.choice((("i", 0), ("h", 0), ("k", 1), ("x", 0), ("t", 0))), self.chance.choice(("i", "x", "y", "z"))
        self.scripts[0].do(turned, halves[0])
        for script, half in zip(self.scripts, halves):
            script.do(how[0], half)
        # Z turns the outcome of H, X that of none, each that of K, and Y those of both but K's
        flips = {"i": "xy", "t": "xy", "x": "xy", "h": "zy", "k": "xz"}[how[0]]
        outcome = "both", self.places[0], self.pairs
        self.scripts[0].measure(halves[0], outcome)
        self.scripts[1].measure(halves[1], outcome, how[1] ^ (turned in flips))
        self._ask(self.chance.randint(0, 1))

    def transfer(self):
        """One sends a qubit that is entangled with one that it keeps, and one of which it knows the state."""
        chance, side = self.chance, self.chance.randint(0, 1)
        one, other = self.scripts[side], self.scripts[1 - side]
        there = self.places[1 - side]
        kept, sent, sure = one.new(), one.new(), one.new()
        one.do("h", kept)
        one.do("cnot", kept, sent)
        one.do("h", sure)
        one.do("t", sure)
        one.send(sent, *there)
        one.send(sure, *there)
        outcome = "both", self.places[side], one.drawn, "kept"
        one.measure(kept, outcome)
        came, certain = other.recv(), other.recv()
        other.measure(came, outcome)
        other.do("rotz", certain, 256 - 32)
        other.do("h", certain)
        other.measure(certain, 0)
        self._ask(chance.randint(0, 1))

    def teleport(self):
        """A qubit is measured away on one side and put right on the other, by the two outcomes."""
        one, other = self.scripts
        carried = one.new()
        bit = self.chance.randint(0, 1)
        one.do("x" if bit else "i", carried)
        one.do("h", carried)
        one.do("t", carried)
        half, came = self._pair()
        one.do("cnot", carried, half)
        one.do("h", carried)
        # all four pairs of outcomes are equally likely, whatever was carried
        outcomes = [one.measure(carried), one.measure(half)]
        self._ask(self.chance.randint(0, 1))
        if self.known[outcomes[1]]:
            other.do("x", came)
        if self.known[outcomes[0]]:
            other.do("z", came)
        other.do("rotz", came, 256 - 32)
        other.do("h", came)
        other.measure(came, bit)
        made = other.go()
        self.links[1].ask(made, self.known)

    def alone(self):
        """Both sides ask circuits of their own, beside each other."""
        made = [tour(script, self.chance, script.entries + 300, 4) for script in self.scripts]
        for side in (0, 1):
            self.links[side].send(b"".join(message.sent for message in made[side]))
        for side in (0, 1):
            for message in made[side]:
                self.links[side].read(message, self.known)

    def run(self, rounds):
        for _ in range(rounds):
            for _ in range(4):
                self.chance.choice((self.agree, self.transfer, self.teleport))()
            self.alone()


def beside_each_other():
    """8 connections at 4 nodes, which share pairs two by two. Each has the words of a seat of its node, and no two the same."""
    with Server(PROGRAM, 4, 2, 1, journal=1_048_576, patience=2_000, wait_ms=5) as server:
        ends = [(0, 1), (1, 2), (2, 3), (3, 0)]
        duos = [Duo(server, number, nodes) for number, nodes in enumerate(ends)]
        with ThreadPoolExecutor(len(duos)) as pool:
            list(pool.map(lambda duo: duo.run(12), duos))
        numbers = [value for duo in duos for key, value in duo.known.items() if key[0] == "pair"]
        holds("pairs are numbered from 0, each once", sorted(numbers) == list(range(sum(duo.pairs for duo in duos))))
        seats = []
        for duo, nodes in zip(duos, ends):
            for script, node in zip(duo.scripts, nodes):
                seats += [seat for seat in (2 * node, 2 * node + 1) if follows(duo.known, script.app, seat, 0)]
        same("each connection has the words of a seat", list(range(8)), sorted(seats))
        for duo in duos:
            for link in duo.links:
                link.close()
        entries = sum(script.entries for duo in duos for script in duo.scripts)
        same("connections beside each other", server.all_clean(entries), server.finish())


def one_app():
    """8 connections of one app at one node. No qubit is that of two connections at once, and each finds its own as it left them."""
    rounds, held, lock = 100, set(), Lock()
    twice = []

    def play(link):
        for _ in range(rounds):
            known = {}
            link.ask(Message(message(7, command("new") * 2), (header(NEW_OK, 7, 2) + bytes(2)) * 2, [(8, 2, 0, 0), (18, 2, 1, 0)]), known)
            one, other = known[0], known[1]
            with lock:
                twice.extend({one, other} & held if one != other else {one})
                held.update({one, other})
            link.send(message(7, command("x", one) + command("cnot", one, other)))
            # from here on others may get these ids
            with lock:
                held.difference_update({one, other})
            both = command("measure", other) + command("measure", one)
            link.ask(Message(message(7, both), (header(MEASOUT, 7, 1) + b"\1") * 2), known)

    with Server(PROGRAM, 1, 8, 1) as server:
        links = [server.connect(0) for _ in range(8)]
        with ThreadPoolExecutor(len(links)) as pool:
            list(pool.map(play, links))
        for link in links:
            link.close()
        same("no id is given twice", [], twice)
        same("connections of one app", server.all_clean(len(links) * rounds * 6), server.finish())


run(one_after_the_other, beside_each_other, one_app)
