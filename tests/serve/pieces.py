"""Circuits whose answers are certain, are said by the words that they draw, or are related to one another.

A piece adds commands to a script, and leaves no qubit behind.
"""
from cqc import ACTION, DONE, GENERAL, HELLO, NOQUBIT, NOTIFY, UNKNOWN, UNSUPP, command, header, message, place

# gates that are their own inverses
SELF = ("i", "x", "y", "z", "h", "k")


def mirror(script, chance, most):
    """Gates on new qubits, and then their inverses in turn: each qubit is measured as it was made."""
    ids = [script.new() for _ in range(chance.randint(1, most))]
    bits = {qubit: chance.randint(0, 1) for qubit in ids}
    for qubit in ids:
        script.do("x" if bits[qubit] else "i", qubit)
    back = []
    for _ in range(chance.randint(4, 24)):
        name = chance.choice(SELF + ("t", "rotx", "roty", "rotz", "cnot", "cphase"))
        qubit = chance.choice(ids)
        there = here = b""
        if name in ("cnot", "cphase"):
            if len(ids) == 1:
                continue
            there = here = chance.choice([other for other in ids if other != qubit])
        elif name.startswith("rot"):
            there = 32 * chance.randrange(8)
            here = (256 - there) % 256
        script.do(name, qubit, there)
        back.append(("rotz", qubit, 256 - 32) if name == "t" else (name, qubit, here))
    for name, qubit, operand in reversed(back):
        script.do(name, qubit, operand)
    chance.shuffle(ids)
    for qubit in ids:
        script.measure(qubit, bits[qubit])


def coins(script, chance, most):
    """Qubits whose outcomes are equally likely: their words say them."""
    ids = [script.new() for _ in range(chance.randint(1, most))]
    for qubit in ids:
        script.do("h", qubit)
    for qubit in ids:
        script.measure(qubit)


def chain(script, chance, most):
    """Entangled qubits: the first outcome says all."""
    ids = [script.new() for _ in range(chance.randint(2, most))]
    script.do("h", ids[0])
    for control, target in zip(ids, ids[1:]):
        script.do("cnot", control, target)
    flips = [chance.randint(0, 1) for _ in ids]
    for qubit, flip in zip(ids, flips):
        script.do("x" if flip else "z", qubit)
    first = script.measure(ids[0], name="inplace")
    for qubit, flip in zip(ids, flips):
        script.measure(qubit, first, flip ^ flips[0])


def marks(script, chance, most):
    """What MEASURE_INPLACE, RESET and RELEASE leave."""
    one, other = script.new(), script.new()
    script.do("h", one)
    outcome = script.measure(one, name="inplace")
    script.do("y", one)
    script.measure(one, outcome, 1)
    script.do("h", other)
    script.quiet("reset", other)
    script.measure(other, 0, name="inplace")
    script.quiet("release", other)
    script.measure(script.new(), 0)


PIECES = (mirror, mirror, coins, chain, marks)


def mixed(script, chance, most):
    """A message of one to four pieces."""
    for _ in range(chance.randint(1, 4)):
        chance.choice(PIECES)(script, chance, most)
    return [script.go(notify=chance.random() < 0.5)]


def repeated(script, chance, most):
    """A FACTORY of one piece."""
    piece = chance.choice((coins, marks))
    state = chance.getrandbits(32)
    repeats = chance.randint(1, 12)

    # the same commands in each repeat
    def again():
        chance.seed(state)
        piece(script, chance, most)

    script.repeat(repeats, again)
    return [script.go(notify=chance.random() < 0.5, repeats=repeats)]


def allocated(script, chance, most):
    """An ALLOCATE, and its qubits."""
    ids = script.allocate(chance.randint(1, most))
    for qubit in ids:
        script.measure(qubit, 0)
    return [script.go()]


def refused(script, chance, most):
    """A command that is refused ends its message, and changes nothing."""
    one, other = script.new(), script.new()
    script.do("x", one)
    script.do("cnot", one, other)
    script.fails(
        *chance.choice(
            (
                (UNKNOWN, "x", 99),
                (UNKNOWN, "cnot", one, 98),
                (UNKNOWN, "cphase", 97, one),
                (UNKNOWN, "measure", 2),
                (UNSUPP, "cnot", one, one),
                (UNSUPP, "rotx", one, 33),
                (GENERAL, "send", one, place(1, 9)),
                (GENERAL, "epr", 0, place(1, 9)),
                (UNKNOWN, "send", 96, place(1, 9)),
            )
        )
    )
    script.do("x", one)
    script.measure(one)
    made = [script.go()]
    script.measure(other, 1)
    script.measure(one, 1)
    return made + [script.go(notify=False)]


def unread(script, chance, most):
    """Messages that are answered before anything of them is executed."""
    app = script.app
    return [
        script.other(*chance.choice(
            (
                (header(HELLO, app, 3) + b"\1\2\3", HELLO),
                (message(app, b""),),
                (message(app, command("new") + b"\0\0\x09\0"), UNSUPP),
                (message(app, command("new") + command("i", 0, options=ACTION)), UNSUPP),
                (message(app, command("new") + b"\0\0\x14\0\0"), GENERAL),
                (message(app, command("new") + b"\0\0\1"), GENERAL),
                (message(app, b"\5", 2), GENERAL),
                (message(app, b"\0\1" + command("new"), 2), DONE),
                (message(app, b"\0\0" + command("new"), 2),),
                (message(app, command("allocate", 0, options=NOTIFY)), DONE),
                (b"\1" + message(app, command("new"))[1:], UNSUPP),
                (header(8, app, 5) + b"\2\0\0\0\0", UNSUPP),
                (header(1, app, 65_537) + bytes(65_537), GENERAL),
            )
        ))
    ]


def crowded(script):
    """More qubits than a node has room for, and more than may be entangled, where nobody else is at the node."""
    script.allocate(16)
    script.fails(NOQUBIT, "new")
    made = [script.go()]
    script.do("h", 0)
    for target in range(1, 12):
        script.do("cnot", 0, target)
    script.fails(GENERAL, "cnot", 0, 12)
    made.append(script.go())
    first = script.measure(0)
    for qubit in range(1, 16):
        script.measure(qubit, first if qubit < 12 else 0)
    return made + [script.go()]


def longest(script):
    """A message with the longest body."""
    qubit = script.new()
    for _ in range(16_382):
        script.do("x", qubit)
    script.measure(qubit, 0)
    return [script.go()]


def tour(script, chance, commands, most):
    """Messages of all kinds, with at least so many commands that are executed, and at most so many qubits at once."""
    made = []
    while script.entries < commands:
        kind = chance.choice((mixed, mixed, mixed, repeated, allocated, refused, unread))
        made += kind(script, chance, most)
    return made
