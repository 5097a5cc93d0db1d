"""CQC version 2 in qron's profile: messages, what they are to be answered, and the words that measurements draw."""
import struct

HELLO, COMMAND, FACTORY = 0, 1, 2
DONE, RECV, EPR_OK, MEASOUT, NEW_OK = 4, 5, 6, 7, 10
GENERAL, NOQUBIT, UNSUPP, TIMEOUT, UNKNOWN = 20, 21, 22, 23, 25

NOTIFY, ACTION = 1, 2

NUMBERS = {
    "i": 0, "new": 1, "measure": 2, "inplace": 3, "reset": 4, "send": 5, "recv": 6, "epr": 7, "eprrecv": 8, "x": 10, "z": 11,
    "y": 12, "t": 13, "rotx": 14, "roty": 15, "rotz": 16, "h": 17, "k": 18, "cnot": 20, "cphase": 21, "allocate": 22, "release": 23,
}

# the sizes of extra headers
EXTRA = {5: 8, 7: 8, 14: 1, 15: 1, 16: 1, 20: 2, 21: 2}

LOCALHOST = 0x7F000001


def header(kind, app, size):
    return struct.pack(">BBHI", 2, kind, app, size)


def message(app, body, kind=COMMAND):
    return header(kind, app, len(body)) + body


def command(name, qubit=0, operand=b"", options=0):
    """A command; a number as operand is a step of one byte, or the second qubit of two bytes."""
    if isinstance(operand, int):
        operand = operand.to_bytes(1 if name.startswith("rot") else 2, "big")
    return struct.pack(">HBB", qubit, NUMBERS[name], options) + operand


def place(app, port):
    """An app at a node of this machine, as the operand of SEND and EPR."""
    return struct.pack(">HHI", app, port, LOCALHOST)


class Wrong(Exception):
    """An answer that the protocol doesn't give."""


class Message:
    """A message, and the bytes that answer it. They have holes, where an outcome or a number is known only once it is read."""

    def __init__(self, sent, wanted, holes=()):
        self.sent, self.wanted, self.holes = bytes(sent), bytes(wanted), holes

    def judge(self, got, known):
        """Compares an answer, and learns what its holes have. What a key names is the same in all holes."""
        bare = bytearray(got)
        for offset, size, key, flip in self.holes:
            value = int.from_bytes(got[offset : offset + size], "big")
            if size == 1 and value > 1:
                raise Wrong(f"{key}: an outcome of {value}")
            if known.setdefault(key, value ^ flip) != value ^ flip:
                raise Wrong(f"{key}: was {known[key]}, is {value ^ flip}")
            bare[offset : offset + size] = bytes(size)
        if bare != self.wanted:
            first = next((k for k, (a, b) in enumerate(zip(bare, self.wanted)) if a != b), len(bare))
            begin = max(0, first - 16)
            raise Wrong(f"from byte {begin} on: want {self.wanted[begin:first + 16].hex()}, got {bare[begin:first + 16].hex()}")


class Script:
    """The messages of an app at a node that nobody else uses there, and what they are to be answered.

    It keeps the ids that the app holds, the number of words that its measurements drew, and of commands that were executed.
    """

    def __init__(self, app):
        self.app, self.held, self.drawn, self.entries = app, set(), 0, 0
        self._begin()

    def _begin(self):
        self.body, self.wanted, self.holes = bytearray(), bytearray(), []
        # behind an error nothing is reached; in a repeat of FACTORY nothing is added to the body
        self.over, self.again, self.notify = False, False, False

    def reply(self, kind, body=b"", holes=()):
        """The next reply; the holes are places in its body."""
        base = len(self.wanted) + 8
        self.holes += [(base + offset, size, key, flip) for offset, size, key, flip in holes]
        self.wanted += header(kind, self.app, len(body)) + body

    def do(self, name, qubit=0, operand=b"", options=0):
        """Adds a command. Whether it is reached."""
        if not self.again:
            self.body += command(name, qubit, operand, options)
        if self.over:
            return False
        self.entries += 1
        self.notify = self.notify or bool(options & NOTIFY)
        return True

    def fails(self, kind, name, qubit=0, operand=b"", options=0):
        """Adds a command that is answered by an error."""
        if self.do(name, qubit, operand, options):
            self.reply(kind)
            self.over = True

    def _least(self):
        least = 0
        while least in self.held:
            least += 1
        self.held.add(least)
        return least

    def new(self):
        """Adds NEW. The id."""
        if self.do("new"):
            least = self._least()
            self.reply(NEW_OK, least.to_bytes(2, "big"))
            return least

    def allocate(self, count):
        """Adds ALLOCATE. The ids."""
        if self.do("allocate", count):
            self.entries += count - 1
            ids = [self._least() for _ in range(count)]
            for least in ids:
                self.reply(NEW_OK, least.to_bytes(2, "big"))
            return ids

    def word(self):
        """The key of the next word."""
        self.drawn += 1
        return "word", self.app, self.drawn - 1

    def measure(self, qubit, outcome=None, flip=0, name="measure"):
        """Adds MEASURE or MEASURE_INPLACE. The outcome is 0 or 1, what a key names, or that which the word gives at one half."""
        if not self.do(name, qubit):
            return None
        word = self.word()
        if name == "measure":
            self.held.remove(qubit)
        if outcome in (0, 1):
            self.reply(MEASOUT, bytes([outcome]))
        else:
            outcome = outcome or word
            self.reply(MEASOUT, b"\0", [(0, 1, outcome, flip)])
        return outcome

    def quiet(self, name, qubit):
        """Adds RESET or RELEASE, which draw a word and answer nothing."""
        if self.do(name, qubit):
            self.word()
            if name == "release":
                self.held.remove(qubit)

    def send(self, qubit, app, port):
        if self.do("send", qubit, place(app, port)):
            self.held.remove(qubit)

    def recv(self):
        if self.do("recv"):
            least = self._least()
            self.reply(RECV, least.to_bytes(2, "big"))
            return least

    def _half(self, near, far, number):
        least = self._least()
        ends = b"".join(struct.pack(">IHH", LOCALHOST, port, app) for app, port in (near, far))
        self.reply(EPR_OK, least.to_bytes(2, "big") + ends + bytes(24), [(18, 4, number, 0)])
        return least

    def epr(self, near, far, number):
        """Adds EPR. The places are of app and port, and a key names the pair's number. The id."""
        if self.do("epr", 0, place(*far)):
            return self._half(near, far, number)

    def eprrecv(self, near, far, number):
        """Adds EPR_RECV of a pair that the near place made."""
        if self.do("eprrecv"):
            return self._half(near, far, number)

    def repeat(self, count, piece):
        """Adds what the piece adds, for a FACTORY that runs it so many times."""
        for _ in range(count):
            piece()
            self.again = True

    def go(self, notify=True, repeats=None):
        """The message. Its last command has NOTIFY, or the options of FACTORY have."""
        body = bytes(self.body)
        if repeats is not None:
            body = bytes([repeats, NOTIFY if notify else 0]) + body
        elif notify:
            raise_notify(self.body)
            body = bytes(self.body)
        if not self.over and (notify or self.notify):
            self.reply(DONE)
        made = Message(message(self.app, body, COMMAND if repeats is None else FACTORY), self.wanted, self.holes)
        self._begin()
        return made

    def other(self, sent, *kinds):
        """A message that is answered by replies without a body, whatever is held."""
        for kind in kinds:
            self.reply(kind)
        made = Message(sent, self.wanted)
        self._begin()
        return made

    def hello(self):
        return self.other(message(self.app, b"", HELLO), HELLO)


def raise_notify(body):
    """Sets NOTIFY on the last command of a list."""
    at = last = 0
    while at < len(body):
        last = at
        at += 4 + EXTRA.get(body[at + 2], 0)
    body[last + 3] |= NOTIFY


def _block(key, counter, stream):
    """A block of ChaCha20 with counter and stream of 64 bits."""
    whole = 0xFFFFFFFF
    start = struct.unpack("<16I", b"expand 32-byte k" + key + struct.pack("<QQ", counter, stream))
    x = list(start)
    for _ in range(10):
        for a, b, c, d in (
            (0, 4, 8, 12), (1, 5, 9, 13), (2, 6, 10, 14), (3, 7, 11, 15),
            (0, 5, 10, 15), (1, 6, 11, 12), (2, 7, 8, 13), (3, 4, 9, 14),
        ):
            for left, right in ((16, 12), (8, 7)):
                x[a] = (x[a] + x[b]) & whole
                turned = x[d] ^ x[a]
                x[d] = (turned << left | turned >> (32 - left)) & whole
                x[c] = (x[c] + x[d]) & whole
                turned = x[b] ^ x[c]
                x[b] = (turned << right | turned >> (32 - right)) & whole
    return struct.pack("<16I", *((one + other) & whole for one, other in zip(x, start)))


class Words:
    """The random words of a connection: word k is made of words 2k and 2k + 1 of the seed's ChaCha20 stream for seat and serial."""

    def __init__(self, seed, seat, serial):
        self.key, self.stream, self.words = bytes.fromhex(seed), (seat << 32) + serial, []

    def half(self, k):
        """The outcome of a measurement that draws word k where both outcomes are equally likely."""
        while len(self.words) <= k:
            self.words += struct.unpack("<8Q", _block(self.key, len(self.words) // 8, self.stream))
        return int(self.words[k] < 2**63)
