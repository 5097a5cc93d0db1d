"""CQC messages of version 2 in qron's profile (docs/PROTOCOL.md): pure functions between values and bytes."""

import struct
from dataclasses import dataclass
from enum import IntEnum, IntFlag
from ipaddress import IPv4Address
from typing import NamedTuple, Sequence

VERSION = 2
HEADER_BYTES = 8
MOST_BODY_BYTES = 65_536


class Type(IntEnum):
    """The types of messages and of replies."""

    HELLO, COMMAND, FACTORY, EXPIRE, DONE, RECV, EPR_OK, MEASOUT, GET_TIME, INF_TIME, NEW_OK = range(11)
    ERR_GENERAL, ERR_NOQUBIT, ERR_UNSUPP, ERR_TIMEOUT, ERR_INUSE, ERR_UNKNOWN = range(20, 26)


class Instruction(IntEnum):
    """The instructions of a command."""

    I, NEW, MEASURE, MEASURE_INPLACE, RESET, SEND, RECV, EPR, EPR_RECV = range(9)
    X, Z, Y, T, ROT_X, ROT_Y, ROT_Z, H, K = range(10, 19)
    CNOT, CPHASE, ALLOCATE, RELEASE = range(20, 24)


class Option(IntFlag):
    """The options of a command. This client sets NOTIFY alone."""

    NOTIFY, ACTION, BLOCK, IFTHEN = 1, 2, 4, 8


# how a command is answered where it succeeds; every other instruction answers nothing
ANSWERS = {
    Instruction.NEW: Type.NEW_OK, Instruction.ALLOCATE: Type.NEW_OK, Instruction.RECV: Type.RECV,
    Instruction.EPR: Type.EPR_OK, Instruction.EPR_RECV: Type.EPR_OK,
    Instruction.MEASURE: Type.MEASOUT, Instruction.MEASURE_INPLACE: Type.MEASOUT,
}
TAKES_NO_QUBIT = {Instruction.NEW, Instruction.ALLOCATE, Instruction.EPR, Instruction.RECV, Instruction.EPR_RECV}
# how many bytes the body of each type of reply has
REPLY_BYTES = {Type.HELLO: 0, Type.DONE: 0, Type.NEW_OK: 2, Type.RECV: 2, Type.MEASOUT: 1, Type.EPR_OK: 42,
               **{kind: 0 for kind in Type if kind >= Type.ERR_GENERAL}}


class Remote(NamedTuple):
    """The place of an application: its number, the port of its node, and the node's IPv4 address."""

    app_id: int
    port: int
    node: str


@dataclass(frozen=True)
class Command:
    """One command. `qubit_id` is the count of ALLOCATE; `step` is that of a rotation, in units of 2π / 256; `extra_id` is the second
    qubit of CNOT (its target) and CPHASE; `remote` is where SEND and EPR go. Raises ValueError where a number is out of its range."""

    instruction: Instruction
    qubit_id: int = 0
    step: int | None = None
    extra_id: int | None = None
    remote: Remote | None = None

    def __post_init__(self) -> None:
        encode_command(self)

    @property
    def answers(self) -> int:
        """How many replies the command has where it succeeds."""
        return self.qubit_id if self.instruction is Instruction.ALLOCATE else int(self.instruction in ANSWERS)

    def __str__(self) -> str:
        words: list[object] = [self.instruction.name]
        if self.instruction is Instruction.ALLOCATE or self.instruction not in TAKES_NO_QUBIT:
            words.append(self.qubit_id)
        words += [number for number in (self.step, self.extra_id) if number is not None]
        if self.remote is not None:
            words.append(f"to app {self.remote.app_id} at {self.remote.node} port {self.remote.port}")
        return " ".join(map(str, words))

    def can_be_refused(self, error: Type) -> bool:
        """Whether the order of refusals of docs/PROTOCOL.md has a row that answers this command by the error."""
        match error:
            case Type.ERR_UNKNOWN:
                return self.instruction not in TAKES_NO_QUBIT
            case Type.ERR_UNSUPP:
                return self.extra_id == self.qubit_id or self.step is not None and self.step % 32 != 0
            case Type.ERR_NOQUBIT:
                return self.instruction in {Instruction.NEW, Instruction.ALLOCATE, Instruction.SEND, Instruction.EPR}
            case Type.ERR_TIMEOUT:
                return self.instruction in {Instruction.RECV, Instruction.EPR_RECV}
        return True


@dataclass(frozen=True)
class EntInfo:
    """What EPR_OK says of a pair: the addresses, ports and apps of node A, which made it, and of node B, and the pair's number."""

    node_A: str
    port_A: int
    app_id_A: int
    node_B: str
    port_B: int
    app_id_B: int
    id_AB: int


class Reply(NamedTuple):
    """A reply: the qubit's id of NEW_OK, RECV and EPR_OK, the outcome of MEASOUT, the pair of EPR_OK."""

    type: Type
    qubit_id: int | None = None
    outcome: int | None = None
    pair: EntInfo | None = None


def encode_message(kind: Type, app_id: int, body: bytes = b"") -> bytes:
    """A message of an app. Raises ValueError where the body has more than 65,536 bytes."""
    if len(body) > MOST_BODY_BYTES:
        raise ValueError(f"a body has at most {MOST_BODY_BYTES} bytes, not {len(body)}")
    return struct.pack(">BBHI", VERSION, kind, app_id, len(body)) + body


def encode_command(command: Command, options: int = 0) -> bytes:
    """The command's 4 bytes and its extra header."""
    try:
        data = struct.pack(">HBB", command.qubit_id, command.instruction, options)
        if command.step is not None:
            data += struct.pack(">B", command.step)
        if command.extra_id is not None:
            data += struct.pack(">H", command.extra_id)
        if command.remote is not None:
            data += struct.pack(">HH4s", command.remote.app_id, command.remote.port, IPv4Address(command.remote.node).packed)
    except struct.error as error:
        raise ValueError(f"{command}: {error}") from error
    return data


def encode_commands(app_id: int, commands: Sequence[Command]) -> bytes:
    """A COMMAND message with NOTIFY on its last command, so that DONE ends its replies."""
    plain = [encode_command(command) for command in commands[:-1]]
    return encode_message(Type.COMMAND, app_id, b"".join(plain) + encode_command(commands[-1], Option.NOTIFY))


def encode_factory(app_id: int, repeats: int, commands: Sequence[Command]) -> bytes:
    """A FACTORY message with NOTIFY in its own options, so that DONE ends its replies."""
    if not 0 <= repeats <= 255:
        raise ValueError(f"a FACTORY repeats 0 to 255 times, not {repeats}")
    return encode_message(Type.FACTORY, app_id, bytes([repeats, Option.NOTIFY]) + b"".join(map(encode_command, commands)))


def split(commands: Sequence[Command]) -> list[list[Command]]:
    """The commands in order, in parts that are each as long as the body of one message may be."""
    parts: list[list[Command]] = []
    size = MOST_BODY_BYTES
    for command in commands:
        length = len(encode_command(command))
        size += length
        if size > MOST_BODY_BYTES:
            parts.append([])
            size = length
        parts[-1].append(command)
    return parts


def decode_header(data: bytes) -> tuple[Type, int, int]:
    """The type, app and body's length of a reply whose first 8 bytes these are. Raises ValueError where no reply begins so."""
    version, number, app_id, length = struct.unpack(">BBHI", data)
    kind = Type(number)
    if version != VERSION or REPLY_BYTES.get(kind) != length:
        raise ValueError(f"{kind.name} of version {version} with a body of {length} bytes")
    return kind, app_id, length


def decode_reply(kind: Type, body: bytes) -> Reply:
    """The reply of that type with that body. Raises ValueError where the outcome of MEASOUT is neither 0 nor 1."""
    match kind:
        case Type.NEW_OK | Type.RECV:
            return Reply(kind, qubit_id=int.from_bytes(body, "big"))
        case Type.MEASOUT:
            if body[0] > 1:
                raise ValueError(f"MEASOUT with the outcome {body[0]}")
            return Reply(kind, outcome=body[0])
        case Type.EPR_OK:
            qubit_id, node_a, port_a, app_a, node_b, port_b, app_b, number = struct.unpack(">H4sHH4sHHI20x", body)
            pair = EntInfo(str(IPv4Address(node_a)), port_a, app_a, str(IPv4Address(node_b)), port_b, app_b, number)
            return Reply(kind, qubit_id=qubit_id, pair=pair)
    return Reply(kind)
