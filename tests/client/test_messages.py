"""Messages against the tables of docs/PROTOCOL.md, the bytes of the examples, and what the program answers."""

import re
import tempfile
import unittest

from common import TOP, decode_all, run
from cqc.messages import (ANSWERS, MOST_BODY_BYTES, REPLY_BYTES, Command, EntInfo, Instruction, Option, Remote, Reply, Type, decode_header,
                          decode_reply, encode_command, encode_commands, encode_factory, encode_message, split)

I = Instruction
PROTOCOL = (TOP / "docs" / "PROTOCOL.md").read_text()
# one command for each way in which the table of instructions has operands
OPERANDS = {
    "": {},
    "step (1)": {"step": 0x20},
    "extra qubit (2)": {"extra_id": 0x0102},
    "communication (8)": {"remote": Remote(0x0304, 0x2276, "127.0.0.1")},
    "qubit_id is the count": {},
}


def section(title: str) -> str:
    """What stands under a title of PROTOCOL.md that begins so."""
    return re.search(rf"^## {title}.*?\n(.*?)(?=^## |\Z)", PROTOCOL, re.M | re.S)[1]


def replayed(*inputs: bytes, turns: str = "") -> list[list[tuple[int, Reply]]]:
    """What connections to nodes 0, 1, .. of examples/two_nodes.toml are answered by `qron replay` on their inputs."""
    with tempfile.NamedTemporaryFile("w") as schedule:
        schedule.writelines(f"c {node} 1000000 {data.hex()}\n" for node, data in enumerate(inputs))
        schedule.writelines(f"s {connection} 1\n" for connection in turns)
        schedule.flush()
        lines = run(TOP / "qron", "replay", TOP / "examples" / "two_nodes.toml", schedule.name).decode().splitlines()
    assert all(line.split()[1] == "clean" for line in lines), lines
    return [decode_all(bytes.fromhex(line.split()[2].strip("-"))) for line in lines]


def piped(*messages: bytes) -> list[tuple[int, Reply]]:
    """What `qron pipe` answers to messages."""
    return decode_all(run(TOP / "qron", "pipe", stdin=b"".join(messages)))


class Tables(unittest.TestCase):
    def test_types(self) -> None:
        rows = re.findall(r"\| ([A-Z_]+)(?: \(never sent\))? \| (\d+) (?=\|)", section("Header"))
        self.assertEqual({name: int(number) for name, number in rows}, {kind.name: kind.value for kind in Type})
        for kind in Type:
            self.assertEqual(encode_message(kind, 0x0102, b"\x03")[:8], bytes([2, kind, 1, 2, 0, 0, 0, 1]))

    def test_instructions(self) -> None:
        rows = re.findall(r"\| ([A-Z_]+) \| (\d+) \| ([^|]*?) ?(?=\|)", section("Command header"))
        self.assertEqual({name: int(number) for name, number, _ in rows}, {each.name: each.value for each in Instruction})
        for name, number, operand in rows:
            data = encode_command(Command(Instruction[name], 0x0506, **OPERANDS[operand]), Option.NOTIFY)
            size = re.search(r"\((\d)\)", operand)
            self.assertEqual(data[:4], bytes([5, 6, int(number), 1]), name)
            self.assertEqual(len(data), 4 + (int(size[1]) if size else 0), name)
        # the layout of the extra headers
        self.assertEqual(encode_command(Command(I.ROT_X, step=0x20))[4:].hex(), "20")
        self.assertEqual(encode_command(Command(I.CNOT, extra_id=0x0102))[4:].hex(), "0102")
        self.assertEqual(encode_command(Command(I.SEND, remote=Remote(0x0304, 0x2276, "127.0.0.1")))[4:].hex(), "030422767f000001")

    def test_options(self) -> None:
        rows = re.findall(r"(NOTIFY|ACTION|BLOCK|IFTHEN) (\d)", section("Command header"))
        self.assertEqual({name: int(number) for name, number in rows}, {option.name: option.value for option in Option})

    def test_replies(self) -> None:
        rows = re.findall(r"^\| ([A-Z_]+(?:, \w+)*) \| (.*) \|$", section("Reply bodies"), re.M)
        sizes = {name: sum(map(int, re.findall(r"(?<=\()\d+(?=\))|\d+(?= bytes)", body))) + body.count("one byte")
                 for names, body in rows for name in names.split(", ")}
        self.assertEqual(sizes.pop("errors"), 0)
        self.assertEqual({kind.name: size for kind, size in REPLY_BYTES.items() if kind < Type.ERR_GENERAL}, sizes)

    def test_answers(self) -> None:
        rows = re.findall(r"^\| ([^|]+) \| (?:yes|no) \| [^|]* \| ([^|]+) \|$", section("Effects"), re.M)
        answers = {name: answer for names, answer in rows for name in names.split(", ") if name in Instruction.__members__}
        for name, answer in answers.items():
            kind = ANSWERS.get(Instruction[name])
            self.assertEqual(kind.name if kind is not None else "none", answer, name)


class Examples(unittest.TestCase):
    """The bytes of examples/teleport.schedule, which the program takes and answers."""

    def setUp(self) -> None:
        text = (TOP / "examples" / "teleport.schedule").read_text()
        self.inputs = [bytes.fromhex(data) for data in re.findall(r"^c \d+ \d+ (\w+)$", text, re.M)]

    def test_encoding(self) -> None:
        remote = Remote(2, 8822, "127.0.0.1")
        sender = [Command(I.NEW), Command(I.H), Command(I.T), Command(I.EPR, remote=remote), Command(I.CNOT, 0, extra_id=1), Command(I.H),
                  Command(I.MEASURE, 0), Command(I.MEASURE, 1)]
        receiver = [Command(I.EPR_RECV), Command(I.X), Command(I.Z), Command(I.ROT_Z, step=224), Command(I.H), Command(I.MEASURE)]
        self.assertEqual([encode_commands(1, sender), encode_commands(2, receiver)], self.inputs)

    def test_decoding(self) -> None:
        text = run(TOP / "qron", "replay", TOP / "examples" / "teleport.toml", TOP / "examples" / "teleport.schedule").decode()
        first, second = (decode_all(bytes.fromhex(line.split()[2])) for line in text.splitlines())
        pair = EntInfo(node_A="127.0.0.1", port_A=8821, app_id_A=1, node_B="127.0.0.1", port_B=8822, app_id_B=2, id_AB=0)
        self.assertEqual(first, [(1, reply) for reply in (
            Reply(Type.NEW_OK, 0), Reply(Type.EPR_OK, 1, pair=pair), Reply(Type.MEASOUT, outcome=1), Reply(Type.MEASOUT, outcome=1),
            Reply(Type.DONE))])
        self.assertEqual(second, [(2, reply) for reply in (
            Reply(Type.EPR_OK, 0, pair=pair), Reply(Type.MEASOUT, outcome=0), Reply(Type.DONE))])

    def test_bell(self) -> None:
        bell = encode_commands(7, [Command(I.NEW), Command(I.NEW), Command(I.H), Command(I.CNOT, 0, extra_id=1), Command(I.MEASURE, 0),
                                   Command(I.MEASURE, 1)])
        # only the last command of the file has NOTIFY
        quiet = bell[:-1] + b"\0"
        self.assertEqual(encode_message(Type.HELLO, 7) + quiet + bell, (TOP / "examples" / "bell.cqc").read_bytes())


class Program(unittest.TestCase):
    """Every kind of message, and every kind of reply, as the program takes and gives them."""

    def test_hello(self) -> None:
        self.assertEqual(piped(encode_message(Type.HELLO, 65_535)), [(65_535, Reply(Type.HELLO))])

    def test_commands_of_one_node(self) -> None:
        done = (3, Reply(Type.DONE))
        for each in Instruction:
            before = [encode_commands(3, [Command(I.ALLOCATE, 2)])]
            if each in (I.I, I.RESET, I.RELEASE, I.X, I.Y, I.Z, I.T, I.H, I.K):
                wanted, command = [done], Command(each, 1)
            elif each in (I.ROT_X, I.ROT_Y, I.ROT_Z):
                wanted, command = [done], Command(each, 1, step=224)
            elif each in (I.CNOT, I.CPHASE):
                wanted, command = [done], Command(each, 1, extra_id=0)
            elif each in (I.MEASURE, I.MEASURE_INPLACE):
                wanted, command = [(3, Reply(Type.MEASOUT, outcome=0)), done], Command(each, 1)
            elif each in (I.NEW, I.ALLOCATE):
                wanted, command = [(3, Reply(Type.NEW_OK, 2)), done], Command(each, 1)
            else:
                continue
            self.assertEqual(piped(*before, encode_commands(3, [command]))[3:], wanted, each.name)

    def test_commands_of_two_nodes(self) -> None:
        to_second = Remote(4, 8822, "127.0.0.1")
        first = encode_commands(3, [Command(I.NEW), Command(I.X), Command(I.SEND, remote=to_second), Command(I.EPR, remote=to_second),
                                    Command(I.EPR, remote=to_second)])
        second = encode_commands(4, [Command(I.RECV), Command(I.EPR_RECV), Command(I.EPR_RECV), Command(I.MEASURE, 0)])
        pairs = [EntInfo("127.0.0.1", 8821, 3, "127.0.0.1", 8822, 4, number) for number in range(2)]
        self.assertEqual(replayed(first, second), [
            [(3, reply) for reply in (Reply(Type.NEW_OK, 0), Reply(Type.EPR_OK, 0, pair=pairs[0]), Reply(Type.EPR_OK, 1, pair=pairs[1]),
                                      Reply(Type.DONE))],
            [(4, reply) for reply in (Reply(Type.RECV, 0), Reply(Type.EPR_OK, 1, pair=pairs[0]), Reply(Type.EPR_OK, 2, pair=pairs[1]),
                                      Reply(Type.MEASOUT, outcome=1), Reply(Type.DONE))]])

    def test_factory(self) -> None:
        body = [Command(I.NEW), Command(I.MEASURE)]
        round_of_two = [(5, Reply(Type.NEW_OK, 0)), (5, Reply(Type.MEASOUT, outcome=0))]
        for repeats in 0, 1, 255:
            self.assertEqual(piped(encode_factory(5, repeats, body)), round_of_two * repeats + [(5, Reply(Type.DONE))])

    def test_errors(self) -> None:
        away = Remote(0, 8822, "127.0.0.1")
        for kind, commands in {
            Type.ERR_GENERAL: [Command(I.EPR, remote=away)],
            Type.ERR_NOQUBIT: [Command(I.NEW)] * 17,
            Type.ERR_UNSUPP: [Command(I.NEW), Command(I.ROT_X, step=16)],
            Type.ERR_TIMEOUT: [Command(I.RECV)],
            Type.ERR_UNKNOWN: [Command(I.MEASURE, 9)],
        }.items():
            self.assertEqual(piped(encode_commands(0, commands))[-1], (0, Reply(kind)))
            self.assertTrue(commands[-1].can_be_refused(kind))
        for kind in (Type.ERR_NOQUBIT, Type.ERR_UNSUPP, Type.ERR_TIMEOUT, Type.ERR_UNKNOWN):
            self.assertEqual(Command(I.ROT_X, step=64).can_be_refused(kind), kind is Type.ERR_UNKNOWN)

    def test_other_types(self) -> None:
        for kind in Type:
            if kind not in (Type.HELLO, Type.COMMAND, Type.FACTORY):
                self.assertEqual(piped(encode_message(kind, 6)), [(6, Reply(Type.ERR_UNSUPP))])

    def test_longest_message(self) -> None:
        parts = split([Command(I.ALLOCATE, 0)] * (MOST_BODY_BYTES // 4 + 1))
        self.assertEqual([len(part) for part in parts], [MOST_BODY_BYTES // 4, 1])
        self.assertEqual(piped(*(encode_commands(0, part) for part in parts)), [(0, Reply(Type.DONE))] * 2)


class Refused(unittest.TestCase):
    """What can't be encoded, and what is no reply."""

    def test_numbers_out_of_range(self) -> None:
        for operands in ({"qubit_id": 65_536}, {"qubit_id": -1}, {"step": 256}, {"extra_id": 65_536},
                         {"remote": Remote(65_536, 1, "1.2.3.4")}, {"remote": Remote(0, 65_536, "1.2.3.4")},
                         {"remote": Remote(0, 1, "localhost")}):
            with self.assertRaises(ValueError):
                Command(I.X, **operands)
        for repeats in -1, 256:
            with self.assertRaises(ValueError):
                encode_factory(0, repeats, [])
        with self.assertRaises(ValueError):
            encode_factory(0, 1, [Command(I.X)] * (MOST_BODY_BYTES // 4))

    def test_what_is_no_reply(self) -> None:
        for data in ("0104000000000000", "0204000000000001", "0201000000000000", "020b000000000000", "0207000000000002",
                     "0216000000000001"):
            with self.assertRaises(ValueError, msg=data):
                decode_header(bytes.fromhex(data))
        with self.assertRaises(ValueError):
            decode_reply(Type.MEASOUT, b"\2")


if __name__ == "__main__":
    unittest.main()
