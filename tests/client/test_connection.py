"""The classes against a server: what calls give, how batches and factories are sent, what is refused, and ends of all kinds."""

import os
import socket
import tempfile
import threading
import time
import unittest
from typing import Callable
from unittest import mock

from common import PATIENCE, ServedCase
from cqc import (CQCConnection, CQCConnectionError, CQCGeneralError, CQCInuseError, CQCNoQubitError, CQCTimeoutError, CQCUnknownQubitError,
                 CQCUnsuppError, EntInfo, Network, QubitNotActiveError, qubit)
from cqc.messages import Command, Instruction as I, Remote, encode_commands
from served import free_ports

# keys with which a receipt from an empty queue is answered at once
AT_ONCE = {"patience": 0, "wait_ms": 0}


class Qubits(ServedCase):
    def setUp(self) -> None:
        self.server = self.serve("Alice", "Bob", **AT_ONCE)
        self.alice = self.connect(self.server, "Alice")
        self.bob = self.connect(self.server, "Bob")

    def test_hello(self) -> None:
        self.alice.hello()

    def test_measure(self) -> None:
        one = qubit(self.alice)
        one.X()
        self.assertEqual([one.measure(inplace=True), one.measure(inplace=True)], [1, 1])
        self.assertTrue(one.active)
        self.assertIs(type(one.measure()), int)
        self.assertFalse(one.active)

    def test_gates(self) -> None:
        """Each word of gates brings a qubit from state 0 to the state of its bit."""
        for gates, bit in {"I": 0, "X": 1, "Y": 1, "Z": 0, "T": 0, "HH": 0, "HZH": 1, "KK": 0, "KZK": 1, "HTTTTH": 1, "HYH": 1}.items():
            one = qubit(self.alice)
            for gate in gates:
                getattr(one, gate)()
            self.assertEqual(one.measure(), bit, gates)

    def test_rotations(self) -> None:
        """Turns by a half exchange 0 and 1 about X and Y, and + and - about Z; by quarters they go from basis to basis."""
        for gates, bit in (("X 0", 0), ("X 128", 1), ("Y 0", 0), ("Y 128", 1), ("H Z 0 H", 0), ("H Z 128 H", 1), ("Y 64 H", 0),
                           ("Y 192 H", 1), ("X 192 K", 0), ("X 64 K", 1), ("H Z 64 K", 0), ("H Z 192 K", 1), ("Y 32 Y 224", 0),
                           ("H Z 32 T T T H", 1)):
            one = qubit(self.alice)
            words = gates.split()
            while words:
                word = words.pop(0)
                if words and words[0].isdigit():
                    getattr(one, f"rot_{word}")(int(words.pop(0)))
                else:
                    getattr(one, word)()
            self.assertEqual(one.measure(), bit, gates)

    def test_gates_of_two(self) -> None:
        for one_bit in 0, 1:
            one, other, third = self.alice.allocate_qubits(3)
            if one_bit:
                one.X()
            one.cnot(other)
            third.H()
            one.cphase(third)
            third.H()
            self.assertEqual([one.measure(), other.measure(), third.measure()], [one_bit] * 3)

    def test_reset_and_release(self) -> None:
        one = qubit(self.alice)
        one.H()
        one.reset()
        self.assertEqual(one.measure(inplace=True), 0)
        one.release()
        self.assertFalse(one.active)

    def test_ids(self) -> None:
        qubits = self.alice.allocate_qubits(3)
        qubits[1].release()
        self.assertEqual([each._qID for each in (*qubits, qubit(self.alice), qubit(self.alice))], [0, 1, 2, 1, 3])

    def test_qubit_that_is_gone(self) -> None:
        measured, sent, released, kept = self.alice.allocate_qubits(4)
        measured.measure()
        self.alice.sendQubit(sent, "Bob")
        released.release()
        for gone in measured, sent, released:
            for use in (gone.X, gone.measure, gone.release, lambda: gone.rot_X(32), lambda: gone.cnot(kept), lambda: kept.cnot(gone),
                        lambda: self.alice.sendQubit(gone, "Bob")):
                with self.assertRaises(QubitNotActiveError):
                    use()
        self.assertEqual(kept.measure(), 0)

    def test_qubit_of_another_connection(self) -> None:
        one, other = qubit(self.alice), qubit(self.bob)
        with self.assertRaises(ValueError):
            one.cnot(other)
        with self.assertRaises(ValueError):
            self.bob.sendQubit(one, "Alice")

    def test_send(self) -> None:
        one = qubit(self.alice)
        one.X()
        self.alice.sendQubit(one, "Bob")
        came = self.bob.recvQubit()
        self.assertIsNone(came.get_entInfo())
        self.assertEqual(came.measure(), 1)

    def test_pairs(self) -> None:
        for number in range(3):
            here = self.alice.createEPR("Bob")
            there = self.bob.recvEPR()
            info = EntInfo(*self.server.network.place("Alice"), 0, *self.server.network.place("Bob"), 0, number)
            self.assertEqual([here.get_entInfo(), there.get_entInfo()], [info, info])
            self.assertEqual(here.measure(), there.measure())

    def test_apps(self) -> None:
        """Each app has its own qubits and its own queues; by default a program's connections to a node have different ones."""
        server = self.serve("Alice", "Bob", workers=3, **AT_ONCE)
        first, second = self.connect(server, "Alice"), self.connect(server, "Alice")
        third = self.connect(server, "Bob", app_id=65_535)
        self.assertEqual([qubit(first)._qID, qubit(second)._qID], [0, 0])
        pair = second.createEPR("Bob", remote_appID=65_535)
        self.assertEqual([pair.get_entInfo().app_id_A, pair.get_entInfo().app_id_B], [1, 65_535])
        with self.assertRaises(CQCTimeoutError):
            self.connect(server, "Bob").recvEPR()
        self.assertEqual(third.recvEPR().measure(), pair.measure())
        second.close()
        self.assertEqual(self.connect(server, "Alice")._appID, 1)

    def test_remote_socket(self) -> None:
        here = self.alice.createEPR("", remote_socket=self.server.network.place("Bob"))
        self.alice.sendQubit(qubit(self.alice), "", remote_socket=self.server.network.place("Bob"))
        self.assertEqual(self.bob.recvEPR().measure(), here.measure())
        self.assertEqual(self.bob.recvQubit().measure(), 0)

    def test_arguments_of_the_other_library(self) -> None:
        one = qubit(self.alice, notify=False, block=False)
        one.X(notify=False, block=False)
        one.rot_Z(32, notify=True, block=False)
        self.assertEqual(one.measure(False, True, True), 1)


class Batches(ServedCase):
    def setUp(self) -> None:
        self.server = self.serve("Alice", "Bob", **AT_ONCE)
        self.alice = self.connect(self.server, "Alice")
        self.bob = self.connect(self.server, "Bob")

    def test_one_message(self) -> None:
        with mock.patch.object(self.alice._link, "send", wraps=self.alice._link.send) as send:
            with self.alice.batch() as results:
                one, other = qubit(self.alice), qubit(self.alice)
                one.X()
                one.cnot(other)
                first, second = one.measure(inplace=True), other.measure()
                with self.assertRaises(RuntimeError):
                    first.result()
                with self.assertRaises(QubitNotActiveError):
                    other.X()
                self.assertEqual(results, [])
        send.assert_called_once_with(encode_commands(0, [Command(I.NEW, 0), Command(I.NEW, 0), Command(I.X), Command(I.CNOT, 0, extra_id=1),
                                                         Command(I.MEASURE_INPLACE, 0), Command(I.MEASURE, 1)]))
        self.assertEqual(results, [one, other, 1, 1])
        self.assertEqual([first, int(second), bool(first), [5, 6][second], first == second], [1, 1, True, 6, True])
        self.assertEqual([one.active, other.active], [True, False])

    def test_ids_are_known_beforehand(self) -> None:
        before = self.alice.allocate_qubits(3)
        with self.alice.batch():
            before[1].release()
            again = qubit(self.alice)
            pair = self.alice.createEPR("Bob")
            self.alice.sendQubit(before[0], "Bob")
            last = qubit(self.alice)
        self.assertEqual([again._qID, pair._qID, last._qID], [1, 3, 0])
        with self.bob.batch() as results:
            halves = [self.bob.recvQubit(), self.bob.recvEPR()]
        self.assertEqual(results, halves)
        self.assertEqual(halves[1].get_entInfo(), pair.get_entInfo())

    def test_longer_than_a_message(self) -> None:
        one = qubit(self.alice)
        with mock.patch.object(self.alice._link, "send", wraps=self.alice._link.send) as send:
            with self.alice.batch():
                for _ in range(20_001):
                    one.X()
                outcome = one.measure()
        self.assertEqual([len(call.args[0]) for call in send.call_args_list], [8 + 65_536, 8 + 4 * 20_002 - 65_536])
        self.assertEqual(outcome, 1)

    def test_block_that_raises(self) -> None:
        one = qubit(self.alice)
        with self.assertRaises(KeyError):
            with self.alice.batch():
                one.X()
                qubit(self.alice)
                one.measure()
                raise KeyError
        self.assertEqual([one.active, one.measure()], [True, 0])

    def test_pending(self) -> None:
        """The calls of the other library."""
        one = qubit(self.alice)
        self.alice.set_pending(True)
        one.X()
        one.measure(inplace=True)
        self.assertEqual(self.alice.flush(), [1])
        self.assertEqual(self.alice.flush(), [])
        one.X()
        one.measure(inplace=True)
        self.assertEqual(self.alice.flush_factory(5), [0, 1, 0, 1, 0])
        self.alice.set_pending(False)
        self.assertEqual(one.measure(), 0)

    def test_factory(self) -> None:
        with self.alice.factory(6) as results:
            one = qubit(self.alice)
            one.X()
            last = one.measure()
        self.assertEqual([result for result in results if isinstance(result, int)], [1] * 6)
        self.assertEqual([last, one.active], [1, False])
        with self.alice.factory(4) as results:
            half = self.alice.createEPR("Bob")
        self.assertEqual([each._qID for each in results], [0, 1, 2, 3])
        self.assertIs(results[0], half)
        self.assertEqual([self.bob.recvEPR().measure() for _ in results], [each.measure() for each in results])
        with self.alice.factory(0) as results:
            never = qubit(self.alice)
            outcome = never.measure()
        self.assertEqual([results, never.active], [[], False])
        self.assertRaises(RuntimeError, outcome.result)

    def test_factory_out_of_range(self) -> None:
        for times in -1, 256:
            with self.assertRaises(ValueError):
                with self.alice.factory(times):
                    qubit(self.alice)
        self.assertEqual(qubit(self.alice)._qID, 0)

    def test_refused_batch(self) -> None:
        """What stands before the refused command was executed, what stands behind it wasn't."""
        first = qubit(self.alice)
        with self.assertRaises(CQCUnsuppError) as caught:
            with self.alice.batch():
                first.X()
                second = qubit(self.alice)
                first.T()
                second.rot_X(48)
                outcome = first.measure()
                third = qubit(self.alice)
        self.assertEqual(caught.exception.command, Command(I.ROT_X, 1, step=48))
        self.assertEqual([first.active, second.active, third.active], [True, True, False])
        self.assertRaises(RuntimeError, outcome.result)
        self.assertEqual([first.measure(), second.measure()], [1, 0])

    def test_refused_command_that_is_one_of_several(self) -> None:
        twelve = self.alice.allocate_qubits(13)
        for other in twelve[1:12]:
            twelve[0].cnot(other)
        with self.assertRaises(CQCGeneralError) as caught:
            with self.alice.batch():
                twelve[0].X()
                twelve[0].cnot(twelve[12])
                twelve[1].measure()
        self.assertIsNone(caught.exception.command)
        self.assertEqual(caught.exception.commands, (Command(I.X, 0), Command(I.CNOT, 0, extra_id=12), Command(I.MEASURE, 1)))

    def test_qubits_behind_a_refused_batch(self) -> None:
        """Whether a qubit was sent or released is known, though SEND and RELEASE answer nothing."""
        for refused in range(4):
            qubits = self.alice.allocate_qubits(4)
            with self.assertRaises(CQCUnsuppError) as caught:
                with self.alice.batch():
                    for number, each in enumerate(qubits):
                        if number == refused:
                            each.rot_Z(1)
                        if number % 2:
                            self.alice.sendQubit(each, "Bob")
                        else:
                            each.release()
            self.assertEqual(caught.exception.command, Command(I.ROT_Z, qubits[refused]._qID, step=1))
            self.assertEqual([each.active for each in qubits], [number >= refused for number in range(4)])
            for each in qubits[refused:]:
                each.release()

    def test_another_connection_of_the_app(self) -> None:
        """Ids can't be known beforehand where another connection holds qubits of the app."""
        server = self.serve("Alice", workers=2)
        first, second = self.connect(server, "Alice", app_id=7), self.connect(server, "Alice", app_id=7)
        qubit(first)
        self.assertEqual(qubit(second)._qID, 1)
        with self.assertRaisesRegex(CQCConnectionError, "another connection has qubits of app 7"):
            with second.batch():
                qubit(second).X()


class Errors(ServedCase):
    def setUp(self) -> None:
        self.server = self.serve("Alice", "Bob", workers=2, **AT_ONCE)
        self.alice = self.connect(self.server, "Alice")

    def refused(self, kind: type[CQCGeneralError], command: Command, call: Callable[[], object]) -> None:
        with self.assertRaises(kind) as caught:
            call()
        self.assertIs(type(caught.exception), kind)
        self.assertEqual(caught.exception.command, command)
        self.assertIn(str(command), str(caught.exception))

    def test_general(self) -> None:
        own = self.server.network.place("Alice")
        self.refused(CQCGeneralError, Command(I.EPR, remote=Remote(0, own[1], own[0])), lambda: self.alice.createEPR("Alice"))
        self.refused(CQCGeneralError, Command(I.EPR, remote=Remote(3, 1, "1.2.3.4")),
                     lambda: self.alice.createEPR("", 3, remote_socket=("1.2.3.4", 1)))
        one = qubit(self.alice)
        self.refused(CQCGeneralError, Command(I.SEND, remote=Remote(0, own[1], own[0])), lambda: self.alice.sendQubit(one, "Alice"))
        self.assertEqual(one.measure(), 0)

    def test_no_qubit(self) -> None:
        self.alice.allocate_qubits(16)
        self.refused(CQCNoQubitError, Command(I.NEW), lambda: qubit(self.alice))
        self.refused(CQCNoQubitError, Command(I.EPR, remote=Remote(0, *reversed(self.server.network.place("Bob")))),
                     lambda: self.alice.createEPR("Bob"))
        self.refused(CQCNoQubitError, Command(I.ALLOCATE, 3), lambda: self.alice.allocate_qubits(3))

    def test_unsupported(self) -> None:
        one = qubit(self.alice)
        for axis in "XYZ":
            self.refused(CQCUnsuppError, Command(I[f"ROT_{axis}"], step=16), lambda: getattr(one, f"rot_{axis}")(16))
        self.refused(CQCUnsuppError, Command(I.CNOT, extra_id=0), lambda: one.cnot(one))
        self.refused(CQCUnsuppError, Command(I.CPHASE, extra_id=0), lambda: one.cphase(one))

    def test_timeout(self) -> None:
        self.refused(CQCTimeoutError, Command(I.RECV), self.alice.recvQubit)
        self.refused(CQCTimeoutError, Command(I.EPR_RECV), self.alice.recvEPR)
        self.assertEqual(qubit(self.alice)._qID, 0)

    def test_unknown(self) -> None:
        """Another connection of the same app has measured the qubit."""
        one = qubit(self.alice)
        other = self.connect(self.server, "Alice", app_id=self.alice._appID)
        other._held[0] = other._planned[0] = qubit(other, createNew=False, q_id=0)
        other._held[0].measure()
        self.refused(CQCUnknownQubitError, Command(I.X), one.X)

    def test_journal(self) -> None:
        """The node closes the connection behind the error."""
        server = self.serve("Alice", journal=3)
        alice = self.connect(server, "Alice")
        one = qubit(alice)
        one.X()
        one.X()
        self.refused(CQCGeneralError, Command(I.X), one.X)
        with self.assertRaises(CQCConnectionError):
            one.X()

    def test_journal_that_is_full_within_a_batch(self) -> None:
        """Nothing tells any more whether the qubit was sent, so each command behind the last reply can have been refused."""
        alice = self.connect(self.serve("Alice", "Bob", journal=2), "Alice")
        with self.assertRaises(CQCGeneralError) as caught:
            with alice.batch():
                one = qubit(alice)
                alice.sendQubit(one, "Bob")
                qubit(alice)
        self.assertIs(type(caught.exception), CQCGeneralError)
        self.assertEqual([command.instruction for command in caught.exception.commands], [I.SEND, I.NEW])

    def test_steps_out_of_range(self) -> None:
        one = qubit(self.alice)
        for step in -1, 256:
            with self.assertRaises(ValueError):
                one.rot_X(step)
        self.assertEqual(one.measure(), 0)

    def test_names(self) -> None:
        with self.assertRaisesRegex(ValueError, "the names are Alice, Bob"):
            self.alice.createEPR("Mallory")
        with self.assertRaises(ValueError):
            CQCConnection("Mallory", network=self.server.network)

    def test_apps_out_of_range(self) -> None:
        for app_id in -1, 65_536:
            with self.assertRaises(ValueError):
                CQCConnection("Bob", appID=app_id, network=self.server.network)
            with self.assertRaises(ValueError):
                self.alice.createEPR("Bob", remote_appID=app_id)


class Peer:
    """A peer of one connection that sends some bytes once it got some, and then waits or closes."""

    def __init__(self, said: bytes, closes: bool = True) -> None:
        self._door = socket.create_server(("127.0.0.1", 0))
        self.place = self._door.getsockname()
        self._said, self._closes = said, closes
        self._end = threading.Event()
        self._thread = threading.Thread(target=self._run, daemon=True)
        self._thread.start()

    def _run(self) -> None:
        link, _ = self._door.accept()
        with link:
            link.recv(65_536)
            link.sendall(self._said)
            if not self._closes:
                self._end.wait(PATIENCE)

    def stop(self) -> None:
        self._end.set()
        self._thread.join(PATIENCE)
        self._door.close()


class Ends(ServedCase):
    """A server that goes away, or isn't one, is one exception in bounded time, and the connection is closed."""

    def faulty(self, text: str, call: Callable[[], object], most: float = 5.0) -> None:
        begin = time.monotonic()
        with self.assertRaisesRegex(CQCConnectionError, text):
            call()
        self.assertLess(time.monotonic() - begin, most)

    def met(self, said: str, closes: bool = True, timeout: float = 5.0) -> CQCConnection:
        peer = Peer(bytes.fromhex(said), closes)
        self.addCleanup(peer.stop)
        connection = CQCConnection("Alice", peer.place, 0, timeout=timeout)
        self.addCleanup(connection.close)
        return connection

    def test_server_that_is_killed(self) -> None:
        server = self.serve("Alice", "Bob")
        alice = self.connect(server, "Alice")
        one = qubit(alice)
        server.stop()
        self.faulty("went away", one.X)
        self.faulty("no open connection", lambda: qubit(alice))

    def test_server_that_is_killed_while_it_waits(self) -> None:
        server = self.serve("Alice", "Bob", patience=1_000_000, wait_ms=10)
        alice = self.connect(server, "Alice")
        alice.hello()
        killer = threading.Timer(0.5, server.stop)
        killer.start()
        self.addCleanup(killer.join)
        self.faulty("went away", alice.recvEPR)

    def test_with_block_tells_the_first_exception(self) -> None:
        server = self.serve("Alice")
        with self.assertRaisesRegex(CQCConnectionError, "went away"):
            with self.connect(server, "Alice") as alice:
                one = qubit(alice)
                server.stop()
                one.X()

    def test_nobody_listens(self) -> None:
        place = ("127.0.0.1", free_ports(1)[0])
        self.faulty("no connection", lambda: CQCConnection("Alice", place, retry_connection=False))
        with mock.patch("cqc.pythonLib.STARTING", 0.5):
            self.faulty("no connection", lambda: CQCConnection("Alice", place))

    def test_server_that_starts_late(self) -> None:
        place = ("127.0.0.1", free_ports(1)[0])
        def start() -> None:
            with socket.create_server(place) as late:
                link, _ = late.accept()
                link.sendall(bytes.fromhex("0200000000000000"))
                link.recv(65_536)
                link.close()
        starter = threading.Timer(0.5, start)
        starter.start()
        self.addCleanup(starter.join)
        with CQCConnection("Alice", place, 0) as alice:
            alice.hello()

    def test_silence(self) -> None:
        self.faulty("didn't answer in time", lambda: qubit(self.met("", closes=False, timeout=0.3)))
        # a part of a reply
        self.faulty("didn't answer in time", lambda: qubit(self.met("020a0000000000020000", closes=False, timeout=0.3)))
        self.faulty("didn't answer in time", lambda: qubit(self.met("020a00", closes=False, timeout=0.3)))

    def test_busy_worker(self) -> None:
        """A connection that no worker takes up is answered by silence."""
        server = self.serve("Alice", workers=1)
        first = self.connect(server, "Alice")
        first.hello()
        second = self.connect(server, "Alice", timeout=0.3)
        self.faulty("each of its workers may be busy", second.hello)
        first.hello()

    def test_answers_cut_short(self) -> None:
        for said in "", "02", "020a000000000002", "020a00000000000200", "020a0000000000020000":
            self.faulty("went away", lambda: qubit(self.met(said)))

    def test_what_is_no_reply(self) -> None:
        for said in ("010a0000000000020000", "020a0000ffffffff0000", "02010000000000000000", "48545450", "020a0001000000020000"):
            self.faulty("no reply" if len(said) > 16 else "went away", lambda: qubit(self.met(said)))
        self.faulty("answered MEASOUT where NEW_OK was expected", lambda: qubit(self.met("020700000000000100")))
        self.faulty("answered NEW_OK where DONE was expected", lambda: qubit(self.met("020a0000000000020000020a0000000000020001")))

    def test_in_use(self) -> None:
        """The one error that qron never sends."""
        with self.assertRaises(CQCInuseError) as caught:
            qubit(self.met("0218000000000000"))
        self.assertEqual(caught.exception.command, Command(I.NEW))

    def test_interrupted_call(self) -> None:
        """A call that was interrupted closes the connection, since its answer would be taken for that of the next one."""
        alice = self.connect(self.serve("Alice"), "Alice")
        one = qubit(alice)
        with mock.patch.object(alice._link, "receive", side_effect=KeyboardInterrupt):
            self.assertRaises(KeyboardInterrupt, one.X)
        self.faulty("no open connection", one.X)


class Closing(ServedCase):
    def test_clean_end(self) -> None:
        """Qubits are released at the end, and the server has ended when it has served its connections."""
        server = self.serve("Alice", workers=1, connections=3)
        for _ in range(2):
            with self.connect(server, "Alice") as alice:
                self.assertEqual([each._qID for each in alice.allocate_qubits(16)], list(range(16)))
        with self.assertRaises(KeyError):
            with self.connect(server, "Alice") as alice:
                alice.allocate_qubits(16)
                raise KeyError
        self.assertEqual(server.finish(), ["0 0 0 clean", "0 1 0 clean", "0 2 0 clean", "entries 96"])

    def test_gathered_commands_are_sent(self) -> None:
        server = self.serve("Alice", connections=1)
        with self.connect(server, "Alice") as alice:
            alice.set_pending(True)
            qubit(alice).X()
        self.assertEqual(server.finish()[-1], "entries 3")

    def test_closed_twice(self) -> None:
        alice = self.connect(self.serve("Alice"), "Alice")
        one = qubit(alice)
        alice.close()
        alice.close()
        self.assertFalse(one.active)
        with self.assertRaises(CQCConnectionError):
            qubit(alice)

    def test_without_release(self) -> None:
        server = self.serve("Alice", connections=1)
        alice = self.connect(server, "Alice")
        qubit(alice)
        alice.close(release_qubits=False)
        self.assertEqual(server.finish()[-1], "entries 1")


class Places(ServedCase):
    SETTINGS = 'seed = "00"\n[[node]]\naddress = "127.0.0.1"\nport = 5\n[[node]]\naddress = "127.0.0.2"\nport = 6\n'

    def settings(self, text: str) -> str:
        file = tempfile.NamedTemporaryFile("w", suffix=".toml")
        self.addCleanup(file.close)
        file.write(text)
        file.flush()
        return file.name

    def test_settings(self) -> None:
        path = self.settings(self.SETTINGS)
        self.assertEqual(Network.from_settings(path).places, {"Alice": ("127.0.0.1", 5), "Bob": ("127.0.0.2", 6)})
        self.assertEqual(Network.from_settings(path, ["Left", "Right"]).place("Right"), ("127.0.0.2", 6))
        for text in "", "node = 5", "[[node]]\nport = 5", "[[node", 'node = [1]':
            with self.assertRaises(ValueError):
                Network.from_settings(self.settings(text))
        with self.assertRaises(OSError):
            Network.from_settings("/no/such/file")

    def test_default(self) -> None:
        with mock.patch.dict(os.environ, clear=True):
            self.assertEqual([Network.default().place(name) for name in ("Alice", "Bob", "Eve")],
                             [("127.0.0.1", port) for port in (8821, 8822, 8825)])
            os.environ["CQC_SETTINGS"] = self.settings(self.SETTINGS)
            self.assertEqual(Network.default().place("Bob"), ("127.0.0.2", 6))
            os.environ["CQC_NAMES"] = "Left,Right"
            self.assertEqual(Network.default().place("Right"), ("127.0.0.2", 6))


class Classical(ServedCase):
    def test_two_programs(self) -> None:
        """Teleportation by two threads that tell each other bits alone, in the words of the other library."""
        server = self.serve("Alice", "Bob")
        told = []

        def alice() -> None:
            with CQCConnection("Alice", network=server.network) as Alice:
                qA = Alice.createEPR("Bob")
                q = qubit(Alice)
                q.X()
                q.cnot(qA)
                q.H()
                Alice.sendClassical("Bob", [q.measure(), qA.measure()])
                Alice.sendClassical("Bob", 7)

        def bob() -> None:
            with CQCConnection("Bob", network=server.network) as Bob:
                qB = Bob.recvEPR()
                z, x = Bob.recvClassical()
                if x == 1:
                    qB.X()
                if z == 1:
                    qB.Z()
                told.append((qB.measure(), Bob.recvClassical()))

        threads = [threading.Thread(target=each, daemon=True) for each in (alice, bob)]
        for thread in threads:
            thread.start()
        for thread in threads:
            thread.join(PATIENCE)
        self.assertEqual(told, [(1, b"\7")])

    def test_silence(self) -> None:
        alice = self.connect(self.serve("Alice"), "Alice", timeout=0.2)
        with mock.patch("cqc.pythonLib.STARTING", 0.2), self.assertRaisesRegex(CQCConnectionError, "no connection"):
            alice.sendClassical("Alice", 1)
        with self.assertRaisesRegex(CQCConnectionError, "no classical message"):
            alice.recvClassical()


if __name__ == "__main__":
    unittest.main()
