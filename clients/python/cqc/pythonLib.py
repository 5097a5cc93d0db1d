"""Connections to nodes and qubits, with the names of SimulaQron's CQC library.

Outside a batch every call is answered before it returns. So that library's arguments `notify` and `block` change nothing here."""

import socket
import threading
import weakref
from contextlib import AbstractContextManager, contextmanager, suppress
from dataclasses import dataclass, field
from itertools import count
from typing import Callable, Iterable, Iterator, Sequence

from .errors import *  # noqa: F403 - programs import them from here
from .errors import CQCConnectionError, CQCGeneralError, QubitNotActiveError, refusal
from .link import Address, Link, connect
from .messages import (ANSWERS, Command, EntInfo, Instruction, Remote, Reply, Type, encode_commands, encode_factory, encode_message, split)
from .network import Network

# the seconds in which a server may still be starting
STARTING = 10.0
# instructions behind which the app no longer has the qubit at the node
REMOVES = (Instruction.MEASURE, Instruction.SEND, Instruction.RELEASE)

_connections: "weakref.WeakSet[CQCConnection]" = weakref.WeakSet()
_connections_lock = threading.Lock()


class Outcome:
    """What a measurement in a batch gave: 0 or 1, once the batch was sent. It can stand where an int is wanted."""

    def __init__(self) -> None:
        self._value: int | None = None

    def result(self) -> int:
        """The outcome. Raises RuntimeError where the measurement wasn't done yet, or was refused."""
        if self._value is None:
            raise RuntimeError("this measurement has no outcome: its batch wasn't sent yet, or was refused")
        return self._value

    __int__ = __index__ = result

    def __bool__(self) -> bool:
        return self.result() == 1

    def __eq__(self, other: object) -> bool:
        return self.result() == (other.result() if isinstance(other, Outcome) else other)

    def __repr__(self) -> str:
        return "Outcome()" if self._value is None else str(self._value)


@dataclass
class _Step:
    """A command that was gathered, the qubits that it makes, and the outcome that it gives."""

    command: Command
    made: list["qubit"] = field(default_factory=list)
    outcome: Outcome | None = None


class CQCConnection:
    """A connection of one app to the node with that name, as a context manager that releases the app's qubits at its end.

    `socket_address` is the node's place where it isn't that of `network`, whose default is `Network.default()`. `appID` is 0 to 65,535;
    where it is None it is the least that no other open connection of this program has at the node. With `pend_messages` commands are
    gathered until `flush`. A node that isn't there yet is tried again every `conn_retry_time` seconds for 10 seconds, unless
    `retry_connection` is False. `timeout` is how many seconds an answer may take; a receipt waits at the node as long as qron's settings
    say, 1 second without them.

    One thread at a time may use a connection. Every call that talks to the node may raise CQCConnectionError, and where the node refused
    it CQCGeneralError or one of its subclasses."""

    def __init__(self, name: str, socket_address: Address | None = None, appID: int | None = None, pend_messages: bool = False,
                 retry_connection: bool = True, conn_retry_time: float = 0.1, *, network: Network | None = None,
                 timeout: float = 30.0) -> None:
        if appID is not None and not 0 <= appID <= 65_535:
            raise ValueError(f"an appID is 0 to 65,535, not {appID}")
        self.name = name
        self.network = network or Network.default()
        self.pend_messages = pend_messages
        self._timeout = timeout
        self._pause = conn_retry_time
        self._steps: list[_Step] = []
        # the app's qubits at the node by id, and what they are once the gathered commands were executed
        self._held: dict[int, qubit] = {}
        self._planned: dict[int, qubit] = {}
        self._ear: socket.socket | None = None
        self._place = socket_address or self.network.place(name)
        self._link = Link(self._place, timeout, STARTING if retry_connection else 0.0, conn_retry_time)
        with _connections_lock:
            used = {other._appID for other in _connections if other._place == self._place and other._link.is_open}
            self._appID = next(app for app in count() if app not in used) if appID is None else appID
            _connections.add(self)

    def __enter__(self) -> "CQCConnection":
        return self

    def __exit__(self, kind: type[BaseException] | None, *_: object) -> None:
        if kind is None:
            self.close()
        else:
            self._drop()
            # the exception that is on its way says more than what comes of it
            with suppress(CQCGeneralError, CQCConnectionError):
                self.close()

    def close(self, release_qubits: bool = True) -> None:
        """Sends what was gathered, releases the app's qubits, and closes the connection."""
        try:
            if self._link.is_open:
                with self.batch():
                    for each in list(self._planned.values()) if release_qubits else []:
                        each.release()
        finally:
            self._link.close()
            if self._ear is not None:
                self._ear.close()

    def hello(self) -> None:
        """Asks for the node's HELLO."""
        self._exchange(encode_message(Type.HELLO, self._appID), [], Type.HELLO)

    def sendQubit(self, q: "qubit", name: str, remote_appID: int = 0, remote_socket: Address | None = None, notify: bool = True,
                  block: bool = True) -> None:
        """Sends the qubit to an app at the node with that name, or at the place `remote_socket`. Then it is no longer this app's."""
        q._do(self, Instruction.SEND, remote=self._remote(name, remote_appID, remote_socket))

    def recvQubit(self, notify: bool = True, block: bool = True) -> "qubit":
        """The next qubit that was sent to this app. Raises CQCTimeoutError where none came while the node waited."""
        return self._make(Command(Instruction.RECV))[0]

    def createEPR(self, name: str, remote_appID: int = 0, remote_socket: Address | None = None, notify: bool = True,
                  block: bool = True) -> "qubit":
        """Makes an entangled pair with an app at the node with that name, or at the place `remote_socket`, and gives the half here."""
        return self._make(Command(Instruction.EPR, remote=self._remote(name, remote_appID, remote_socket)))[0]

    def recvEPR(self, notify: bool = True, block: bool = True) -> "qubit":
        """The next half of a pair that was made with this app. Raises CQCTimeoutError where none came while the node waited."""
        return self._make(Command(Instruction.EPR_RECV))[0]

    def allocate_qubits(self, num_qubits: int, notify: bool = True, block: bool = True) -> list["qubit"]:
        """So many new qubits in state 0, by one command."""
        return self._make(Command(Instruction.ALLOCATE, num_qubits))

    def batch(self) -> AbstractContextManager[list["qubit | int"]]:
        """Gathers the commands of its block, and sends them at the block's end as one message, or as several where they have more than
        65,536 bytes together. Then the list that it gives has the qubits and outcomes that came back, in order, and each Outcome its
        value. Nothing of a message is executed behind a refused command. Where the block raises, nothing is sent."""
        return self._gathering(self.flush)

    def factory(self, num_iter: int) -> AbstractContextManager[list["qubit | int"]]:
        """As `batch`, but the node executes the commands `num_iter` times, 0 to 255, each time with the same ids. The list has what came
        back from all repetitions; an Outcome has its value from the last one. Raises ValueError where there are more than 65,534 bytes."""
        return self._gathering(lambda: self.flush_factory(num_iter))

    def set_pending(self, pend_messages: bool) -> None:
        """Whether commands are gathered until `flush` or `flush_factory`, which the blocks above call at their ends."""
        self.pend_messages = pend_messages

    def flush(self) -> list["qubit | int"]:
        results: list[qubit | int] = []
        steps, self._steps = self._steps, []
        try:
            for part in split([step.command for step in steps]):
                results += self._exchange(encode_commands(self._appID, part), steps[:len(part)])
                del steps[:len(part)]
        finally:
            self._planned = dict(self._held)
        return results

    def flush_factory(self, num_iter: int) -> list["qubit | int"]:
        steps, self._steps = self._steps, []
        try:
            message = encode_factory(self._appID, num_iter, [step.command for step in steps])
            return self._exchange(message, steps * num_iter)
        finally:
            self._planned = dict(self._held)

    def sendClassical(self, name: str, msg: int | Iterable[int], close_after: bool = True) -> None:
        """Sends a byte, or several, to the program at the node with that name: to the node's address and its port + 1000, not by qron.
        Waits up to 10 seconds for the program to listen, and raises CQCConnectionError where it doesn't."""
        with connect(self.network.classical_place(name), STARTING, self._pause) as link:
            link.sendall(bytes([msg]) if isinstance(msg, int) else bytes(msg))

    def recvClassical(self, msg_size: int = 1024, close_after: bool = True) -> bytes:
        """The next message to this program, of at most `msg_size` bytes. Raises CQCConnectionError where none came in time."""
        try:
            self._ear = self._ear or socket.create_server(self.network.classical_place(self.name))
            self._ear.settimeout(self._timeout)
            link, _ = self._ear.accept()
            link.settimeout(self._timeout)
            with link, link.makefile("rb") as source:
                return source.read(msg_size)
        except OSError as error:
            raise CQCConnectionError(f"no classical message came to {self.name}: {error}") from None

    def _remote(self, name: str, app_id: int, place: Address | None) -> Remote:
        address, port = place or self.network.place(name)
        return Remote(app_id, port, address)

    @contextmanager
    def _gathering(self, send: Callable[[], list["qubit | int"]]) -> Iterator[list["qubit | int"]]:
        self.flush()
        results: list[qubit | int] = []
        before, self.pend_messages = self.pend_messages, True
        try:
            yield results
            results += send()
        finally:
            self._drop()
            self.pend_messages = before

    def _drop(self) -> None:
        """Forgets what was gathered and not sent."""
        self._steps = []
        self._planned = dict(self._held)

    def _make(self, command: Command, made: Sequence["qubit"] = ()) -> list["qubit"]:
        """Gathers a command that makes qubits. The node gives the least ids that the app doesn't hold, so they are known beforehand."""
        made = list(made) or [qubit(self, createNew=False) for _ in range(command.answers)]
        free = (q_id for q_id in count() if q_id not in self._planned)
        for each, q_id in zip(made, free):
            each._qID = q_id
            self._planned[q_id] = each
        self._gather(_Step(command, list(made)))
        return made

    def _gather(self, step: _Step) -> None:
        if step.command.instruction in REMOVES:
            del self._planned[step.command.qubit_id]
        self._steps.append(step)
        if not self.pend_messages:
            self.flush()

    def _exchange(self, message: bytes, steps: Sequence[_Step], last: Type = Type.DONE) -> list["qubit | int"]:
        """Sends a message that executes these steps, and takes its replies up to the last one."""
        results: list[qubit | int] = []
        behind: list[Command] = []
        try:
            self._link.send(message)
            for step in steps:
                for number in range(step.command.answers):
                    behind.append(step.command)
                    reply = self._receive(ANSWERS[step.command.instruction], behind)
                    results.append(self._take(step, reply, len(steps) == 1))
                if step.command.answers == 0:
                    behind.append(step.command)
            self._receive(last, behind)
        except CQCGeneralError:
            raise
        except BaseException:
            # what is still answered would be taken for the answer to a later message
            self._link.close()
            raise
        return results

    def _receive(self, expected: Type, behind: list[Command]) -> Reply:
        """The next reply, by which the commands behind the last one were executed. Raises the error where one of them was refused."""
        reply = self._link.receive(self._appID)
        if reply.type >= Type.ERR_GENERAL:
            raise self._refused(reply.type, behind)
        if reply.type is not expected:
            raise self._link.fault(f"answered {reply.type.name} where {expected.name} was expected")
        for command in behind:
            if command.instruction in REMOVES:
                self._held.pop(command.qubit_id, None)
        behind.clear()
        return reply

    def _refused(self, error: Type, behind: list[Command]) -> CQCGeneralError:
        """The exception of an error that one of these commands got. A SEND or RELEASE among them answers nothing, so the node is asked
        whether it still has the qubit."""
        first, end = 0, len(behind)
        # behind a full journal the node has closed the connection
        with suppress(CQCConnectionError):
            for at, command in enumerate(behind[:-1]):
                if command.instruction in REMOVES and command.qubit_id in self._held:
                    self._link.send(encode_commands(self._appID, [Command(Instruction.I, command.qubit_id)]))
                    if self._link.receive(self._appID).type is Type.DONE:
                        end = at + 1
                        break
                    del self._held[command.qubit_id]
                    first = at + 1
        behind = behind[first:end]
        return refusal(error, [command for command in behind if command.can_be_refused(error)] or behind)

    def _take(self, step: _Step, reply: Reply, is_alone: bool) -> "qubit | int":
        """What came back for a step."""
        if reply.outcome is not None:
            if step.outcome is not None:
                step.outcome._value = reply.outcome
            return reply.outcome
        # the first repetition of a factory makes the qubit that the program has
        made = step.made.pop(0) if step.made else qubit(self, createNew=False, q_id=reply.qubit_id)
        if reply.qubit_id in self._held or made._qID != reply.qubit_id and not is_alone:
            raise self._link.fault(f"made a qubit with id {reply.qubit_id} where {made._qID} was expected; another connection has "
                                   f"qubits of app {self._appID} there")
        made._qID, made._entInfo = reply.qubit_id, reply.pair
        self._held[made._qID] = made
        return made


def _gate(instruction: Instruction, text: str) -> Callable[..., None]:
    def gate(self: "qubit", notify: bool = True, block: bool = True) -> None:
        self._do(self._cqc, instruction)
    gate.__doc__ = text
    return gate


def _turn(instruction: Instruction, text: str) -> Callable[..., None]:
    def turn(self: "qubit", step: int, notify: bool = True, block: bool = True) -> None:
        self._do(self._cqc, instruction, step=step)
    turn.__doc__ = f"Turns the qubit about {text} by `step`, 0 to 255, times 2π / 256. Raises CQCUnsuppError unless 32 divides the step."
    return turn


def _gate_of_two(instruction: Instruction, text: str) -> Callable[..., None]:
    def gate(self: "qubit", target: "qubit", notify: bool = True, block: bool = True) -> None:
        self._do(self._cqc, instruction, extra_id=target._check(self._cqc))
    gate.__doc__ = f"{text} Raises CQCUnsuppError where the target is the qubit itself."
    return gate


class qubit:
    """A qubit at the node of a connection. `qubit(connection)` makes one in state 0.

    The gates return nothing; their matrices are those of docs/PHYSICS.md. Every call raises QubitNotActiveError where the qubit was
    measured, sent or released before."""

    def __init__(self, cqc: CQCConnection, notify: bool = True, block: bool = True, createNew: bool = True, q_id: int | None = None,
                 entInfo: EntInfo | None = None) -> None:
        self._cqc = cqc
        self._qID = q_id
        self._entInfo = entInfo
        if createNew:
            cqc._make(Command(Instruction.NEW), [self])

    def __repr__(self) -> str:
        return f"<qubit {self._qID} at {self._cqc.name}>"

    @property
    def active(self) -> bool:
        """Whether the app has the qubit: it wasn't measured, sent or released."""
        return self._qID is not None and self._cqc._planned.get(self._qID) is self

    def get_entInfo(self) -> EntInfo | None:
        """What is known of the pair that the qubit came from, or None. In a batch it is known once the batch was sent."""
        return self._entInfo

    I = _gate(Instruction.I, "Does nothing.")
    X = _gate(Instruction.X, "Exchanges 0 and 1.")
    Y = _gate(Instruction.Y, "As X and Z, up to phase.")
    Z = _gate(Instruction.Z, "Changes the sign of 1.")
    T = _gate(Instruction.T, "An eighth of a turn about Z.")
    H = _gate(Instruction.H, "Exchanges the bases of Z and X.")
    K = _gate(Instruction.K, "Exchanges the bases of Z and Y.")
    rot_X = _turn(Instruction.ROT_X, "X")
    rot_Y = _turn(Instruction.ROT_Y, "Y")
    rot_Z = _turn(Instruction.ROT_Z, "Z")
    cnot = _gate_of_two(Instruction.CNOT, "Exchanges 0 and 1 of the target where this qubit is 1.")
    cphase = _gate_of_two(Instruction.CPHASE, "Changes the sign where both qubits are 1.")
    reset = _gate(Instruction.RESET, "Measures the qubit without telling the outcome, and brings it to state 0.")
    release = _gate(Instruction.RELEASE, "Gives the qubit up.")

    def measure(self, inplace: bool = False, notify: bool = True, block: bool = True) -> int | Outcome:
        """The outcome, 0 or 1; in a batch an Outcome that has it once the batch was sent. Then the qubit is gone, unless `inplace`."""
        outcome = Outcome()
        self._do(self._cqc, Instruction.MEASURE_INPLACE if inplace else Instruction.MEASURE, outcome=outcome)
        return outcome if self._cqc.pend_messages else outcome.result()

    def _do(self, cqc: CQCConnection, instruction: Instruction, *, step: int | None = None, extra_id: int | None = None,
            remote: Remote | None = None, outcome: Outcome | None = None) -> None:
        cqc._gather(_Step(Command(instruction, self._check(cqc), step, extra_id, remote), outcome=outcome))

    def _check(self, cqc: CQCConnection) -> int:
        """The qubit's id, where the app of the connection has it."""
        if cqc is not self._cqc:
            raise ValueError(f"a qubit at {self._cqc.name} is used by a connection to {cqc.name} that doesn't have it")
        if self._qID is None or not self.active:
            raise QubitNotActiveError(f"this qubit at {cqc.name}, which had id {self._qID}, was measured, sent or released")
        return self._qID
