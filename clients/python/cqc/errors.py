"""What goes wrong, as exceptions with SimulaQron's names."""

from typing import Sequence

from .messages import Command, Type


class CQCGeneralError(Exception):
    """The node refused a command by GENERAL; and the base of the errors below, as in SimulaQron's library.

    `command` is the refused command. Replies don't say which of a batch it was, only that it was behind the last one that was answered:
    `commands` are those that can have been refused so, and `command` is None where they are several."""

    said = "its place is unknown or the node's own, its group of qubits would be too large, or the journal is full"

    def __init__(self, text: str = "", commands: Sequence[Command] = ()) -> None:
        super().__init__(text)
        self.commands = tuple(commands)
        self.command = self.commands[0] if len(self.commands) == 1 else None


class CQCNoQubitError(CQCGeneralError):
    said = "the node or the remote node has no room for a further qubit"


class CQCUnsuppError(CQCGeneralError):
    said = "turns are by eighths, so by steps that 32 divides, and a gate of two takes different qubits"


class CQCTimeoutError(CQCGeneralError):
    said = "no qubit came while the node waited"


class CQCInuseError(CQCGeneralError):
    said = "in use"


class CQCUnknownQubitError(CQCGeneralError):
    said = "the app has no such qubit at the node"


class QubitNotActiveError(CQCGeneralError):
    """The program used a qubit that was measured, sent or released. Nothing was sent to the node."""


class CQCConnectionError(ConnectionError):
    """The node can't be reached, went away, was silent for too long, or answered what is no reply. The connection is closed."""


# SimulaQron's name of it
CQCUnknownError = CQCUnknownQubitError

ERRORS = {
    Type.ERR_GENERAL: CQCGeneralError, Type.ERR_NOQUBIT: CQCNoQubitError, Type.ERR_UNSUPP: CQCUnsuppError,
    Type.ERR_TIMEOUT: CQCTimeoutError, Type.ERR_INUSE: CQCInuseError, Type.ERR_UNKNOWN: CQCUnknownQubitError,
}


def refusal(error: Type, commands: Sequence[Command]) -> CQCGeneralError:
    """The exception of an error for the commands that can have been refused by it."""
    named = ", ".join(map(str, commands[:8])) + (", .." if len(commands) > 8 else "")
    which = f"one of {named}" if len(commands) > 1 else named or "the message"
    return ERRORS[error](f"{which} was refused by {error.name.removeprefix('ERR_')}: {ERRORS[error].said}", commands)
