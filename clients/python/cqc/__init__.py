"""A client for `qron serve` that feels like SimulaQron's CQC library."""

from .errors import (CQCConnectionError, CQCGeneralError, CQCInuseError, CQCNoQubitError, CQCTimeoutError, CQCUnknownError,
                     CQCUnknownQubitError, CQCUnsuppError, QubitNotActiveError)
from .network import Network
from .pythonLib import CQCConnection, EntInfo, Outcome, qubit

__all__ = ["CQCConnection", "qubit", "Outcome", "EntInfo", "Network", "CQCConnectionError", "CQCGeneralError", "CQCInuseError",
           "CQCNoQubitError", "CQCTimeoutError", "CQCUnknownError", "CQCUnknownQubitError", "CQCUnsuppError", "QubitNotActiveError"]
