"""Sockets with bounded waits."""

import socket
import time

from .errors import CQCConnectionError
from .messages import HEADER_BYTES, Reply, decode_header, decode_reply

Address = tuple[str, int]


def connect(place: Address, patience: float, pause: float) -> socket.socket:
    """A connection to that place, which is tried every `pause` seconds for `patience` seconds, since a server may just be starting.
    Raises CQCConnectionError."""
    end = time.monotonic() + patience
    while True:
        try:
            return socket.create_connection(place, timeout=max(patience, 1.0))
        except OSError as error:
            if time.monotonic() + pause > end:
                raise CQCConnectionError(f"no connection to {place[0]} port {place[1]}: {error}") from None
        time.sleep(pause)


class Link:
    """One connection to a node. Every fault closes it, and is a CQCConnectionError."""

    def __init__(self, place: Address, timeout: float, patience: float, pause: float) -> None:
        self._place = place
        self._socket = connect(place, patience, pause)
        self._socket.setsockopt(socket.IPPROTO_TCP, socket.TCP_NODELAY, 1)
        self._socket.settimeout(timeout)
        self._source = self._socket.makefile("rb")
        self.is_open = True

    def close(self) -> None:
        self.is_open = False
        self._source.close()
        self._socket.close()

    def fault(self, text: str) -> CQCConnectionError:
        """Closes the link, and gives the exception that says so."""
        self.close()
        return CQCConnectionError(f"the node at {self._place[0]} port {self._place[1]} {text}")

    def send(self, data: bytes) -> None:
        if not self.is_open:
            raise self.fault("has no open connection any more")
        try:
            self._socket.sendall(data)
        except OSError as error:
            raise self.fault(f"went away: {error}") from None

    def receive(self, app_id: int) -> Reply:
        """The next reply, which is for this app."""
        try:
            kind, app, length = decode_header(self._read(HEADER_BYTES))
            if app != app_id:
                raise ValueError(f"{kind.name} for app {app}")
            return decode_reply(kind, self._read(length))
        except ValueError as error:
            raise self.fault(f"answered what is no reply: {error}") from None

    def _read(self, count: int) -> bytes:
        try:
            data = self._source.read(count)
        except TimeoutError as error:
            raise self.fault("didn't answer in time; each of its workers may be busy with another connection") from None
        except OSError as error:
            raise self.fault(f"went away: {error}") from None
        if len(data) < count:
            raise self.fault("went away")
        return data
