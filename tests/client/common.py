"""What the cases share: where things are, runs of the program, and servers."""

import subprocess
import sys
import unittest
from pathlib import Path

TOP = Path(__file__).resolve().parents[2]
NETWORK = TOP / "examples" / "network"
sys.path[:0] = [str(NETWORK), str(TOP / "clients" / "python")]

from cqc import CQCConnection  # noqa: E402
from cqc.messages import HEADER_BYTES, Reply, decode_header, decode_reply  # noqa: E402
from served import Server  # noqa: E402

# the most seconds that one answer or one command may take
PATIENCE = 30


def run(*words: str | Path, stdin: bytes = b"") -> bytes:
    """What a command prints, whose status is 0."""
    return subprocess.run(words, input=stdin, stdout=subprocess.PIPE, check=True, timeout=PATIENCE).stdout


def decode_all(data: bytes) -> list[tuple[int, Reply]]:
    """All replies of a stream, each with its app."""
    replies = []
    while data:
        kind, app_id, length = decode_header(data[:HEADER_BYTES])
        end = HEADER_BYTES + length
        replies.append((app_id, decode_reply(kind, data[HEADER_BYTES:end])))
        data = data[end:]
    return replies


class ServedCase(unittest.TestCase):
    """A case that has servers, which end with it."""

    def serve(self, *names: str, **keys: int) -> Server:
        server = Server(*names, **keys)
        self.addCleanup(server.stop)
        return server

    def connect(self, server: Server, name: str, app_id: int | None = None, timeout: float = PATIENCE) -> CQCConnection:
        connection = CQCConnection(name, appID=app_id, network=server.network, timeout=timeout)
        self.addCleanup(connection.close, release_qubits=False)
        return connection
