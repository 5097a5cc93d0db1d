"""What the examples share: it lets Python find the client, and starts `qron serve` where no server's settings are given."""

import argparse
import random
import socket
import subprocess
import sys
import tempfile
from contextlib import ExitStack, contextmanager, suppress
from pathlib import Path
from typing import Iterator

TOP = Path(__file__).resolve().parents[2]
sys.path.insert(0, str(TOP / "clients" / "python"))

from cqc import Network  # noqa: E402


def free_ports(count: int) -> list[int]:
    """Different ports of 127.0.0.1 on which nobody listens, nor on those for classical messages."""
    ports: list[int] = []
    with ExitStack() as doors:
        for port in random.SystemRandom().sample(range(10_000, 30_000), 1000):
            with suppress(OSError):
                for each in port, port + 1000:
                    doors.enter_context(socket.create_server(("127.0.0.1", each)))
                ports.append(port)
            if len(ports) == count:
                return ports
    raise OSError("too few ports are free")


class Server:
    """`qron serve` as a child process, with a node for each name on a free port. The keywords are further keys of the settings."""

    def __init__(self, *names: str, seed: int = 0, **keys: int) -> None:
        lines = [f'seed = "{seed:064x}"', *(f"{key} = {value}" for key, value in keys.items())]
        for port in free_ports(len(names)):
            lines += ["[[node]]", 'address = "127.0.0.1"', f"port = {port}"]
        # the program is built before time counts
        subprocess.run([TOP / "qron", "pipe"], stdin=subprocess.DEVNULL, check=True)
        self._file = tempfile.NamedTemporaryFile("w", suffix=".toml")
        self._file.write("\n".join(lines) + "\n")
        self._file.flush()
        self.settings = self._file.name
        self.network = Network.from_settings(self.settings, names)
        self.process = subprocess.Popen([TOP / "qron", "serve", self.settings], stdin=subprocess.DEVNULL, stdout=subprocess.PIPE, text=True)

    def finish(self) -> list[str]:
        """The lines that the server prints at its end, once it has served all its connections."""
        lines = self.process.communicate(timeout=10)[0].splitlines()
        if self.process.returncode != 0:
            raise RuntimeError(f"qron serve ended with status {self.process.returncode}: {lines}")
        return lines

    def stop(self) -> None:
        self.process.kill()
        self.process.wait()
        self.process.stdout.close()
        self._file.close()


@contextmanager
def served(*names: str) -> Iterator[Network]:
    """A network whose nodes have these names: that of the settings in the words of the command, or one that is served for this run."""
    words = argparse.ArgumentParser(description=sys.modules["__main__"].__doc__)
    words.add_argument("--settings", metavar="FILE", help="the settings of a qron serve that runs; without them one is started")
    words.add_argument("--seed", type=int, default=0, help="a number that decides all outcomes of the one that is started")
    given = words.parse_args()
    if given.settings is not None:
        yield Network.from_settings(given.settings, names)
        return
    server = Server(*names, seed=given.seed, workers=1, connections=1)
    try:
        yield server.network
        lines = server.finish()
        print(f"(qron serve executed {lines[-1].split()[1]} commands, and its {len(lines) - 1} connections ended clean.)")
    finally:
        server.stop()
