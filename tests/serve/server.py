"""A running `qron serve`, and connections to it."""
import ctypes
import random
import resource
import signal
import socket
import struct
import subprocess
import tempfile
import time

from checks import children
from cqc import Wrong

SEED = "00112233445566778899aabbccddeeff102132435465768798a9bacbdcedfe0f"

# seconds until a node must listen, an answer be there, or the server have ended
PATIENCE = 20


def free_ports(count):
    """Ports of 127.0.0.1 at which nobody listens, below those that the system gives to clients."""
    taken = []
    for port in random.sample(range(10_000, 30_000), 1000):
        door = socket.socket()
        try:
            door.bind(("127.0.0.1", port))
            taken.append(door)
        except OSError:
            door.close()
        if len(taken) == count:
            break
    ports = [door.getsockname()[1] for door in taken]
    for door in taken:
        door.close()
    return ports


def settings(ports, **keys):
    """The text of settings; the seed is the same in all of them."""
    lines = [f'seed = "{SEED}"'] + [f"{key} = {value}" for key, value in keys.items()]
    for port in ports:
        lines += ["[[node]]", 'address = "127.0.0.1"', f"port = {port}"]
    return "\n".join(lines) + "\n"


# files and sockets that a server may have at once: enough for 64 workers, and too few to keep those of ended connections
FILES = 256


def die_with_parent():
    """Done by a program before it runs, so that it doesn't outlive a run of cases that is killed."""
    ctypes.CDLL(None).prctl(1, signal.SIGKILL)
    resource.setrlimit(resource.RLIMIT_NOFILE, (FILES, FILES))


def start(program, text, output=subprocess.PIPE, errors=subprocess.PIPE):
    """The program, which serves by settings of this text."""
    with tempfile.NamedTemporaryFile("w", suffix=".toml", delete=False) as file:
        file.write(text)
    child = subprocess.Popen(
        [program, "serve", file.name],
        stdin=subprocess.DEVNULL,
        stdout=output,
        stderr=errors,
        preexec_fn=die_with_parent,
    )
    children.append(child)
    return child


def finish(child):
    """Status, output and complaint of a program that ends by itself."""
    try:
        said, complained = child.communicate(timeout=PATIENCE)
    except subprocess.TimeoutExpired:
        child.kill()
        child.communicate()
        raise Wrong("the server didn't end")
    finally:
        children.remove(child)
    return child.returncode, (said or b"").decode(), (complained or b"").decode()


class Server:
    """A server with nodes on free ports."""

    def __init__(self, program, nodes, workers, connections, **keys):
        self.nodes, self.workers, self.connections = nodes, workers, connections
        self.ports = free_ports(nodes)
        self.child = start(program, settings(self.ports, workers=workers, connections=connections, **keys))

    def __enter__(self):
        return self

    def __exit__(self, *_):
        if self.child in children:
            self.child.kill()
            self.child.communicate()
            children.remove(self.child)

    def connect(self, node, **kept):
        return Link(self.ports[node], self.child, **kept)

    def finish(self):
        """Status, lines of the record and complaint."""
        status, said, complained = finish(self.child)
        return status, said.splitlines(), complained

    def memory(self):
        """The most memory that it had, in kB."""
        with open(f"/proc/{self.child.pid}/status") as file:
            return next(int(line.split()[1]) for line in file if line.startswith("VmHWM"))

    def all_clean(self, entries):
        """What a server prints whose connections all ended well."""
        seats = self.nodes * self.workers
        lines = [f"{seat} {serial} {seat // self.workers} clean" for seat in range(seats) for serial in range(self.connections)]
        return 0, lines + [f"entries {entries}"], ""


class Link:
    """A connection to a port of a server. It tries again, for a bounded time, while nobody listens there."""

    def __init__(self, port, child, room=None):
        end = time.monotonic() + PATIENCE
        while True:
            self.socket = socket.socket()
            self.socket.settimeout(PATIENCE)
            if room is not None:
                self.socket.setsockopt(socket.SOL_SOCKET, socket.SO_RCVBUF, room)
            try:
                self.socket.connect(("127.0.0.1", port))
                break
            except ConnectionRefusedError:
                self.socket.close()
                if child.poll() is not None or time.monotonic() > end:
                    raise
                time.sleep(0.01)
        self.socket.setsockopt(socket.IPPROTO_TCP, socket.TCP_NODELAY, 1)

    def __enter__(self):
        return self

    def __exit__(self, *_):
        self.close()

    def send(self, data):
        self.socket.sendall(data)

    def take(self, size):
        """So many bytes of answers, or fewer where they end."""
        got = bytearray()
        while len(got) < size:
            piece = self.socket.recv(min(size - len(got), 1 << 20))
            if not piece:
                break
            got += piece
        return bytes(got)

    def read(self, made, known):
        """Reads and judges the answer to a message."""
        made.judge(self.take(len(made.wanted)), known)

    def ask(self, made, known):
        """Sends a message, and reads and judges its answer."""
        self.send(made.sent)
        self.read(made, known)

    def silent(self, seconds):
        """Whether nothing comes for so long."""
        self.socket.settimeout(seconds)
        try:
            self.socket.recv(1)
            return False
        except socket.timeout:
            return True
        finally:
            self.socket.settimeout(PATIENCE)

    def ended(self):
        """Whether the other side has closed, and nothing is left to be read."""
        try:
            return self.socket.recv(1) == b""
        except ConnectionResetError:
            return True

    def half_close(self):
        self.socket.shutdown(socket.SHUT_WR)

    def close(self):
        self.socket.close()

    def reset(self):
        """Closes so that the other side is told of a failure."""
        self.socket.setsockopt(socket.SOL_SOCKET, socket.SO_LINGER, struct.pack("ii", 1, 0))
        self.socket.close()
