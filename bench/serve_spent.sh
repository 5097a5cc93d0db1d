#!/bin/sh
# A connection that sends as many bytes as one may, 2^32, and one behind it: answers, record and status, and how long the bytes
# took. It is no case of tests/serve.sh, since so many bytes take too long there.
set -eu
root=$(cd "$(dirname "$0")/.." && pwd)
room=$(mktemp -d)
trap 'rm -rf "$room"' EXIT
"$root/qron" pipe </dev/null

TMPDIR=$room PYTHONDONTWRITEBYTECODE=1 PYTHONPATH="$root/tests/serve" timeout 300 python3 - "$root/qron" <<'PYTHON'
import sys, time
from checks import holds, run, same
from cqc import GENERAL, HELLO, header, message
from server import Server

def spent():
    hello, piece = message(9, b"", HELLO), memoryview(bytes(1 << 20))
    with Server(sys.argv[1], 1, 1, 2) as server:
        began = time.monotonic()
        with server.connect(0) as link:
            left = 2**32 - 8
            link.send(header(HELLO, 9, left))
            while left:
                left -= link.socket.send(piece[:left])
            same("the last answer", header(GENERAL, 9, 0), link.take(8))
            holds("the server closes", link.ended())
        print(f"2^32 bytes of one connection are read in {time.monotonic() - began:.1f} seconds")
        with server.connect(0) as link:
            link.send(hello)
            same("the next connection", hello, link.take(8))
        same("a connection that is spent", (5, ["0 0 0 spent", "0 1 0 clean", "entries 0"], ""), server.finish())

run(spent, limit=280)
PYTHON
