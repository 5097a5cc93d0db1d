#!/bin/sh
# Five servers of 8 nodes and 64 workers, each with 64 connections beside each other in 7 rounds: pairs between all nodes, gates,
# transfers and measurements. Each answer is judged, and so are the record and the memory, with its bounds in tests/serve/load.py.
set -eu
root=$(cd "$(dirname "$0")/.." && pwd)
room=$(mktemp -d)
trap 'rm -rf "$room"' EXIT
"$root/qron" pipe </dev/null
export TMPDIR="$room" PYTHONDONTWRITEBYTECODE=1
timeout 600 python3 "$root/tests/serve/load.py" "$root/qron" 5 7 255 8000
