#!/bin/sh
# timed.sh CRATE ARGUMENT..: builds a timing crate and runs the Python script on standard input, whose first argument
# is the program and which may use spent.py; the others are passed on.
set -eu
root=$(cd "$(dirname "$0")/.." && pwd)
room=$(mktemp -d)
trap 'rm -rf "$room"' EXIT
crate=$1
shift
(cd "$root/crates/$crate" && rt run >"$room/log" 2>&1) || { cat "$room/log"; exit 1; }
cp "$root/crates/$crate/out/$crate" "$room/$crate"
PYTHONDONTWRITEBYTECODE=1 PYTHONPATH="$root/bench" python3 - "$room/$crate" "$@"
