#!/usr/bin/env bash
# The Python client and the examples of examples/network, against the built program on loopback.
set -u
top=$(cd "$(dirname "$0")/.." && pwd)
cd "$top" || exit 1

# the most seconds that all cases may take
patience=110

# the program is built before time counts
"$top/qron" pipe </dev/null || exit 1

# the cases and the servers that they started are one group of processes, which ends as a whole
cases=
trap '[ -z "$cases" ] || kill -- "$cases" "-$cases" 2>/dev/null; wait' EXIT
timeout -k 5 $patience python3 -B -m unittest discover -s tests/client &
cases=$!
wait $cases
status=$?
[ $status -eq 0 ] && echo 'client: all cases passed'
exit $status
