#!/usr/bin/env bash
# The built program answers each message before it waits for the next, also where part of a further message is there.
set -u
top=$(cd "$(dirname "$0")/.." && pwd)
failed=0

# the most seconds that an answer may take
patience=10

bytes() { printf '%b' "$(sed 's/../\\x&/g' <<<"$1")"; }

# expect NAME REPLY MESSAGE: the message is sent, and the reply read before anything else is sent; both in hexadecimal
expect() {
    local name=$1 reply=$2 got
    bytes "$3" >&4
    got=$(timeout $patience dd bs=1 count=$((${#reply} / 2)) status=none <&3 | od -An -v -tx1 | tr -d ' \n')
    [ "$got" = "$reply" ] || { echo "$name: want $reply, got $got" >&2; failed=1; }
}

# the program is built before time counts
"$top/qron" pipe </dev/null || exit 1
coproc PIPE { exec timeout $((6 * patience)) "$top/qron" pipe; }
program=$PIPE_PID
# bash keeps a coprocess's own ends from its subshells
exec 3<&"${PIPE[0]}" 4>&"${PIPE[1]}"

hello=0200000700000000
outcome=0207000000000001
expect 'HELLO' $hello $hello
expect 'NEW' 020a0000000000020000 020100000000000400000100
expect 'X and MEASURE' ${outcome}01 020100000000000800000a0000000200
expect 'behind part of a header' $hello ${hello}020100
expect 'behind part of a body' 020a0000000000020000 00000000040000010002010000000000040000
expect 'the rest of that body' 0204000000000000 0a01

eval "exec 4>&- ${PIPE[1]}>&-"
wait "$program"
status=$?
[ $status -eq 0 ] || { echo "at the end: status $status" >&2; failed=1; }

[ $failed -eq 0 ] && echo 'waits: all cases passed'
exit $failed
