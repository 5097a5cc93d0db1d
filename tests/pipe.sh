#!/usr/bin/env bash
# The built program on the pipe: words, bytes and statuses.
set -u
top=$(cd "$(dirname "$0")/.." && pwd)
room=$(mktemp -d)
trap 'rm -rf "$room"' EXIT
failed=0

bytes() { printf '%b' "$(sed 's/../\\x&/g' <<<"$1")"; }
hex() { od -An -v -tx1 "$1" | tr -d ' \n'; }

# expect NAME STATUS OUTPUT COMPLAINT INPUT WORDS..: output and input in hexadecimal
expect() {
    local name=$1 status=$2 output=$3 complaint=$4 input=$5 got
    shift 5
    bytes "$input" | "$top/qron" "$@" >"$room/out" 2>"$room/err"
    got="${PIPESTATUS[1]} $(hex "$room/out") $(cat "$room/err")"
    if [ "$got" != "$status $output $complaint" ]; then
        echo "$name: want $status $output $complaint, got $got" >&2
        failed=1
    fi
}

"$top/qron" pipe </dev/null || exit 1
hello=0200000700000000
new=020a0000000000020000

expect 'HELLO' 0 $hello '' $hello pipe
expect 'NEW, H and MEASURE draw the first word' 0 ${new}020700000000000100 '' \
    020100000000000c000001000000110000000200 pipe
expect 'DONE follows a NOTIFY' 0 ${new}0204000000000000 '' 020100000000000400000105 pipe
expect 'ALLOCATE makes qubits, and DONE follows a NOTIFY' 0 "${new}020a0000000000020001020a00000000000200020204000000000000" '' \
    020100000000000400031601 pipe
expect 'FACTORY repeats its commands, and DONE follows its own NOTIFY' 0 "${new}020a00000000000200010204000000000000" '' \
    0202000000000006020100000100 pipe
expect 'FACTORY that repeats nothing is done' 0 0204000000000000 '' 0202000000000006000100000100 pipe
expect 'FACTORY without its options' 0 0214000000000000 '' 020200000000000102 pipe
expect 'another type' 0 0216000000000000 '' 0208000000000000 pipe
expect 'a header cut short' 5 '' '' 020100 pipe
expect 'a body cut short' 5 $hello '' ${hello}020100000000000c0000010000 pipe
expect 'no word' 2 '' 'qron: words' $hello
expect 'an unknown word' 2 '' 'qron: words' $hello dance
expect 'a word too many' 2 '' 'qron: words' $hello pipe x y
expect 'no help' 2 '' 'qron: words' $hello --help

# so many times the same bytes
repeat() { local text; text=$(printf "%$2s"); printf '%s' "${text// /$1}"; }

# a qubit of size 2^59: T is done and H is refused with GENERAL; the way back shows that the refused H changed nothing
expect 'a refused gate changes nothing' 0 ${new}0214000000000000020700000000000100 '' \
    "02010000000003b00000010000001100$(repeat 00000d0000001100 117)0201000000000421$(repeat 00001000e000001100 117)00000200" pipe

# H and CNOT make pairs; the first words on them lie above and below one half, so one pair gives 0 twice and the next 1 twice
second=020a0000000000020001
outcome=0207000000000001
bell=020100000000001a0000010000000100000011000000140000010000020000010200
expect 'both qubits of a Bell pair have one outcome' 0 \
    ${new}${second}${outcome}00${outcome}00${new}${second}${outcome}01${outcome}01 '' $bell$bell pipe

# there is no node at port 8822; the qubit is still held afterwards
expect 'SEND to an unknown place is refused with GENERAL' 0 ${new}0214000000000000${outcome}00 '' \
    02010000000000100000010000000501000022767f000001020100000000000400000200 pipe

# the examples, of app 7, as README shows them
hello_7=0200000700000000
new_7=020a0007000000020000
second_7=020a0007000000020001
outcome_7=0207000700000001
done_7=0204000700000000
expect 'examples/measure.cqc' 0 ${hello_7}${new_7}${outcome_7}00${done_7} '' "$(hex "$top/examples/measure.cqc")" pipe
expect 'examples/bell.cqc' 0 \
    ${hello_7}${new_7}${second_7}${outcome_7}00${outcome_7}00${new_7}${second_7}${outcome_7}01${outcome_7}01${done_7} '' \
    "$(hex "$top/examples/bell.cqc")" pipe

# fault NAME: what stands in $room/got is a fault's status, and one complaint
fault() { [ "$(cat "$room/got")" = '4 qron: fault' ] || { echo "$1: got $(cat "$room/got")" >&2; failed=1; }; }

# an output that is closed, or full
bytes $hello | { "$top/qron" pipe >&- 2>"$room/err"; echo "$? $(cat "$room/err")" >"$room/got"; }
fault 'closed output'
bytes $hello | { "$top/qron" pipe >/dev/full 2>"$room/err"; echo "$? $(cat "$room/err")" >"$room/got"; }
fault 'full output'

# 65,536 commands that are refused fill the journal; the next one ends the session with GENERAL
bytes 020100000000000400001100 >"$room/one"
for _ in {1..17}; do
    cat "$room/one" "$room/one" >"$room/two"
    mv "$room/two" "$room/one"
done
"$top/qron" pipe <"$room/one" >"$room/out" 2>"$room/err"
got="$? $(wc -c <"$room/out") $(tail -c 16 "$room/out" | od -An -v -tx1 | tr -d ' \n') $(cat "$room/err")"
[ "$got" = '5 524296 02190000000000000214000000000000 ' ] || { echo "full journal: got $got" >&2; failed=1; }

# the same where the output takes 512 KiB, which is all but the last reply: sending what was gathered at the end fails
(
    ulimit -f 512
    trap '' XFSZ
    "$top/qron" pipe <"$room/one" >"$room/out" 2>"$room/err"
    echo "$? $(cat "$room/err")" >"$room/got"
)
fault 'full output at the end'

# from another folder
(cd / && bytes $hello | "$top/qron" pipe >"$room/out")
[ "$(hex "$room/out")" = $hello ] || { echo 'from another folder' >&2; failed=1; }

[ $failed -eq 0 ] && echo 'pipe: all cases passed'
exit $failed
