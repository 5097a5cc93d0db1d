#!/usr/bin/env bash
# The built program as a server: words and settings, a teleportation by talks, and the cases of tests/serve.
set -u
top=$(cd "$(dirname "$0")/.." && pwd)
room=$(mktemp -d)
failed=0

# all that was started is ended, and what it left is removed
stop() {
    local job
    for job in $(jobs -p); do
        kill "$job" 2>/dev/null
    done
    wait
    rm -rf "$room"
}
trap stop EXIT
trap 'exit 130' INT TERM
cd "$room" || exit 1

# files of the cases go to this folder too
export TMPDIR=$room PYTHONDONTWRITEBYTECODE=1 PYTHONPATH=$top/tests/serve

# same NAME WANT GOT
same() { [ "$2" = "$3" ] || { printf '%s:\nwant %s\ngot  %s\n' "$1" "$2" "$3" >&2; failed=1; }; }

# expect NAME STATUS COMPLAINT WORDS..: with nothing on standard output
expect() {
    local name=$1 want="$2  [$3]" status
    shift 3
    timeout 20 "$top/qron" "$@" </dev/null >out 2>err
    status=$?
    same "$name" "$want" "$status $(cat out) [$(cat err)]"
}

# the program is built before time counts
"$top/qron" pipe </dev/null || exit 1

# ---- words and settings
read -r near far < <(python3 -c 'import server; print(*server.free_ports(2))')
cat >settings <<TOML
seed = "0000000000000000000000000000000000000000000000000000000000000003"
patience = 1000
wait_ms = 10
workers = 2
connections = 2

[[node]]
address = "127.0.0.1"
port = $near

[[node]]
address = "127.0.0.1"
port = $far
TOML
expect 'serve wants settings' 2 'qron: words' serve
expect 'a word too many' 2 'qron: words' serve settings settings
sed "s/$far/$near/" settings >'one place twice'
sed 's/workers = 2/workers = 9/' settings >'nine workers'
sed 's/connections = 2/connections = 65/' settings >'65 connections'
{ echo 'journal = 1048577'; cat settings; } >'a journal too large'
for name in 'one place twice' 'nine workers' '65 connections' 'a journal too large'; do
    expect "$name" 1 'qron: settings' serve "$name"
done
expect 'no file' 4 'qron: fault' serve no_such_file

# ---- talks with two nodes
# talk NAME PORT: talks by the script of that name; while nobody listens it is tried again, for a bounded time
talk() {
    local status
    for _ in {1..200}; do
        timeout 20 "$top/qron" talk 127.0.0.1 "$2" "$1.script" >"$1.out" 2>"$1.err"
        status=$?
        [ "$status $(wc -c <"$1.out")" = '4 0' ] || break
        sleep 0.05
    done
    echo "$status [$(cat "$1.err")]" >"$1.status"
}

# talked NAME WANT: what the talk of that name printed, with status 0
talked() { same "talk: $1" "0 [] $2" "$(cat "$1.status") $(cat "$1.out")"; }

# script NAME LINE..
script() {
    local name=$1
    shift
    printf '%s\n' "$@" >"$name.script"
}

timeout 60 "$top/qron" serve settings </dev/null >record 2>complaint &
server=$!

# the receiver of a teleportation asks before the pair is made
script receiver 'app 2' eprrecv go
talk receiver "$far" &
asked=$!
sleep 0.3
same 'the receiver waits' '' "$(cat receiver.out 2>/dev/null)"
sed "s/8822/$far/" "$top/examples/teleport.script" >sender.script
talk sender "$near"
wait $asked
talked receiver 'epr 0 0
done'
z=$(sed -n 's/^out //p' sender.out | sed -n 1p)
x=$(sed -n 's/^out //p' sender.out | sed -n 2p)
talked sender "new 0
epr 1 0
out $z
out $x
done"
# X and Z by the two outcomes, and then what undoes T and H: the qubit that was sent is 0 again
{ echo 'app 2'; [ "$x" = 0 ] || echo 'x 0'; [ "$z" = 0 ] || echo 'z 0'; printf '%s\n' 'rotz 0 224' 'h 0' 'measure 0' go; } >corrector.script
talk corrector "$far"
talked corrector 'out 0
done'

# a qubit is sent to one who waits for it
script taker 'app 2' recv 'measure 0' go
talk taker "$far" &
asked=$!
script giver 'app 1' new 'x 0' "send 0 2 127.0.0.1 $far" go
talk giver "$near"
wait $asked
talked giver 'new 0
done'
talked taker 'recv 0
out 1
done'

# both halves of a pair have one outcome, turned or not
script second 'app 4' eprrecv 'h 0' 'measure 0' go
talk second "$far" &
asked=$!
script first 'app 3' "epr 0 4 127.0.0.1 $far" 'h 0' 'measure 0' go
talk first "$near"
wait $asked
same 'both halves' "$(cat first.out)" "$(cat second.out)"
talked first "epr 0 1
out $(sed -n 's/^out \([01]\)$/\1/p' first.out)
done"

script greeting hello
talk greeting "$near"
talked greeting hello
wait $server
same 'the server of the talks' "0 [] 0 0 0 clean
0 1 0 clean
1 0 0 clean
1 1 0 clean
2 0 1 clean
2 1 1 clean
3 0 1 clean
3 1 1 clean
entries $((23 + x + z))" "$? [$(cat complaint)] $(cat record)"

# ---- cases with many connections
# cases NAME WORD..: the cases of a file, in the background, so that a signal is heeded at once
cases() {
    local name=$1
    shift
    python3 "$top/tests/serve/$name.py" "$top/qron" "$@" >said &
    wait $! || { cat said >&2; echo "serve: cases of $name failed" >&2; failed=1; }
}
cases endings
cases terminal
cases peers
cases circuits
cases load 1 2 40 1000

[ $failed -eq 0 ] && echo 'serve: all cases passed'
exit $failed
