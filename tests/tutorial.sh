#!/usr/bin/env bash
# Runs the commands of docs/TUTORIAL.md at the repository's top, and compares what they print with what stands below them.
# In a fenced block a command begins with `$ `; what both streams print follows, up to the next command or the block's end.
# A server runs beside the commands that follow it, and what it printed is compared at the page's end.
set -u
top=$(cd "$(dirname "$0")/.." && pwd)
room=$(mktemp -d)
server= running=
# `timeout` passes a signal on to all that it started
trap 'kill $server $running 2>/dev/null; wait; rm -rf "$room"' EXIT
cd "$top" || exit 1
failed=0 count=0 fenced=0 command=

# the most seconds that a server or a command may run
patience=100

# same COMMAND WANT GOT: compares two files
same() {
    count=$((count + 1))
    cmp -s "$2" "$3" && return
    echo "\$ $1" >&2
    diff "$2" "$3" >&2
    failed=1
}

# checks the command whose wanted output was gathered
compare() {
    case $command in
        '') return ;;
        './qron serve '*)
            cp "$room/want" "$room/want_served"
            served=$command
            timeout $patience bash -c "exec $command" </dev/null >"$room/served" 2>&1 &
            server=$! ;;
        *)
            # in the background, so that a signal is heeded at once
            timeout $patience bash -c "$command" </dev/null >"$room/got" 2>&1 &
            running=$!
            wait $running
            running=
            same "$command" "$room/want" "$room/got" ;;
    esac
    command=
}

./qron pipe </dev/null || exit 1
while IFS= read -r line <&3; do
    case $fenced$line in
        0'```'*) fenced=1 ;;
        1'```'*) fenced=0; compare ;;
        1'$ '*) compare; command=${line#'$ '}; : >"$room/want" ;;
        1*) [ -z "$command" ] || printf '%s\n' "$line" >>"$room/want" ;;
    esac
done 3<docs/TUTORIAL.md

if [ -n "$server" ]; then
    wait "$server"
    server=
    same "$served" "$room/want_served" "$room/served"
fi

[ $count -gt 0 ] || { echo 'tutorial: no command was found' >&2; failed=1; }
[ $failed -eq 0 ] && echo "tutorial: all $count commands print what it says"
exit $failed
