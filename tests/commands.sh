#!/usr/bin/env bash
# The built program's commands: words, files, statuses, what is printed, and the line of a complaint.
set -u
top=$(cd "$(dirname "$0")/.." && pwd)
room=$(mktemp -d)
trap 'rm -rf "$room"' EXIT
cd "$room" || exit 1
failed=0

bytes() { printf '%b' "$(sed 's/../\\x&/g' <<<"$1")"; }
hex() { od -An -v -tx1 "$1" | tr -d ' \n'; }

# same NAME WANT GOT
same() { [ "$2" = "$3" ] || { printf '%s:\nwant %s\ngot  %s\n' "$1" "$2" "$3" >&2; failed=1; }; }

# expect NAME STATUS OUTPUT COMPLAINT WORDS..: with no input
expect() {
    local name=$1 want="$2 $3 [$4]" status
    shift 4
    "$top/qron" "$@" </dev/null >out 2>err
    status=$?
    same "$name" "$want" "$status $(cat out) [$(cat err)]"
}

"$top/qron" pipe </dev/null || exit 1

# ---- words
expect 'no word' 2 '' 'qron: words'
expect 'an unknown word' 2 '' 'qron: words' dance
expect 'no help' 2 '' 'qron: words' --help
expect 'a flag behind a command' 2 '' 'qron: words' pipe --help
expect 'a word too many' 2 '' 'qron: words' pipe a b
expect 'replay wants two files' 2 '' 'qron: words' replay a
expect 'serve wants a file' 2 '' 'qron: words' serve
expect 'serve wants one file' 2 '' 'qron: words' serve a b
expect 'drill wants a number' 2 '' 'qron: words' drill
expect 'no round' 2 '' 'qron: words' drill 0
expect 'too many rounds' 2 '' 'qron: words' drill 100001
expect 'a sign' 2 '' 'qron: words' drill +3
expect 'leading zeros' 2 '' 'qron: words' drill 003
expect 'talk wants an address' 2 '' 'qron: words' talk localhost 8821 script
expect 'an address with a leading zero' 2 '' 'qron: words' talk 127.0.0.01 8821 script
expect 'talk wants a port' 2 '' 'qron: words' talk 127.0.0.1 0 script
expect 'a port too large' 2 '' 'qron: words' talk 127.0.0.1 65536 script
expect 'a word that is no text' 2 '' 'qron: words' pipe $'\xff'

# ---- settings
cat >settings <<'TOML'
seed = "0000000000000000000000000000000000000000000000000000000000000000"
limit = 12
room = 16
workers = 2
connections = 8

[[node]]
address = "127.0.0.1"
port = 8821

[[node]]
address = "127.0.0.1"
port = 8822
TOML
hello=0200000700000000
bytes $hello | "$top/qron" pipe settings >out 2>err
same 'settings are taken' "0 $hello []" "${PIPESTATUS[1]} $(hex out) [$(cat err)]"
bytes $hello | "$top/qron" pipe "$top/examples/two_nodes.toml" >out 2>err
same 'examples/two_nodes.toml' "0 $hello []" "${PIPESTATUS[1]} $(hex out) [$(cat err)]"

# refused NAME: the settings in the file of that name are refused, by each command that takes some
refused() {
    expect "pipe: $1" 1 '' 'qron: settings' pipe "$1"
    expect "replay: $1" 1 '' 'qron: settings' replay "$1" no_such_schedule
    expect "serve: $1" 1 '' 'qron: settings' serve "$1"
}
sed /seed/d settings >'no seed'
sed 's/limit = 12/limit = 13/' settings >'a limit of 13'
sed s/8822/8821/ settings >'one place twice'
{ echo 'colour = 1'; cat settings; } >'a strange key'
echo 'seed' >'no TOML'
: >'nothing'
for name in 'no seed' 'a limit of 13' 'one place twice' 'a strange key' 'no TOML' 'nothing'; do
    refused "$name"
done

# ---- replay
# replayed NAME STATUS OUTPUT COMPLAINT SCHEDULE
replayed() {
    printf '%s\n' "$5" >schedule
    expect "$1" "$2" "$3" "$4" replay settings schedule
}
replayed 'HELLO' 0 "0 clean $hello" '' "c 0 100 $hello
s 0 1"
replayed 'no connection' 0 '' '' '# none'
replayed 'no byte' 0 '0 clean -' '' 'c 1 0 -'
replayed 'a header cut short' 5 '0 cut -' '' 'c 0 100 020100'
replayed 'a room too small' 4 '0 writefault 020000' 'qron: fault' "c 0 3 $hello"
replayed 'an unknown node' 1 '' 'qron: schedule line 1' 'c 2 100 -'
replayed 'the first line that is refused' 1 '' 'qron: schedule line 3' "# a comment
c 0 100 -
s 1 1
x"
pair=020600000000002a00007f000001227500007f0000012276000000000000000000000000000000000000000000000000000002070000000000010
expect 'examples/pair.schedule' 0 "0 clean ${pair}0
1 clean ${pair}0" '' replay "$top/examples/two_nodes.toml" "$top/examples/pair.schedule"
expect 'settings are read before the schedule' 1 '' 'qron: settings' replay nothing no_such_schedule
echo 'c 0 100 0201000000000008 0000' >schedule
expect 'a word too many in a line' 1 '' 'qron: schedule line 1' replay settings schedule
{ echo 'journal = 1'; cat settings; } >'a journal of 1'
echo 'c 0 100 02010000000000080000010000001101' >schedule
expect 'a full journal' 5 '0 full 020a00000000000200000214000000000000' '' replay 'a journal of 1' schedule

# ---- serve
# a port that another program has
python3 - <<'PYTHON' &
import os, socket, time
server = socket.create_server(("127.0.0.1", 0))
with open("taken.new", "w") as file:
    file.write(str(server.getsockname()[1]))
os.rename("taken.new", "taken")
while not os.path.exists("tried"):
    time.sleep(0.01)
PYTHON
until [ -e taken ]; do sleep 0.01; done
sed "s/8822/$(cat taken)/" settings >'a port that is taken'
expect 'a port that is taken' 4 '' 'qron: fault' serve 'a port that is taken'
: >tried
wait

# ---- talk
# served COMMAND SCRIPT: talks by the script to a server of one connection, on which the command reads and writes
served() {
    printf '%s\n' "$2" >script
    python3 - "$1" port <<'PYTHON' &
import os, socket, subprocess, sys
command, port = sys.argv[1:]
server = socket.create_server(("127.0.0.1", 0))
with open("port.new", "w") as file:
    file.write(str(server.getsockname()[1]))
os.rename("port.new", port)
link, _ = server.accept()
subprocess.run(["bash", "-c", command], stdin=link, stdout=link)
PYTHON
    while [ ! -e port ]; do sleep 0.05; done
    timeout 20 "$top/qron" talk 127.0.0.1 "$(cat port)" script >out 2>err
    echo "$? $(cat out) [$(cat err)]" >got
    kill $! 2>/dev/null
    wait
    rm port
}
served "exec '$top/qron' pipe" 'app 7
hello
new
x 0
measure 0
go'
same 'talk to a node' '0 hello
new 0
out 1
done []' "$(cat got)"
served "exec '$top/qron' pipe" 'x 0
go
hello'
same 'after an error the next message is sent' '0 error 25
hello []' "$(cat got)"
served 'head -c 8 >/dev/null' hello
same 'a node that ends without an answer' '5  []' "$(cat got)"
served "printf '\\1'; printf '%b' '$(printf '\\0%.0s' {1..7})'; cat >/dev/null" hello
same 'an answer of another version' '5  []' "$(cat got)"
echo 'dance' >script
expect 'a script that is refused' 1 '' 'qron: script line 1' talk 127.0.0.1 1 script
printf 'x 0\n' >script
expect 'commands that wait at the end' 1 '' 'qron: script line 2' talk 127.0.0.1 1 script
echo hello >script
expect 'nobody listens' 4 '' 'qron: fault' talk 127.0.0.1 1 script

# ---- drill
expect 'three rounds' 0 'rounds 3
entries 21
equal 3
ones 2
bytes 177 177' '' drill 3
"$top/qron" drill 1000 >out 2>err
same 'a thousand rounds' '0 rounds 1000 entries 7000 equal 1000 bytes 59000 59000 []' "$? $(grep -v '^ones' out | tr '\n' ' ')[$(cat err)]"
"$top/qron" drill 100000 >out 2>err
same 'the most rounds' '0 rounds 100000 entries 700000 equal 100000 bytes 5900000 5900000 []' \
    "$? $(grep -v '^ones' out | tr '\n' ' ')[$(cat err)]"

# ---- a terminal
# at_terminal NAME WANT WORDS..: both lines of a complaint, where standard error is a terminal
at_terminal() {
    local name=$1 want=$2
    shift 2
    same "$name" "$want" "$(python3 - "$top/qron" "$@" <<'PYTHON'
import os, pty, subprocess, sys
ours, theirs = pty.openpty()
subprocess.run(sys.argv[1:], stdin=subprocess.DEVNULL, stdout=subprocess.DEVNULL, stderr=theirs)
os.close(theirs)
said = b""
try:
    while piece := os.read(ours, 4096):
        said += piece
except OSError:
    pass
print(said.decode().replace("\r", ""), end="")
PYTHON
)"
}
at_terminal 'a terminal is told the lines' 'qron: words
the words are: pipe, pipe <settings>, replay <settings> <schedule>, serve <settings>, talk <address> <port> <script>, or drill <rounds>' dance
at_terminal 'a terminal is told the key' 'qron: settings
the top table: limit is out of its range, a whole number from 1 to 12 is expected' pipe 'a limit of 13'

# ---- files
mkdir folder
for name in folder no_such_file; do
    expect "pipe $name" 4 '' 'qron: fault' pipe $name
    expect "replay $name" 4 '' 'qron: fault' replay settings $name
    expect "serve $name" 4 '' 'qron: fault' serve $name
    expect "talk by $name" 4 '' 'qron: fault' talk 127.0.0.1 1 $name
done

# padded SIZE FILE: the file, and blank lines up to that size
padded() { cat "$2"; head -c $(($1 - $(wc -c <"$2"))) /dev/zero | tr '\0' '\n'; }
most=16777216
echo "c 0 100 $hello" >schedule
padded $most schedule >longest
padded $((most + 1)) schedule >'too long'
expect 'the longest schedule' 0 "0 clean $hello" '' replay settings longest
expect 'a schedule too long' 1 '' 'qron: file too long' replay settings 'too long'
padded $((most + 1)) settings >'too long'
expect 'settings too long' 1 '' 'qron: file too long' pipe 'too long'
expect 'settings too long to serve' 1 '' 'qron: file too long' serve 'too long'
padded $((most + 1)) script >'too long'
expect 'a script too long' 1 '' 'qron: file too long' talk 127.0.0.1 1 'too long'

[ $failed -eq 0 ] && echo 'commands: all cases passed'
exit $failed
