# The server over TCP: words, the replies of the server over UDP, and clients that are slow, busy, rude or still.
# A part of real_files.sh, which has what it calls, and runs it in a folder of its own.

# (the first call builds it where it is stale)
server=$top/bin/rquotad_tcp
"$server" --version >/dev/null
made=$top/crates/rquotad_tcp/out/rquotad_tcp
runner=("$server")
ask() { "$top/tests/serve_client.py" "$@"; }
oddly() { "$top/tests/real_files/streams.py" "$@"; }
# (how many seconds are left differs from call to call)
timeless() { sed -E '/^[0-9]+ quota /s/ [0-9]+ [0-9]+$//'; }

# Words.
expect 'its version' 0 'rquotad_tcp 0.1.0' '' --version
expect 'help is one word' 2 '' 'quota: usage: WrongOperands at word 2' --help --version
expect 'no words' 2 '' 'quota: usage: WrongOperands at word 0'
expect 'no file' 2 '' 'quota: usage: WrongOperands at word 3' 0 1 any
expect 'port 65,536' 2 '' 'quota: usage: BadValue at word 0' 65536 1 any /home user q
expect 'no connections' 2 '' 'quota: usage: BadValue at word 1' 0 0 any /home user q
expect 'a path twice' 2 '' 'quota: usage: Repeated at word 6' 0 1 any /home user q /home user q
expect 'a word that is no UTF-8' 2 '' 'quota: usage: WrongOperands at word 0' 0 1 any /home user $'\377'
expect 'no such file' 1 '' 'quota: none: no such file' 0 1 any /home user none
runner=(env QUOTA_CLI_REASONS=always "$server")
expect 'the reason of port 65,536' 2 '' 'quota: usage: BadValue at word 0
rquotad_tcp: 65536: PORT is a number from 0 to 65535; PORT CONNECTIONS FORMAT, and 1 to 16 times PATH KIND FILE, are wanted; rquotad_tcp --help' \
    65536 1 any /home user q
expect 'the reason of no such file' 1 '' 'quota: none: no such file
rquotad_tcp: none: look at the name, and whether its file system is mounted; quota_cli quotacheck -c makes a new quota file of a listing' 0 1 any /home user none
runner=("$server")

# Streams.
got=0
"$server" --help >/dev/full 2>err.txt || got=$?
same 'the help where the output is full' "$got $(cat err.txt)" '4 quota: output fault'
got=0
"$server" 0 1 any 2>&- || got=$?
same 'wrong words where the error output is closed' "$got" 2

printf '%s\n' '1000 1000 1 1 300' '1000 1000 1 2 0' '1001 1001 1 3 8' >listing
"$run" quotacheck -c --input listing users
"$run" setquota 1000 100 200 1 20 users
"$run" quotacheck -c -g --input listing groups

if command -v python3 >/dev/null; then
    # begin CONNECTIONS: a server for so many connections, at a port that is free, and `ended`, which tells how it ended.
    begin() {
        port=$(ask free)
        timeout 200 "$made" "$port" "$1" any /home user users /home group groups >server.txt 2>&1 &
        serving=$!
    }
    ended() {
        local got=0
        wait "$serving" || got=$?
        same "how the server ends: $1" "$got $(cat server.txt)" '0 '
    }

    # One that stalls, for 30 seconds, while other rows run.
    still=$(ask free)
    timeout 100 "$made" "$still" 2 any /home user users >still.txt 2>&1 &
    waiting=$!
    oddly stall "$still" >stalled.txt 2>&1 &
    stalled=$!

    # The replies are those over UDP, to calls of each kind.
    cases=(own typed group other root path null program version procedure set weak garbage old project member beyond own)
    udp=$(ask free)
    timeout 100 "$run" rquotad --calls "${#cases[@]}" --port "$udp" --export /home user users --export /home group groups &
    datagrams=$!
    ask ask "$udp" "${cases[@]}" | timeless >wanted
    wait "$datagrams" || true
    begin 2
    ask stream "$port" "${cases[@]}" | timeless >got
    same 'the replies over TCP are those over UDP' "$(diff wanted got && wc -l <got)" "${#cases[@]}"
    oddly bytes "$port" "${cases[@]}" | timeless >got
    same 'byte by byte they are the same' "$(diff wanted got && wc -l <got)" "${#cases[@]}"
    ended 'two connections'

    begin 4
    oddly rude "$port"
    same '10,000 calls in a connection' "$(oddly many "$port" 10000)" '10000 1'
    oddly rude "$port"
    same 'a call behind one that did not read' "$(ask stream "$port" own | timeless)" "$(head -n 1 wanted)"
    ended 'two that did not read'

    begin 1000
    same '1,000 connections' "$(oddly each "$port" 1000)" '1000 1'
    ended '1,000 connections'

    got=0
    wait "$stalled" || got=$?
    same 'one that stalls' "$got $([ "$(cat stalled.txt)" -ge 29 ] && [ "$(cat stalled.txt)" -le 40 ] && echo so)" '0 so'
    expect 'a port that is in use' 4 '' 'quota: link fault' "$still" 1 any /home user users
    same 'the one behind it' "$(ask stream "$still" own | timeless)" "$(head -n 1 wanted)"
    got=0
    wait "$waiting" || got=$?
    same 'how its server ends' "$got $(cat still.txt)" '0 '
else
    echo 'real_files: python3 is not there: no client over TCP is shown' >&2
fi
