# The client: words, a server, none, and what a network may do between them.
# A part of real_files.sh, which has what it calls, and runs it in a folder of its own.

# (the first call builds it where it is stale)
client=$top/bin/quota_client
"$client" --version >/dev/null
made=$top/crates/quota_client_program/out/quota_client_program
runner=("$client")
ask() { "$top/tests/serve_client.py" "$@"; }

# Words.
expect 'its version' 0 'quota_client 0.1.0' '' --version
expect 'help is one word' 2 '' 'quota: usage: WrongOperands at word 2' --help --version
expect 'a mode has no help' 2 '' 'quota: usage: WrongOperands at word 2' quota --help
expect 'no words' 2 '' 'quota: usage: WrongOperands at word 0'
expect 'no paths' 2 '' 'quota: usage: WrongOperands at word 4' quota 875 1 1
expect 'sixteen paths and one more' 2 '' 'quota: usage: WrongOperands at word 21' quota 875 1 1 /{1..17}
expect 'another mode' 2 '' 'quota: usage: BadValue at word 0' report 875 1 1 /home
expect 'port 0' 2 '' 'quota: usage: BadValue at word 1' quota 0 1 1 /home
expect 'port 65,536' 2 '' 'quota: usage: BadValue at word 1' quota 65536 1 1 /home
expect 'a uid of 2^32' 2 '' 'quota: usage: BadValue at word 2' quota 875 4294967296 1 /home
expect 'a path with a blank' 2 '' 'quota: usage: BadValue at word 5' quota 875 1 1 /home '/a b'
expect 'a word that is no UTF-8' 2 '' 'quota: usage: WrongOperands at word 0' quota 875 1 1 $'\377'
runner=(env QUOTA_CLI_REASONS=always "$client")
expect 'the reason of another mode' 2 '' 'quota: usage: BadValue at word 0
quota_client: report: MODE is quota or warn; MODE PORT UID GID, and 1 to 16 paths, are wanted; quota_client --help' report 875 1 1 /home
expect 'the reason of no words' 2 '' 'quota: usage: WrongOperands at word 0
quota_client: MODE PORT UID GID, and 1 to 16 paths, are wanted; quota_client --help'
expect 'the reason of a word that is no UTF-8' 2 '' 'quota: usage: WrongOperands at word 0
quota_client: a word is not UTF-8' quota 875 1 1 $'\377'
runner=("$client")

# Streams.
got=0
"$client" --help >/dev/full 2>err.txt || got=$?
same 'the help where the output is full' "$got $(cat err.txt)" '4 quota: output fault'
got=0
"$client" --version >&- 2>err.txt || got=$?
same 'the version where the output is closed' "$got $(cat err.txt)" '4 quota: output fault'
got=0
"$client" quota 875 2>&- || got=$?
same 'wrong words where the error output is closed' "$got" 2
if unshare -rn true 2>/dev/null; then
    got=0
    unshare -rn "$made" quota 875 1 1 /home >out.txt 2>err.txt || got=$?
    same 'no network' "$got $(cat out.txt err.txt)" '4 quota: link fault'
    if command -v python3 >/dev/null; then
        runner=("$top/tests/real_files/terminal.py" unshare -rn "$made")
        expect 'no network, at a terminal' 4 '' 'quota: link fault
quota_client_program: UDP port 875: Network is unreachable' quota 875 1 1 /home
        runner=("$client")
    fi
fi

if command -v python3 >/dev/null; then
    # No server, for six seconds, while other rows run.
    nobody=$(ask free)
    {
        begin=$SECONDS
        got=0
        QUOTA_CLI_REASONS=always timeout 20 "$client" quota "$nobody" 1000 1000 /home >nobody.txt 2>&1 || got=$?
        echo $((SECONDS - begin)) >waited.txt
        exit "$got"
    } &
    alone=$!

    # A server, whose user 1000 exceeds both soft limits, and whose user 1001 has none.
    printf '%s\n' '1000 1000 1 1 300' '1000 1000 1 2 0' '1001 1001 1 3 8' >listing
    "$run" quotacheck -c --input listing users
    "$run" setquota 1000 100 200 1 20 users
    "$run" setquota -T 1000 3600 90000 users
    port=$(ask free)
    timeout 100 "$run" rquotad --calls 100000 --port "$port" --export /home user users --export /srv user users 2>server_err.txt &
    server=$!
    ask ask "$port" own >/dev/null
    own=': 150 KiB, soft 100, hard 200, grace 01:00, files 2, soft 1, hard 20, grace 25:00'
    expect 'limits under two paths' 0 "/home$own
/srv$own" '' quota "$port" 1000 1000 /home /srv
    expect 'the same path twice' 0 "/home$own
/home$own" '' quota "$port" 1000 1000 /home /home
    expect 'a path that is not exported' 0 '/nowhere: none' '' quota "$port" 1000 1000 /nowhere
    expect 'nobody is warned there' 0 '' '' warn "$port" 1000 1000 /nowhere
    expect 'a user without limits' 0 '/home: 4 KiB, soft 0, hard 0, grace -, files 1, soft 0, hard 0, grace -' '' \
        quota "$port" 1001 1001 /home
    expect 'such a user is not warned' 0 '' '' warn "$port" 1001 1001 /home
    expect 'what is exceeded' 0 '/home: over block limit by 50 KiB, grace 01:00
/home: over file limit by 1, grace 25:00' '' warn "$port" 1000 1000 /home
    got=0
    "$client" quota "$port" 1000 1000 /home >/dev/full 2>err.txt || got=$?
    same 'a line where the output is full' "$got $(cat err.txt)" '4 quota: output fault'

    # through RULE WHAT STATUS OUT CALLS PATH..: what is printed of paths through a relay with a rule, and how many calls came.
    through() {
        local rule=$1 what=$2 status=$3 out=$4 calls=$5 front relay
        shift 5
        front=$(ask free)
        : >calls.txt
        # (a rule may have a number)
        # shellcheck disable=SC2086
        timeout 60 "$top/tests/real_files/relay.py" "$front" "$port" $rule >calls.txt 2>relay_err.txt &
        relay=$!
        for _ in {1..100}; do
            if [ -s calls.txt ]; then break; fi
            sleep 0.05
        done
        expect "$what" "$status" "$out" '' quota "$front" 1000 1000 "$@"
        # (the relay may still hand on a call that came before an answer)
        sleep 0.2
        kill "$relay" 2>/dev/null || true
        wait "$relay" || true
        same "the calls of: $what" "$(grep -c / calls.txt || true)" "$calls"
    }
    through pass 'a relay' 0 "/home$own" 1 /home
    # The number of the first call is the seconds of the clock modulo 2^32, and each path has one more than the path before.
    begin=$(date +%s)
    through pass 'two calls through a relay' 0 "/home$own
/srv$own" 2 /home /srv
    took=$(($(date +%s) - begin))
    first=$(awk '$1 == "/home" { print $2; exit }' calls.txt)
    second=$(awk '$1 == "/srv" { print $2; exit }' calls.txt)
    same 'the number of the first call is the seconds of the clock' \
        "$([ -n "$first" ] && [ $(((first - begin) & 4294967295)) -le "$took" ] && echo so)" so
    same 'the number of the second call is one more' "$second" $(((first + 1) & 4294967295))
    through double 'doubled replies' 0 "/home$own
/nowhere: none
/srv$own" 3 /home /nowhere /srv
    through late 'late replies, out of their order' 0 "/home$own
/nowhere: none
/srv$own" 3 /home /nowhere /srv
    through 'drop 1' 'a lost call' 0 "/home$own" 2 /home
    through after 'a reply to the attempt before' 0 "/home$own" 2 /home
    through false 'a false reply from another port' 0 "/home$own" 1 /home
    through 'others 63' '63 other datagrams' 0 "/home$own" 1 /home
    through 'others 64' '64 other datagrams' 0 "/home$own" 2 /home
    through 'others 65' '65 other datagrams' 0 "/home$own" 2 /home
    through 'noise 64' 'other datagrams alone' 1 '/home: no reply' 3 /home
    through denied 'a server that denies' 1 '/home: denied
/srv: denied' 2 /home /srv
    through refused 'a server of something else' 1 '/home: refused' 1 /home

    kill "$server" 2>/dev/null || true
    wait "$server" || true
    got=0
    wait "$alone" || got=$?
    same 'no server' "$got $(cat nobody.txt)" "1 /home: no reply
quota_client: UDP port $nobody: look whether rquotad serves at that --port, or has answered its --calls, and whether a firewall keeps datagrams out"
    same 'no server takes six seconds to see' "$([ "$(cat waited.txt)" -ge 6 ] && echo so)" so
else
    echo 'real_files: python3 is not there: no client over UDP is shown' >&2
fi
