# Calls over UDP.
# A part of real_files.sh, which has what it calls, and runs it in a folder of its own.

# Calls over UDP: in each format, one for each kind of answer. One datagram without a reply is among them, and counts.
expect 'an export that is not there' 1 '' 'quota: none: no such file' rquotad --calls 1 --port 0 --export /home user none
if command -v python3 >/dev/null; then
    for format in vfsold vfsold32 vfsv0 vfsv1; do
        rm -f users members
        printf '%s\n' '1000 1000 1 1 8' >listing
        for kind in u:users g:members; do
            "$run" quotacheck -c "-${kind%:*}" -F "$format" --input listing "${kind#*:}"
            "$run" setquota "-${kind%:*}" -F "$format" 1000 100 200 10 20 "${kind#*:}"
        done
        port=$("$top/tests/serve_client.py" free)
        timeout 20 "$run" rquotad --format "$format" --calls 15 --port "$port" \
            --export /home user users --export /home group members >out.txt 2>err.txt &
        "$top/tests/serve_client.py" ask "$port" own short typed group other root path null program version procedure \
            set weak garbage old >asked.txt 2>asked_err.txt || true
        got=0
        wait $! || got=$?
        same "the status of rquotad over $format" "$got $(cat out.txt err.txt)" '0 '
        same "what callers are told of $format" "$(cat asked.txt)" '1 quota 1024 1 200 100 4 20 10 1 0 0
short sent
2 quota 1024 1 200 100 4 20 10 1 0 0
3 quota 1024 1 200 100 4 20 10 1 0 0
4 denied
5 quota 1024 1 0 0 0 0 0 0 0 0
6 no quota
7 done
8 refused 1
9 refused 2 1 2
10 refused 3
11 denied
12 rejected 1 5
13 refused 4
14 rejected 0 2 2'
    done

    # Projects are told of to the superuser alone, beside the users of the same path, and never out of a flat file.
    "$run" quotacheck -c -P projects <<<'1000 7 1 1 8'
    "$run" setquota -P 7 100 200 10 20 projects
    for format in vfsold vfsold32; do
        expect "files of projects in $format" 2 '' 'quota: usage: Excludes at word 11' \
            rquotad --format "$format" --calls 1 --port 0 --export /home project projects
    done
    expect 'projects exported as groups' 3 '' 'quota: projects: wrong kind' \
        rquotad --calls 1 --port 0 --export /home group projects
    port=$("$top/tests/serve_client.py" free)
    timeout 20 "$run" rquotad --calls 4 --port "$port" --export /home user users --export /home project projects \
        >out.txt 2>err.txt &
    "$top/tests/serve_client.py" ask "$port" project member own beyond >asked.txt 2>asked_err.txt || true
    got=0
    wait $! || got=$?
    same 'the status of rquotad over projects' "$got $(cat out.txt err.txt)" '0 '
    same 'what callers are told of projects' "$(cat asked.txt)" '15 quota 1024 1 200 100 4 20 10 1 0 0
16 denied
1 quota 1024 1 200 100 4 20 10 1 0 0
17 no quota'

    # Two lines of a script serve at one port, and the second tells what the line between them set.
    "$run" quotacheck -c --input listing users
    port=$("$top/tests/serve_client.py" free)
    printf '%s\n' "rquotad --calls 1 --port $port --export /home user users" 'setquota 1000 100 200 10 20 users' \
        "rquotad --calls 1 --port $port --export /home user users" >s
    timeout 20 "$run" script <s >out.txt 2>err.txt &
    "$top/tests/serve_client.py" ask "$port" own own >asked.txt 2>asked_err.txt || true
    got=0
    wait $! || got=$?
    same 'the status of a script that serves twice' "$got $(cat out.txt err.txt)" '0 '
    same 'what its lines tell' "$(cat asked.txt)" '1 quota 1024 1 0 0 4 0 0 1 0 0
1 quota 1024 1 200 100 4 20 10 1 0 0'
    rm s
else
    echo 'real_files: python3 is not there: no call over UDP is shown' >&2
fi
