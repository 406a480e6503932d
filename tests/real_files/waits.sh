# What is waited for, which a terminal is told, and nothing else is.
# A part of real_files.sh, which has what it calls, and runs it in a folder of its own.

if command -v python3 >/dev/null; then
    # waits WHAT LINE TYPED WORD..: at a terminal, where this is typed, the line tells what is waited for.
    waits() {
        local what=$1 line=$2 typed=$3
        shift 3
        runner=("$top/tests/real_files/terminal.py" --typed "$typed" "$run")
        expect "$what" 0 '' "quota_cli: $line" "$@"
    }
    waits 'a listing' 'reads a listing of inodes from the terminal, up to Ctrl-D; without a line nobody uses anything
quota_cli: input: no line of an inode was read, so all use was set to 0' '' \
        quotacheck -c made
    waits 'lines of limits' 'reads lines NAME BSOFT BHARD ISOFT IHARD from the terminal, up to Ctrl-D' '7 1 2 3 4
' setquota -b made
    waits 'commands' 'reads commands from the terminal, up to Ctrl-D' '# none
' script
    runner=("$top/tests/real_files/terminal.py" "$run")
    expect 'an input that is no terminal is not told' 0 '' '' setquota -b made </dev/null
    expect 'a file that is free is not told' 0 '' '' setquota 7 1 2 3 4 made

    # A lock is waited for that another program lets go some seconds later.
    flock made sleep 5 &
    while flock -n made true; do sleep 0.1; done
    expect 'a lock' 0 '' 'quota_cli: made: waits for another program that has locked it' setquota 7 1 2 3 4 made
    wait
    flock made sleep 1 &
    sleep 0.3
    runner=("$run")
    expect 'a lock, without a terminal' 0 '' '' setquota 7 1 2 3 4 made
    wait

    # A server says to which port it is bound: the one that was asked for, or that the system chose.
    runner=("$top/tests/real_files/terminal.py" --knock "$run")
    port=$("$top/tests/serve_client.py" free)
    expect 'a server at a port' 0 '' "quota_cli: serves rquota at UDP port $port" \
        rquotad --calls 1 --port "$port" --export /home user made
    got=0
    timeout 30 "${runner[@]}" rquotad --calls 1 --port 0 --export /home user made 2>said || got=$?
    same 'a server at a port that the system chose' "$got $(sed -E 's/port [1-9][0-9]*$/port N/' said)" \
        '0 quota_cli: serves rquota at UDP port N'
    runner=("$run")
else
    echo 'real_files: python3 is not there: what a terminal is told is not shown' >&2
fi
