# Why a run ended with another status than 0, which is told where standard error is a terminal, or asked for by a variable.
# A part of real_files.sh, which has what it calls, and runs it in a folder of its own.

# refused WHAT LINE REASON WORD..: `called` ends with status 4 and the error line. Where standard error is a terminal, the
# reason stands behind that, and elsewhere nothing does.
refused() {
    local what=$1 line=$2 reason=$3
    shift 3
    runner=("${called[@]}")
    expect "$what" 4 '' "quota: $line" "$@"
    runner=("$top/tests/real_files/terminal.py" "${called[@]}")
    expect "$what, at a terminal" 4 '' "quota: $line
$reason" "$@"
}

if command -v python3 >/dev/null; then
    mkdir reasons
    cd reasons
    chmod 777 .
    mkdir d
    mkfifo p
    : >f
    : >q
    : >secret
    : >fixed
    chmod 666 f q
    chmod 000 secret
    chmod 444 fixed
    echo 'setquota -F vfsold 1 2 3 4 5 q' >s

    called=("${somebody[@]}")
    refused 'a folder in place of a file' 'store fault' 'program: d: Is a directory' repquota -F vfsold d
    refused 'a pipe in place of a file' 'store fault' 'program: p: Not a regular file' repquota -F vfsold p
    refused 'a path through a file' 'store fault' 'program: f/x.new: Not a directory' generate 1 10 f/x
    refused 'a file that may not be read' 'store fault' 'program: secret: Permission denied' repquota -F vfsold secret
    refused 'a file that may not be written to' 'store fault' 'program: fixed: Permission denied' \
        setquota -F vfsold 1 2 3 4 5 fixed

    cp f undone
    chmod 666 undone
    "${somebody[@]}" setquota -F vfsold 1 2 3 4 5 undone
    chmod 000 undone.undo
    refused 'an undo file that may not be read' 'store fault' 'program: undone.undo: Permission denied' \
        repquota -F vfsold undone

    called=(sh -c 'exec "$@" >/dev/full' sh "${somebody[@]}")
    refused 'a full output' 'output fault' 'program: standard output: No space left on device' repquota -F vfsold q
    refused 'help to a full output' 'output fault' 'program: standard output: No space left on device' --help
    refused 'help of a command to a full output' 'output fault' 'program: standard output: No space left on device' \
        script --help
    called=(sh -c 'exec "$@" <&-' sh "${somebody[@]}")
    refused 'a closed input' 'input fault' 'program: standard input: Is a directory' script
    called=(flock q sh -c 'exec "$@" <s' sh "${somebody[@]}")
    refused 'a file that is locked' 'line 1: store fault' 'program: q: Locked by another program' script
    port=$("$top/tests/serve_client.py" free)
    called=("$top/tests/serve_client.py" hold "$port" "${somebody[@]}")
    refused 'a port in use' 'link fault' "program: UDP port $port: Address already in use" \
        rquotad --format vfsold --calls 1 --port "$port" --export /home user q
    called=("$run")
    refused 'a program of another name' 'store fault' 'quota_cli: d: Is a directory' repquota -F vfsold d

    # What the command itself refuses has its reason at a terminal, too, and wherever it is asked for; nowhere else.
    # told WHAT STATUS LINE REASON WORD..
    told() {
        local what=$1 status=$2 line=$3 reason=$4
        shift 4
        runner=("$top/tests/real_files/terminal.py" "$run")
        expect "$what, at a terminal" "$status" '' "quota: $line
quota_cli: $reason" "$@" <stdin
        runner=(env QUOTA_CLI_REASONS=never "$top/tests/real_files/terminal.py" "$run")
        expect "$what, never" "$status" '' "quota: $line" "$@" <stdin
        runner=(env QUOTA_CLI_REASONS=always "$run")
        expect "$what, always" "$status" '' "quota: $line
quota_cli: $reason" "$@" <stdin
        runner=("$run")
        expect "$what, without a terminal" "$status" '' "quota: $line" "$@" <stdin
    }
    : >stdin
    told 'an absent file' 1 'absent: no such file' \
        'absent: look at the name, and whether its file system is mounted; quota_cli quotacheck -c makes a new quota file of a listing' repquota -F vfsold absent
    told 'no words' 2 'usage: NoCommand at word 0' \
        'no command; one of repquota, setquota, edquota, quotacheck, convertquota, rquotad, script or generate is wanted; quota_cli --help'
    told 'two kinds' 2 'usage: Excludes at word 3' '-ug: one of -u, -g and -P is wanted; quota_cli repquota --help' repquota -ug q
    told 'no formats' 2 'usage: MissingOption at word 3' \
        'no -f OLD,NEW, each of vfsold, vfsold32, vfsv0 or vfsv1; quota_cli convertquota --help' convertquota q r
    told 'another format' 2 'usage: BadValue at word 1' \
        '-F: ext4: a format is one of vfsold, vfsold32, vfsv0 or vfsv1; quota_cli repquota --help' repquota -F ext4 q
    told 'too few operands' 2 'usage: WrongOperands at word 3' \
        '2 operands, and 6 are wanted: NAME BSOFT BHARD ISOFT IHARD FILE; quota_cli setquota --help' setquota 1 q
    told 'a name without a file of names' 1 'unknown name carol' \
        'carol: no number; names are known with --names FILE alone' setquota -F vfsold carol 1 2 3 4 q
    told 'a number that is too large' 1 'bad number 99999999999T' \
        '99999999999T: too large; a limit of blocks is a number of KiB, or one with K, M, G or T behind it' \
        setquota -F vfsold 1 0 99999999999T 0 0 q
    echo 'domain users:x:7:' >names
    told 'a bad line of names' 1 'names: bad line 1' \
        'domain users:x:7:: a line as in passwd(5) or group(5) is wanted, whose name has no blank' \
        setquota -F vfsold --names names 1 0 0 0 0 q
    printf '1 2 3 4 5\n1 2 3 4 5\r\n' >stdin
    told 'a number with a carriage return' 1 $'input line 2: bad number 5\r' \
        '1 2 3 4 5\r: 5\r: a limit of inodes is a number, or one with k, m, g or t behind it' setquota -F vfsold -b q
    printf '1000 5 6 7 8x\n' >stdin
    told 'a bad limit of inodes in a line' 1 'input line 1: bad number 8x' \
        '1000 5 6 7 8x: 8x: a limit of inodes is a number, or one with k, m, g or t behind it' setquota -F vfsold -b q
    { printf '1 2 3 4 5\n%.0s' {1..2000}; echo '1 2 8x 4 5'; } >stdin
    told 'a bad limit of blocks behind many lines' 1 'input line 2001: bad number 8x' \
        '1 2 8x 4 5: 8x: a limit of blocks is a number of KiB, or one with K, M, G or T behind it' setquota -F vfsold -b q
    printf '1 2 3 4 5\n1 2 3\n' >stdin
    told 'a line of four words' 1 'input: bad line 2' '1 2 3: the five words NAME BSOFT BHARD ISOFT IHARD are wanted, in UTF-8' \
        setquota -F vfsold -b q
    cp stdin lines
    told 'a line of a file' 1 'lines: bad line 2' '1 2 3: the five words NAME BSOFT BHARD ISOFT IHARD are wanted, in UTF-8' \
        setquota -F vfsold -b --input lines q
    told 'an absent file of names' 1 'absent: no such file' \
        'absent: look at the name; --names is a file of names, as /etc/passwd, /etc/group or /etc/projid' \
        repquota -F vfsold --names absent q
    told 'an absent input' 1 'absent: no such file' \
        'absent: look at the name; where --input is left away the standard input is read' quotacheck -F vfsold --input absent q
    told 'a device in place of an input' 4 'store fault' \
        '/dev/null: Not a regular file; leave --input away, and the standard input is read' \
        quotacheck -F vfsold --input /dev/null q
    told 'a device in place of names' 4 'store fault' \
        '/dev/null: Not a regular file; write the names into a regular file' repquota -F vfsold --names /dev/null q
    told 'a letter that is no option' 2 'usage: UnknownOption at word 1' \
        '-avug: no option -a; the options of quotacheck are -u, -g, -P, -c, -F FORMAT, --device NUMBER and --input FILE; quota_cli quotacheck --help' \
        quotacheck -avug q
    "$run" quotacheck -c tree </dev/null
    told 'another format than OLD' 3 'tree: other format' \
        'tree: its format is vfsv1; give that one as OLD in -f OLD,NEW' convertquota -f vfsv0,vfsv1 tree new
    told 'a flat file in place of a tree file' 3 'q: not a quota file' \
        'q: it does not begin as a tree file does; a flat file needs -f vfsold,NEW or -f vfsold32,NEW' \
        convertquota -f vfsv0,vfsv1 q new
    echo 'quotacheck -F vfsold --input /dev/null q' >stdin
    told 'a device in place of an input in a script' 4 'line 1: store fault' \
        '/dev/null: Not a regular file; write the lines into a regular file' script

    # A listing without a line is noted where a reason would be told, and the status stays 0.
    # noted WHAT NOTE WORD..
    noted() {
        local what=$1 note=$2
        shift 2
        runner=("$top/tests/real_files/terminal.py" "$run")
        expect "$what, at a terminal" 0 '' "$note" "$@" <stdin
        runner=(env QUOTA_CLI_REASONS=always "$run")
        expect "$what, always" 0 '' "$note" "$@" <stdin
        runner=(env QUOTA_CLI_REASONS=never "$top/tests/real_files/terminal.py" "$run")
        expect "$what, never" 0 '' '' "$@" <stdin
        runner=("$run")
        expect "$what, without a terminal" 0 '' '' "$@" <stdin
    }
    : >stdin
    noted 'a listing without a line' 'quota_cli: input: no line of an inode was read, so all use was set to 0' \
        quotacheck -F vfsold q
    noted 'a file that has no line' 'quota_cli: f: no line of an inode was read, so all use was set to 0' \
        quotacheck -F vfsold --input f q
    printf ' \t\n\n' >stdin
    noted 'a listing of blank lines' 'quota_cli: input: no line of an inode was read, so all use was set to 0' \
        quotacheck -F vfsold q
    noted 'a file of blank lines' 'quota_cli: stdin: no line of an inode was read, so all use was set to 0' \
        quotacheck -F vfsold --input stdin q
    noted 'lines of limits, and none of them' '' setquota -F vfsold -b q
    echo '1 1 1 1 1' >stdin
    noted 'a listing with a line' '' quotacheck -F vfsold q
    printf '# first\nrepquota -ug q\n' >stdin
    told 'a line of a script' 2 'line 2: usage: Excludes at word 3' \
        '-ug: one of -u, -g and -P is wanted; quota_cli repquota --help' script
    runner=("$run")
    cd ..
    rm -r reasons
else
    echo 'real_files: python3 is not there: what a terminal is told is not shown' >&2
fi

# A standard stream that was closed before the program began is no file of the command: a call on it is a fault.
: >q
"$folder/program" setquota -F vfsold 1 1 0 0 0 q
cp q before
got=0
"$folder/program" setquota -F vfsold 1 9999999999999 0 0 0 q 2>&- || got=$?
same 'the status stays where the error output is closed' "$got" 1
same 'and so does the file' "$(cmp q before && echo same)" same
got=0
"$folder/program" repquota -F vfsold q >&- 2>err.txt || got=$?
same 'a report to a closed output' "$got $(cat err.txt)" '4 quota: output fault'
got=0
"$folder/program" setquota -F vfsold -b q <&- 2>err.txt || got=$?
same 'lines out of a closed input' "$got $(cat err.txt)" '4 quota: input fault'
got=0
"$folder/program" setquota -F vfsold 1 2 0 0 0 q <&- >&- 2>&- || got=$?
same 'a change with all of them closed' "$got" 0
expect 'what it left' 0 "$head
#1           --          0          2          0      -        0        0        0      -" '' repquota -F vfsold -v q
