# What the benchmarks share; each of them sources this file. It makes a folder, which is removed when the script ends,
# and in it a file `q` and a text dump of it, of the sort that `large` names as make_quota_file.py has it (a full flat
# file where it names none). `top` is the top of the repository, and `program` the built program; `awk` is mawk where it
# is there. A command that fails ends the benchmark with its status.
set -euo pipefail
shopt -s inherit_errexit
top=$(cd "$(dirname "${BASH_SOURCE[0]}")/.." && pwd)
program=$top/crates/quota_program/out/quota_program
folder=$(mktemp -d)
memory=
mounted=
trap leave EXIT
cd "$folder"
awk=$(command -v mawk || command -v awk)

# leave: takes away what was made, also a folder in memory and what is mounted, where there is such a one.
leave() {
    if [ -n "$mounted" ]; then umount "$mounted"; fi
    rm -rf "$folder" ${memory:+"$memory"}
}

# mount_image: mounts a new file system of ext4 in a file, with quotas off, for the `setquota` of the quota tools, and puts its
# folder into `mounted`. Where that cannot be done it says why, and `mounted` stays empty.
mount_image() {
    local wanted
    for wanted in setquota mkfs.ext4 mount; do
        if ! command -v "$wanted" >/dev/null; then
            echo "$wanted is not there: the quota tools are not measured"
            return
        fi
    done
    truncate -s 400M image
    mkfs.ext4 -q -F image
    mkdir mounted
    if mount -o loop,usrquota image mounted 2>said; then
        mounted=$folder/mounted
    else
        echo 'nothing may be mounted: the quota tools are not measured'
    fi
}

# make_file [SORT]: makes `q` and `dump`, of the sort that `large` names where none is named.
make_file() {
    python3 -B "$top/bench/make_quota_file.py" "${1:-${large:-flat}}" q dump
}
make_file

# time_of WORD..: how many seconds a command takes.
time_of() {
    local status=0 start end
    start=$(date +%s.%N)
    "$@" >/dev/null 2>said || status=$?
    end=$(date +%s.%N)
    if [ "$status" != 0 ]; then
        cat said >&2
        echo "this was timed, and failed with status $status: $*" >&2
        return "$status"
    fi
    echo "$start $end" | awk '{ printf "%.6f", $2 - $1 }'
}

# least ONE OTHER: the lesser of two numbers.
least() {
    echo "$1 $2" | awk '{ print ($1 < $2 ? $1 : $2) }'
}

# best_of_both ONE OTHER: puts the least of five times of each of two commands into `ours` and `theirs`. ONE and OTHER are
# the names of arrays that have the words of the commands, which run in turn, so that whatever else the machine does meets
# both.
best_of_both() {
    local -n one=$1 other=$2
    local now
    ours=999999
    theirs=999999
    for _ in 1 2 3 4 5; do
        now=$(time_of "${one[@]}")
        ours=$(least "$ours" "$now")
        now=$(time_of "${other[@]}")
        theirs=$(least "$theirs" "$now")
    done
}

# ratio ONE OTHER: how often the second number is in the first.
ratio() {
    echo "$1 $2" | awk '{ printf "%.2f", $1 / $2 }'
}

# beside WHAT ONE WITH OTHER: prints the best times of two commands, WHAT and WITH, and their ratio. ONE and OTHER are the
# names of arrays that have their words.
beside() {
    local ours theirs
    best_of_both "$2" "$4"
    echo "$1: $ours s, $3: $theirs s, ratio $(ratio "$ours" "$theirs")"
}

# held WORD..: the most memory, in KiB, that a command holds at a time. What a process held before it began its program counts
# too, so a small shell starts the command, and leaves it to the script that asks.
held() {
    python3 - "$@" <<'PY'
import ctypes, os, subprocess, sys
PR_SET_CHILD_SUBREAPER = 36
ctypes.CDLL(None).prctl(PR_SET_CHILD_SUBREAPER, 1)
started = subprocess.check_output(["sh", "-c", '"$@" >/dev/null & echo $!', "sh", *sys.argv[1:]])
_, status, used = os.wait4(int(started), 0)
if status != 0:
    sys.exit("this was measured, and failed: " + " ".join(sys.argv[1:]))
print(used.ru_maxrss)
PY
}

# memory FILE WORD..: the most memory that the program holds at a time with these words, beside the size of the file.
memory() {
    local file held
    file=$(($(stat -c %s "$1") / 1024))
    shift
    held=$(held "$program" "$@")
    echo "memory: at most $held KiB, the file $file KiB, $((held - file)) KiB more"
}

# calls PATTERN WORD..: how many calls of the system of these names the program makes with these words, and in all.
calls() {
    local pattern=$1
    shift
    if ! command -v strace >/dev/null; then
        echo "calls of the system: not counted, since strace is not there"
        return
    fi
    strace -f -c -o calls "$program" "$@" >/dev/null
    grep -E "$pattern|total" calls | awk '{ print "calls of the system: " $NF " " $4 }'
}

# asked WHAT FILE WORD..: how often the program asks the system for bytes with these words, beside how often 65,536 bytes are
# in the file, and how many KiB it reads.
asked() {
    local what=$1 windows
    windows=$((($(stat -c %s "$2") + 65535) / 65536))
    shift 2
    if ! command -v strace >/dev/null; then
        echo "$what: not counted, since strace is not there"
        return
    fi
    strace -f -e trace=pread64 -o calls "$program" "$@" >/dev/null
    awk -v what="$what" -v windows="$windows" '/pread64/ { count++; bytes += $NF }
        END { printf "%s: %d reads, %d windows, ratio %.2f; %d KiB are read\n", what, count, windows, count / windows, bytes / 1024 }' calls
}

# report_beside_awk WORD..: a report with these words beside awk, which prints the same lines from a text dump of the
# file, with the names of a file of names where one is given by `names`. The ratio of their times, the most memory that the
# program holds, and its calls of the system.
report_beside_awk() {
    local report=("$program" "$@")
    local text=("$awk" -v now="$(date +%s)" -v names="${names:-}" -f "$top/bench/report.awk" dump)
    "$top/bin/quota_cli" "$@" >report
    "${text[@]}" >lines
    tail -n +5 report | cmp - lines || echo "the texts differ: the grace column of a timer may have passed a minute between the two"
    beside report report awk text
    memory q "$@"
    calls 'pread64|write' "$@"
}

# reading_beside WORD..: a command with these words beside one reading of the file in pieces of 1,024 bytes, likewise.
reading_beside() {
    local command=("$program" "$@")
    local reading=(dd if=q of=/dev/null bs=1024)
    "$top/bin/quota_cli" "$@" >said
    beside "$1" command 'one reading' reading
    memory q "$@"
    calls 'pread64|pwrite64|fsync|fdatasync' "$@"
}

# converted FORMATS SOURCE: converts a file into a new one, `new`.
converted() {
    rm -f new
    "$program" convertquota -f "$1" "$2" new
}

# copied SOURCE TARGET: reads a file, and writes as many bytes as another one has into a new one, both in pieces of 1,024
# bytes.
copied() {
    rm -f copy
    dd if="$1" of=/dev/null bs=1024
    dd if=/dev/zero of=copy bs=1024 count="$(($(stat -c %s "$2") / 1024))"
}

# conversion_beside_copy FORMATS SOURCE: the conversion of a file, which is left in `new`, beside reading it and writing the
# target once, likewise but for the memory.
conversion_beside_copy() {
    local conversion=(converted "$@")
    local copy=(copied "$2" target)
    converted "$@"
    mv new target
    beside convertquota conversion dd copy
    rm new copy
    calls 'pread64|pwrite64|fsync|fdatasync' convertquota -f "$1" "$2" new
    rm new target
}

# seconds WORD..: how long a client takes to ask the server of these words for the limits of `calls` users, each after the
# answer to the one before. The server gets the port behind its words. The users are multiples of `each`. The seconds that
# the program spends in its own code, and in the system, are left in `used`.
seconds() {
    local port server
    port=$("$client" free)
    case $1 in
    echo) "$client" echo "$port" "$calls" & ;;
    *) { TIMEFORMAT='%U %S' && time "$@" rquotad --calls "$calls" --port "$port" --export /home user q; } 2>used & ;;
    esac
    server=$!
    "$client" many "$port" "$calls" "$each"
    wait "$server"
}
client=$top/tests/serve_client.py
calls=${calls:-100000}
each=1

# answers_beside_echo: the answers a second of `rquotad` over the loopback, beside a plain UDP server that sends each datagram
# back, by the best of three times of each; how much of the time of an answer the program spends in its own code, with the
# opening of the file; and its calls of the system for one answer.
answers_beside_echo() {
    local ours=999999 theirs=999999
    for _ in 1 2 3; do
        ours=$(least "$ours" "$(seconds "$program")")
        theirs=$(least "$theirs" "$(seconds echo)")
    done
    echo "rquotad: $ours s, echo: $theirs s for $calls calls; $(echo "$calls $ours" | awk '{ printf "%.0f", $1 / $2 }') a second, ratio of rates $(ratio "$theirs" "$ours")"
    awk -v calls="$calls" -v all="$ours" '{ printf "of %.1f us for an answer %.1f us in its own code\n", all / calls * 1000000, $1 / calls * 1000000 }' used
    if command -v strace >/dev/null; then
        seconds strace -c -f -o counted "$program" >/dev/null
        awk -v calls="$calls" '$NF == "total" { printf "calls of the system: %.2f an answer\n", $4 / calls }' counted
    fi
}
