#!/usr/bin/env bash
# Measures, in one run, changes of the tree files of `bench/large_files.sh tree` where they stand, and of the flat file of
# `bench/large_files.sh setquota`.
#
# First one change: of a user who is known, of one who is new and of one whose record goes. Beside reading the file once in
# pieces of 1,024 bytes: the ratio of their times (the best of five each), the most memory that the program holds, and its
# calls of the system.
#
# Then `setquota -b` of 1,000 lines, which are made in place one after another: for known users of the file of the users 0 to
# 999,999 and of the flat one, and for new users of the former. The time of a line stands beside that of writing and syncing
# one block of a copy of the file, and beside four (as many as a new user needs, one of them past the end). It stands, too,
# beside what a rollback journal of one block costs at least: its old bytes and its new ones, a gate that is opened and closed,
# and a sync behind each. Each of these is done half as often as there are lines before the batch, and half as often behind it.
# Then come what a line costs over a folder in memory, without a disk, and the calls of the system for a line.
#
# Then `setquota -b` of `lines` lines (10,000) and of `many` (1,000,000), which are made together and have 16 bytes at most:
# new limits of as many users of those files, and of as many new ones in a file without records. It stands beside awk, which
# sets the same limits in a text dump of the file (`bench/edits.awk`). It stands, too, beside reading the old file and writing
# and syncing one of the size of the new one, both in pieces of 1,024 bytes. Each is the best of three times in turn, with the
# most memory that the program holds. Where the `setquota` of the quota tools is installed and a file system may be mounted, it
# stands beside that, once, which checks and syncs nothing.
large=tree
. "$(dirname "${BASH_SOURCE[0]}")/measure.sh"
"$top/bin/quota_cli" edquota --print -u 7 q >said
lines=${lines:-10000}
many=${many:-1000000}

# The next user whom a change of each kind meets, and how far it is from there to the one behind. The known ones and those
# who leave are users of both files. A new one needs a tree block of each level below the root, and those who leave use
# nothing, so that no record without limits stays.
declare -A user=([known]=7007 [new]=33554432 [leaving]=42000)
declare -A step=([known]=7007 [new]=16777216 [leaving]=42000)

# next KIND: puts the words of the next change of a kind into `change`.
next() {
    local limits=(100 200 10 20)
    if [ "$1" = leaving ]; then limits=(0 0 0 0); fi
    change=("$program" setquota "${format[@]}" -u "${user[$1]}" "${limits[@]}" q)
    user[$1]=$((user[$1] + step[$1]))
}

# one_change KIND: changes of a kind, each of another user.
one_change() {
    local ours=999999 theirs=999999 reading=(dd if=q of=/dev/null bs=1024)
    for _ in 1 2 3 4 5; do
        next "$1"
        ours=$(least "$ours" "$(time_of "${change[@]}")")
        theirs=$(least "$theirs" "$(time_of "${reading[@]}")")
    done
    echo "setquota for a $1 user: $ours s, one reading: $theirs s, ratio $(ratio "$ours" "$theirs")"
    next "$1"
    echo "memory: at most $(held "${change[@]}") KiB"
    next "$1"
    calls 'pread64|write|fsync|fdatasync' "${change[@]:1}"
}

# synced WHAT NUMBER: writes blocks of the copy and syncs it NUMBER times: `one` block, or `four`, as many as a new user
# needs: the first one, two others, and one past the end; or `journaled`, one block by a rollback journal.
synced() {
    python3 - "$1" "$2" <<'PY'
import os, sys
what, number = sys.argv[1], int(sys.argv[2])
file = os.open("copy", os.O_RDWR)
blocks = os.fstat(file).st_size // 1024
undo = os.open("copy.undo", os.O_RDWR | os.O_CREAT)
os.pwrite(undo, bytes(2064), 0)
os.fsync(undo)
for count in range(number):
    if what == "journaled":
        place = count * 7 % blocks * 1024
        for file_of, bytes_of, at in (
            (undo, bytes(16) + os.pread(file, 1024, place), 1024),
            (undo, b"\1", 0),
            (file, b"x" * 1024, place),
            (undo, b"\0", 0),
        ):
            os.pwrite(file_of, bytes_of, at)
            os.fdatasync(file_of)
        continue
    one = count * 7 % blocks
    for block in [one] if what == "one" else [0, one, count * 11 % blocks, blocks + count]:
        os.pwrite(file, b"x" * 1024, block * 1024)
    os.fsync(file)
PY
}

# each SECONDS: the milliseconds of one of the lines.
each() {
    echo "$1 $lines" | awk '{ printf "%.3f", $1 / $2 * 1000 }'
}

# batch KIND FIRST STEP NUMBER: a batch of NUMBER lines that are made in place, for the users of these numbers.
batch() {
    local lines=$4 ours what
    local batch=("$program" setquota "${format[@]}" -u -b q)
    local -A theirs=()
    seq "$2" "$3" $(($2 + (lines - 1) * $3)) | awk '{ print $1, 100, 200, 10, 20 }' >given
    cp q copy
    if [ -n "$memory" ]; then cp q given "$memory"; fi
    sync
    for what in one four journaled; do theirs[$what]=$(time_of synced $what $((lines / 2))); done
    ours=$(time_of "${batch[@]}" <given)
    echo "setquota -b of $lines lines for $1 users: $(each "$ours") ms a line"
    for what in one four journaled; do
        theirs[$what]=$(echo "${theirs[$what]} $(time_of synced $what $((lines - lines / 2)))" | awk '{ print $1 + $2 }')
        echo "$what written and synced: $(each "${theirs[$what]}") ms, ratio $(ratio "$ours" "${theirs[$what]}")"
    done
    if [ -n "$memory" ]; then
        ours=$(cd "$memory" && time_of "${batch[@]}" <given)
        echo "the same in memory: $(each "$ours") ms a line"
    fi
}

# batches KIND FIRST STEP: a batch of 1,000 lines, and the calls of the system for a line of another one.
batches() {
    local first=$2
    batch "$1" "$first" "$3" 1000
    first=$((first + 1000 * $3))
    if command -v strace >/dev/null; then
        seq "$first" "$3" $((first + 999 * $3)) | awk '{ print $1, 100, 200, 10, 20 }' >given
        strace -f -c -o calls "$program" setquota "${format[@]}" -u -b q <given >/dev/null
        awk '/pread64|pwrite64|fsync|fdatasync/ { printf "calls of the system a line: %s %.2f\n", $NF, $4 / 1000 }' calls
    fi
}

# edit_text: sets the limits of `given` in the text `dump`, by awk.
edit_text() {
    "$awk" -v now="$(date +%s)" -f "$top/bench/edits.awk" given dump >edited
}

# copy_once: reads the file `start`, and writes and syncs as many bytes as the file `place` has.
copy_once() {
    dd if=start of=/dev/null bs=1024
    dd if=/dev/zero of=copy bs=1024 count=$(($(stat -c %s "$place") / 1024)) conv=fsync
}

# has_same: looks whether the file `place` has the records of the text `edited`.
has_same() {
    "$program" repquota "${format[@]}" -u -v "$place" | tail -n +5 >report
    sort -n edited | "$awk" -v now="$(date +%s)" -f "$top/bench/report.awk" | cmp - report ||
        echo "the texts differ: the grace column of a timer may have passed a minute between the two"
}

# together NUMBER WHO STEP: a batch of so many lines for users of these numbers, over copies of the file `start`, whose text is
# `dump`.
together() {
    local ours=999999 text=999999 copying=999999 tool
    local words=(setquota "${format[@]}" -u -b --input given "$place")
    seq 0 "$3" $((($1 - 1) * $3)) | awk '{ print $1, 0, 1 + $1 % 9, 0, 1 + $1 % 7 }' >given
    for _ in 1 2 3; do
        cp start "$place"
        sync
        ours=$(least "$ours" "$(time_of "$program" "${words[@]}")")
        text=$(least "$text" "$(time_of edit_text)")
        copying=$(least "$copying" "$(time_of copy_once)")
    done
    has_same
    echo "setquota -b of $1 lines for $2 users: $ours s"
    echo "awk: $text s, ratio $(ratio "$ours" "$text")"
    echo "one copy: $copying s, ratio $(ratio "$ours" "$copying")"
    if [ -n "$mounted" ]; then
        cp start "$place"
        sync
        tool=$(time_of setquota -F "${format[1]:-vfsv1}" -u -b "$mounted" <given)
        echo "the quota tools: $tool s, ratio $(ratio "$ours" "$tool")"
    fi
    cp start "$place"
    memory "$place" "${words[@]}"
}

# all_together NAME: such batches over a copy of q, and over a file without records, each under the name at which the quota
# tools look where these are there.
all_together() {
    local step number
    place=${mounted:-.}/$1
    mv q start
    for number in "$lines" "$many"; do together "$number" known $((1000000 / number)); done
    rm "$place"
    "$program" quotacheck -c "${format[@]}" -u "$place" </dev/null
    mv "$place" start
    : >dump
    for number in "$lines" "$many"; do together "$number" new 1; done
    rm -f "$place"* start copy given edited report
}

if [ -d /dev/shm ] && [ -w /dev/shm ]; then memory=$(mktemp -d -p /dev/shm); fi
mount_image

# changes KIND..: one change of each of these kinds.
changes() {
    local kind
    for kind in "$@"; do one_change "$kind"; done
}

# has_all: looks whether a tree file has its users still: as many leave as are new.
has_all() {
    "$program" repquota -u -v q >report
    if [ "$(grep -c '^#' report)" != 1000000 ]; then echo "the file has not 1,000,000 users" >&2; fi
}

format=()
echo "users 0 to 999,999:"
changes known new leaving
has_all
batches known 0 80
batches new 2000000 1000
make_file
all_together aquota.user
echo "multiples of 7, the blocks shuffled:"
make_file spread
changes known new leaving
has_all
large=flat
format=(-F vfsold)
echo "a flat file of 1,048,576 records, which is full:"
make_file
changes known leaving
batches known 0 80
make_file
all_together quota.user
