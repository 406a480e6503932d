#!/usr/bin/env bash
# Measures commands over large quota files: full flat ones, and tree files (vfsv1) of 1,000,000 users. Each part makes
# its files anew, and what it measures stands above it.
# usage: [calls=NUMBER] bench/large_files.sh [PART]..
#   PART: convert, names, report, serve, setquota, streams or tree; all of them where none is named
#   calls: how many calls a server gets, 100,000 without it
set -euo pipefail
shopt -s inherit_errexit
mapfile -t parts < <(sed -n 's/^part_\([a-z]*\)() {$/\1/p' "${BASH_SOURCE[0]}")
if [ $# = 0 ]; then set -- "${parts[@]}"; fi
for part; do
    if [[ " ${parts[*]} " != *" $part "* ]]; then
        sed -n '/^# usage/,/^#   calls/s/^# //p' "${BASH_SOURCE[0]}" >&2
        exit 2
    fi
done
if [ $# -gt 1 ]; then
    for part; do
        echo "$part:"
        "${BASH_SOURCE[0]}" "$part"
    done
    exit
fi
large=tree
case $1 in report | setquota) large=flat ;; esac
. "$(dirname "${BASH_SOURCE[0]}")/measure.sh"

# Measures, in one run, the conversion of a tree file of 1,000,000 users from vfsv0 to vfsv1, beside reading the source
# and writing a file of the target's size once with dd, both in pieces of 1,024 bytes: the ratio of their times (the
# best of five each), and the program's calls of the system. Then the most memory that it holds for each pair of
# formats, beside both files and 64 bytes for each user.
part_convert() {
    local old new held
    mv q vfsv1
    "$top/bin/quota_cli" convertquota -f vfsv1,vfsv0 vfsv1 vfsv0
    for new in vfsold vfsold32; do "$program" convertquota -f "vfsv1,$new" vfsv1 "$new"; done
    converted vfsv0,vfsv1 vfsv0
    cmp <("$program" repquota -v -p vfsv0 | tail -n +2) <("$program" repquota -v -p new | tail -n +2) || echo "the reports differ"
    conversion_beside_copy vfsv0,vfsv1 vfsv0
    for old in vfsold vfsold32 vfsv0 vfsv1; do
        for new in vfsold vfsold32 vfsv0 vfsv1; do
            rm -f new
            held=$(held "$program" convertquota -f "$old,$new" "$old" new)
            echo "memory from $old to $new: at most $held KiB, both files and 64 bytes a user $(($(kib "$old") + $(kib new) + 62500)) KiB"
        done
    done
}

# kib FILE: its size.
kib() {
    echo "$(($(stat -c %s "$1") / 1024))"
}

# Measures, in one run, the report of a tree file (vfsv1) of 1,000,000 users with a file of 100,000 names beside awk,
# which joins a text dump of it with the same file: the ratio of their times (the best of five each), the most memory
# that the program holds, and its calls of the system.
part_names() {
    seq 100000 | awk '{ print "user" $1 ":x:" $1 * 10 - 7 ":100::/home/user" $1 ":/bin/sh" }' >passwd
    names=passwd
    report_beside_awk repquota -u -v --names passwd q
}

# Measures, in one run, the report of a full flat file, of 40 and of 32 bytes a record. It stands beside awk, which prints the
# same lines from a text dump of it: the ratio of their times (the best of five each), the most memory that the program holds,
# and its calls of the system. Then both reports stand beside each other. Then comes how often the system is asked for bytes,
# beside how often 65,536 bytes are in the file: for the report of that file, and of tree files (vfsv1) that were made in
# different ways. These are made by quotacheck, of a listing of 1,000,000 users; by convertquota, of the flat file; by
# generate; and by setquota -b, of 800,000 lines; and one has its blocks shuffled. At last comes the same for one look-up and
# one change in that of quotacheck and in the shuffled one.
part_report() {
    local made
    in_both_layouts 'the report' report_beside_awk repquota -F LAYOUT -u -v
    "$program" convertquota -f vfsold,vfsv1 long converted
    seq 1000000 | awk '{ print $1, 100, 2049, $1, 8 }' >listing
    "$program" quotacheck -c -u --input listing checked
    "$program" generate 1 1000000 generated >said
    "$program" quotacheck -c -u batched </dev/null
    seq 800000 | awk '{ print $1, 10, 20, 3, 4 }' >lines
    "$program" setquota -u -b --input lines batched
    python3 -B "$top/bench/make_quota_file.py" spread shuffled dump
    asked 'the report of a flat file, of 40 bytes a record' long repquota -F vfsold -u -v long
    asked 'the report of a flat file, of 32 bytes a record' short repquota -F vfsold32 -u -v short
    for made in checked converted generated batched shuffled; do
        asked "the report of a tree file, $made" "$made" repquota -u -v "$made"
    done
    for made in checked shuffled; do
        asked "a look-up in the tree file, $made" "$made" edquota --print -u 7000 "$made"
        asked "a change in the tree file, $made" "$made" setquota -u 7000 100 200 10 20 "$made"
    done
}

# in_both_layouts WHAT HOW WORD..: a command with these words over a full flat file of each layout, for which LAYOUT
# stands, measured by HOW, and then both beside each other. The files are left as `long` and `short`.
in_both_layouts() {
    local what=$1 how=$2
    shift 2
    # shellcheck disable=SC2034
    local of_40=("$program" "${@/LAYOUT/vfsold}" long) of_32=("$program" "${@/LAYOUT/vfsold32}" short)
    echo 'of 40 bytes a record:'
    "$how" "${@/LAYOUT/vfsold}" q
    mv q long
    make_file flat32
    echo 'of 32 bytes a record:'
    "$how" "${@/LAYOUT/vfsold32}" q
    mv q short
    # (the first change of a file ever makes its undo file)
    "${of_40[@]}" >/dev/null
    "${of_32[@]}" >/dev/null
    beside "$what of 32 bytes a record" of_32 'of 40' of_40
}

# Measures, in one run, how many calls a second `rquotad` answers over the loopback, to one client that sends 100,000 of them
# one after another, each for another user of a tree file of 1,000,000. It stands beside a plain UDP server that sends each
# datagram back, three times each in turn. Then come how much of the time of an answer the program spends in its own code, and
# its calls of the system for one answer. `calls=NUMBER` asks for another number of calls.
part_serve() {
    answers_beside_echo
}

# Measures, in one run, one change of a full flat file, of 40 and of 32 bytes a record, beside reading that file once in
# pieces of 1,024 bytes: the ratio of their times (the best of five each), the most memory that the program holds, and
# its calls of the system. Then both changes beside each other.
part_setquota() {
    in_both_layouts setquota reading_beside setquota -F LAYOUT -u 1000 100 200 10 20
}

# Measures, in one run, how many calls a second `rquotad_tcp` answers over one connection of the loopback. A client sends
# 100,000 of them one after another, each behind the reply to the one before and for another user of a tree file of 1,000,000.
# It stands beside a plain TCP server that sends back what comes, by the best of three times of each. Then come its calls of
# the system for one answer. `calls=NUMBER` asks for another number of calls.
part_streams() {
    local ours=999999 theirs=999999 streams=$top/crates/rquotad_tcp/out/rquotad_tcp
    for _ in 1 2 3; do
        ours=$(least "$ours" "$(stream_seconds "$streams")")
        theirs=$(least "$theirs" "$(stream_seconds echo)")
    done
    echo "rquotad_tcp: $ours s, echo: $theirs s for $calls calls; $(echo "$calls $ours" | awk '{ printf "%.0f", $1 / $2 }') a second, ratio of rates $(ratio "$theirs" "$ours")"
    if command -v strace >/dev/null; then
        stream_seconds strace -c -f -o counted "$streams" >/dev/null
        awk -v calls="$calls" '$NF == "total" { printf "calls of the system: %.2f an answer\n", $4 / calls }' counted
    fi
}

# stream_seconds WORD..: how long a client takes to ask the server of these words, as `seconds` says it.
stream_seconds() {
    local port server
    port=$("$client" free)
    case $1 in
    echo) "$client" echo_stream "$port" & ;;
    *) "$@" "$port" 1 any /home user q & ;;
    esac
    server=$!
    "$client" many_stream "$port" "$calls" "$each"
    wait "$server"
}

# Measures, in one run, two tree files (vfsv1) of 1,000,000 users: one of the users 0 to 999,999, as it is built at once, and
# one of the multiples of 7, whose blocks are shuffled. What is measured of each stands beside what it is compared with: the
# ratio of the times (the best of five each), the most memory that the program holds, and its calls of the system.
# - Its report, beside awk, which prints the same lines from a text dump of it.
# - One look-up and one change, beside reading it once in pieces of 1,024 bytes.
# - Its conversion to vfsv0, beside reading it and writing the target once in such pieces.
# - The answers of `rquotad` to 100,000 calls for many users, beside a plain UDP echo (`calls=NUMBER` asks for another number).
# - The most memory that a change holds for a user who has no record yet.
part_tree() {
    echo "users 0 to 999,999:"
    tree_measured
    echo "multiples of 7, the blocks shuffled:"
    make_file spread
    each=7
    tree_measured
}

# tree_measured: all that is measured of the tree file at hand.
tree_measured() {
    report_beside_awk repquota -u -v q
    reading_beside edquota --print -u 7000 q
    conversion_beside_copy vfsv1,vfsv0 q
    memory q convertquota -f vfsv1,vfsv0 q new
    rm new
    answers_beside_echo
    reading_beside setquota -u 7000 100 200 10 20 q
    echo "setquota for a new user:"
    memory q setquota -u 2000000 100 200 10 20 q
}

"part_$1"
