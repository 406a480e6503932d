#!/usr/bin/env bash
# Measures, in one run, tree files (vfsv1) of as many blocks as there may be, which are 4 GiB: how long quotacheck takes to make
# one with room for two blocks more, of a listing of 3,900,403 users, and setquota -b for few and for 524,288 lines, of which one
# finds that file full; each with the most memory that the program holds. It fails where the lines are not made in place, or the
# file has not just the records of those before that one. Then rquotad keeps that file in memory, and has to tell the limits of
# users whose records stand in each part of it. Then a file whose 4,194,304 blocks are free but for two, in a list of ascending
# blocks, of descending ones, as users leave who came one after another, and in one that leads far from each to the next: opening
# it for a look-up beside one reading in pieces of 1,024 bytes, from its beginning on and in the order of its list, the ratios of
# their times (the best of five each), and the most memory that the program holds beside 16 bytes a block. Where there are less
# than 6 GiB of free space, or 10 of memory, it measures nothing.
. "$(dirname "${BASH_SOURCE[0]}")/measure.sh"
"$top/bin/quota_cli" --version >said
limit=4194304

# The identifiers of the file are the first 3,900,403 multiples of 256. Each has a tree block of the lowest level of its own,
# above which there are 15,236 of the next level, 60 of the one above and the root; the records fill 278,600 data blocks and 3 of
# the 14 entries of a further one. With the header there are 4,194,302 blocks, so two more may come, and 11 records that need none.
users=3900403
blocks=4194302

# Who has no record, and a way to one that lacks three tree blocks; two of them; and that of the lowest level.
three=4294967295
two=998768640
one=998503168

# wrong WHAT: ends this.
wrong() {
    echo "$*" >&2
    exit 1
}

# batch LINES MADE: so many lines, each 256th of which has limits for a known identifier. Thirteen have limits for who has no
# record in the file that is made first, but a way to one, and each other line has nothing to do. Behind as many as are to be made
# comes a line that has no room, and then one that has.
batch() {
    awk -v lines="$1" -v made="$2" -v two="$two" -v one="$one" 'BEGIN {
        for (at = 0; at < lines; at++)
            if (at == made) print two, 1, 2, 3, 4
            else if (at == made + 1) print one, 1, 2, 3, 4
            else if (at % 256 == 0) print at * 1024 + 768, 5, 6, 7, 8
            else if (at % 2048 == 1 && at < 26624) print at * 256 + 1, 3, 6, 7, 8
            else print at * 256 + 1, 0, 0, 0, 0
    }'
}

# wanted: what `shown` says once all lines of the input were made, the last one for an identifier last.
wanted() {
    awk -v users="$users" '
        $2 > 0 { limits[$1] = $0 }
        END {
            others = users
            for (id in limits) {
                known = id % 256 == 0 && id + 0 < users * 256
                others -= known
                split(limits[id], words, " ")
                print "#" id, "--", known * 4, words[2], words[3], "-", known, words[4], words[5], "-"
            }
            print others, "--", 4, 0, 0, "-", 1, 0, 0, "-"
        }' | sort
}

# shown FILE: the lines of the report, with single spaces. Those without limits are counted, where they are alike.
shown() {
    "$program" repquota -u -v "$1" | awk '
        NR < 5 { next }
        $4 > 0 { $1 = $1; print; next }
        { $1 = ""; others[$0]++ }
        END { for (line in others) print others[line] line }' | sort
}

# measured WHAT WORD..: how long the program takes with these words, and the most memory that it holds. Its status and its error
# line are left in `status` and `said`.
measured() {
    local what=$1 start end held
    shift
    sync
    start=$(date +%s.%N)
    # shellcheck disable=SC2016
    held=$(held sh -c '"$@" 2>said; echo $? >status' sh "$program" "$@")
    end=$(date +%s.%N)
    echo "$what: $(echo "$start $end" | awk '{ printf "%.2f", $2 - $1 }') s, memory at most $held KiB"
}

# made WHAT: the lines of `lines`, of which one would make the file t one of a block more than it may have, are made in place.
made() {
    local inode
    inode=$(stat -c %i t)
    measured "$1" setquota -u -b --input lines t
    if [ "$(cat status said)" != "1
quota: t: full: $((limit + 1)) blocks of $limit" ]; then wrong "$1: status $(cat status said)"; fi
    if [ "$(stat -c %i t)" != "$inode" ]; then wrong "$1 are made by a new file"; fi
}

# has_size BLOCKS: the file t has so many blocks.
has_size() {
    if [ "$(stat -c %s t)" != $(($1 * 1024)) ]; then wrong "the file has $(stat -c %s t) bytes"; fi
}

# (The file takes 4 GiB, and is made in memory; rquotad keeps as much.)
if [ "$(df -Pk . | awk 'NR == 2 { print $4 }')" -lt 6291456 ] || awk '/^MemAvailable:/ { exit $2 >= 10485760 }' /proc/meminfo; then
    echo 'there are less than 6 GiB of free space, or 10 of memory: nothing is measured'
    exit
fi
awk -v users="$users" 'BEGIN { for (at = 0; at < users; at++) print at * 256, 100, 1, at + 1, 8 }' >owners
measured 'quotacheck of a file with room for two blocks' quotacheck -c -u -F vfsv1 --input owners t
if [ "$(cat status said)" != 0 ]; then wrong "status $(cat status said)"; fi
has_size $blocks
rm owners

# Few lines: a known identifier, one that takes an entry that is there, one that has no room, and one that is known.
printf '%s\n' '256 5 6 7 8' '1 5 6 7 8' "$three 5 6 7 8" '512 5 6 7 8' >lines
made 'setquota -b of 4 lines, 2 before a refused one'
sed 2q lines >all
has_size $blocks

# So many lines as would be made together in a file that they could not fill; the file then has a block more.
batch 524288 349526 >lines
made 'setquota -b of 524,288 lines, 349,526 before a refused one'
sed 349526q lines >>all
has_size $((blocks + 1))

# Then the last block is taken, and no other one.
printf '%s\n' "$one 5 6 7 8" "$((one + 256)) 5 6 7 8" '512 5 6 7 8' >lines
made 'setquota -b of 3 lines, 1 before a refused one'
sed 1q lines >>all
has_size $limit
wanted <all >want.txt
shown t >shown.txt
diff want.txt shown.txt | sed 4q
cmp want.txt shown.txt

# A file that is served is kept in memory, each part of it: 64 users from the first to the last one.
port=$("$top/tests/serve_client.py" free)
measured 'rquotad of that file, for 64 calls' rquotad --calls 64 --port "$port" --export /home user t &
serving=$!
for ((at = 1; at <= 64; at++)); do
    id=$((at * (users / 64) * 256))
    while ! "$top/bin/quota_client" quota "$port" $id $id /home >told 2>&1; do sleep 1; done
    if [ "$(awk 'NR == 1 { print $2 }' told)" != 4 ]; then wrong "of $id it tells $(cat told)"; fi
done
wait "$serving"
if [ "$(cat status said)" != 0 ]; then wrong "rquotad: status $(cat status said)"; fi
rm -f t t.undo lines all want.txt shown.txt told

# free STEP: makes a file whose blocks are free but for the header and the root; from each the list leads so many blocks on, and
# around.
free() {
    PYTHONPATH=$top/tests python3 -B - "$1" "$limit" <<'PY'
import sys
from quota_files import BLOCK, WEEK, free_block, header
step, count = int(sys.argv[1]), int(sys.argv[2])
rest = count - 2
with open("free", "wb") as file:
    file.write(header("user", 1, (WEEK, WEEK), count, 2).ljust(2 * BLOCK, b"\0"))
    for at in range(rest):
        file.write(free_block(2 + (at + step) % rest if (at + step) % rest else 0))
PY
}

# followed: a program that reads a file once, in pieces of 1,024 bytes, each of which begins with the number of the next one.
followed() {
    "${CC:-cc}" -O2 -x c -o followed - <<'C'
#include <fcntl.h>
#include <stdint.h>
#include <stdio.h>
#include <unistd.h>

int main(int count, char **words) {
    unsigned char block[1024];
    int file = open(words[1], O_RDONLY);
    uint32_t next = 2;
    while (next != 0) {
        if (pread(file, block, sizeof block, (off_t)next * 1024) != sizeof block) return 1;
        next = block[0] | block[1] << 8 | block[2] << 16 | (uint32_t)block[3] << 24;
    }
    return 0;
}
C
}

followed
look=("$program" edquota --print -u 7 free)
# shellcheck disable=SC2034
reading=(dd if=free of=/dev/null bs=1024)
# shellcheck disable=SC2034
following=(./followed free)
for step in 1 -1 1000003; do
    free $step
    sync
    beside "a file of free blocks, each $step behind the one before" look 'one reading' reading
    beside 'the same' look 'one reading in the order of its list' following
    echo "memory: at most $(held "${look[@]}") KiB, 16 bytes a block $((limit / 64)) KiB"
done
