#!/usr/bin/env bash
# Measures, in one run, what a listing of 1,000,000 inodes adds up to, of which every tenth is the one before it again: the
# program beside awk with a set of pairs and sums, and beside `sort -u` piped into awk. The ratios of their times (the best
# of five each), the most memory that each holds, and the program's calls of the system.
. "$(dirname "${BASH_SOURCE[0]}")/measure.sh"
awk 'BEGIN {
    srand(1)
    for (line = 1; line <= 1000000; line++) {
        if (line % 10) inode = int(1000 + rand() * 5000) " 100 2049 " 1000 + line " " 8 * int(rand() * 64)
        print inode
    }
}' >listing
words=(quotacheck -c -u --input listing made)
pairs='!(($3, $4) in met) { met[$3, $4] = 1; blocks[$1] += $5; inodes[$1]++ }'
end='END { for (id in blocks) print id, int((blocks[id] + 1) / 2), inodes[id] }'
by_pairs=(awk "$pairs $end" listing)
by_sort=(bash -c 'LC_ALL=C sort -u listing | awk "$0"' "{ blocks[\$1] += \$5; inodes[\$1]++ } $end")

"$top/bin/quota_cli" "${words[@]}"
"$program" repquota -u made | awk 'NR > 4 { print substr($1, 2), $3, $7 }' | sort >sums
"${by_pairs[@]}" | sort | cmp - sums || echo "the sums differ"
"${by_sort[@]}" | sort | cmp - sums || echo "the sums differ"
count=("$program" "${words[@]}")
for case in pairs sort; do
    declare -n command=by_$case
    best_of_both count "by_$case"
    echo "quotacheck: $ours s, awk by $case: $theirs s, ratio $(ratio "$ours" "$theirs")"
    echo "memory of awk by $case: at most $(held "${command[@]}") KiB"
done
echo "memory of quotacheck: at most $(held "$program" "${words[@]}") KiB"
calls 'pread64|pwrite64|fsync|fdatasync' "${words[@]}"
