#!/usr/bin/env bash
# Measures, in one run, a script of 10,000 lines that set limits of the 1,000 users of a file, beside 10,000 runs of the program,
# and beside the same lines by `setquota -b`, which makes them together: their seconds and ratios, and how many calls of the
# system sync a line of each.
# Then what a sync costs: the script again, over a folder in memory.
large=flat
. "$(dirname "${BASH_SOURCE[0]}")/measure.sh"
rm q dump
seq 1000 | awk '{ print $1, 100, 1, $1, 8 }' >listing
"$top/bin/quota_cli" quotacheck -c -u --input listing users
seq 10000 | awk '{ print 1 + $1 % 1000, 100 + $1, 200 + $1, 10, 20 }' >lines
sed 's/^/setquota /; s/$/ q/' lines >script

# seconds WORD..: how long a command takes once, over a new copy of the file of users.
seconds() {
    cp users q
    local start end
    start=$(date +%s.%N)
    "$@"
    end=$(date +%s.%N)
    echo "$start $end" | awk '{ printf "%.2f", $2 - $1 }'
}

run_script() { "$program" script <script; }
run_batch() { "$program" setquota -b q <lines; }
run_alone() { while read -r -a words; do "$program" "${words[@]}"; done <script; }

ours=$(seconds run_script)
cp q left
alone=$(seconds run_alone)
cmp q left
batch=$(seconds run_batch)
cmp q left
echo "script: $ours s, 10,000 runs: $alone s, ratio $(ratio "$ours" "$alone")"
echo "script: $ours s, setquota -b: $batch s, ratio $(ratio "$ours" "$batch")"
cp users q
calls 'fsync|fdatasync' script <script
cp users q
calls 'fsync|fdatasync' setquota -b q <lines

if [ -d /dev/shm ] && [ -w /dev/shm ]; then
    memory=$(mktemp -d -p /dev/shm)
    trap 'rm -rf "$folder" "$memory"' EXIT
    cp users script "$memory"
    cd "$memory"
    light=$(seconds run_script)
    echo "$ours $light" | awk '{ printf "a sync: %.2f ms a line (in memory the script takes %.2f s)\n", ($1 - $2) / 10, $2 }'
fi
