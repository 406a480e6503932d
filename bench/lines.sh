#!/usr/bin/env bash
# Measures, in one run, how the lines of an input are read: 1,000,000 of them from a file, each a comment of setquota -b, so
# that nothing else is done, beside the count of the lines by wc. The ratio of their times (the best of five each), the
# most memory that the program holds, and its calls of the system.
. "$(dirname "${BASH_SOURCE[0]}")/measure.sh"
yes '# one comment..' | head -n 1000000 >lines || true
head -c 40 /dev/zero >empty
words=(setquota -F vfsold -u -b --input lines empty)
"$top/bin/quota_cli" "${words[@]}"

reading=("$program" "${words[@]}")
count=(wc -l lines)
best_of_both reading count
echo "lines: $ours s, wc: $theirs s, ratio $(ratio "$ours" "$theirs")"
memory lines "${words[@]}"
calls 'pread64|read' "${words[@]}"
