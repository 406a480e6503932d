#!/usr/bin/env bash
# Measures, in one run, a quota file out of a listing of 1,000,000 lines that is made, beside the same listing written by awk
# and piped into quotacheck, and a report on the file: the ratio of their times (the best of five each), the most memory
# that the program holds, and its calls of the system. Numbers of 64 bits are four parts of 16 bits to awk, whose own
# numbers have 53.
. "$(dirname "${BASH_SOURCE[0]}")/measure.sh"
words=(generate 1 1000000 made)
listing='BEGIN {
    a = 1
    for (line = 1; line <= 1000000; line++) {
        if (line % 10) {
            t = 32557 * a + 33103; w = t % 65536; t = int(t / 65536)
            t += 32557 * b + 19605 * a + 63335; x = t % 65536; t = int(t / 65536)
            t += 32557 * c + 19605 * b + 62509 * a + 31614; y = t % 65536; t = int(t / 65536)
            t += 32557 * d + 19605 * c + 62509 * b + 22609 * a + 5125; d = t % 65536
            a = w; b = x; c = y
            inode = 1000 + int((d * 65536 + c) / 2) % 5000 " 100 2049 " 1000 + line " " 8 * (int(b / 16) % 64)
        }
        print inode
    }
}'

# piped AWK: the listing by this awk, a file of it, and a report on that.
piped() {
    "$1" "$listing" | "$program" quotacheck -c -u -F vfsv1 file
    "$program" repquota file >report
}

"$top/bin/quota_cli" "${words[@]}" >line
piped awk
cmp made file || echo "the files differ"
[ "$(awk '{ print $(NF - 1) }' line)" = "$(stat -c %s report)" ] || echo "the reports differ"
cat line
generation=("$program" "${words[@]}")
for awk in awk mawk; do
    if command -v "$awk" >/dev/null; then
        pipe=(piped "$awk")
        best_of_both generation pipe
        echo "generate: $ours s, $awk, quotacheck and repquota: $theirs s, ratio $(ratio "$ours" "$theirs")"
    fi
done
echo "memory of generate: at most $(held "$program" "${words[@]}") KiB"
calls 'pread64|pwrite64|fsync|fdatasync' "${words[@]}"
