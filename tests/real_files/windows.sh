# Files that are read ahead and gathered, the greatest numbers, each format and kind, and kills.
# A part of real_files.sh, which has what it calls, and runs it in a folder of its own.

# Files of more than 65,536 bytes, of which that many are read ahead and gathered: the lines of a batch do what single
# commands do, one after another, a file that grew is read to its new end, and a file of names and a quota file are read
# in turn.
seq 5000 | awk '{ print $1, 100, 1, $1, 8 }' >owners
seq 5000 | awk '{ print "user" $1 ":x:" $1 ":1::/:/bin/sh" }' >users
printf '1 100 200 3 4\n5000 50 60 7 8\nuser70 70 70 7 7\n6000 9 0 0 0\n1 20 20 2 2\n5000 0 0 0 0\n' >few
for format in vfsold vfsold32 vfsv1; do
    expect "5,000 owners in a $format file" 0 '' '' quotacheck -c -u -F "$format" --input owners one
    same "they are more than a window of $format" "$(($(stat -c %s one) > 65536))" 1
    cp one other
    expect "a batch of a large $format file" 0 '' '' setquota -F "$format" --names users -b --input few one
    while read -r name bsoft bhard isoft ihard; do
        "$run" setquota -F "$format" --names users "$name" "$bsoft" "$bhard" "$isoft" "$ihard" other
    done <few
    same "single changes of $format make the same file" "$(cmp one other && echo same)" same
    # Many lines are made together, by a new file with the owner and the permissions of the old one, or, beside a file of the
    # name of a new one, where they stand, which leaves the same bytes.
    cp one other
    chmod 640 one other
    : >other.new
    first=$(stat -c %i one)
    second=$(stat -c %i other)
    seq 18 83 4999 | awk '{ print "user" $1, 3 * $1, 4 * $1, $1 % 7, 9 } END { print "6001 1 1 1 1\n6001 0 0 0 0" }' >many
    expect "many lines of $format together" 0 '' '' setquota -F "$format" --names users -b --input many one
    expect "many lines of $format in place" 0 '' '' setquota -F "$format" --names users -b --input many other
    same "both make the same file of $format" "$(cmp one other && echo same)" same
    same "together by a new file of $format" "$(($(stat -c %i one) == first)) $(stat -c %a one) $(echo one*)" '0 640 one one.undo'
    same "in place in the old file of $format" "$(($(stat -c %i other) == second)) $(stat -c %s other.new)" '1 0'
    same "a line of them in $format" "$("$run" repquota -F "$format" one | grep '^#101 ')" \
        '#101         --          4        303        404      -        1        3        9      -'
    rm other.new
    same "all names of a large $format file" "$("$run" repquota -F "$format" --names users one | sed 1,4d | awk '{ print $1 }' | cksum)" \
        "$(seq 5000 | sed 's/^/user/' | cksum)"
    same "the end of a $format file that grew" "$("$run" repquota -v -F "$format" one | tail -n 1)" \
        '#6000        --          0          9          0      -        0        0        0      -'
    "$run" repquota -u -F "$format" one | sed 1,4d | awk '{ print substr($1, 2), 100, 1, substr($1, 2), 2 * $3 }' >owners.again
    expect "a listing of a large $format file from a pipe" 0 '' '' quotacheck -u -F "$format" other < <(cat owners.again)
    same "its sums of $format" "$("$run" repquota -u -F "$format" other | sed 1,4d | awk '{ kib += $3; inodes += $7 } END { print NR, kib, inodes }')" \
        '5000 20000 5000'
done
rm one other owners owners.again users few many

# Tree files of 20,000 users who came in different orders, by a listing or by lines that are made together, and one that most
# of them left, so that there is a long list of free blocks: the report has the limits of each. It and a look-up ask the system
# for bytes at most three times as often as 65,536 of them are in the file, and eight times more before it is seen how they go on.
awk 'BEGIN { for (id = 0; id < 20000; id++) print id, 7 * id + 1, 9 * id + 2, id % 50 + 3, id % 60 + 4 }' >up
sort -k 1nr up >down
awk '{ print int($1 / 100) * 100 + ($1 * 37 + 11) % 100, $0 }' up | sort -s -k 1n | cut -d ' ' -f 2- >nearly
awk '{ print ($1 * 7919 + 5) % 20011, $0 }' up | sort -s -k 1n | cut -d ' ' -f 2- >chance
awk '{ print $1, 100, 1, $1, 0 }' up >owners
counts=
if strace -o trace.txt true 2>err.txt; then counts=yes; fi

# asks_few WHAT FILE WORD..: whether the words ask the system for bytes so seldom, where the calls can be counted.
asks_few() {
    local what=$1 size most asked
    size=$(stat -c %s "$2")
    most=$((3 * ((size + 65535) / 65536) + 8))
    shift 2
    [ -n "$counts" ] || return 0
    strace -f -e trace=pread64 -o trace.txt "$folder/program" "$@" >out.txt
    asked=$(grep -c pread64 trace.txt)
    same "$what asks at most $most times" "$((asked > most ? asked : 0))" 0
}

# has_limits WHAT FILE LINES: whether the report of the file has the limits of these lines, and of nobody else.
has_limits() {
    same "the limits of $1" "$("$run" repquota -n -u -v "$2" | awk 'NR > 4 { print substr($1, 2), $4, $5, $8, $9 }' | cksum)" "$(sort -n "$3" | cksum)"
}

expect 'a listing of 20,000 users' 0 '' '' quotacheck -c -u --input owners listed
expect 'limits of all of them' 0 '' '' setquota -u -b --input chance listed
has_limits 'users of a listing' listed up
asks_few 'their report' listed repquota -u listed
for order in up down nearly chance; do
    expect "a file without records for $order" 0 '' '' quotacheck -c -u came </dev/null
    expect "users who come: $order" 0 '' '' setquota -u -b --input "$order" came
    has_limits "users who came: $order" came up
    asks_few "a report of users who came: $order" came repquota -u came
    asks_few "a look-up among users who came: $order" came edquota --print -u 777 came
done
awk '$1 % 500 { print $1, 0, 0, 0, 0; next } { print }' up >left
expect 'users who leave' 0 '' '' setquota -u -b --input left came
awk '$1 % 500 == 0' up >stayed
has_limits 'users who stayed' came stayed
asks_few 'a report of those who stayed' came repquota -u came
rm up down nearly chance owners listed came left stayed
unset -f asks_few has_limits
unset counts

# The greatest identifier and the greatest use of a flat file.
for row in 'vfsold 41943040' 'vfsold32 33554432'; do
    read -r format size <<<"$row"
    expect "the greatest file of $format" 0 '' '' quotacheck -c -F "$format" q <<<'1048575 0 1 1 8589934590'
    same "its size in $format" "$(stat -c %s q)" "$size"
    same "its line in $format" "$("$run" repquota -F "$format" q | sed 1,4d)" \
        '#1048575     -- 4294967295          0          0      -        1        0        0      -'
    rm q
done

# Lines up to it: two are made in place, and as many as pay for a file of its length together.
for row in 'vfsold 3414 41943040' 'vfsold32 2731 33554432'; do
    read -r format many size <<<"$row"
    for lines in 2 "$many"; do
        : >q
        first=$(stat -c %i q)
        expect "$lines lines up to the last identifier of $format" 0 '' '' setquota -F "$format" -b q \
            < <(seq 2 "$lines" | sed 's/$/ 1 1 1 1/'; echo 1048575 1 2 3 4)
        same "their file in $format" "$(($(stat -c %i q) == first)) $(stat -c %s q)" "$((lines == 2)) $size"
        rm -f q q.*
    done
done

# Each command on each format and kind. A tree file begins with its header alone, which is a file of no records.
week='\x80\x3a\x09\x00\x80\x3a\x09\x00'
tail='\x00\x00\x00\x00\x02\x00\x00\x00\x00\x00\x00\x00\x00\x00\x00\x00'
for row in 'user -u vfsv1 \x11\x1f \x01 User' 'user -u vfsv0 \x11\x1f \x00 User' \
    'group -g vfsv1 \x27\x19 \x01 Group' 'group -g vfsv0 \x27\x19 \x00 Group' \
    'project -P vfsv1 \x14\x3f \x01 Project' 'project -P vfsv0 \x14\x3f \x00 Project' 'group -g vfsold - - Group' \
    'user -u vfsold32 - - User'; do
    read -r kind letter format magic version title <<<"$row"
    if [[ $format == vfsold* ]]; then : >t; else printf "$magic\\xc0\\xd9$version\\x00\\x00\\x00$week$tail" >t; fi
    expect "new limits in $format of a $kind" 0 '' '' setquota "$letter" -F "$format" 1000 100 200 10 20 t
    expect "a second identifier in $format of a $kind" 0 '' '' setquota "$letter" -F "$format" 70000 1 2 3 4 t
    expect "the report of $format of a $kind" 0 "*** Report for $kind quotas on t
Block grace time: 7days; Inode grace time: 7days
$(printf '%-13s' "$title")         used       soft       hard  grace    files     soft     hard  grace
-----------------------------------------------------------------------------------------
#1000        --          0        100        200      -        0       10       20      -
#70000       --          0          1          2      -        0        3        4      -" '' repquota "$letter" -v -F "$format" t
    expect "a batch in $format of a $kind" 0 '' '' setquota "$letter" -F "$format" -b t <<<$'70000 0 0 0 0\n1000 1 2 3 4'
    same "its report in $format of a $kind" "$("$run" repquota "$letter" -v -F "$format" t | sed 1,4d)" \
        '#1000        --          0          1          2      -        0        3        4      -'
    same "the undo file alone is left beside $format of a $kind" "$(echo t.*)" t.undo
done
expect 'a flat file that is not asked for as one' 3 '' 'quota: t: not a quota file' repquota -u t

# The program killed at many moments of a change: behind a report there is the old file or the new one.
printf '\x11\x1f\xc0\xd9\x01\x00\x00\x00'"$week$tail" >tree
for id in 1 2 3 1000 70000 16777216 4294967295; do "$run" setquota "$id" 1 2 3 4 tree; done
truncate -s 41943040 flat
for case in 'tree vfsv1 0.0' 'flat vfsold 0.'; do
    read -r name format point <<<"$case"
    cp "$name" old
    cp "$name" new
    "$run" setquota -F "$format" 5 1 2 3 4 new
    kept=0
    for step in $(seq 10 99); do
        cp old killed
        timeout -s KILL "${point}0$step" "$folder/program" setquota -F "$format" 5 1 2 3 4 killed 2>err.txt || true
        "$folder/program" repquota -F "$format" killed >shown.txt
        if cmp -s killed old || cmp -s killed new; then kept=$((kept + 1)); fi
    done
    same "a $format file after a kill is the old or the new one" "$kept" 90
done
