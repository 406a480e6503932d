# New limits, grace periods and times, names, forms, and lines of limits.
# A part of real_files.sh, which has what it calls, and runs it in a folder of its own.

# New limits, and the report of the file after them.
: >q
expect 'new limits' 0 '' '' setquota -F vfsold -u 1000 100 200 10 20 q
same 'the length of the changed file' "$(stat -c %s q)" 40040
same 'the record of the changed file' "$(tail -c 40 q | od -An -v -tx1 | tr -d ' \n')" \
    "c80000006400000000000000140000000a000000$(printf '%040d' 0)"
same 'all else is 0' "$(head -c 40000 q | tr -d '\0' | wc -c)" 0
expect 'the report after new limits' 0 "$head
#1000        --          0        100        200      -        0       10       20      -" '' repquota -F vfsold -u -v q
expect 'limits of 0 drop the record' 0 '' '' setquota -F vfsold -u 1000 0 0 0 0 q
expect 'the report after that' 0 "$head" '' repquota -F vfsold -u -v q
: >short
expect 'new limits in a record of 32 bytes' 0 '' '' setquota -F vfsold32 -u 1000 100 200 10 20 short
same 'the length of that file' "$(stat -c %s short)" 32032
same 'its record' "$(tail -c 32 short | od -An -v -tx1 | tr -d ' \n')" \
    "c80000006400000000000000140000000a000000$(printf '%024d' 0)"
same 'all else in it is 0' "$(head -c 32000 short | tr -d '\0' | wc -c)" 0
expect 'its report' 0 "${head/on q/on short}
#1000        --          0        100        200      -        0       10       20      -" '' repquota -F vfsold32 -u -v short
rm short short.undo
same 'the undo file alone is left beside the file' "$(echo q.*)" q.undo

# A user whose use exceeds the new soft limit gets a timer, which ends a grace period from now, by the system's clock.
from=$(date +%s)
expect 'a limit below the use' 0 '' '' setquota -F vfsold -u 1004 1M 0 0 0 quota.user
to=$(date +%s)
"$run" repquota -F vfsold -u -v quota.user >out.txt
same 'its report' "$(sed -n '/^#1004 /p' out.txt)" \
    '#1004        +-    7340032       1024          0  7days   310552        0        0      -'
timer=$("$run" repquota -F vfsold -u -v -p quota.user | awk '/^#1004 / { print $6 }')
same 'its timer is a week from now' "$(((timer >= from + 604800 && timer <= to + 604800)))" 1

# The same in records of 32 bytes, whose periods and timers are below 2^32. A timer that would end later is refused, the one of
# blocks before the one of inodes, and leaves the file.
cp "$top/samples/quota.user32" short
from=$(date +%s)
expect 'a limit below the use, in 32 bits' 0 '' '' setquota -F vfsold32 -u 1004 1M 0 0 0 short
to=$(date +%s)
timer=$("$run" repquota -F vfsold32 -u -v -p short | awk '/^#1004 / { print $6 }')
same 'its timer of 32 bits is a week from now' "$((timer >= from + 604800 && timer <= to + 604800))" 1
for seconds in 0 4294967296; do
    expect "a period of $seconds seconds" 1 '' "quota: short: no room for bgrace $seconds" setquota -F vfsold32 -t "$seconds" 60 short
done
expect 'the longest periods' 0 '' '' setquota -F vfsold32 -t 4294967295 4294967295 short
same 'they stand in the file' "$(head -c 32 short | tail -c 8 | od -An -v -tx1 | tr -d ' ')" ffffffffffffffff
cp short want
for row in 'btime 1000 1 0 1 0' 'itime 1004 1M 0 1 0'; do
    read -r field id limits <<<"$row"
    got=0
    # shellcheck disable=SC2086
    "$run" setquota -F vfsold32 "$id" $limits short 2>err.txt || got=$?
    same "a $field beyond 32 bits" "$got $(sed -E 's/ [0-9]{10} / N /' err.txt)" "1 quota: short: no room for $field N of $id"
done
same 'refused timers leave the file' "$(cmp short want && echo same)" same
rm short short.undo want

# A file of names is read from the disk: a name stands for its identifier, and a report shows it.
printf 'root:x:0:0::/:/bin/sh\nalice:x:1000:100::/:/bin/sh\nbob:x:1001:100::/:/bin/sh\n' >names
: >q
expect 'new limits of a name' 0 '' '' setquota -F vfsold --names names alice 100 200 10 20 q
expect 'limits are copied' 0 '' '' setquota -F vfsold --names names -p alice bob q
expect 'a report with names' 0 "$head
alice        --          0        100        200      -        0       10       20      -
bob          --          0        100        200      -        0       10       20      -" '' \
    repquota -F vfsold -v --names names q
expect 'a name that no line has' 1 '' 'quota: unknown name carol' setquota -F vfsold --names names carol 1 1 1 1 q
expect 'a file that is none of names' 1 '' 'quota: q: bad line 1' repquota -F vfsold --names q q
expect 'a file of names that is absent' 1 '' 'quota: r: no such file' repquota -F vfsold --names r q

# Limits as a form, grace periods, and times: one is set, and one is skipped with a warning.
expect 'a form' 0 'Disk quotas for user alice (uid 1000):
  Filesystem blocks soft hard inodes soft hard
  q 0 100 200 0 10 20' '' edquota --print -F vfsold --names names alice q
expect 'new grace periods' 0 '' '' setquota -F vfsold -t 86400 3600 q
same 'the report of them' "$("$run" repquota -F vfsold q | sed -n 2p)" 'Block grace time: 24:00; Inode grace time: 01:00'
cp "$top/samples/quota.user" timed
expect 'a new time' 0 '' 'quota: inode time not set, soft limit not exceeded' setquota -F vfsold -T 1001 86400 5 timed
"$run" repquota -F vfsold timed >out.txt
same 'its report' "$(sed -n '/^#1001 /p' out.txt)" \
    '#1001        +-    1835008    1048576    2097152  24:00    39999    40000    50000      -'
got=0
"$run" setquota -F vfsold -T 1001 unset 5 timed 2>/dev/full || got=$?
same 'a warning that is not written' "$got" 4
got=0
"$run" edquota --print -F vfsold 1000 q >/dev/full 2>err.txt || got=$?
same 'a form to a full output' "$got $(cat err.txt)" '4 quota: output fault'

# Lines of limits on the standard input, or in a file: those before a refused one stay. A form is printed, changed and
# applied.
printf '7 1 2 0 0\n# note\nalice 100 200 10 20\n' >lines
: >q
expect 'a batch of the standard input' 0 '' '' setquota -F vfsold --names names -b q <lines
limits="$head
#7           --          0          1          2      -        0        0        0      -
#1000        --          0        100        200      -        0       10       20      -"
expect 'the report of the batch' 0 "$limits" '' repquota -F vfsold -v q
: >r
expect 'a batch of a file' 0 '' '' setquota -F vfsold --names names -b --input lines r <.
same 'both batches make the same file' "$(cmp q r && echo same)" same
rm r
printf '7 1 2 0 0\n# note\n8 1 2 0\n9 1 1 1 1\n' >lines
: >q
expect 'a bad line of the standard input' 1 '' 'quota: input: bad line 3' setquota -F vfsold -b q <lines
expect 'the lines before a bad one stay' 0 "$head
#7           --          0          1          2      -        0        0        0      -" '' repquota -F vfsold -v q
expect 'a bad line of a file' 1 '' 'quota: lines: bad line 3' setquota -F vfsold -b --input lines q
printf '7 5 6 0 0\n8 x 2 0 0' >lines
expect 'a faulty word of a file' 1 '' 'quota: input line 2: bad number x' setquota -F vfsold -b --input lines q
expect 'the line before it stays' 0 "$head
#7           --          0          5          6      -        0        0        0      -" '' repquota -F vfsold -v q
cp q want
expect 'an input that is absent' 1 '' 'quota: r: no such file' setquota -F vfsold -b --input r q
expect 'an input that is a folder' 4 '' 'quota: store fault' setquota -F vfsold -b --input . q
expect 'a standard input that is a folder' 4 '' 'quota: input fault' setquota -F vfsold -b q <.
expect 'an input of no bytes' 0 '' '' setquota -F vfsold -b q </dev/null
same 'they leave the file' "$(cmp q want && echo same)" same

# Lines before one that is refused by its edit are made by a new file, where that has at most twelve pieces of 1,024 bytes for
# each of them, one that has nothing to do among them, and else where they stand, as a line alone is. What they leave is what
# a single change leaves.
for format in vfsold vfsold32 vfsv0; do
    for row in '1 12' '1 13' '2 24' '2 25'; do
        read -r made pieces <<<"$row"
        what="$made lines before a refused one in $pieces pieces of $format"
        rm -f t t.*
        "$run" quotacheck -c -F "$format" t <<<'1 100 1 1 8'
        case $format in
            vfsold) truncate -s "$((pieces * 1024 / 40 * 40))" t ;;
            vfsold32) truncate -s "$((pieces * 1024))" t ;;
            vfsv0) truncate -s "$((pieces * 1024))" t ;;
        esac
        same "the pieces of $format" "$((($(stat -c %s t) + 1023) / 1024))" "$pieces"
        cp t other
        expect "a single change of $pieces pieces of $format" 0 '' '' setquota -F "$format" 1 9 8 7 6 other
        first=$(stat -c %i t)
        expect "$what" 1 '' "quota: input line $((made + 1)): t: no room for bhard 4294967296 of 3" \
            setquota -F "$format" -b t < <(printf '%s\n' '2 0 0 0 0' '1 9 8 7 6' '3 0 4T 0 0' '3 1 1 1 1' | tail -n "$((made + 2))")
        same "$what: the old file, and what it has" "$(($(stat -c %i t) == first)) $(cmp t other && echo same)$(echo t.new*)" \
            "$((pieces > 12 * made)) same"
    done
    first=$(stat -c %i t)
    expect "a line alone of $format" 0 '' '' setquota -F "$format" -b t <<<'1 3 4 5 6'
    same "a line alone of $format keeps the file" "$(($(stat -c %i t) == first))$(echo t.new*)" 1
done
rm -f t t.* other other.*
: >q
"$run" edquota --print -F vfsold --names names alice q | sed '3s/.*/  q 0 100 200 0 10 20/' >form
expect 'a form of the standard input' 0 '' '' edquota --apply -F vfsold --names names alice q <form
expect 'the report of the form' 0 "$head
#1000        --          0        100        200      -        0       10       20      -" '' repquota -F vfsold -v q
cp q want
: >q
expect 'a form of a file' 0 '' '' edquota --apply -F vfsold --names names --input form alice q <.
same 'both forms make the same file' "$(cmp q want && echo same)" same
expect 'a form of another name' 1 '' 'quota: bad form at line 1' edquota --apply -F vfsold --names names bob q <form
head -n 1 form >form.cut
expect 'a form that is cut' 1 '' 'quota: bad form at line 2' edquota --apply -F vfsold --names names --input form.cut alice q
same 'a refused form leaves the file' "$(cmp q want && echo same)" same
same 'nothing is left beside the files' "$(echo *.new)" ''
