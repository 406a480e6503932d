# A listing, conversions, owners and permissions, refusals, and links.
# A part of real_files.sh, which has what it calls, and runs it in a folder of its own.

# A folder is counted as find(1) lists it, with a second name of one file. The wanted sums are those of awk over `sort -u`.
mkdir -p walked/below
head -c 5000 /dev/zero >walked/one
head -c 100000 /dev/zero >walked/below/two
ln walked/one walked/below/other
sync walked/one walked/below/two
find walked -printf '%U %G %D %i %b\n' >listing
owner=$(id -u)
counted=$(sort -u listing | awk '{ blocks += $5; inodes++ } END { printf "%10d          0          0      - %8d        0        0      -", int((blocks + 1) / 2), inodes }')
row="$(printf '%-13s--' "#$owner") $counted"
expect 'a new file of a listing' 0 '' '' quotacheck -c -u --input listing made
expect 'its report' 0 "${head/on q/on made}
$row" '' repquota -u made
same 'a new file is for its owner alone' "$(stat -c %a made)" 600
cp made want
expect 'the same from the standard input' 0 '' '' quotacheck -c -u made <listing
same 'both listings make the same file' "$(cmp made want && echo same)" same
expect 'a listing of groups from find itself' 0 '' '' quotacheck -c -g grouped < <(find walked -printf '%U %G %D %i %b\n')
same 'its line' "$("$run" repquota -g grouped | sed 1,4d)" "$(printf '%-13s--' "#$(id -g)") $counted"
expect 'a listing of projects' 0 '' '' quotacheck -c -P projects < <(find walked -printf '%U 7 %D %i %b\n')
same 'the line of project 7' "$("$run" repquota -P projects | sed 1,4d)" "$(printf '%-13s--' '#7') $counted"
expect 'the projects in vfsv0' 0 '' '' convertquota -P -f vfsv1,vfsv0 projects narrow
expect 'limits of project 7' 0 '' '' setquota -P 7 0 0 0 70000 projects
"$run" edquota -P --print 7 projects >form
same 'the title of its form' "$(head -n 1 form)" 'Disk quotas for project #7 (pid 7):'
expect 'its form in vfsv0' 0 '' '' edquota -P --apply 7 narrow < <(sed 's/^  projects /  narrow /' form)
same 'the report in vfsv0' "$("$run" repquota -P narrow | tail -n +2)" "$("$run" repquota -P projects | tail -n +2)"
expect 'a form of groups for a project' 1 '' 'quota: bad form at line 1' edquota -P --apply 7 projects \
    < <("$run" edquota -g --print 7 grouped)
expect 'limits in that file' 0 '' '' setquota -u 70000 1 2 3 4 made
chmod 644 made
expect 'a listing of no line' 0 '' '' quotacheck -u made </dev/null
same 'limits stay, and usage does not' "$("$run" repquota -u -v made | sed 1,4d)" \
    '#70000       --          0          1          2      -        0        3        4      -'
same 'the permissions stay' "$(stat -c %a made)" 644
expect 'a listing into that file' 0 '' '' quotacheck -u --device "$(stat -c %d walked)" --input listing made
same 'its lines' "$("$run" repquota -u -v made | sed 1,4d)" "$row
#70000       --          0          1          2      -        0        3        4      -"
cp made want
expect 'a listing of another device' 0 '' '' quotacheck -c -u --device 18446744073709551615 --input listing other
same 'it counts for nothing' "$("$run" repquota -u -v other | sed 1,4d)" ''
printf '1 1 1 1 8\n1 1 1 2 8\n1 1 1 1 16\n' >conflicting
expect 'a listing with a conflict' 1 '' 'quota: conflicting: line 3 conflicts with line 1' quotacheck -u --input conflicting made
expect 'the same of the standard input' 1 '' 'quota: input: line 3 conflicts with line 1' quotacheck -u made <conflicting
expect 'a listing that is none' 1 '' 'quota: quota.user: long line 1' quotacheck -u --input quota.user made
expect 'a listing that is absent' 1 '' 'quota: r: no such file' quotacheck -u --input r made
expect 'a listing that is a folder' 4 '' 'quota: store fault' quotacheck -u --input . made
expect 'a check of an absent file' 1 '' 'quota: r: no such file' quotacheck -u r </dev/null
for format in vfsold vfsold32; do
    expect "no room in a file of $format" 1 '' 'quota: made: no room for id 1048576 of 1048576' \
        quotacheck -c -F "$format" made <<<'1048576 0 1 1 8'
done
# Each of these users takes a tree block of the lowest level alone, above which are 16,384, 64 and the root; with 299,594 data blocks
# and the header they are 4,510,348.
# shellcheck disable=SC2034
patience=100
expect 'more blocks than a tree file may have' 1 '' 'quota: made: full: 4510348 blocks of 4194304' quotacheck -c -u made \
    < <(seq 4194304 | awk '{ print $1 * 256 - 1, 0, 1, $1, 8 }')
patience=10
same 'refused listings leave the file' "$(cmp made want && echo same)" same
same 'nothing is left beside it' "$(echo *.new)" ''

# A file is converted into each other format and back: the reports are the same but for their first line, which has the
# name. The source stays, no file is written over, and a refusal makes none.
rm -f q r ./*.undo
expect 'a file to convert' 0 '' '' quotacheck -c -F vfsv0 q <<<$'1000 100 2049 12 9\n70000 100 2049 13 8'
expect 'its limits' 0 '' '' setquota 1000 2 4294967295 3 4294967295 q
"$run" repquota -v -p q >shown
cp q want
from=q
for pair in vfsv0,vfsv1 vfsv1,vfsold vfsold,vfsold32 vfsold32,vfsold vfsold,vfsv0 vfsv0,vfsv0 vfsv0,vfsold32 vfsold32,vfsv1; do
    to=${pair#*,}.converted
    rm -f "$to"
    expect "a conversion $pair" 0 '' '' convertquota -f "$pair" "$from" "$to"
    same "the report after $pair" "$("$run" repquota -v -p -F "${pair#*,}" "$to" | tail -n +2)" "$(tail -n +2 shown)"
    same "the file after $pair is for its owner alone" "$(stat -c %a "$to")" 600
    if [ "$pair" != vfsold,vfsv0 ]; then from=$to; else mv "$to" back; from=back; fi
done
same 'a conversion leaves its source' "$(cmp q want && echo same)" same
expect 'a conversion into a file that is there' 1 '' 'quota: back: exists already' convertquota -f vfsv0,vfsv1 q back
expect 'a conversion into the file itself' 1 '' 'quota: q: same name' convertquota -f vfsv0,vfsv1 q q
expect 'a conversion of an absent file' 1 '' 'quota: absent: no such file' convertquota -f vfsv0,vfsv1 absent r
expect 'a conversion from another format' 3 '' 'quota: q: other format' convertquota -f vfsv1,vfsold q r
"$run" setquota 4294967295 1 1 1 1 q
expect 'no room in a flat file for an identifier' 1 '' 'quota: q: no room for id 4294967295 of 4294967295' convertquota -f vfsv0,vfsold q r
expect 'a conversion into a folder that is absent' 4 '' 'quota: store fault' convertquota -f vfsv0,vfsv1 q absent/r
same 'refused conversions make no file' "$(echo r* absent*)" ''
# Identifier 1000 is over its soft limit of blocks, up to the last second of 32 bits, and then up to the one behind it.
{ head -c 40004 /dev/zero; printf '\1\0\0\0\2'; head -c 15 /dev/zero; printf '\377\377\377\377'; head -c 12 /dev/zero; } >late
expect 'a timer of 32 bits' 0 '' '' convertquota -f vfsold,vfsold32 late flat32
same 'its report' "$("$run" repquota -p -F vfsold32 flat32 | sed 1,4d)" \
    '#1000        +-          2          1          0 4294967295        0        0        0      0'
expect 'it is converted back' 0 '' '' convertquota -f vfsold32,vfsold flat32 flat
same 'that is the same file but for its periods' "$(tail -c +41 flat | cmp - <(tail -c +41 late) && echo same)" same
{ head -c 40024 late; printf '\0\0\0\0\1'; head -c 11 /dev/zero; } >later
expect 'no room for a timer' 1 '' 'quota: later: no room for btime 4294967296 of 1000' convertquota -f vfsold,vfsold32 later r
rm flat flat32 late later
same 'no file is made where there is no room' "$(echo r*)" ''
expect 'the last identifier of a flat file' 0 '' '' quotacheck -c r <<<'1048575 0 1 1 8'
for row in 'vfsold 41943040' 'vfsold32 33554432'; do
    expect "its conversion to ${row% *}" 0 '' '' convertquota -f "vfsv1,${row% *}" r "flat.${row% *}"
    same "the size of that file of ${row% *}" "$(stat -c %s "flat.${row% *}")" "${row#* }"
done
same 'nothing is left beside the files' "$(echo *.new)" ''
rm -f q r back flat.* shown want ./*.converted ./*.undo

# The owner and the permissions stay, and a file that was left behind is not in the way.
: >q
chmod 640 q
if [ "$(id -u)" = 0 ]; then chown 12:34 q; fi
before=$(stat -c '%a %u %g' q)
echo junk >q.new
chmod 400 q.new
expect 'a file that was left behind' 0 '' '' quotacheck -F vfsold q <<<'0 0 1 1 8'
same 'the owner and the permissions' "$(stat -c '%a %u %g' q)" "$before"
same 'the length of the new file' "$(stat -c %s q)" 40
same 'what was left behind is gone' "$(echo q.*)" ''

# Refusals leave the file as it is.
cp q want
expect 'a faulty limit' 1 '' 'quota: bad number 10x' setquota -F vfsold -u 1000 10x 0 0 0 q
expect 'a name' 1 '' 'quota: unknown name carol' setquota -F vfsold -u carol 0 0 0 0 q
expect 'an identifier without room' 1 '' 'quota: q: no room for id 1048576 of 1048576' setquota -F vfsold -u 1048576 1 1 0 0 q
expect 'an edit of an absent file' 1 '' 'quota: r: no such file' setquota -F vfsold -u 1 1 1 0 0 r
same 'an absent file is not made' "$(echo r*)" ''
mkdir q.new
expect 'a folder in place of the new file' 4 '' 'quota: store fault' quotacheck -F vfsold q <<<'1 0 1 1 8'
rmdir q.new
same 'a refused change leaves the file' "$(cmp q want && echo same)" same

# A change in place needs no new file.
mkdir q.new
expect 'a change beside such a folder' 0 '' '' setquota -F vfsold -u 1 1 1 0 0 q
rmdir q.new
same 'the length of the changed file' "$(stat -c %s q)" 80

# A link in place of the new file is removed, and the file that it leads to stays.
echo keep >kept
ln -s kept q.new
expect 'a link in place of the new file' 0 '' '' quotacheck -F vfsold q <<<'1 0 1 1 8'
same 'what the link led to' "$(cat kept)" keep
same 'the file is no link' "$(stat -c %F q)" 'regular file'
