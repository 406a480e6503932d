# Reports, words that are refused, the help, and outputs that are full.
# A part of real_files.sh, which has what it calls, and runs it in a folder of its own.

usage='quota: usage: UnknownCommand at word 0'

: >q
expect 'an empty file' 0 "$head" '' repquota -F vfsold -u -v q
head -c 79 /dev/zero >q
expect 'a cut record' 3 '' 'quota: q: damaged: PartialRecord at record 1' repquota -F vfsold -u -v q
expect 'a cut record of 32 bytes' 3 '' 'quota: q: damaged: PartialRecord at record 2' repquota -F vfsold32 -u -v q
truncate -s 41943041 q
expect 'a file that is too large' 1 '' 'quota: q: too large' repquota -F vfsold -u -v q
truncate -s 33554433 q
expect 'a file of 32 bytes a record that is too large' 1 '' 'quota: q: too large' repquota -F vfsold32 -u -v q
expect 'a file of that length, of 40 bytes a record' 3 '' 'quota: q: damaged: PartialRecord at record 838860' repquota -F vfsold -u -v q
# Nothing in a file tells which flat layout it has: 160 bytes are four records of 40 or five of 32. Read as the other one it
# shows other users.
{ head -c 128 /dev/zero; printf '\0\0\0\0\7\0\0\0\2\0\0\0\0\0\0\0\0\0\0\0\1\0\0\0'; head -c 8 /dev/zero; } >q
expect 'a file of five records' 0 "$head
#4           --          2          7          0      -        1        0        0      -" '' repquota -F vfsold32 -u -v q
expect 'the same file as one of four' 0 "$head
#3           --          0          0          0      -        0        2        7      -" '' repquota -F vfsold -u -v q
rm q
expect 'an absent file' 1 '' 'quota: q: no such file' repquota -F vfsold -u -v q
mkdir q
expect 'a folder in place of a file' 4 '' 'quota: store fault' repquota -F vfsold -u -v q
rmdir q
mkfifo q
expect 'a pipe in place of a file' 4 '' 'quota: store fault' repquota -F vfsold -u -v q
rm q
: >q
expect 'a path through a file' 1 '' 'quota: q/x: no such file' repquota -F vfsold -u -v q/x
expect 'a file that is no tree file' 3 '' 'quota: q: not a quota file' repquota -u q
expect 'other words' 2 '' 'quota: usage: UnknownOption at word 2' repquota -u -x q
expect 'an unknown command' 2 '' "$usage" quotaon
expect 'no words' 2 '' 'quota: usage: NoCommand at word 0'
made='lines 100000, inodes 90000, identifiers 5000, KiB 11346116, report 450261 bytes'
expect 'a file out of a made listing' 0 "$made" '' generate 1 100000 g
cp g h
rm g
expect 'another one of the same seed' 0 "$made" '' generate 1 100000 g
same 'it is the same file' "$(cmp g h && echo same)" same
rm g h
expect 'the version' 0 'quota_cli 0.1.0 (vfsold, vfsold32, vfsv0, vfsv1)' '' --version
same 'the help' "$("$run" --help | head -n 1)" 'Usage: quota_cli COMMAND [OPTION]... [OPERAND]...'
"$run" --help >help.txt 2>err.txt
same 'the help says nothing of a fault' "$(cat err.txt)" ''
for name in repquota setquota edquota quotacheck convertquota rquotad script generate; do
    same "the help names $name" "$(grep -c "^  $name" help.txt | sed 's/^[1-9].*/yes/')" yes
done
same 'the help tells the statuses' "$(grep -c '^Exit status: 0 done, 1 refused' help.txt)" 1
expect 'a command alone is no question for help' 2 '' 'quota: usage: WrongOperands at word 1' repquota
expect 'help and another word' 2 '' "$usage" --help repquota
expect 'a letter that asks for nothing' 2 '' "$usage" -h
got=0
"$run" --help >/dev/full 2>err.txt || got=$?
same 'help to a full output' "$got $(cat err.txt)" '4 quota: output fault'
expect 'a word that is no text' 2 '' "$usage" repquota -F vfsold -u -v $'q\xff'

expect 'the sample' 0 '*** Report for user quotas on quota.user
Block grace time: 7days; Inode grace time: 3days
User                  used       soft       hard  grace    files     soft     hard  grace
-----------------------------------------------------------------------------------------
#0           --       1284          0          0      -       97        0        0      -
#1000        --    3145728    4194304    5242880      -    84213   150000   200000      -
#1001        +-    1835008    1048576    2097152   none    39999    40000    50000      -
#1002        -+     835008    1048576    2097152      -    41377    40000    50000   none
#1003        ++     300144     262144     524288   none     4711     4000     5000   none
#1004        --    7340032          0          0      -   310552        0        0      -
#1005        --          0     524288    1048576      -        0     8000    10000      -' \
    '' repquota -F vfsold -u -v quota.user
cp "$top/samples/quota.user32" quota.user32
same 'the same users in records of 32 bytes' "$("$run" repquota -F vfsold32 -u -v -p quota.user32 | tail -n +2)" \
    "$("$run" repquota -F vfsold -u -v -p quota.user | tail -n +2)"

: >q
got=0
"$run" repquota -F vfsold -u -v q >/dev/full 2>err.txt || got=$?
same 'the status of a full output' "$got" 4
same 'the line of a full output' "$(cat err.txt)" 'quota: output fault'
got=0
"$run" repquota -F vfsold -u -v absent 2>/dev/full || got=$?
same 'the status stays where the error output is full' "$got" 1
