# Large files, and inputs of the greatest size.
# A part of real_files.sh, which has what it calls, and runs it in a folder of its own.

# Large files: a report goes to the last record, and a file of names has a greatest size.
head -c 4000000 /dev/zero >q
printf '\x00\x00\x00\x00\x00\x00\x00\x00\x00\x00\x00\x00\x00\x00\x00\x00\x00\x00\x00\x00\x01\x00\x00\x00' >>q
head -c 16 /dev/zero >>q
expect 'a large flat file' 0 "$head
#100000      --          0          0          0      -        1        0        0      -" '' repquota -F vfsold -u -v q
: >q
head -c 16777216 /dev/zero | tr '\0' '\n' >most
expect 'the longest file of names' 3 '' 'quota: q: not a quota file' repquota --names most q
echo >>most
expect 'a file of names that is too long' 1 '' 'quota: most: too large' repquota --names most q
rm q most

# Lines and forms have a greatest size of 16,777,216 bytes. Each line here has 1,023 bytes and a newline.
{ padded '7 1 2 0 0'; times '#' 16383; } >most
same 'the size of the most lines' "$(stat -c %s most)" 16777216
{ cat most; printf '#'; } >more
cp empty q
expect 'the most lines' 0 '' '' setquota -b q <most
expect 'what they set' 0 "$head
$seven" '' repquota -v q
cp empty q
expect 'one byte more' 1 '' 'quota: input: too large' setquota -b q <more
expect 'what the lines before it set' 0 "$head
$seven" '' repquota -v q
cp empty q
expect 'one byte more in a file' 1 '' 'quota: more: too large' setquota -b q --input more
same 'the file of the lines' "$(stat -c %s more)" 16777217
expect 'what the lines before it set in a file' 0 "$head
$seven" '' repquota -v q

# A form of the greatest size, over a file where identifier 1000 uses 4 KiB and an inode.
{
    padded 'Disk quotas for user #1000 (uid 1000):'
    padded 'Filesystem blocks soft hard inodes soft hard'
    padded 'q 4 100 200 1 10 20'
    times '' 16381
} >most
same 'the size of the greatest form' "$(stat -c %s most)" 16777216
{ cat most; printf ' '; } >more
"$run" quotacheck -c -u q <<<'1000 100 2049 12 8'
cp q before
expect 'a form of one byte more' 1 '' 'quota: input: too large' edquota --apply 1000 q <more
same 'what it left' "$(cmp before q && echo same)" same
expect 'the greatest form' 0 '' '' edquota --apply 1000 q <most
expect 'what it set' 0 "$head
#1000        --          4        100        200      -        1       10       20      -" '' repquota q
rm q before most more
