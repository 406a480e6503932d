# Scripts.
# A part of real_files.sh, which has what it calls, and runs it in a folder of its own.

# Scripts: each line is read as a command, over the files as the lines before left them.
cp empty q
expect 'a script' 0 "$head
$seven
*** Report for user quotas on r
$(sed 1d <<<"$head")
$seven" '' script <<'END'
# new limits, a file in another format, and both reports
setquota 7 1 2 0 0 q

convertquota -f vfsv1,vfsv0 q r
repquota -v q
repquota -F vfsv0 -v r
END
same 'the undo file alone is left beside the files of a script' "$(echo [qr].*)" q.undo
rm r
cp empty q
expect 'a script that ends at a refused line' 1 "$head
$seven" 'quota: line 3: bad number 10x' script < <(printf '%s\n' 'setquota 7 1 2 0 0 q' 'repquota -v q' 'setquota 7 10x 0 0 0 q' 'repquota -v q')
cp empty q
expect 'a warning in a script' 0 '' 'quota: line 2: block time not set, soft limit not exceeded
quota: line 2: inode time not set, soft limit not exceeded' script <<<$'\nsetquota -T 7 5 5 q'
expect 'an empty script' 0 '' '' script </dev/null
expect 'a script of a byte that is no text' 1 '' 'quota: script: bad line 1' script < <(printf '\xff')
expect 'a script whose words are in no grammar' 2 '' 'quota: line 1: usage: MissingOption at word 3' script <<<'quotacheck -u q'
mkdir s
expect 'a script that is no file' 4 '' 'quota: input fault' script <s
rmdir s

# A script of the greatest size runs, and of a larger one the lines before its end.
{ padded 'setquota 7 1 2 0 0 q'; times '#' 16383; } >most
same 'the size of the greatest script' "$(stat -c %s most)" 16777216
{ cat most; printf '#'; } >more
cp empty q
expect 'the greatest script' 0 '' '' script <most
expect 'what it did' 0 "$head
$seven" '' repquota -v q
cp empty q
expect 'a script of one byte more' 1 '' 'quota: script: too large' script <more
expect 'what its lines did' 0 "$head
$seven" '' repquota -v q

# 100,000 lines, of which each hundredth is a command.
cp empty q
seq 100000 | awk '{ if ($1 % 100) print "# " $1; else print "edquota --print " $1 " q" }' >s
"$run" script <s >out.txt 2>err.txt || true
same 'what a script of 100,000 lines says of a fault' "$(cat err.txt)" ''
same 'what it prints' "$(sed -n 's/^Disk.*(uid \(.*\)):$/\1/p' out.txt | cksum)" "$(seq 100 100 100000 | cksum)"

# A script is read whole before its first line runs: a line that writes the file of the script itself changes nothing of it.
# The lines have 40 bytes each, so that they are records of a flat file too.
{
    printf '%-39s\n' 'setquota -F vfsold 1 1 2 0 0 s'
    seq 3000 | awk '{ printf "%-39s\n", "# " $1 }'
    printf '%-39s\n' 'repquota -F vfsold none'
} >s
cp s before
expect 'a script that changes its own file' 1 '' 'quota: line 3002: none: no such file' script <s
same 'the file was changed' "$(cmp -s s before || echo other)" other
rm q s before empty most more line.txt
