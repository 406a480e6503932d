# Which names of files, inputs and files of names are taken, and what comes of a report that is not read to its end.
# A part of real_files.sh, which has what it calls, and runs it in a folder of its own.

# A name has no blanks, no newlines and no letters outside of ASCII, also in the folders on the way. In such a folder the file
# is taken by its own name.
"${runner[@]}" quotacheck -c q <<<'1 100 1 1 8'
for it in 'my files' $'two\nlines' 'für'; do
    mkdir "$it"
    cp q "$it/"
    expect "a file in «$it»" 2 '' 'quota: usage: BadFileName at word 1' repquota "$it/q"
    same "the file from within «$it»" "$(cd "$it" && "${runner[@]}" repquota q | sed -n 1p)" '*** Report for user quotas on q'
done

# A pipe is neither an input nor a file of names. The standard input may be one.
echo '1 5 6 7 8' >lines
expect 'an input that is a pipe' 4 '' 'quota: store fault' setquota -b --input /dev/stdin q < <(cat lines)
expect 'an input that is a file behind /dev/stdin' 0 '' '' setquota -b --input /dev/stdin q <lines
expect 'a standard input that is a pipe' 0 '' '' setquota -b q < <(cat lines)
expect 'names out of a pipe' 4 '' 'quota: store fault' repquota --names <(echo 'alice:x:1:1::/:/bin/sh') q

# A name of a user with a blank has the whole file refused, and without its line the file is taken.
printf '%s\n' 'alice:x:1:1::/:/bin/sh' 'domain user:x:2:1::/:/bin/sh' >names
expect 'a name with a blank' 1 '' 'quota: names: bad line 2' repquota --names names q
grep -v '^[^:]* ' names >fewer
same 'without it' "$("${runner[@]}" repquota --names fewer q | tail -n 1 | cut -d ' ' -f 1)" alice

# A report holds its file up to its end, so a change waits for whoever reads it.
"${runner[@]}" generate 0 5000 many >out.txt
mkfifo slow
"${runner[@]}" repquota many >slow &
report=$!
exec 7<slow
while flock -n -x many true; do sleep 0.01; done
timeout "$patience" "${runner[@]}" setquota 1000 1 2 3 4 many &
change=$!
same 'a change waits for a report that is not read' "$(sleep 0.3 && kill -0 "$change" && echo waiting)" waiting
cat <&7 >read.txt
exec 7<&-
got=0
wait "$report" || got=$?
wait "$change" || got=$?
same 'both end well once it is read' "$got $(grep -c '' read.txt)" '0 2983'

# What ends before the report does lets it fail, and what reads it to the end does not.
got=0
{ "${runner[@]}" repquota many 2>err.txt || got=$?; echo "$got" >status.txt; } | head -n 1 >out.txt
same 'a report that head ends' "$(cat status.txt err.txt)" '4
quota: output fault'
same 'a report that sed reads' "$("${runner[@]}" repquota many | sed -n 1,10p | wc -l)" 10
