# Programs that use one file at the same time, and files behind links.
# A part of real_files.sh, which has what it calls, and runs it in a folder of its own.

# In memory a sync takes no time, and that is no matter here.
shared=$folder/shared
if [ -d /dev/shm ] && [ -w /dev/shm ]; then shared=$(mktemp -d -p /dev/shm); fi
trap 'rm -rf "$folder" "$shared"' EXIT
mkdir -p "$shared"
cd "$shared"
runner=("$folder/program")

# until_locked FILE: waits until somebody has locked a file.
until_locked() { while flock -n -x "$1" true; do sleep 0.01; done; }

# hold HOW FILE [COMMAND]: another program locks a file, alone (-x) or beside others (-s), until `release`, and then does
# the command.
mkfifo released given
hold() {
    flock "$1" "$2" sh -c "cat released; ${3:-:}" &
    holder=$!
    until_locked "$2"
}

# release: that program goes on, and ends.
release() {
    : >released
    wait "$holder"
}

# is_waiting JOB: whether a program still waits after a while.
is_waiting() { sleep 0.2 && kill -0 "$1" 2>/dev/null && echo waiting; }

# ended JOB: waits for a program that runs beside the test, and sets `got` to its status.
ended() {
    got=0
    wait "$1" || got=$?
}

# change_waits WHAT ID: new limits of the one identifier of q wait for whoever has locked that, and are set once it is let
# go.
change_waits() {
    local writer
    timeout 10 "${runner[@]}" setquota "$2" 1 2 3 4 q &
    writer=$!
    same "$1 waits" "$(is_waiting "$writer")" waiting
    release
    ended "$writer"
    same "$1 is made then" "$got $(limits_of q)" "0 $2 1 2 3 4"
}

# limits_of FILE: identifiers and their four limits.
limits_of() { "${runner[@]}" repquota -n -v -F "$format" "$1" | sed 1,4d | awk '{ print substr($1, 2), $4, $5, $8, $9 }'; }

# edits SEED: random edits of the identifiers that leave SEED when they are divided by 8, a line each. Where the first word
# is 1 the line ends a run of the program.
each=500
edits() {
    awk -v seed="$1" -v each="$each" 'BEGIN {
        srand(seed)
        for (i = 1; i <= each; i++) {
            id = 8 * (100 + int(rand() * 60)) + seed
            soft = int(rand() * 3) * int(1 + rand() * 1000)
            print (i == each || rand() < 0.08), id, soft, 2 * soft, soft, 3 * soft
        }
    }'
}

# write_edits SEED: makes these edits, and two further ones in each run, which give one limit to two identifiers.
write_edits() {
    local ends line number=0
    : >"lines.$1"
    while read -r ends line; do
        echo "$line" >>"lines.$1"
        if [ "$ends" = 1 ]; then
            number=$((number + 1))
            printf '%s\n' "7 $number 0 0 $1" "2000 $number 0 0 $1" >>"lines.$1"
            "${runner[@]}" setquota -F "$format" -b --input "lines.$1" q || echo "the status is $?"
            : >"lines.$1"
        fi
    done < <(edits "$1") >"said.$1" 2>&1
}

# read_halves: reports, for as long as others write, in which those two identifiers differ, or that fail.
read_halves() {
    while [ ! -e done ]; do
        "${runner[@]}" repquota -v -F "$format" q >seen.txt || echo "the status is $?"
        awk '$1 == "#7" || $1 == "#2000" { seen[$1] = $4 " " $9 } END { if (seen["#7"] != seen["#2000"]) print "half" }' seen.txt
        echo >>reports
    done
}

# copy_wholes: copies that are made under a lock of flock(1), for as long as others write, and are no sound files. It is the
# locked file that is copied: many lines are made as a new file, which then has its name.
copy_wholes() {
    while [ ! -e done ]; do
        (flock -s 9 && cp -p /dev/fd/9 copy) 9<q
        "${runner[@]}" repquota -v -F "$format" copy >copied.txt || echo "the status is $?"
    done
}

# Eight programs at a time make 500 edits each of one file, beside two that read it: each edit is in the end file, and no
# report shows half of a run.
for format in vfsold vfsold32 vfsv0 vfsv1; do
    "${runner[@]}" quotacheck -c -F "$format" q <<<'800 100 1 1 8'
    rm -f done reports
    : >reports
    read_halves >half.txt 2>&1 &
    reading=$!
    copy_wholes >broken.txt 2>&1 &
    copying=$!
    writing=()
    for seed in 0 1 2 3 4 5 6 7; do
        write_edits "$seed" &
        writing+=($!)
    done
    wait "${writing[@]}"
    : >done
    wait "$reading" "$copying"
    same "what the writers of $format say" "$(cat said.?)" ''
    same "no report of $format shows half a change" "$(cat half.txt)" ''
    same "no copy of $format is half a file" "$(cat broken.txt)" ''
    same "reports of $format were made meanwhile" "$([ -s reports ] && echo yes)" yes
    for seed in 0 1 2 3 4 5 6 7; do edits "$seed"; done | awk '
        { limits[$2] = $3 " " $4 " " $5 " " $6 }
        END { for (id in limits) if (limits[id] != "0 0 0 0" || id == 800) print id, limits[id] }' | sort -n >wanted.txt
    same "each edit of $format is in the end file" \
        "$(limits_of q | awk '$1 != 7 && $1 != 2000' | cmp - wanted.txt && echo same)" same
    same "the edits of $format are many" "$(($(wc -l <wanted.txt) > each / 3))" 1
done

# A writer that is stopped blocks the others, which do their part once it goes on; one that is killed lets go of the file.
for format in vfsold vfsold32 vfsv0 vfsv1; do
    for signal in CONT KILL; do
        "${runner[@]}" quotacheck -c -F "$format" q <<<'1 100 1 1 8'
        "${runner[@]}" setquota -F "$format" -b q <given &
        stopped=$!
        exec 8>given
        until_locked q
        kill -STOP "$stopped"
        timeout 10 "${runner[@]}" setquota -F "$format" 2 3 4 5 6 q 8>&- &
        other=$!
        timeout 10 "${runner[@]}" repquota -v -F "$format" q >seen.txt 8>&- &
        reader=$!
        same "another writer of $format waits ($signal)" "$(is_waiting "$other")" waiting
        same "a reader of $format waits ($signal)" "$(is_waiting "$reader")" waiting
        if [ "$signal" = CONT ]; then echo '1 7 8 9 10' >&8; fi
        kill "-$signal" "$stopped"
        exec 8>&-
        ended "$stopped" 2>err.txt
        stopped=$got
        ended "$other"
        same "the other writer of $format goes on ($signal)" "$got" 0
        ended "$reader"
        same "the reader of $format goes on ($signal)" "$got" 0
        case $signal in
            CONT) wanted='0 1 7 8 9 10 2 3 4 5 6' ;;
            KILL) wanted='137 1 0 0 0 0 2 3 4 5 6' ;;
        esac
        same "what was done of $format stays ($signal)" "$stopped $(limits_of q | grep -v '^0 ' | paste -sd ' ')" "$wanted"
    done
done
format=vfsv1

# A report waits for whoever has locked the file alone, and a change for those who read it; names and inputs are no such
# files.
"${runner[@]}" quotacheck -c q <<<'1 100 1 1 8'
hold -x q
timeout 10 "${runner[@]}" repquota q >seen.txt &
reader=$!
same 'a report waits' "$(is_waiting "$reader")" waiting
release
ended "$reader"
same 'and goes on' "$got" 0
hold -s q
expect 'a form beside another reader' 0 'Disk quotas for user #1 (uid 1):
  Filesystem blocks soft hard inodes soft hard
  q 4 0 0 1 0 0' '' edquota --print 1 q
change_waits 'a change' 1
echo 'alice:x:1:1::/:/bin/sh' >names
echo 'alice 5 6 7 8' >lines
hold -x names
flock -x lines timeout 5 "${runner[@]}" setquota --names names -b --input lines q
release
same 'names and an input are not locked' "$(limits_of q)" '1 5 6 7 8'

# What was replaced during the wait is changed as it is then.
"${runner[@]}" quotacheck -c other <<<'9 100 1 1 8'
hold -x q 'mv other q'
change_waits 'a change of what is replaced' 9

# A file that another program makes under the name of a new one is let be, and one that was left behind is not.
rm q
echo half >q.new
hold -x q.new
expect 'a new file that another program makes' 4 '' 'quota: store fault' quotacheck -c q </dev/null
same 'it is let be' "$(cat q.new; ls q 2>/dev/null || true)" half
release
expect 'a new file in place of one left behind' 0 '' '' quotacheck -c q <<<'1 100 1 1 8'
same 'none is left' "$(ls q*)" 'q
q.undo'

# What is removed while it is changed in place is not made anew.
"${runner[@]}" setquota -b q <given 2>err.txt &
writer=$!
exec 8>given
until_locked q
rm q
echo '1 7 8 9 10' >&8
exec 8>&-
ended "$writer"
same 'a removed file stays away' "$got $(cat err.txt)$(ls q 2>/dev/null || true)" '4 quota: store fault'

# A script locks what it changes, without waiting, and only where it is as it was at its first look.
"${runner[@]}" quotacheck -c q <<<'1 100 1 1 8'
"${runner[@]}" quotacheck -c t <<<'1 100 1 1 8'
cp q was
hold -x q
expect 'a script does not wait' 4 '' 'quota: line 1: store fault' script <<<'setquota 1 1 2 3 4 q'
release
same 'and changes nothing' "$(cmp q was && echo same)" same
ln -s q link
expect 'a script by three names of a file' 0 '' '' script <<<"setquota 1 1 2 3 4 q
setquota 2 1 2 3 4 link
setquota 3 1 2 3 4 $shared/q
setquota 1 5 6 7 8 q"
same 'does all of it' "$(limits_of q | paste -sd ' ')" '1 5 6 7 8 2 1 2 3 4 3 1 2 3 4'
format=vfsold
"${runner[@]}" quotacheck -c -F vfsold flat <<<'1 100 1 1 8'
expect 'a script by three names of a flat file' 0 '' '' script <<<"setquota -F vfsold 1 1 2 3 4 flat
setquota -F vfsold 2 1 2 3 4 ./flat
setquota -F vfsold 3 1 2 3 4 $shared/flat
setquota -F vfsold 1 5 6 7 8 flat"
same 'does all of that, too' "$(limits_of flat | grep -v '^0 ' | paste -sd ' ')" '1 5 6 7 8 2 1 2 3 4 3 1 2 3 4'
format=vfsv1

# wake JOB: sends datagrams to the line of a script that waits for one, until the script has ended.
wake() { while kill -0 "$1" 2>/dev/null; do { echo x >/dev/udp/127.0.0.1/"$port"; } 2>/dev/null || true; sleep 0.02; done; }

# begin: the script `s` runs beside the test, and sets `script` to its job, once the four lines of the head of its first report
# are in out.txt, or it has ended. (What another script has written there is taken away before.)
begin() {
    : >out.txt
    "${runner[@]}" script <s >out.txt 2>err.txt &
    script=$!
    until [ "$(wc -l <out.txt)" -ge 4 ] || ! kill -0 "$script" 2>/dev/null; do sleep 0.01; done
}

if command -v python3 >/dev/null; then
    port=$("$top/tests/serve_client.py" free)
    for change in 'setquota 1 9 9 9 9 q' 'quotacheck --input one q' 'quotacheck -c --input one q' 'setquota -F vfsold 1 9 9 9 9 flat'; do
        echo '1 100 1 1 16' >one
        file=${change##* }
        if [ "$file" = flat ]; then format=vfsold; fi
        cp "$file" was
        printf '%s\n' "repquota -F $format $file" "rquotad --calls 1 --port $port --export /home user t" "$change" >s
        begin
        "${runner[@]}" setquota -F "$format" 2 7 7 7 7 "$file"
        cp "$file" changed
        wake "$script"
        ended "$script"
        same "a script does not do '$change' to what another program changed" "$got $(cat err.txt)" \
            '4 quota: line 3: store fault'
        same "and leaves $file to '$change'" "$(cmp "$file" changed && [ ! -e "$file.new" ] && echo same)" same
        cp was "$file"
    done
    format=vfsv1

    # It keeps the lock of what it changed to its end.
    printf '%s\n' 'setquota 1 1 2 3 4 q' 'repquota q' "rquotad --calls 1 --port $port --export /home user t" >s
    begin
    same 'a script keeps what it changed locked' "$(flock -n -s q echo free || echo locked)" locked
    wake "$script"
    ended "$script"
    same 'and lets it go with its end' "$got $(flock -n -x q echo free)" '0 free'

    # `rquotad` tells what was so when it began, and holds no lock.
    for format in vfsold vfsold32 vfsv0 vfsv1; do
        "${runner[@]}" quotacheck -c -F "$format" served <<<'1000 1000 1 1 8'
        "${runner[@]}" setquota -F "$format" 1000 100 200 10 20 served
        timeout 20 "${runner[@]}" rquotad --format "$format" --calls 3 --port "$port" --export /home user served &
        serving=$!
        "$top/tests/serve_client.py" ask "$port" own >asked.txt
        same "nothing of $format is locked while it is served" "$(flock -n -x served echo free)" free
        timeout 5 "${runner[@]}" setquota -F "$format" 1000 1 2 3 4 served
        timeout 5 "${runner[@]}" quotacheck -c -F "$format" served </dev/null
        "$top/tests/serve_client.py" ask "$port" own own >>asked.txt
        ended "$serving"
        same "what is told of $format is what was so at the beginning" "$got $(sort -u asked.txt)" \
            '0 1 quota 1024 1 200 100 4 20 10 1 0 0'
    done
    format=vfsv1
fi

# A file behind a link, in another folder, and behind two of them: it is changed and replaced where it is, and the link
# stays. A link that leads nowhere is the name of no file.
mkdir far
ln -s far/one near
ln -s "$shared/near" nearer
for format in vfsold vfsold32 vfsv0 vfsv1; do
    "${runner[@]}" quotacheck -c -F "$format" far/one <<<'1 100 1 1 8'
    expect "new limits of $format behind a link" 0 '' '' setquota -F "$format" 1 1 2 3 4 near
    expect "more limits of $format behind two links" 0 '' '' setquota -F "$format" 2 5 6 7 8 nearer
    same "they are in the file of $format" "$(limits_of far/one | grep -v '^0 ' | paste -sd ' ')" '1 1 2 3 4 2 5 6 7 8'
    # Lines that are made together look for a file of the new name where they would make one: beside the file itself.
    echo keep >far/one.new
    touch near.new
    inode=$(stat -c %i far/one)
    expect "lines of $format beside a file of the new name behind a link" 0 '' '' setquota -F "$format" -b near <<<$'1 1 2 3 5\n2 5 6 7 9'
    same "they are made in place of $format" "$(stat -c %i far/one) $(cat far/one.new)" "$inode keep"
    rm far/one.new
    expect "lines of $format behind a link" 0 '' '' setquota -F "$format" -b near <<<$'1 1 2 3 4\n2 5 6 7 8'
    same "they are made by a new file of $format" "$([ "$(stat -c %i far/one)" = "$inode" ] || limits_of far/one | grep -v '^0 ' | paste -sd ' ')" \
        '1 1 2 3 4 2 5 6 7 8'
    rm near.new
    expect "a listing of $format behind a link" 0 '' '' quotacheck -F "$format" nearer <<<'1 100 1 1 16'
    same "it is in the file of $format" "$("${runner[@]}" repquota -F "$format" -v far/one | awk '$1 == "#1" { print $3, $4, $5 }')" '8 1 2'
    expect "a new file of $format behind a link" 0 '' '' quotacheck -c -F "$format" near <<<'3 100 1 1 8'
    same "it is the file of $format" "$(limits_of far/one | tail -n 1)" '3 0 0 0 0'
    rm -f target
    expect "a source of $format behind a link" 0 '' '' convertquota -f "$format,vfsv1" nearer target
    same "links of $format stay" "$(readlink near nearer | paste -sd ' ') $(ls far | paste -sd ' ')" "far/one $shared/near one one.undo"
done
format=vfsv1
ln -s none nowhere
expect 'a link that leads nowhere' 1 '' 'quota: nowhere: no such file' repquota nowhere
expect 'a new file by such a name' 0 '' '' quotacheck -c nowhere <<<'3 100 1 1 8'
same 'is where the link was' "$([ -L nowhere ] || limits_of nowhere; ls none 2>/dev/null || true)" '3 0 0 0 0'

runner=("$run")
cd "$folder"
rm -rf "$shared"
