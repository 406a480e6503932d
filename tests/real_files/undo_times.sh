# Undo files with an open gate whose files were changed by something else since, and what is told of them.
# A part of real_files.sh, which has what it calls, and runs it in a folder of its own.

if ! command -v python3 >/dev/null; then
    echo 'real_files: python3 is not there: no open gate is looked at that is old' >&2
    return
fi

# In memory a sync takes no time, and that is no matter here.
timed=$folder/timed
if [ -d /dev/shm ] && [ -w /dev/shm ]; then timed=$(mktemp -d -p /dev/shm); fi
trap 'rm -rf "$folder" "$timed"' EXIT
mkdir -p "$timed"
chmod 755 "$timed"
cd "$timed"
program=$folder/program
terminal=$top/tests/real_files/terminal.py
patience=30

# moment SECONDS: a moment in UTC.
moment() { date -u -d "@$1" +%FT%TZ; }

# report FILE: its report, as if it were one of q.
report() { "$program" repquota -v "$1" | sed "1s| on .*| on q|"; }

# opened_before FILE SECONDS: the gate of a file was opened so many seconds before the last change of the file.
opened_before() { touch -d "@$(($(stat -c %Z "$1") - $2))" "$1.undo"; }

# stopped FILE: makes a file that a change left which was stopped now.
stopped() {
    cp "$timed/old" "$1"
    open_gate "$1"
}

# refused WHAT WORD..: the words end with a store fault, since something else changed q behind its open gate, and nothing
# is changed or made.
refused() {
    local what=$1 before reason
    shift
    before=$(stat -c '%n %i %s %y %z' q* && cat q q.undo | cksum)
    reason="q.undo: not believed: its gate was opened at $(moment "$(stat -c %Y q.undo)"), and q, or its owner, mode or name, was changed at $(moment "$(stat -c %Z q)"); delete q.undo if something else made q what it is, or run \`touch q.undo\` if nothing did"
    runner=("$program")
    expect "$what" 4 '' 'quota: store fault' "$@"
    runner=("$terminal" "$program")
    expect "$what, at a terminal" 4 '' "quota: store fault
program: $reason" "$@"
    same "nothing changes: $what" "$(stat -c '%n %i %s %y %z' q* && cat q q.undo | cksum)" "$before"
}

# changed WHAT: q was changed by something else: it is let be, and is what it is where q.undo is deleted; where that is touched
# it is believed.
changed() {
    local what=$1
    refused "$what" repquota -v q
    cp q now
    mv q.undo taken
    runner=("$program")
    got=0
    "$program" repquota -v q >shown 2>said || got=$?
    same "without an undo file q is what it is: $what" "$(cmp q now && ls q*)" q
    mv taken q.undo
    touch q.undo
    "$program" repquota -v q >shown 2>said || true
    same "with one that was touched its bytes are laid back: $what" "$(gate q) $(cmp -n 600 q "$timed/old" && echo same)" '0 same'
    if [ "${2:-}" = old ]; then same "so q is what it was: $what" "$(cmp q "$timed/old" && cat said)" ''; fi
    rm -f q q.undo
}

seq 1000 1029 | awk '{ print $1, 100, 1, $1, 8 }' | "$program" quotacheck -c old
"$program" setquota 1000 100 200 30 40 old
cp old other
"$program" setquota 1001 100 200 30 40 other
rm old.undo other.undo
hour=3600

# What changes q an hour behind its gate.
stopped q
opened_before q $hour
changed 'nothing else, an hour behind the gate' old
stopped q
opened_before q 61
changed 'a minute and a second behind the gate' old
for restore in 'cp other q' 'cp -p other q' 'cp --remove-destination other q' 'tar -xf tar'; do
    stopped q
    touch -d '-2 hours' other
    case $restore in
        tar*) cp -p other one && mv q q.torn && mv one q && tar -cf tar q && mv q.torn q ;;
    esac
    opened_before q $hour
    $restore
    changed "$restore"
done
stopped q
opened_before q $hour
cp other backup
mv backup q
changed 'mv of a backup'
stopped q
opened_before q $hour
cat other >q
changed 'another program that writes over it'
stopped q
opened_before q $hour
cp q copy
cp -p q.undo copy.undo
mv copy q
mv copy.undo q.undo
changed 'a copy of both' old

# Each command that would change or read it ends so, and makes nothing.
stopped q
opened_before q $hour
echo '1000 100 1 1 8' >listing
seq 1000 1099 | awk '{ print $1, 9, 9, 9, 9 }' >lines
"$program" edquota --print 1000 old | sed 's/ old / q /' >form
for words in 'repquota q' 'edquota --print 1000 q' 'convertquota -f vfsv1,vfsv0 q q.target' 'setquota 1000 1 2 3 4 q' \
    'setquota -p 1000 1001 q' 'setquota -t 1 2 q' 'setquota -T 1000 unset unset q' 'edquota --apply --input form 1000 q' \
    'quotacheck --input listing q' 'quotacheck -c --input listing q' 'setquota -b --input lines q' 'generate 1000 10 q' \
    'convertquota -f vfsv1,vfsv0 old q' 'rquotad --calls 1 --port 0 --export /home user q'; do
    refused "$words" $words
done
echo 'repquota q' >script
before=$(stat -c '%n %i %s %y %z' q*)
runner=("$program")
expect 'a line of a script' 4 '' 'quota: line 1: store fault' script <script
same 'nothing changes: a line of a script' "$(stat -c '%n %i %s %y %z' q*)" "$before"
rm q q.undo

# What is believed: a gate that is opened later than the file was changed, as where the clock was set back.
stopped q
touch -d '+1 hour' q.undo
runner=("$program")
expect 'a gate that is opened in an hour' 0 "$(report old)" '' repquota -v q
same 'is believed' "$(cmp q old && gate q)" 0
stopped q
rm q
expect 'a gate of a file that is not there' 1 '' 'quota: q: no such file' repquota q
same 'is closed' "$(gate q)" 0

# Made behind the gate, where the file system knows when a file was made.
stopped q
if [ "$(stat -c %W q)" -gt 0 ]; then
    opened_before q 30
    cp -p other backup
    mv backup q
    changed 'mv of a file that was made half a minute behind the gate'
    stopped q
    touch -d "@$(($(stat -c %W q) - 5))" q.undo
    changed 'a file that was made five seconds behind the gate' old
else
    echo 'real_files: this file system does not know when a file was made: that is not tried' >&2
fi
rm -f q q.undo

# The rest is tried where it is not known when a file was made, since none here is older than this test.
plain=
if [ "$(stat -c %W old)" = 0 ]; then
    plain=$timed
elif [ "$(id -u)" = 0 ] && mkdir plain && mount -t ramfs ramfs plain 2>/dev/null; then
    plain=$timed/plain
    trap 'umount "$plain"; rm -rf "$folder" "$timed"' EXIT
    chmod 755 plain
    cp old other plain
    cd plain
fi

# opens_and_waits NAME..: for each of these a folder is made, in which q was stopped 60 seconds behind its gate; and the next
# second begins.
opens_and_waits() {
    local name
    for name; do
        mkdir "$name"
        stopped "$name/q"
        opened_before "$name/q" 60
    done
    sleep 1.1
}

# What is believed, and what only looks like a change, more than a minute behind the gate. Each of the latter is refused, and
# has a way on.
if [ -n "$plain" ]; then
    stopped q
    opened_before q 60
    runner=("$program")
    expect 'a minute behind the gate' 0 "$(report old)" '' repquota -v q
    same 'is believed' "$(cmp q old && gate q)" 0
    stopped q
    opened_before q 30
    cat other >q
    "$program" repquota q >shown 2>said || true
    same 'what is written over it within a minute is not seen' "$(cat said; gate q)" 0
    rm q q.undo

    changes=('chmod 640 q' 'ln q name' 'mv q away')
    if [ "$(id -u)" = 0 ]; then changes+=('chown 12 q' 'chgrp 12 q'); fi
    if command -v setfacl >/dev/null && setfacl -m u:12:r old 2>/dev/null; then
        setfacl -b old
        changes+=('setfacl -m u:12:r q')
    else
        echo 'real_files: no access list can be given: none is' >&2
    fi
    opens_and_waits "${changes[@]}" nothing recovery
    for change in "${changes[@]}"; do
        cd "$change"
        $change
        if [ -e away ]; then mv away q; fi
        changed "$change" old
        cd ..
    done
    cd nothing
    runner=("$program")
    expect 'a file that nothing changed' 0 "$(report ../old)" '' repquota -v q
    same 'is mended' "$(cmp q ../old && gate q)" 0
    cd ..

    # A recovery that is stopped once it has begun to mend the file, more than a minute behind the gate, is recovered.
    if [ "$(uname -m)" = x86_64 ]; then
        cd recovery
        cp q torn
        stamp=$(stat -c %Z q)
        calls=0
        while [ $calls -lt 40 ] && cmp -s q torn; do
            calls=$((calls + 1))
            "$top/tests/real_files/stops.py" "$calls" -- "$program" repquota q >where 2>said || break
        done
        same 'a recovery is stopped in the middle' \
            "$(cut -d ' ' -f 1,2 where) $(gate q) $(cmp -s q torn || cmp -s q ../old || echo torn)" 'stopped before 1 torn'
        same 'behind the minute' "$(($(stat -c %Z q) > stamp))" 1
        expect 'a recovery that was stopped' 0 "$(report ../old)" '' repquota -v q
        same 'is done by the next command' "$(cmp q ../old && gate q)" 0
        cd ..
    fi
else
    echo 'real_files: all files of this test were made just now: what is believed for a minute is not tried' >&2
fi

# When the machine was started: between the gate and the change, before both, and where that is not told.
if [ -n "$plain" ] && [ "$(id -u)" = 0 ] && echo >stat && unshare -m mount --bind stat /proc/stat 2>/dev/null; then
    # started WHAT SECONDS LINE WANTED: what a report ends with and says, and the gate behind it, where /proc/stat has this
    # line, and the machine was started so many seconds before the last change of q.
    started() {
        local got=0
        stopped q
        opened_before q 30
        printf "cpu 1 2 3\n$3\nprocesses 9\n" "$(($(stat -c %Z q) - $2))" >stat
        unshare -m sh -c 'mount --bind stat /proc/stat && exec "$@"' sh "$program" repquota q >shown 2>said || got=$?
        same "$1" "$got $(cat said) $(gate q)" "$4"
    }
    started 'a start of the machine behind the gate' 10 'btime %s' '4 quota: store fault 1'
    started 'one before the gate' 40 'btime %s' '0  0'
    started 'one behind the change' -10 'btime %s' '0  0'
    started 'one that is not told' 10 'intr %s' '0  0'
    started 'one that is no number' 10 'btime %sx' '0  0'
    rm q q.undo
else
    echo 'real_files: nothing may be mounted: no start of the machine is tried' >&2
fi
cd "$timed"

# What is told on a terminal of files that were recovered, behind whatever the command says; and nothing elsewhere.
stopped q
runner=("$program")
expect 'a recovery, without a terminal' 0 "$(report old)" '' repquota -v q
stopped q
runner=("$terminal" "$program")
expect 'a recovery, at a terminal' 0 "$(report old)" 'program: q: an edit that was stopped has been undone' repquota -v q
expect 'a file that is recovered already' 0 "$(report old)" '' repquota -v q
stopped q
stopped r
expect 'two recoveries of a script' 0 "$("$program" script <<<$'repquota old\nrepquota old' | sed '1s/ old$/ q/; 2,$s/ on old$/ on r/')" \
    'program: q: an edit that was stopped has been undone
program: r: an edit that was stopped has been undone' script <<<$'repquota q\nrepquota r'
stopped q
expect 'a recovery before a command that is refused' 3 '' 'quota: q: other format
program: q: its format is vfsv1; leave -F away, or give that one
program: q: an edit that was stopped has been undone' repquota -F vfsv0 q
cp old q
printf '\1\0\0\0\0\0\0\0\0\0\0\0\0\0\0\1\1\0\0\0' >q.undo
cp q was
expect 'an open gate that does not fit' 0 "$(report old)" 'program: q.undo: it had an open gate and does not fit q, which stays as it is' \
    repquota -v q
same 'leaves the file' "$(cmp q was && gate q)" 0
printf '\1\0\0\0\0\0\0\0\0\0\0\0\0\0\0\1\1\0\0\0' >q.undo
runner=("$program")
expect 'one that does not fit, without a terminal' 0 "$(report old)" '' repquota -v q

cd "$folder"
if [ "$plain" = "$timed/plain" ]; then umount "$plain"; fi
trap 'rm -rf "$folder"' EXIT
rm -rf "$timed"
