# Tree files, which are changed where they stand.
# A part of real_files.sh, which has what it calls, and runs it in a folder of its own.

# few OLD NEW: `few` where the second is not shorter and at most twelve blocks differ, at least one, of which each past
# the end of the first counts; otherwise what is the case instead.
few() {
    local old new number
    old=$((($(stat -c %s "$1") + 1023) / 1024))
    new=$((($(stat -c %s "$2") + 1023) / 1024))
    number=$(($(differing "$1" "$2" | awk -v old="$old" '$1 < old' | wc -l) + new - old))
    if [ "$(stat -c %s "$1")" -le "$(stat -c %s "$2")" ] && [ "$number" -ge 1 ] && [ "$number" -le 12 ]; then
        echo few
    else
        echo "$number blocks, $(stat -c %s "$1") bytes and then $(stat -c %s "$2")"
    fi
}

# state: what a change of place/t leaves: its inode, owner, group and permissions, the number of its names, and what is
# known of its folder, where no file is made or removed.
state() { stat -c '%n %i %u %g %a %h' place/t && stat -c '%i %y %z' place && ls -A place; }

# edited WHAT LINE WORD..: a command on place/t in the format at hand changes few blocks of it and nothing beside them, and
# `repquota` has the line then, or, where it is `none`, no line of the identifier 5.
edited() {
    local what="$1 of $format" line=$2 before
    shift 2
    cp place/t was
    before=$(state)
    expect "$what" 0 '' '' "$@"
    same "$what changes few blocks" "$(few was place/t)" few
    same "$what leaves all else" "$(state)" "$before"
    "${runner[@]}" repquota -u -v -F "$format" place/t >shown.txt
    if [ "$line" = none ]; then
        same "$what takes the record out" "$(grep -c '^#5 ' shown.txt || true)" 0
    else
        same "$what does it" "$(grep -cx -e "$line" shown.txt || true)" 1
    fi
}

# As another user than root, in a folder where nobody may make a file, and which has the undo file: each command that changes
# records or grace periods changes at most twelve blocks of a tree file, which keeps its inode, owner and permissions.
runner=("${somebody[@]}")
for format in vfsv0 vfsv1; do
    mkdir place
    seq 1000 1999 | awk '{ print $1, 100, 1, $1, 8 }' >owners
    "$run" quotacheck -c -u -F "$format" --input owners place/t
    chmod 640 place/t
    if [ "$(id -u)" = 0 ]; then chown 65534:65534 place/t place; fi
    chmod 555 place
    if [ "$(id -u)" = 0 ]; then
        expect "a first edit of $format without a place for the undo file" 4 '' 'quota: store fault' \
            setquota -F "$format" 1999 1 2 3 4 place/t
    fi
    chmod 755 place
    expect "a first edit of $format" 0 '' '' setquota -F "$format" 1999 1 2 3 4 place/t
    chmod 555 place
    edited 'limits of a known identifier' '#1200 .* 4 *100 *200 *- *1 *10 *20 *-' \
        setquota -F "$format" 1200 100 200 10 20 place/t
    edited 'limits of a new identifier' '#5 .* 0 *1 *2 *- *0 *3 *4 *-' setquota -F "$format" 5 1 2 3 4 place/t
    edited 'no limits' none setquota -F "$format" 5 0 0 0 0 place/t
    edited 'limits of one far from all others' '#4294967295 .* 0 *1 *2 *- *0 *3 *4 *-' \
        setquota -F "$format" 4294967295 1 2 3 4 place/t
    edited 'a line of limits' '#77777 .* 0 *9 *8 *- *0 *7 *6 *-' setquota -F "$format" -b place/t <<<'77777 9 8 7 6'
    edited 'new grace periods' 'Block grace time: 24:00; Inode grace time: 01:00' \
        setquota -F "$format" -t 86400 3600 place/t
    edited 'copied limits' '#6 .* 0 *100 *200 *- *0 *10 *20 *-' setquota -F "$format" -p 1200 6 place/t
    edited 'limits below the use' '#1201 *+- *4 *2 *0 *24:00 *1 *0 *0 *-' setquota -F "$format" 1201 2 0 0 0 place/t
    cp place/t was
    before=$(state)
    expect "a new time of $format" 0 '' 'quota: inode time not set, soft limit not exceeded' \
        setquota -F "$format" -T 1201 172800 5 place/t
    same "a new time of $format changes one block" "$(differing was place/t | wc -l)" 1
    same "a new time of $format leaves all else" "$(state)" "$before"
    "${runner[@]}" edquota --print -F "$format" 1300 place/t | sed '3s| 4 .*| 4 11 12 1 13 14|' >form
    edited 'a form' '#1300 .* 4 *11 *12 *- *1 *13 *14 *-' edquota --apply -F "$format" 1300 place/t <form

    # A file that may not be written is refused, whatever may be done in its folder, and stays as it is.
    cp place/t was
    chmod 755 place
    chmod 440 place/t
    before=$(state)
    expect "limits in a $format file that may not be written" 4 '' 'quota: store fault' \
        setquota -F "$format" 5 1 2 3 4 place/t
    expect "no limits in a $format file that may not be written" 4 '' 'quota: store fault' \
        setquota -F "$format" 6 0 0 0 0 place/t
    expect "grace periods in a $format file that may not be written" 4 '' 'quota: store fault' \
        setquota -F "$format" -t 1 2 place/t
    expect "a form for a $format file that may not be written" 4 '' 'quota: store fault' \
        edquota --apply -F "$format" 1301 place/t < <(sed '1s/1300/1301/g' form)
    same "the $format file that may not be written" "$(state; cmp place/t was && echo same)" "$before
same"

    # What was left behind under the name with `.new` is no matter of a change in place, and stays.
    chmod 640 place/t
    echo junk >place/t.new
    edited 'a change beside a file left behind' '#5 .* 0 *1 *2 *- *0 *3 *4 *-' setquota -F "$format" 5 1 2 3 4 place/t
    same "the file left behind beside $format" "$(cat place/t.new)" junk
    rm -rf place was owners form
done
runner=("$run")

# traced WORD..: how often a command that is to change a file writes, syncs, and renames or removes a file. Few are at most
# two writes for each of twelve places, with those of the head and the gate of the undo file.
traced() {
    strace -o trace.txt "$folder/program" "$@"
    awk '/^p?write/ && !/^write\([12],/ { writes++ } /^(fsync|fdatasync|sync)/ { syncs++ } /^(rename|unlink)/ { names++ }
        END { print (writes >= 1 && writes <= 28 ? "few" : writes + 0), syncs + 0, names + 0 }' trace.txt
}

# An edit syncs the file and its undo file before it begins, and four times in it, and renames nothing. The first one makes
# the undo file, too: it is synced, and the folder with its name once before it takes its own name and once after that. So is
# each new file, that of lines that are made together too, before which the old one and its undo file are synced; the listing
# of a new file is synced before it is read.
if strace -o trace.txt true 2>err.txt; then
    for format in vfsv0 vfsv1; do
        rm -f t t.undo new new.undo
        seq 1000 1999 | awk '{ print $1, 100, 1, $1, 8 }' >owners
        "$run" quotacheck -c -u -F "$format" --input owners t
        same "the calls of a first edit of $format" "$(traced setquota -F "$format" 1201 1 2 3 4 t)" 'few 8 2'
        same "the calls of a known identifier of $format" "$(traced setquota -F "$format" 1200 1 2 3 4 t)" 'few 6 0'
        same "the calls of a new identifier of $format" "$(traced setquota -F "$format" 4294967295 1 2 3 4 t)" 'few 6 0'
        same "the calls of no limits of $format" "$(traced setquota -F "$format" 4294967295 0 0 0 0 t)" 'few 6 0'
        same "the calls of grace periods of $format" "$(traced setquota -F "$format" -t 1 2 t)" 'few 6 0'
        same "the calls of three lines of $format" \
            "$(traced setquota -F "$format" -b t <<<$'1200 4 3 2 1\n1201 4 3 2 1\n1202 4 3 2 1')" 'few 14 0'
        same "the calls of a hundred lines of $format, which are made together" \
            "$(traced setquota -F "$format" -b t < <(seq 1200 1299 | awk '{ print $1, 5, 6, 7, 8 }'))" 'few 5 2'
        same "the calls of a new file of $format" "$(traced quotacheck -c -u -F "$format" --input owners new)" 'few 4 2'

        # A write that fails, or at which the program is killed, and a sync that fails: a command that reads the file
        # after that makes it the old or the new one.
        cp t old
        cp t new
        "$run" setquota -F "$format" 4294967295 1 2 3 4 new
        for stop in pwrite64:error=EIO pwrite64:signal=KILL fdatasync:error=EIO fsync:error=EIO; do
            for at in $(seq 30); do
                cp old stopped
                rm -f stopped.undo
                got=0
                (strace -o trace.txt -e trace=pwrite64,fsync,fdatasync -e "inject=$stop:when=$at" "$folder/program" \
                    setquota -F "$format" 4294967295 1 2 3 4 stopped || exit $?) 2>err.txt || got=$?
                if [ "$got" = 0 ]; then break; fi
                case $stop in
                    *KILL) same "call $at of $format is the end by $stop" "$got" 137 ;;
                    *) same "call $at of $format fails by $stop" "$got $(cat err.txt)" '4 quota: store fault' ;;
                esac
                "$folder/program" repquota -F "$format" stopped >shown.txt
                same "the file of $format after $stop at call $at" \
                    "$(if cmp -s old stopped || cmp -s new stopped; then echo old-or-new; fi)" old-or-new
            done
            same "a change of $format behind $stop" "$([ "$at" -gt 2 ] && cmp stopped new && echo same)" same
        done
        rm t.undo new.undo stopped.undo
        rm t old new stopped owners
    done
else
    echo 'real_files: strace is not there or may not trace: how often a change writes and syncs is not shown' >&2
fi

# Random edits end in the file that they ask for, which a reader in Python says is sound: 180 of the sample, and 10,000 of a
# file of each format, once with removals and once without. Since each edit is synced, the latter are made in a folder in
# memory where there is one. The numbers behind the format are the seed, the rounds, and in each round the lines of a
# batch, the runs for one user and the forms.
if command -v python3 >/dev/null; then
    edits=(python3 -B "$top/tests/tree_edits.py" "$folder/program")
    same 'random edits of the sample' "$("${edits[@]}" vfsv1 1 3 40 10 10 all "$top/samples/aquota.user")" same
    memory=$folder
    if [ -d /dev/shm ] && [ -w /dev/shm ]; then memory=/dev/shm; fi
    memory=$(mktemp -d -p "$memory")
    trap 'rm -rf "$folder" "$memory"' EXIT
    for format in vfsv0 vfsv1; do
        same "random edits of $format" "$(cd "$memory" && "${edits[@]}" "$format" 2 10 960 30 10 all)" same
        same "random edits of $format without removals" \
            "$(cd "$memory" && "${edits[@]}" "$format" 3 10 960 30 10 kept)" same
    done
    rm -rf edited "$memory"
else
    echo 'real_files: python3 is not there: no random edits are made' >&2
fi
