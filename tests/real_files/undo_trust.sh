# Which undo files are believed, and what becomes of what another account made under the names that stand beside a file.
# A part of real_files.sh, which has what it calls, and runs it in a folder of its own.

if ! command -v python3 >/dev/null; then
    echo 'real_files: python3 is not there: no undo file of another account is tried' >&2
    return
fi

# In memory a sync takes no time, and that is no matter here.
trusted=$folder/trusted
if [ -d /dev/shm ] && [ -w /dev/shm ]; then trusted=$(mktemp -d -p /dev/shm); fi
trap 'rm -rf "$folder" "$trusted"' EXIT
mkdir -p "$trusted"
chmod 755 "$trusted"
cd "$trusted"
program=$folder/program
terminal=$top/tests/real_files/terminal.py
patience=30
is_root=
if [ "$(id -u)" = 0 ]; then is_root=yes; fi

# call_as USER: `called` is the program from now on, as this user, where root runs the test.
call_as() {
    called=("$program")
    if [ "$1" != "$(id -u)" ]; then called=(setpriv --reuid="$1" --regid="$1" --clear-groups "$program"); fi
}

# state: all that stands here under names of q, with the owners, the modes, the times and the bytes.
state() {
    stat -c '%n %F %a %u %g %h %i %s %y' q*
    find . -maxdepth 1 -name 'q*' -type f -exec cksum {} + | sort
}

# refused WHAT REASON WORD..: `called` ends with a store fault, for this reason, and nothing changes. (What it made under the
# first name of an undo file may be left.)
refused() {
    local what=$1 reason=$2 before was_made
    shift 2
    before=$(state)
    was_made=$(ls -d q.und 2>/dev/null || true)
    runner=("${called[@]}")
    expect "$what" 4 '' 'quota: store fault' "$@"
    runner=("$terminal" "${called[@]}")
    expect "$what, at a terminal" 4 '' "quota: store fault
program: $reason" "$@"
    if [ -z "$was_made" ]; then rm -f q.und; fi
    same "nothing changes: $what" "$(state)" "$before"
}

# done_so WHAT WORD..: `called` does what the words say, and says nothing.
done_so() {
    local what=$1
    shift
    runner=("${called[@]}")
    expect "$what" 0 '' '' "$@"
}

# limits FILE: the limits of identifier 1000.
limits() { "$program" edquota --print 1000 "$1" | awk 'NR == 3 { print $3, $4, $6, $7 }'; }

# place WHAT MODE: makes a folder of this mode and goes there; q is made in it as `old` is, of whoever `mine` is, with mode 600.
place() {
    cd "$trusted"
    rm -rf "place.$1"
    mkdir "place.$1"
    cd "place.$1"
    chmod "$2" .
    cp ../old q
    chmod 600 q
    if [ -n "$is_root" ]; then chown "$mine:$mine" q; fi
}

seq 1000 1029 | awk '{ print $1, 100, 1, $1, 8 }' | "$program" quotacheck -c old
"$program" setquota 1000 100 200 30 40 old
rm old.undo
seq 1000 1099 | awk '{ print $1, 90, 90, 90, 90 }' >lines
echo '1000 100 1 1 8' >listing
report=$("$program" repquota -v old | sed '1s/ old$/ q/')
mine=$(id -u)
called=("$program")

# An undo file of another account beside a file of root's, or of an account that is not root.
if [ -n "$is_root" ]; then
    other=65533
    for mine in 0 65534; do
        call_as "$mine"
        for mode in 1777 777; do
            place theirs "$mode"
            open_gate q
            cp ../old q
            chown "$other:$other" q.undo
            reason="q.undo: not believed: it has an open gate and belongs to user $other; where an edit of q by that user was stopped, that user has to run a command on q, else delete q.undo"
            for words in 'repquota q' 'setquota 1000 50 60 70 80 q' 'edquota --print 1000 q' 'quotacheck -c --input ../listing q' \
                'setquota -b --input ../lines q' 'convertquota -f vfsv1,vfsv0 q q.target' 'generate 1000 10 q'; do
                refused "an open gate of another account beside a file of $mine, $words" "$reason" $words
            done
            printf '\1%019d' 0 | tr 0 '\0' >q.undo
            refused "20 bytes of another account beside a file of $mine" "$reason" repquota q
            chmod 600 q.undo
            if [ "$mine" = 0 ]; then
                refused 'an undo file of another account that only root may read' "$reason" repquota q
            fi
            # A closed gate counts for nothing, and a new undo file takes the place of it, where the folder allows that.
            chmod 644 q.undo
            head -c 2048 /dev/zero >q.undo
            runner=("${called[@]}")
            expect "a closed gate of another account beside a file of $mine" 0 "$report" '' repquota -v q
            if [ "$mine" = 0 ] || [ "$mode" = 777 ]; then
                done_so "an edit beside a closed gate of another account, of $mine" setquota 1000 50 60 70 80 q
                same "it has an undo file of its own in mode $mode" "$(limits q) $(stat -c '%a %u %s' q.undo)" \
                    "50 60 70 80 600 $mine $(stat -c %s q.undo)"
            else
                refused "an edit beside another account's file, which stays in a sticky folder" \
                    'q.undo: Operation not permitted' setquota 1000 50 60 70 80 q
            fi
            for name in q.und q.new; do
                place theirs "$mode"
                echo theirs >"$name"
                chown "$other:$other" "$name"
                words='setquota 1000 50 60 70 80 q'
                if [ "$name" = q.new ]; then words='quotacheck -c --input ../listing q'; fi
                if [ "$mine" = 0 ] || [ "$mode" = 777 ]; then
                    done_so "$name of another account is taken away by $mine in mode $mode" $words
                    same "and none is left of $name" "$(ls -d "$name" 2>/dev/null || stat -c %u q)" "$mine"
                else
                    refused "$name of another account in a sticky folder" "$name: Operation not permitted" $words
                fi
            done
        done
    done

    # A file that another account moved there is never given away: not to the owner of the file, and not to its mode.
    mine=65534
    called=("$program")
    for name in q.undo q.und; do
        place moved 777
        chmod 666 q
        printf '%s\n' "a file of root's" "$(seq 1 2000)" >"$name"
        chmod 600 "$name"
        done_so "a file of root's as $name" setquota 1000 50 60 70 80 q
        same "nobody sees what it had" "$(stat -c '%a %u' q.undo) $(grep -c '^1999$' q.undo || true)" '666 65534 0'
    done
    place moved 777
    chmod 666 q
    cp q was
    chmod 700 .
    rm was
    mine=65534
    call_as 65534
    chown 65534 .
    chown 0 q
    printf '%s\n' 'a file of the caller' "$(seq 1 2000)" >q.undo
    chown 65534 q.undo
    chmod 600 q.undo
    done_so 'a file of the caller as an undo file' setquota 1000 50 60 70 80 q
    same 'nobody sees what that had' "$(grep -c '^1999$' q.undo || true)" 0

    # The undo file follows the owner, the group and the mode of its file.
    mine=0
    called=("$program")
    place following 755
    for change in 'chmod 644' 'chmod 640' 'chown 12' 'chgrp 34' 'chmod 660' 'chown 0:0' 'chmod 600'; do
        $change q
        done_so "an edit behind $change" setquota 1000 50 60 70 80 q
        same "the undo file follows $change" "$(stat -c '%a %u %g' q.undo)" "$(stat -c '%a %u %g' q)"
    done

    # Two operators of one group: neither locks the other one out, while the gate is closed.
    place operators 2775
    chown 0:7000 . q
    chmod 2775 .
    chmod 660 q
    one=(setpriv --reuid=65534 --regid=65534 --groups=7000 "$program")
    two=(setpriv --reuid=65533 --regid=65533 --groups=7000 "$program")
    number=0
    for operator in one two one one two; do
        number=$((number + 1))
        declare -n called=$operator
        done_so "edit $number of two operators, by $operator" setquota 1000 "$number" 60 70 80 q
        same "it is made, and its undo file is of the group" "$(limits q) $(stat -c '%a %u %g' q.undo)" \
            "$number 60 70 80 660 $(stat -c %u q.undo) 7000"
        unset -n called
    done
    called=("$program")
    done_so 'an edit of root' setquota 1000 80 60 70 80 q
    same 'its undo file' "$(stat -c '%a %u %g' q.undo)" '660 0 7000'
    called=("${one[@]}")
    done_so 'and one of an operator' setquota 1000 90 60 70 80 q
    cp q was
    open_gate q
    chown 65534:7000 q.undo
    chmod 660 q.undo
    reason='q.undo: not believed: it has an open gate and belongs to user 65534; where an edit of q by that user was stopped, that user has to run a command on q, else delete q.undo'
    called=("${two[@]}")
    refused "a stopped edit of another operator" "$reason" repquota q
    called=("$program")
    refused "a stopped edit of an operator, for root" "$reason" repquota q
    runner=("${one[@]}")
    expect 'whose command mends the file' 0 "$("$program" repquota -v was | sed '1s/ was$/ q/')" '' repquota -v q
    same 'it is what it was' "$(cmp q was && gate q)" 0
    called=("${two[@]}")
    done_so 'and the other one goes on' setquota 1000 1 2 3 4 q

    # More accounts may write the undo file than the file.
    mine=0
    called=("$program")
    place writers 755
    cp q was
    open_gate q
    reason='q.undo: not believed: it has an open gate, and more accounts may write it than q; where an edit of q was stopped, root or its owner has to give it the mode of q, else delete it'
    for mode in 620 602 666; do
        chmod "$mode" q.undo
        refused "an open gate that more may write: $mode" "$reason" repquota q
    done
    chgrp 34 q.undo
    chmod 660 q q.undo
    refused 'an open gate that another group may write' "$reason" repquota q
    chmod 600 q q.undo
    runner=("$program")
    expect 'with the mode of the file' 0 "$report" '' repquota -v q
    same 'it is believed' "$(cmp q was && gate q)" 0
    mine=$(id -u)
else
    echo 'real_files: this is not root: undo files of another account are not tried' >&2
fi
called=("$program")

# A file with several names, what is no regular file, and links, as an undo file, as a new one, and as a new file.
place names 755
done_so 'an edit' setquota 1000 50 60 70 80 q
ln q.undo kept
cp kept was
done_so 'an edit beside an undo file of several names' setquota 1000 60 60 70 80 q
same 'has an undo file of its own' "$(limits q) $(stat -c %h q.undo) $(cmp kept was && echo same)" '60 60 70 80 1 same'
cp ../old q
open_gate q
ln q.undo kept.too
cp q torn
refused 'an open gate of several names' \
    'q.undo: not believed: it has an open gate and further names (hard links); delete it, or the other names where an edit of q was stopped' \
    repquota q
rm kept.too
runner=("$program")
expect 'where it has one again' 0 "$report" '' repquota -v q
same 'the edit is undone' "$(cmp q ../old && gate q)" 0

# beside KIND NAME: makes something that is no regular file.
beside() {
    case $1 in
        pipe) mkfifo "$2" ;;
        device) mknod "$2" c 1 5 ;;
        folder) mkdir "$2" ;;
        link) ln -s "$PWD/victim" "$2" ;;
        'link to nothing') ln -s nothing "$2" ;;
    esac
}

kinds=(pipe link 'link to nothing')
if [ -n "$is_root" ]; then kinds+=(device); fi
for name in q.undo q.und q.new; do
    words='setquota 1000 50 60 70 80 q'
    if [ "$name" = q.new ]; then words='quotacheck -c --input ../listing q'; fi
    for kind in "${kinds[@]}"; do
        place kinds 755
        printf '\1%s\n' 'a victim' >victim
        chmod 640 victim
        stat -c '%n %a %u %g %i %y %z' victim >was
        beside "$kind" "$name"
        runner=("$program")
        expect "a report beside a $kind as $name" 0 "$report" '' repquota -v q
        done_so "a change beside a $kind as $name" $words
        same "the $kind as $name is gone" "$(stat -c '%F %a' q.undo 2>/dev/null || stat -c '%F %a' q)" 'regular file 600'
        same "what it led to is what it was, $kind as $name" \
            "$(stat -c '%n %a %u %g %i %y %z' victim | cmp - was && ls nothing 2>/dev/null || echo same)" same
    done
    place kinds 755
    beside folder "$name"
    runner=("$program")
    expect "a report beside a folder as $name" 0 "$report" '' repquota -v q
    refused "a change beside a folder as $name" "$name: Is a directory" $words
done

# What `--names` and `--input` name has no undo file.
place inputs 755
echo 'alice:x:1000:1000::/:/bin/sh' >names
echo 'alice 50 60 70 80' >given
for name in names given; do
    printf '\1%019d' 0 | tr 0 '\0' >"$name.undo"
    cp "$name" "$name.was"
    cp "$name.undo" "$name.undo.was"
done
runner=("$program")
expect 'names and lines beside which undo files stand' 0 '' '' setquota --names names -b --input given q
expect 'a report with names beside which an undo file stands' 0 "$(cp q was; "$program" repquota --names names.was was | sed '1s/ was$/ q/')" '' \
    repquota --names names q
same 'are read as they are' "$(limits q)" '50 60 70 80'
for name in names given; do
    same "and $name.undo is let be" "$(cmp "$name" "$name.was" && cmp "$name.undo" "$name.undo.was" && echo same)" same
done

if strace -o trace.txt true 2>err.txt; then
    strace -o trace.txt "$program" setquota --names names -b --input given q
    same 'and not looked at' "$(grep -cE '"(names|given)\.und' trace.txt || true) $(grep -cE '"(names|given)"' trace.txt | grep -c '^[1-9]')" '0 1'
fi

# Behind a link the undo file stands beside the file, and is named there.
place behind 755
mkdir far
cp q far/one
ln -s far/one q.near
open_gate far/one
chmod 666 far/one.undo
refused 'an open gate behind a link that more may write' \
    "$PWD/far/one.undo: not believed: it has an open gate, and more accounts may write it than $PWD/far/one; where an edit of $PWD/far/one was stopped, root or its owner has to give it the mode of $PWD/far/one, else delete it" \
    repquota q.near
chmod 600 far/one.undo
runner=("$program")
expect 'an open gate behind a link' 0 "$("$program" repquota -v ../old | sed '1s| ../old$| q.near|')" '' repquota -v q.near
same 'is closed there' "$(cmp far/one q && gate far/one)$(ls q.near.undo 2>/dev/null || true)" 0

# What others have named behind a link does not steer the terminal.
mkdir $'far/\e[2J\n'
cp q $'far/\e[2J\n/two'
ln -s $'far/\e[2J\n/two' q.hidden
open_gate $'far/\e[2J\n/two'
chmod 666 $'far/\e[2J\n/two.undo'
runner=("$terminal" "$program")
"${runner[@]}" repquota q.hidden >shown 2>said || true
same 'names behind a link, at a terminal' "$(wc -l <said) $(grep -c '^program: q\.hidden\.undo: not believed' said)" '2 1'

# A recovery needs no room, and no right to make a file.
place little 755
open_gate q
chmod 555 .
if [ -n "$is_root" ]; then chown 65534 q q.undo; fi
runner=("${somebody[@]}")
expect 'a recovery in a folder where no file may be made' 0 "$report" '' repquota -v q
same 'closes the gate' "$(cmp q ../old && gate q)" 0
chmod 755 .
if [ -n "$is_root" ] && unshare -m true 2>/dev/null; then
    place full 755
    open_gate q
    mkdir small
    same 'a recovery on a full file system' "$(unshare -m sh -c 'mount -t tmpfs -o size=64k tmpfs small && cp -p q q.undo small &&
        cd small && ! cat /dev/zero >fill 2>../said && "$1" repquota -v q >../shown 2>../said
        echo $? $(cat ../said; cmp q ../../old && od -An -tu1 -N1 q.undo)' sh "$program" 2>&1)" '0 0'
    same 'reports what the file was' "$(cat shown)" "$report"
else
    echo 'real_files: nothing may be mounted: no recovery on a full file system is tried' >&2
fi

# A file system that waits for nothing: what is only read is read, and what is written is not taken for kept.
place waiting 755
done_so 'an edit' setquota 1000 50 60 70 80 q
cp ../old q
cp "$program" 'a:x:1000:5:::'
runner=("./a:x:1000:5:::")
expect 'names in /proc, which has no disk' 0 "$report" '' repquota -v --names /proc/self/comm q
if strace -o trace.txt true 2>err.txt; then
    for error in EINVAL EROFS EIO; do
        runner=(strace -o trace.txt -e "inject=fsync,fdatasync:error=$error" "$program")
        case $error in
            EIO) expect 'a report where no sync is done' 4 '' 'quota: store fault' repquota -v q ;;
            *) expect "a report where a sync answers $error" 0 "$report" '' repquota -v q ;;
        esac
        expect "an edit where a sync answers $error" 4 '' 'quota: store fault' setquota 1000 50 60 70 80 q
        same "it is not made, by $error" "$(cmp q ../old && echo same)" same
    done
else
    echo 'real_files: strace is not there or may not trace: no sync fails' >&2
fi

# traced WORD..: runs the words under strace, and tells how the files beside q are opened, and what is synced.
traced() {
    strace -o trace.txt "$program" "$@" >shown 2>said || cat said
    "$top/tests/real_files/opens.py" trace.txt
}

if strace -o trace.txt true 2>err.txt; then
    place traced 755
    same 'the syncs of a first edit' "$(traced setquota 1000 50 60 70 80 q)" '6 fsync, 2 fdatasync'
    same 'those of a further one' "$(traced setquota 1000 60 60 70 80 q)" '4 fsync, 2 fdatasync'
    same 'those of a report' "$(traced repquota q)" '1 fsync, 1 fdatasync'
    same 'those of many lines' "$(traced setquota -b q <../lines)" '3 fsync, 2 fdatasync'
    same 'those of a new file' "$(traced quotacheck -c q <../listing)" '3 fsync, 2 fdatasync'
    cp ../old q
    open_gate q
    same 'those of a recovery' "$(traced repquota q)" '3 fsync, 2 fdatasync'
    cp ../old q
    open_gate q
    truncate -s 2079 q.undo
    same 'those of a recovery by a new undo file' "$(traced repquota q)" '5 fsync, 2 fdatasync'
else
    echo 'real_files: strace is not there or may not trace: how files are opened is not shown' >&2
fi

# exchanged WHAT NAME FOUND WORD..: while the words run, in a folder of their own, which is another account's, NAME is exchanged
# for links to a file of root's that stands beside it. Before that q is made in it as `old` is, of that account, with an undo
# file (of an edit, or of one that was stopped), or without.
exchanged() {
    local what=$1 name=$2 found=$3
    shift 3
    mine=65534
    place "exchanges.$name.$found" 755
    chmod 644 q
    case $found in
        edited) "$program" setquota 1000 1 2 3 4 q && cp ../old q ;;
        stopped) open_gate q ;;
        damaged) open_gate q && truncate -s 2079 q.undo ;;
    esac
    if [ -n "$is_root" ]; then chown 65534:65534 . q*; fi
    chmod 644 q*
    printf '%s\n' 'a victim' "$(seq 1000)" >victim
    chmod 600 victim
    "$top/tests/real_files/exchanges.py" "$PWD/$name" "$PWD/victim" -- "$program" "$@" "$PWD/q" >"../$what" 2>"../$what.runs" &
    exchanges+=($!)
    whats+=("$what")
}

if [ "$(uname -m)" = x86_64 ]; then
    exchanges=()
    whats=()
    exchanged 'a first edit, q.und' q.und nothing setquota 1000 50 60 70 80
    exchanged 'a first edit, q.undo' q.undo nothing setquota 1000 50 60 70 80
    exchanged 'a further edit, q.undo' q.undo edited setquota 1000 50 60 70 80
    exchanged 'many lines, q.new' q.new edited setquota -b --input "$trusted/lines"
    exchanged 'a recovery, q.undo' q.undo stopped repquota
    exchanged 'a recovery by a new undo file, q.und' q.und damaged repquota
    for found in nothing edited stopped; do
        mine=0
        place "alone.$found" 755
        mkdir one other
        for name in one other; do
            cp ../old "$name/q"
            if [ "$found" = edited ]; then "$program" setquota 1000 1 2 3 4 "$name/q"; fi
        done
        if [ "$found" = stopped ]; then open_gate one/q; fi
        ln -s "$PWD/one/q" one/link
        "$top/tests/real_files/exchanges.py" --alone "$PWD/one/link" "$PWD/other/q" -- "$program" setquota 1000 50 60 70 80 \
            "$PWD/one/link" >"../a link, $found" 2>"../a link, $found.runs" &
        exchanges+=($!)
        whats+=("a link, $found")
    done
    wait "${exchanges[@]}"
    cd "$trusted"
    for what in "${whats[@]}"; do
        same "a name that is exchanged: $what" "$(cat "$what")" untouched
        same "it was exchanged: $what" "$(awk '{ print ($2 > 20 ? "often" : $0) }' "$what.runs")" often
    done
else
    echo 'real_files: this is not x86-64: no name is exchanged while a program runs' >&2
fi

runner=("$run")
cd "$folder"
rm -rf "$trusted"
