# Changes in place that are stopped, and the undo files that they leave.
# A part of real_files.sh, which has what it calls, and runs it in a folder of its own.

# In memory a sync takes no time, and that is no matter here: a program that is killed leaves what it wrote.
stopped=$folder/stopped
if [ -d /dev/shm ] && [ -w /dev/shm ]; then stopped=$(mktemp -d -p /dev/shm); fi
trap 'rm -rf "$folder" "$stopped"' EXIT
mkdir -p "$stopped"
cd "$stopped"
program=$folder/program
mkfifo released

# hold HOW FILE: another program locks a file, alone (-x) or beside others (-s), until `release`.
hold() {
    flock "$1" "$2" cat released &
    holder=$!
    while flock -n -x "$2" true; do sleep 0.01; done
}

# release: that program ends.
release() {
    : >released
    wait "$holder"
}

# after_stops WHAT NEWS WORD..: what is left of the change of q by these words in the format at hand, from `old` on. Where
# --anew stands before NEWS it writes the file anew.
after_stops() {
    local what="$1 of $format" news=$2 anew=
    if [ "${news%% *}" = --anew ]; then anew=--anew news=${news#* }; fi
    shift 2
    same "what stops of $what leave" \
        "$("$top/tests/real_files/stopped.py" $anew q old $news -- "$program" "$@" -- "$program" repquota -F "$format" q 2>said)" sound
}

# one_change WHAT WORD..: the same of one change, whose new file is made without a stop.
one_change() {
    local what=$1
    shift
    cp old q
    rm -f q.undo
    "$program" "$@" 2>said
    cp q new
    after_stops "$what" new "$@"
}

if command -v python3 >/dev/null && [ "$(uname -m)" = x86_64 ]; then
    # Each kind of change, stopped before each call of the system that changes files or waits for them, and each recovery
    # behind it.
    for format in vfsold vfsold32 vfsv0 vfsv1; do
        rm -f q q.*
        seq 1000 1029 | awk '{ print $1, 100, 1, $1, 8 }' >owners
        "$program" quotacheck -c -F "$format" --input owners q
        printf '%s\n' '5 1 2 3 4' '1003 1 2 3 4' >given
        "$program" setquota -F "$format" -b --input given q
        cp q old
        one_change 'limits of a known identifier' setquota -F "$format" 1020 100 200 10 20 q
        one_change 'limits of a new identifier' setquota -F "$format" 70000 1 2 3 4 q
        one_change 'no limits' setquota -F "$format" 5 0 0 0 0 q
        one_change 'grace periods' setquota -F "$format" -t 86400 3600 q
        one_change 'times' setquota -F "$format" -T 1003 unset unset q
        "$program" edquota --print -F "$format" 1013 q | sed '3s| 4 .*| 4 11 12 1 13 14|' >form
        one_change 'a form' edquota --apply -F "$format" --input form 1013 q
        printf '%s\n' '1020 100 200 10 20' '6 1 2 3 4' '5 0 0 0 0' >given
        cp old q
        rm -f q.undo
        number=0
        while read -r line; do
            number=$((number + 1))
            "$program" setquota -F "$format" -b q <<<"$line"
            cp q "new.$number"
        done <given
        # Lines are made where they stand where a file has the name of a new one, which is let be, and else, where there are
        # enough of them, all together: what a stop leaves then is none of them or all.
        echo beside >q.new
        after_stops 'a batch in place' 'new.1 new.2 new.3' setquota -F "$format" -b --input given q
        same "the file beside a batch of $format" "$(cat q.new)" beside
        rm q.new
        seq 1000 1029 | awk '{ print $1, 100, 200, 10, 20 }' >>given
        cp old q
        while read -r line; do "$program" setquota -F "$format" -b q <<<"$line"; done <given
        cp q new
        after_stops 'a batch' '--anew new' setquota -F "$format" -b --input given q
        rm -f q.new
    done

    # A reader recovers a file: without a word, alone, and once.
    cp old q
    "$program" repquota q >wanted
    open_gate q
    hold -s q
    timeout 10 "$program" repquota q >shown 2>said &
    reader=$!
    sleep 0.2
    same 'a reader waits where a file is to be recovered' "$(kill -0 "$reader" && echo waiting)" waiting
    release
    got=0
    wait "$reader" || got=$?
    same 'and recovers it then' "$got $(cat said)$(cmp shown wanted && cmp q old && gate q)" '0 0'
    hold -s q
    expect 'a reader beside another one' 0 "$(cat wanted)" '' repquota q
    release
    for words in 'edquota --print 1020 q' 'convertquota -f vfsv1,vfsv0 q r' 'quotacheck --input owners q'; do
        cp old q
        rm -f q.undo r
        "$program" $words >wanted 2>&1
        cp q new
        cp old q
        rm -f r
        open_gate q
        "$program" $words >shown 2>&1
        same "'$words' recovers" "$(cmp shown wanted && cmp q new && gate q)" 0
    done
    "$program" quotacheck -c r <<<'1 100 1 1 8'
    cp old q
    open_gate q
    same 'a script recovers' "$("$program" script <<<'edquota --print 1020 q' | tail -n 1) $(cmp q old && gate q)" \
        '  q 4 0 0 1 0 0 0'
    cp old q
    open_gate q
    hold -x q
    got=0
    "$program" script <<<$'repquota r\nrepquota q' >shown 2>said &
    reader=$!
    sleep 0.2
    same 'a script waits where it holds no file' "$(kill -0 "$reader" && echo waiting)" waiting
    release
    wait "$reader" || got=$?
    same 'and recovers then' "$got $(cat said)$(cmp q old && gate q)" '0 0'
    open_gate q
    hold -x q
    got=0
    "$program" script <<<$'setquota 1 1 2 3 4 r\nrepquota q' >shown 2>said || got=$?
    same 'a script that holds a file does not wait' "$got $(cat said)" '4 quota: line 2: store fault'
    release
    expect 'and leaves that file to others' 0 "$("$program" edquota --print 1020 old | sed 's/ old / q /')" '' \
        edquota --print 1020 q
    same 'who recover it' "$(cmp q old && gate q)" 0
    printf 'alice:x:1:1::/:/bin/sh\n#%01000d\n' 0 >names
    cp names was
    open_gate names
    cp was names
    cp names.undo undo
    expect 'a file of names is read as it is' 0 '' '' setquota --names names alice 1 2 3 4 r
    same 'and its undo file is let be' "$(cmp names was && cmp names.undo undo && gate names)" 1
    open_gate names
    expect 'a file that a script names is recovered, one of names, too' 0 '' '' script <<<'setquota --names names alice 1 2 3 4 r'
    same 'before it is read' "$(cmp names was && gate names)" 0

    # `rquotad` recovers before it serves, and holds nothing then.
    "$program" setquota 1020 100 200 10 20 q
    cp q old
    open_gate q
    port=$("$top/tests/serve_client.py" free)
    timeout 20 "$program" rquotad --calls 2 --port "$port" --export /home user q 2>said &
    serving=$!
    "$top/tests/serve_client.py" ask "$port" own >asked.txt
    same 'nothing is locked behind the recovery' "$(flock -n -x q echo free) $(cmp q old && gate q)" 'free 0'
    "$top/tests/serve_client.py" ask "$port" own >>asked.txt
    got=0
    wait "$serving" || got=$?
    same 'and both answers are the same' "$got $(uniq asked.txt | wc -l) $(cat said)" '0 1 '

    # An undo file stands beside the file that a link leads to, and has the owner and the permissions of that.
    mkdir far
    cp old far/one
    chmod 640 far/one
    if [ "$(id -u)" = 0 ]; then chown 12:34 far/one; fi
    ln -s far/one near
    expect 'limits behind a link' 0 '' '' setquota 1020 1 2 3 4 near
    same 'the undo file is there' "$(ls -d near* far/* | paste -sd ' ')" 'far/one far/one.undo near'
    same 'its owner and permissions' "$(stat -c '%a %u %g' far/one.undo)" "$(stat -c '%a %u %g' far/one)"
    same 'its gate is closed' "$(gate far/one)" 0
    cp far/one was
    open_gate far/one
    expect 'a form behind a link' 0 "$("$program" edquota --print 1020 was | sed 's/ was / near /')" '' \
        edquota --print 1020 near
    same 'the file behind the link is recovered' "$(cmp far/one was && gate far/one)" 0
    same 'with the permissions that it had' "$(stat -c '%a %u %g' far/one.undo)" "$(stat -c '%a %u %g' far/one)"

    # A file that may not be written, whose gate is open: nobody is told what it is.
    cp old q
    chmod 444 q
    open_gate q
    chmod 444 q.undo
    chmod 755 .
    cp q was
    runner=("${somebody[@]}")
    if [ "$(id -u)" = 0 ]; then
        expect 'a file that has to be recovered, and may not be' 4 '' 'quota: store fault' repquota q
        same 'it stays' "$(cmp q was && gate q)" 1
    fi
    runner=("$run")

    # Names of undo files, and names for whose undo file there is no room, are no names of files.
    for name in q.undo q.und "$(printf 'n%.0s' $(seq 251))"; do
        expect "the name ${name:0:10}" 2 '' 'quota: usage: BadFileName at word 1' repquota "$name"
    done
    name=$(printf 'n%.0s' $(seq 251))
    cp old "$name"
    ln -s "$name" long
    expect 'a file behind a link with a name for whose undo file there is no room' 4 '' 'quota: store fault' repquota long
else
    echo 'real_files: python3 is not there, or this is not x86-64: no change is stopped' >&2
fi

cd "$folder"
rm -rf "$stopped"
