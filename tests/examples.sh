#!/usr/bin/env bash
# Goes through all that README.md and its neighbours, the README.md of each folder, docs/*.md and the manual pages show: each
# display, and what in their text a reader may type or the program says; and through the examples of the help, and of that of
# each command. Each is run, and what comes of it compared with what stands there; or it is looked at as its rule below says.
# What no rule knows fails, by its file and line, so that nothing is shown that nobody tries. Ends with status 1 where
# something differs.
#
# What cannot be run as it stands is run with these changes:
# - /home, /root, /etc/passwd, /etc/group and /etc/projid are folders and files of this test. In /home are quota files of users, of
#   groups and of projects, in each of which alice has limits. A display of COMMANDS is run for groups, for projects, and with flat
#   files of both layouts, too, as that page says.
# - quotaoff, quotaon, mount, systemctl, lsattr and `editor` are stand-ins, which look at their words, and mail is one that keeps
#   them.
# - A recipe, which begins with quotaoff, is run once more with each of its commands failing.
# - /usr/local/sbin/project_listing is the script that COMMANDS shows, and /usr/local/bin/quota_client the built program. The
#   script that mails is given no variables but such as cron sets, and of the stand-ins it finds mail alone.
# - 8750 is a port that is free, --calls says 2, or 1 in a loop, which ends once its file is taken away, and rquotad_tcp is asked
#   for one connection.
# - `...` behind find stands for the words of the find of COMMANDS, and words in capitals for a file, a user, a number or `true`.
# - A file `commands` for a script has one command, and a listing that is read is there.
set -Eeuo pipefail
shopt -s inherit_errexit
trap 'echo "examples: line $LINENO failed at ${document-}:${line-}: $BASH_COMMAND" >&2' ERR
top=$(cd "$(dirname "${BASH_SOURCE[0]}")/.." && pwd)
client=$top/tests/serve_client.py
list=$("$top/tools/programs")
folder=$(mktemp -d)
trap 'rm -rf "$folder"' EXIT
cd "$folder"
failed=0
tried=0
# The place in which commands are carried out, and a port that is free.
place=$folder/place
port=$("$client" free)
# The words of the find of COMMANDS, as sed takes them.
listing=$(sed -nE 's/^ *find (.*) >.* &&$/\1/p' "$top/docs/COMMANDS.md" | sed 's/[\\&]/\\&/g')

# wrong LINE WHAT: tells what is wrong at a line of the document.
wrong() {
    failed=1
    echo "FAILED: $document:$1: $2" >&2
}

# same LINE WHAT [shown]: compares the files `got` and `wanted`. Where the latter is shown, it stands there from this line on.
same() {
    local at=$1 differs first
    if ! differs=$(diff wanted got); then
        first=${differs%%[!0-9]*}
        if [ "${3-}" = shown ] && [ "$first" -gt 0 ]; then at=$((at + first - 1)); fi
        wrong "$at" "$2"
        printf '%s\n' "$differs" >&2
    fi
}

# ---- What the documents show

# units DOCUMENT: its displays, the outputs that stand right behind one, and of its text what has a blank in it between marks,
# or is an option or a name of a file. Each goes to a file unit.N, and its line here has N, the line at which it begins, what it
# is, the column of a table in which it stands, and the heading above it. Of what the program says of its use each example is a
# display.
units() {
    rm -f unit.*
    if [[ $1 == *' --help' ]]; then
        # shellcheck disable=SC2086
        built/$1 | awk "$unit"'
            inside && /^    [^ ]/ && text { unit(from, "display", text); text = "" }
            inside && /^    [^ ]/ { from = NR }
            inside && /^    / { text = text substr($0, 5) "\n"; next }
            text { unit(from, "display", text); text = "" }
            { inside = /^Examples:$/ }'
    elif [[ $1 == *.[1-9] ]]; then
        sed -e 's/\\e/\\/g' -e 's/\\&//g' "$top/$1" | awk "$unit"'
            /^\.Bd / { inside = 1; from = NR + 1; text = ""; next }
            /^\.Ed/ { unit(from, "display", text); inside = 0; next }
            inside { text = text $0 "\n"; next }
            /^\.Sh / { heading = substr($0, 5) }
            /^\.(D1|Dl|nf|EX)/ { unit(NR, "unread", $0) }
            /^\.Ql / || /^\.Cm [a-z]+ Fl / {
                gsub(/^\.(Ql|Cm) |"| [.,;:)]+$/, "")
                gsub(/ Fl /, " -")
                if (/ /) unit(NR, "words", $0)
            }'
    else
        awk "$unit"'
            function between(line, text) {
                gsub(/ +/, " ", text)
                if (text ~ / |^-[[:alpha:]-]|^(bin|bench|docs|samples|tests|tools|[.]ci)\//) unit(line, "words", text)
            }
            /^ *```/ && !inside { inside = 1; from = NR + 1; indent = index($0, "`"); text = ""; next }
            /^ *```/ {
                before = before == "display" ? "output" : before ~ /^<!-- .* by tools\/layers -->/ ? "drawn" : "display"
                column = inside = 0
                unit(from, before, text)
                next
            }
            inside { text = text substr($0, indent) "\n"; next }
            /^(~~~|    |\t|<pre)/ { unit(NR, "unread", $0) }
            /^#/ { heading = $0; gsub(/^#+ |`/, "", heading) }
            /^[|]/ || !/./ { open = 0 }
            /./ {
                before = rest = $0
                column = 0
                while (at = index(rest, "`")) {
                    piece = substr(rest, 1, at - 1)
                    rest = substr(rest, at + 1)
                    if (open) {
                        between(from, words piece)
                    } else {
                        column += gsub(/[|]/, "|", piece)
                        from = NR
                        words = ""
                    }
                    open = !open
                }
                words = words rest " "
            }' "$top/$1"
    fi
}
unit='function unit(line, kind, text) {
    printf "%s", text >("unit." ++number)
    close("unit." number)
    print number, line, kind, column + 0, heading
}'

# ---- Where commands are carried out

mkdir tools built ready ready/home
while read -r crate name _; do
    "$top/bin/build" "$name"
    ln -s "$top/crates/$crate/out/$crate" "built/$name"
    cat >"tools/$name" <<'TOOL'
#!/usr/bin/env bash
# The built program of this name, for 20 seconds at most. A status but 0 is noted.
status=0
timeout 20 "$FOLDER/built/${0##*/}" "$@" || status=$?
if [ "$status" != 0 ]; then echo "status $status of: ${0##*/} $*" >>"$FOLDER/ended_badly"; fi
exit "$status"
TOOL
done <<<"$list"
built/quota_cli --help >help
cat >tools/quotaoff <<'TOOL'
#!/usr/bin/env bash
[ $# = 2 ] && [[ $1 == -[ugP] ]] && [ -d "$2" ]
TOOL
cat >tools/lsattr <<'TOOL'
#!/usr/bin/env bash
# What lsattr of e2fsprogs prints. A folder with a sticky bit has project 7 and hands it down, and so has a file that may be run;
# one without any permission, and what is neither a file nor a folder, cannot be opened.
[ "$1" = -pd ] || exit 2
status=0
for it in "${@:2}"; do
    case $(stat -c '%F %A' -- "$it") in
        directory\ *[tT]) printf '%5d %s %s\n' 7 --------------e----P-- "$it" ;;
        'regular '*---------- | [!rd]*)
            echo "lsattr: Operation not supported While reading flags on $it" >&2
            status=1
            ;;
        'regular '*x*) printf '%5d %s %s\n' 7 --------------e------- "$it" ;;
        *) printf '%5d %s %s\n' 0 --------------e------- "$it" ;;
    esac
done
exit "$status"
TOOL
cat >tools/mount <<'TOOL'
#!/usr/bin/env bash
[ $# = 3 ] && [ "$1 $2" = '-o remount,ro' ] && [ -d "$3" ]
TOOL
cat >tools/editor <<'TOOL'
#!/usr/bin/env bash
sed -i '3s/ 1024 2048 / 100M 200M /; 3s/ 3 4$/ 1k 2k/' "$1"
TOOL
cat >tools/mail <<'TOOL'
#!/usr/bin/env bash
{ echo "$*"; cat; } >>"$FOLDER/mails"
TOOL
cat >tools/systemctl <<TOOL
#!/usr/bin/env bash
# A unit is one of docs/units.
case \$1 in
    daemon-reload) exit ;;
    enable | status) [ -e "$top/docs/units/\$(sed 's/@.*\.service\$/@.service/' <<<"\${!#}")" ] ;;
    *) exit 1 ;;
esac
TOOL
cp tools/quotaoff tools/quotaon
# Commands of which the one with the number STEP fails, before it does anything or behind it, or writes other lines.
mkdir failing
cat >failing/step <<'TOOL'
#!/usr/bin/env bash
PATH=${PATH#*:}
echo "${0##*/}" >>"$FOLDER/steps"
number=$(grep -c '' "$FOLDER/steps")
if [ "$number" != "$STEP" ]; then exec "${0##*/}" "$@"; fi
case $HOW in
    before) exit 1 ;;
    behind) "${0##*/}" "$@"; exit 1 ;;
    *) printf "$HOW" ;;
esac
TOOL
for it in cp diff find grep mv project_listing quota_cli quotaoff quotaon stat; do cp failing/step "failing/$it"; done
chmod +x tools/* failing/*
export FOLDER=$folder PATH=$folder/tools:$PATH

# Alice, number 1000, has some limits; those that the documents set are the ones of 1001, and of her in the lines of an input.
echo 'alice:x:1000:1000::/home/alice:/bin/sh' >ready/passwd
echo 'alice:x:1000:' >ready/group
echo 'alice:1000' >ready/projid
echo '1000 100M 200M 1k 2k' >ready/lines
declare -A letter_of=([user]=-u [group]=-g [project]=-P) names_of=([user]=passwd [group]=group [project]=projid)
for kind in user group project; do
    echo '1000 1000 1 1 8' | quota_cli quotacheck -c "${letter_of[$kind]}" "ready/home/aquota.$kind"
    quota_cli setquota "${letter_of[$kind]}" 1000 1M 2M 3 4 "ready/home/aquota.$kind"
    quota_cli setquota "${letter_of[$kind]}" 1001 100M 200M 1k 2k "ready/home/aquota.$kind"
done
own='quota 1024 1 2048 1024 4 4 3 1 0 0'

# prepare KIND: makes the place anew for the text at hand: for users, groups or projects, with the file in the format from which
# it converts, or flat.
prepare() {
    local kind=${1/flat*/user} file
    rm -rf "$place"
    cp -rp ready "$place"
    mkdir "$place/root"
    file=$place/home/aquota.$kind
    options=("${letter_of[$kind]}" --names "$place/${names_of[$kind]}")
    if [[ $text == *'--input /root/listing'* ]]; then echo '1000 1000 1 1 8' >"$place/root/listing"; fi
    if [[ $text == *'<commands'* ]]; then echo "repquota -u $file" >"$place/commands"; fi
    case "$1 $text" in
        flat32*) as vfsold32 "$file" && options+=(-F vfsold32) ;;
        flat*) as vfsold "$file" && options+=(-F vfsold) ;;
        *vfsv0,vfsv1*) as vfsv0 "$file" ;;
        *vfsold32,*) as vfsold32 "$file" && mv "$file" "${file/aquota/quota}" ;;
        *vfsold,*) as vfsold "$file" && mv "$file" "${file/aquota/quota}" ;;
    esac
    if [[ $text == *'--input form'* ]]; then
        quota_cli edquota "${options[@]}" --print alice "$file" >"$place/form"
        editor "$place/form"
    fi
    # (a copy that is put back is that of a file that has other limits since)
    if [[ $text == *'cp -p /root/aquota.user.old '* ]]; then
        cp -p "$file" "$place/root/aquota.$kind.old"
        quota_cli setquota "${options[@]}" alice 5 6 7 8 "$file"
    fi
}
# as FORMAT FILE: converts a file of the kind at hand into a format.
as() {
    quota_cli convertquota "${options[0]}" -f "vfsv1,$1" "$2" "$2.other"
    mv "$2.other" "$2"
    rm "$2.undo"
}

# placed KIND: the text at hand as it is run in the place, for users, groups or projects, or with flat files.
placed() {
    sed -E -e "s|find (/home -xdev )?\.\.\.|find $listing|" -e 's|\<FILE\>|/home/aquota.user|g' -e 's/\<COMMAND\>/true/' \
        -e 's/\<NAME\>/1000/; s/\<PROTO\>/1001/; s/\<[BI](GRACE|TIME)\>/604800/g' <<<"$text" |
        case $1 in
            group | project) sed -E "s/ -u / ${letter_of[$1]} /g; s/passwd/${names_of[$1]}/g; s/\<(a?quota)\.user/\1.$1/g" ;;
            flat32) sed '/quotao/!s/ -u / -u -F vfsold32 /g' ;;
            flat) sed '/quotao/!s/ -u / -u -F vfsold /g' ;;
            *) cat ;;
        esac |
        sed -E -e 's|--export /home |--export @ |g; s#/home (user|group|project) /#@ \1 /#g' -e "s#/(home|root)\>#$place/\1#g" \
            -e 's|--export @ |--export /home |g; s#@ (user|group|project) /#/home \1 /#g' \
            -e "s#/etc/(passwd|group|projid)\>#$place/\1#g" -e "s#/usr/local/sbin/(project_listing)#\1#g" -e "s/\<8750\>/$port/g"
}

# ---- Rules for displays, and for commands in the text: each looks at the text at hand

# carried_out: commands end well and complain of nothing, and alice has the limits then that they set. A command in the text
# writes numbers alone, where it is none of the program.
carried_out() {
    local kinds=user kind flags=-uo status limits='1024 2048 3 4'
    if [[ $document == docs/COMMANDS.md && $text == *quota_cli* ]]; then kinds='user group project flat flat32'; fi
    if [[ $text == *convertquota* ]]; then kinds=${kinds% flat flat32}; fi
    if [[ $text == *vfsold* ]]; then kinds=${kinds/ project/}; fi
    if [[ $text == *' -P '* ]]; then kinds=project; fi
    if [ "$unit_kind" = display ] && [[ $text != 'while read '* ]]; then flags=-euo; fi
    if grep -qE '100M 200M|--apply|setquota .*-[bp] |[$]name' <<<"$text"; then limits='102400 204800 1000 2000'; fi
    echo "$text" >>shown
    for kind in $kinds; do
        prepare "$kind"
        placed "$kind" >"$place/words"
        : >ended_badly
        : >wanted
        if [[ $text == 'while read '* ]]; then
            # It goes on behind a line that is refused, and takes names, what is passed over, and a last line without an end.
            printf '%s\n' '# of a class' '' ' bob 1 2 3 4' 'alice 100M 200M 1k 2k' | head -c -1 >"$place/lines"
            printf '%s\n' "status 1 of: quota_cli setquota -u --names $place/passwd -- bob 1 2 3 4 $place/home/aquota.user" \
                'quota: unknown name bob' >wanted
        fi
        status=0
        (cd "$place" && timeout 60 bash "$flags" pipefail words) </dev/null >said 2>faults || status=$?
        {
            cat ended_badly
            grep -vxE 'quota: (block|inode) time not set, soft limit not exceeded' faults || true
            if [ "$status" != 0 ]; then echo "status $status"; fi
            quota_cli repquota -v "${options[@]}" "$place/home/aquota.${kind/flat*/user}" 2>&1 |
                awk '$1 == "alice" { print $4, $5, $8, $9 }'
        } >got
        echo "$limits" >>wanted
        same "$line" "what comes of it, for $kind, is something else"
        if [[ $text =~ ^(find\ /home\ -xdev\ -printf|head|stat|ulimit)\  ]] && ! grep -qxE '[0-9 ]+|unlimited' said; then
            wrong "$line" 'it writes no numbers'
        fi
        if [[ $text == *' --version' && $(sed -n "${line}p" "$top/$document") =~ \ says\ ([0-9.]+[0-9]) ]]; then
            grep -qF " ${BASH_REMATCH[1]} " said || wrong "$line" "it says $(cat said)"
        fi
    done
    if [ "$unit_kind" = display ] && [[ $text == 'quotaoff '* ]]; then fails_safely "${kinds%% *}"; fi
}

# limits_now KIND: all limits in the quota file, which is the flat one for as long as that is there; or why there are none.
limits_now() {
    local file=("$place/home/aquota.$1")
    if [ -e "$place/home/quota.user" ]; then file=(-F vfsold "$place/home/quota.user"); fi
    quota_cli repquota "${letter_of[$1]}" -v "${file[@]}" 2>&1 | awk 'NR > 4 || /^quota: / { print $1, $4, $5, $8, $9 }' || true
}

# step_fails KIND STEP HOW: the recipe at hand with one of its commands failing.
step_fails() {
    prepare "$1"
    placed "$1" >"$place/words"
    cp -rp "$place/home" before
    : >steps
    (cd "$place" && STEP=$2 HOW=$3 PATH=$folder/failing:$PATH timeout 60 bash -u words) </dev/null >said 2>&1 || true
}

# fails_safely KIND: whichever command of the recipe at hand fails, there is a quota file, with the limits of before or of
# afterwards. Where quotas could not be turned off, and where the listing is empty or of another file system, its bytes are those
# of before.
fails_safely() {
    local kind=$1 step how all file old new
    prepare "$kind"
    old=$(limits_now "$kind")
    rm -rf before
    step_fails "$kind" 0 before
    new=$(limits_now "$kind")
    all=$(grep -c '' steps)
    for step in $(seq "$all"); do
        for how in before behind '' '0 0 1 2 8\n'; do
            if [[ $how != be* && $(sed -n "${step}p" steps) != @(find|project_listing) ]]; then continue; fi
            rm -rf before
            step_fails "$kind" "$step" "$how"
            limits_now "$kind" >got
            echo "$old" >wanted
            if [ "$(cat got)" = "$new" ]; then echo "$new" >wanted; fi
            same "$line" "with step $step, $(sed -n "${step}p" steps), failing ($how), the quota file is another one"
            if [ "$step" = 1 ] || [[ $how != be* ]]; then
                for file in before/*quota."$kind"; do
                    cmp -s "$file" "$place/home/${file#*/}" || wrong "$line" "with step $step failing ($how) $file has changed"
                done
            fi
        done
    done
    rm -rf before
}

# projects_listed: the script of the page, which is put in place for the recipe behind it, lists each name of an inode with its
# project, whichever blanks it has. What lsattr cannot open has that of its folder, where it hands it down. Where a file, or
# nothing at all, is told of, and where a name has a newline, it says so, and ends with status 1.
projects_listed() {
    local tree=$folder/tree it
    echo "$text" >tools/project_listing
    chmod +x tools/project_listing
    rm -rf "$tree"
    mkdir -p "$tree/  a b/c" "$tree/d"
    chmod +t "$tree/  a b" "$tree/  a b/c"
    echo 1 | tee "$tree/  a b/c/  e  f" "$tree/d/aquota.user" >"$tree/aquota.project"
    chmod +x "$tree/  a b/c/  e  f"
    ln "$tree/  a b/c/  e  f" "$tree/-g"
    ln -s d "$tree/  a b/h i"
    mkfifo "$tree/d/j"
    tools/project_listing "$tree" >listed 2>got || echo "status $?" >>got
    LC_ALL=C sort listed >>got
    (
        cd "$tree"
        for it in '7:  a b' '7:  a b/c' '7:  a b/c/  e  f' '7:-g' '7:  a b/h i' 0:d 0:d/j 0:d/aquota.user 0:.; do
            stat -c "%u ${it%%:*} %d %i %b" -- "./${it#*:}"
        done
    ) | LC_ALL=C sort >wanted
    same "$line" 'it lists something else'
    touch "$tree/  a b/not told"
    chmod 0 "$tree/  a b/not told"
    tools/project_listing "$tree" >listed 2>got || echo "status $?" >>got
    printf '%s\n' 'project_listing: no project is told of ./  a b/not told' 'status 1' >wanted
    same "$line" 'where a file is not told of, it says something else'
    rm -f "$tree/  a b/not told"
    mkdir -p mute
    printf '%s\n' '#!/bin/sh' 'exit 1' >mute/lsattr
    chmod +x mute/lsattr
    PATH=$folder/mute:$PATH tools/project_listing "$tree" >listed 2>got || echo "status $?" >>got
    printf '%s\n' 'project_listing: no project is told of .' 'status 1' >wanted
    cat listed >>got
    same "$line" 'where nothing is told of, it says something else'
    mkdir "$tree/  a b/"$'k\n    8 -------'
    tools/project_listing "$tree" >listed 2>got || echo "status $?" >>got
    printf '%s\n' 'project_listing: a name has a newline: ./  a b/k' '    8 -------' 'status 1' >wanted
    cat listed >>got
    same "$line" 'where a name has a newline, it does something else'
}

# counted: what the projects of the sample use is the sum of the listing in the text.
counted() {
    in_repository "$text"
    cp "$top/samples/aquota.project" q
    quota_cli repquota -P -v -n -p q >wanted
    quota_cli quotacheck -P --input "$top/$text" q >got 2>&1 || true
    quota_cli repquota -P -v -n -p q >>got
    same "$line" 'the sample has another use'
    quota_cli quotacheck -c -P --input "$top/$text" q >got 2>&1 || true
    quota_cli repquota -P -n q | awk 'NR > 4 { print $1, $3, $7 }' >>got
    quota_cli repquota -P -n "$top/samples/aquota.project" | awk 'NR > 4 { print $1, $3, $7 }' >wanted
    same "$line" 'a new file has another use'
    rm -f q q.undo
}

# from_image: with an image of ext4 in which a file of alice's project is, which it counts. It is looked at where e2fsprogs is.
from_image() {
    local PATH=$PATH:/usr/sbin:/sbin it
    for it in mke2fs debugfs dumpe2fs e2fsck; do
        if ! command -v "$it" >/dev/null; then
            echo "examples: $it is not there: what is read from an image is not looked at" >&2
            return
        fi
    done
    prepare project
    truncate -s 16M "$place/image"
    echo 1 >"$place/file"
    mke2fs -q -t ext4 -O quota,project "$place/image"
    for it in "write $place/file file" 'sif file projid 1000'; do debugfs -w -R "$it" "$place/image" >said 2>&1; done
    # (which counts anew)
    e2fsck -fy "$place/image" >said 2>&1 || true
    placed project >"$place/words"
    (cd "$place" && timeout 60 bash -eu words) </dev/null 2>&1 | awk '/^alice/ { print $1, $3, $7 }' >got || true
    echo 'alice 1 1' >wanted
    same "$line" 'it reads something else'
}

# compared: what is written is the text behind the display.
compared() {
    printf '%s\n' "${text//8750/$port}" wait >words
    cp "unit.$((number + 1))" wanted
    (cd "$top" && timeout 60 bash -eu "$folder/words") </dev/null >got 2>&1 || true
    same "$next_line" 'it writes something else' shown
    cat got >>shown
}

# session: commands behind a dollar sign, which follow those before them in their page, write what stands behind each.
session() {
    local name=${document##*/} it
    mkdir -p "of $name"
    echo "${text//8750/$port}" >wanted
    (
        cd "of $name"
        while IFS= read -r it; do
            if [[ $it == '$ '* ]]; then
                echo "$it"
                it=${it#'$ '}
                eval "${it/'/usr/share/doc/quota-cli/examples/serve_client.py'/$client}" </dev/null 2>&1 || true
            fi
        done <../wanted
        wait
    ) >got
    same "$line" 'it writes something else' shown
    cat got >>shown
}

# served: a call for each of two cases is answered, with the limits of alice, and then the command ends well. Over TCP both
# come in one connection.
served() {
    local case=typed second=2 ended ask=ask
    if [[ $text == rquotad_tcp* ]]; then ask=stream; fi
    if [[ $text == *' group '* ]]; then
        case=group
        second=3
    fi
    prepare user
    placed user | sed -E 's/--calls [0-9]+/--calls 2/; s/^(rquotad_tcp [0-9]+) [0-9]+/\1 1/' >"$place/words"
    : >ended_badly
    (cd "$place" && exec timeout 30 bash -eu words) </dev/null >said 2>&1 &
    ended=$!
    "$client" "$ask" "$port" own "$case" >got 2>&1 || true
    wait "$ended" || true
    cat said ended_badly >>got
    printf '%s\n' "1 $own" "$second $own" >wanted
    same "$line" 'it answers something else'
}

# told: a server that has the file of alice answers each line, and she exceeds no limit.
told() {
    local ended
    prepare user
    echo "${text//8750/$port}" >words
    quota_cli rquotad --calls "$(grep -c '^quota_client ' words)" --port "$port" --export /home user \
        "$place/home/aquota.user" >said 2>&1 &
    ended=$!
    timeout 30 bash -eu words </dev/null >got 2>&1 || echo "status $?" >>got
    wait "$ended" || true
    cat said >>got
    echo '/home: 4 KiB, soft 1024, hard 2048, grace -, files 1, soft 3, hard 4, grace -' >wanted
    same "$line" 'it tells something else'
}

# asked: the answer to a call, which is made once more where it is lost between two rounds.
asked() { "$client" ask "$port" own || "$client" ask "$port" own || true; }

# looped: each round reads the file anew, and the loop ends at the first fault.
looped() {
    local ended
    prepare user
    placed user | sed -E 's/--calls [0-9]+/--calls 1/' >"$place/words"
    (cd "$place" && exec timeout 30 bash -eu words) </dev/null >said 2>&1 &
    ended=$!
    {
        asked
        quota_cli setquota -u 1000 5M 6M 7 8 "$place/home/aquota.user"
        # (the round that answers now may have begun before)
        asked >/dev/null
        asked
        rm "$place/home/aquota.user"
        "$client" ask "$port" own >/dev/null || true
    } >got 2>/dev/null
    wait "$ended" || true
    cat said >>got
    printf '%s\n' "1 $own" '1 quota 1024 1 6144 5120 4 8 7 1 0 0' "quota: $place/home/aquota.user: no such file" >wanted
    same "$line" 'it answers something else'
}

# with_open_gate FILE: an undo file with an open gate, which has saved nothing but the length of the file.
with_open_gate() {
    local size it
    size=$(stat -c %s "$1")
    {
        printf '\1\0\0\0\0\0\0\0'
        for it in 0 8 16 24 32 40 48 56; do printf '%b' "\\0$(printf '%o' $((size >> it & 255)))"; done
        head -c 1008 /dev/zero
    } >"$1.undo"
}

# recovered_at_boot: with the lines that the display adds to /etc/default/quota_cli, what the unit starts recovers the files.
recovered_at_boot() {
    local it
    prepare user
    mkdir "$place/default"
    placed user | sed "s|/etc/default|$place/default|" >"$place/words"
    sed "s|@SBIN@|$folder/tools|; s|/etc/default|$place/default|" "$top/docs/units/recover" >"$place/recover"
    for it in user group; do with_open_gate "$place/home/aquota.$it"; done
    (cd "$place" && bash -eu words && sh recover) </dev/null >got 2>&1 || echo "status $?" >>got
    for it in user group; do head -c 1 "$place/home/aquota.$it.undo" | od -A n -t u1 >>got; done
    printf '%s\n' '   0' '   0' >wanted
    same "$line" 'it recovers something else'
}

# mailed: alice, who exceeds her soft limit, gets a mail, and nobody else does; lines that name no user are passed over; where
# no server runs, nobody gets one, and it ends. It is run as cron runs it.
mailed() {
    local ended by_cron=(env -i FOLDER="$folder" PATH="$folder/mailing:/usr/bin:/bin" timeout 30 sh -u words)
    prepare user
    quota_cli setquota -u 1000 1 2M 3 4 "$place/home/aquota.user"
    quota_cli setquota -u -T 1000 3600 unset "$place/home/aquota.user"
    mkdir -p mailing
    cp tools/mail mailing/
    {
        printf '%s\n' '' '# users' '+::::::' '-carol::::::' 'bob:x:1001:1001::/home/bob:/bin/sh'
        cat ready/passwd
    } >"$place/passwd"
    placed user | sed -e 's|"$gid" [^)]*)|"$gid" /home)|' -e "s|/usr/local/bin/|$folder/tools/|" >"$place/words"
    : >mails
    quota_cli rquotad --calls 2 --port "$port" --export /home user "$place/home/aquota.user" >said 2>&1 &
    ended=$!
    (cd "$place" && "${by_cron[@]}") </dev/null >got 2>&1 || true
    wait "$ended" || true
    cat said mails >>got
    printf '%s\n' '-s disk quota alice' '/home: over block limit by 3 KiB, grace 01:00' >wanted
    same "$line" 'something else is mailed'
    : >mails
    (cd "$place" && "${by_cron[@]}" && echo well) </dev/null >got 2>&1 || true
    cat mails >>got
    echo 'bob: /home: no reply' >wanted
    same "$line" 'without a server it does something else'
}

# scheduled: five fields of a time, and the script of the page.
scheduled() {
    echo '0 18 * * * QUOTA_CLI_REASONS=always /usr/local/bin/quota_mail' >wanted
    echo "$text" >got
    same "$line" 'this is no line of cron for the script'
}

# unit_of_mail: systemd has nothing to say about it, where it is there.
unit_of_mail() {
    echo "${text//'/usr/local/bin/quota_mail'/$folder/tools/mail}" >quota_mail.service
    : >wanted
    : >got
    if command -v systemd-analyze >/dev/null; then systemd-analyze verify ./quota_mail.service >got 2>&1 || true; fi
    same "$line" 'systemd does not take it'
}

# unit_of_streams: systemd has nothing to say about it, where it is there, and its words are those of the display in front of it.
unit_of_streams() {
    echo "${text//'/usr/local/sbin/rquotad_tcp'/$folder/built/rquotad_tcp}" >rquotad_tcp.service
    grep -h '^rquotad_tcp ' unit.* | head -n 1 >wanted
    sed -n 's|^ExecStart=.*/\(rquotad_tcp .*\)|\1|p' rquotad_tcp.service >got
    if command -v systemd-analyze >/dev/null; then systemd-analyze verify ./rquotad_tcp.service >>got 2>&1 || true; fi
    same "$line" 'it starts something else, or systemd does not take it'
}

# timer_of_mail: it begins the unit of the same name each evening, and systemd has nothing to say about it, where it is there.
timer_of_mail() {
    echo "$text" >quota_mail.timer
    printf '[Service]\nType=oneshot\nExecStart=/bin/true\n' >quota_mail.service
    printf '%s\n' '[Timer]' 'OnCalendar=18:00' >wanted
    grep -A 1 '^\[Timer\]$' quota_mail.timer >got || true
    if command -v systemd-analyze >/dev/null; then systemd-analyze verify ./quota_mail.timer >>got 2>&1 || true; fi
    same "$line" 'systemd does not take it'
}

# wrong_body: it can be applied in a copy of the crate, in which the line of the text stands behind that of T.
wrong_body() {
    local body
    rm -rf copy
    mkdir -p copy/tests copy/crates/set_edit/wrong-bodies
    cp "$top/tests/wrong_bodies.sh" copy/tests/
    cp -r "$top/crates/set_edit/src" copy/crates/set_edit/
    body=$(grep -h '^(true, ' unit.* || true)
    sed -i "/(true, b'T') => /a $body" copy/crates/set_edit/src/number.rt
    echo "$text" >copy/crates/set_edit/wrong-bodies/it.edit
    echo 'wrong_bodies: 1 of 1 can be applied' >wanted
    copy/tests/wrong_bodies.sh --look | sed '/^$/d' >got || true
    same "$line" 'it cannot be applied'
}

# row: the number of a limit in P, so many times 2^40, is that of a row of tests.
row() {
    local form='^\("([0-9]+)P", Some\(([0-9_]+)\)\)$'
    if [[ $text =~ $form && $(printf '%u' $((BASH_REMATCH[1] << 40))) != "${BASH_REMATCH[2]//_/}" ]]; then
        wrong "$line" 'it is another number'
    fi
}

# in_sources: the names in a picture stand in the sources.
in_sources() {
    if [ ! -e names ]; then cat "$top"/crates/*/src/*.rt | grep -oE '\w+' | sort -u >names; fi
    grep -oE '\w+_\w+|[A-Z]\w+' <<<"$text" | sort -u | comm -23 - names >got
    : >wanted
    same "$line" 'no source has these names'
}

# of_demo: each line is one that bin/demo prints, as it stands there; real_files.sh runs it.
of_demo() {
    local it
    while IFS= read -r it; do
        case $it in
            '=> '*) grep -qF "look '${it#=> }'" "$top/bin/demo" || wrong "$line" "bin/demo says no such thing: $it" ;;
            *) grep -qxF "step ${it%%.*} '${it#*. }'" "$top/bin/demo" || wrong "$line" "bin/demo has no such step: $it" ;;
        esac
    done <<<"$text"
}

# quoted: each line is said by a run of this test, with any word in the place of one in capitals. It is looked for at the end.
quoted() {
    local it at=$line
    while IFS= read -r it; do printf '%s\t%s\n' "$document:$((at++))" "$1$it" >>quotes; done <<<"$text"
}

# options_of COMMAND: the options in the text are those that the help has for this command, or for any where it is none; with
# their values, where the text is nothing else.
options_of() {
    local it forms them
    forms=$(awk -v name="$1" '/^(  )?[^ ]/ { on = $1 == name } on && match($0, /[^ ]/) < 25' help)
    if [ -z "$forms" ]; then forms=$(cat help); fi
    if [[ $text == -*' '* ]]; then
        it=$(sed -E 's/\<vfs\w+,vfs\w+/OLD,NEW/g; s/\<vfs\w+/FORMAT/g; s|/etc/\w+|FILE|g' <<<"$text")
        if ! grep -qF -- "$it" <<<"$forms"; then wrong "$line" "the help does not have $it"; fi
        return
    fi
    read -ra them <<<"$text"
    for it in "${them[@]}"; do
        if [[ $it == -* ]] && ! grep -qE -- "(^|[^-[:alnum:]])$it\>" <<<"$forms"; then
            wrong "$line" "the help does not have $it of $1"
        fi
    done
}

# in_repository WORD..: the file is there, and the further words stand in it, unless they are in capitals or name a crate.
in_repository() {
    local it
    if ! compgen -G "$top/$1" >/dev/null; then
        wrong "$line" "$1 is not there"
        return
    fi
    for it in "${@:2}"; do
        if [[ $it =~ [^A-Z] && ! -d $top/crates/$it ]] && ! grep -qwF -- "$it" "$top/$1"; then
            wrong "$line" "$1 does not know $it"
        fi
    done
}

# formatted PAGE: a manual page that is there, and that man writes where it is there, too.
formatted() {
    in_repository "$1"
    if command -v man >/dev/null && ! man -l "$top/$1" 2>/dev/null | grep NAME >/dev/null; then
        wrong "$line" 'man does not write it'
    fi
}

# known_to_rt WORD..: a command of rt with its options, as its help or the page that it names has them.
known_to_rt() {
    local it
    if ! command -v rt >/dev/null; then return; fi
    if [ ! -e of_rt ]; then { rt help || true; cat "$(rt doc)"; } >of_rt 2>&1; fi
    for it in "rt $1" "${@:2}"; do
        if [[ $it == rt\ * || $it == -* ]] && ! grep -qF -- "$it" of_rt; then wrong "$line" "rt does not have $it"; fi
    done
}

# display: the rule for the display at hand.
display() {
    local run
    if [ "$next_kind" = output ]; then
        compared
        return
    fi
    case $text in
        '$ '*) session ;;
        '[Unit]'*'[Timer]'*) timer_of_mail ;;
        '[Unit]'*quota_mail*) unit_of_mail ;;
        '[Unit]'*rquotad_tcp*) unit_of_streams ;;
        'echo '*/etc/default/quota_cli*) recovered_at_boot ;;
        'WORDS=--port '*)
            text="quota_cli rquotad --calls 1000 ${text#WORDS=}"
            served
            ;;
        '#!/bin/sh'*quota_client*) mailed ;;
        '#!/bin/bash'*'lsattr -pd '*) projects_listed ;;
        'number=$(dumpe2fs '*) from_image ;;
        '0 18 * * * '*) scheduled ;;
        'while quota_cli rquotad '*) looped ;;
        'quota_cli rquotad '* | 'rquotad_tcp '*) served ;;
        'quota_client '*) told ;;
        'quota_cli '* | 'quotaoff '* | 'find '* | 'flock '* | '(flock '* | 'while read '* | 'systemctl '*) carried_out ;;
        'echo '*' | quota_cli script'*) carried_out ;;
        'file: '*) wrong_body ;;
        'words ──► '* | '  words ─► '*) in_sources ;;
        [0-9]'. '*) of_demo ;;
        *)
            case $document/$heading in
                # what a script of bench/ printed
                docs/MEASURED.md/bench/*)
                    read -ra run <<<"$heading"
                    in_repository "${run[@]}"
                    ;;
                docs/quota_cli.8/'EXIT STATUS') quoted 'quota: ' ;;
                *.[1-9]/*) quoted '' ;;
                *) wrong "$line" 'no rule of tests/examples.sh knows this display' ;;
            esac
            ;;
    esac
}

# words: the rule for the words at hand.
words() {
    local commands them
    commands=$(grep -oE '^  [a-z]+' help | sort -u)
    read -ra them <<<"$text"
    if [ "$document $column" = 'docs/COMING_FROM_QUOTA_TOOLS.md 1' ]; then
        theirs "${them[@]}"
        return
    fi
    case $text in
        'quota: '?* | 'quota_cli: '?* | 'not believed: '* | 'it had an open gate '* | 'touch FILE.undo') quoted '' ;;
        'quota_cli rquotad '* | 'rquotad_tcp '*) served ;;
        'quota_cli '* | 'find '* | 'flock '* | '(flock '* | 'mount '* | 'cp '*) carried_out ;;
        'systemd-escape '*) if command -v systemd-escape >/dev/null; then carried_out; fi ;;
        'systemctl '* | 'sed '* | 'getent '* | 'head '* | 'set -'* | 'sort '* | 'stat '* | 'ulimit '*) carried_out ;;
        'man -l '*) formatted "${them[2]}" ;;
        'rt '*) known_to_rt "${them[@]:1}" ;;
        samples/projects.listing) counted ;;
        bin/* | bench/* | docs/* | samples/* | tests/* | tools/* | .ci/*) in_repository "${them[@]}" ;;
        -*' '*) options_of "${heading#rpc.}" ;;
        -*)
            # (one that stands alone may be another program's, but for the tables of our commands)
            if [ "$column" -gt 1 ] && grep -qx "  ${heading#rpc.}" <<<"$commands"; then options_of "${heading#rpc.}"; fi
            ;;
        # names of things, and code, which nobody types at a shell
        'standard input' | 'standard output' | 'UDP port N' | 'domain users' | 'line N: ' | 'quota: ' | ' of ID' | 'rattle-kit-'*) ;;
        '("'*) row ;;
        'struct '* | 'impl '* | 'pub use' | 'holds '* | '('*) ;;
        *)
            if grep -qx "  ${them[0]}" <<<"$commands"; then
                options_of "${them[0]}"
            elif [[ $document == *.[1-9] ]]; then
                quoted ''
            else
                wrong "$line" "no rule of tests/examples.sh knows these words: $text"
            fi
            ;;
    esac
}

# theirs WORD..: of a command of the quota tools, which works on mounted file systems alone, the values stand in the row of ours.
theirs() {
    local it ours
    ours=$(sed -n "${line}s/^|[^|]*|//p" "$top/$document")
    for it in "${@:2}"; do
        if [[ $it != -* && $it != /home && $ours != *"$it"* ]]; then wrong "$line" "$it stands in the first column alone"; fi
    done
}

: >shown
: >quotes
cd "$top"
documents=(*.md */README.md docs/*.*)
cd "$folder"
documents+=('quota_cli --help')
while read -r it; do documents+=("quota_cli $it --help"); done < <(grep -oE '^  [a-z]+' help | sort -u)
for document in "${documents[@]}"; do
    units "$document" >list
    mapfile -t list <list
    for at in "${!list[@]}"; do
        read -r number line unit_kind column heading <<<"${list[at]}"
        read -r _ next_line next_kind _ <<<"${list[at + 1]-}"
        text=$(cat "unit.$number")
        tried=$((tried + 1))
        case $unit_kind in
            display) display ;;
            words) words ;;
            # (an output is looked at with its display, and the picture of the crates by tools/layers --check)
            output | drawn) ;;
            *) wrong "$line" 'tests/examples.sh does not read displays of this form' ;;
        esac
    done
done

# ---- What the program says

# said: makes the program say what the documents quote of it, where no example does.
said() {
    local it
    mkdir saying
    cd saying
    cp "$top/samples/aquota.user" q
    quota_cli repquota none
    truncate -s 41943080 large
    quota_cli repquota -F vfsold large
    # (4,194,304 users in as many tree blocks, which are too many with the header and what is above and below them)
    seq 4194304 | awk '{ print $1 * 256 - 1, 0, 1, $1, 8 }' | quota_cli quotacheck -c made
    quota_cli convertquota -f vfsv1,vfsv0 q q
    quota_cli setquota bob 0 0 0 0 q
    quota_cli setquota 1000 x 0 0 0 q
    quota_cli $'\377'
    quota_client quota 875
    quota_client quota x 1 1 /home
    quota_cli repquota large
    quota_cli repquota -g q
    quota_cli repquota -F vfsv0 q
    # The version, the number of blocks, the identifier of an entry, and a file that ends too early.
    for it in '4 \2' '20 \1' '2064 \11'; do
        cp q other
        printf '%b' "${it#* }" | dd of=other bs=1 seek="${it% *}" conv=notrunc status=none
        quota_cli repquota other
    done
    head -c 4096 q >other
    quota_cli repquota other
    quota_cli repquota -F vfsold other
    quota_cli repquota .
    quota_cli setquota -b q <.
    quota_cli repquota q >/dev/full
    # What is told of a word where the reason is asked for.
    QUOTA_CLI_REASONS=always quota_cli repquota -ug q
    QUOTA_CLI_REASONS=always quota_cli setquota 7 0 99999999999T 0 0 q
    "$client" hold "$port" quota_cli rquotad --calls 1 --port "$port" --export /home user q
    yes x | head -n 1000000 | (ulimit -v 40000 && exec "$folder/built/quota_cli" script)
    printf '\n\nx\n' | quota_cli setquota -b q
    printf '\n\n7 x 0 0 0\n' | quota_cli setquota -b q
    printf '\ncarol 0 0 0 0\n' >lines
    printf '\n\n\n\n\n\nsetquota -b --input lines q\n' | quota_cli script
    printf '\n\n\n%4097s\n' x | quota_cli script
    printf '\377\n' | quota_cli script
    yes '' | head -c 16777217 | quota_cli script
    # What a terminal is told of a file that may not be read, which root always may.
    mkdir home
    chmod 755 "$folder" . home
    install -m 000 q home/aquota.user
    cp "$folder/built/quota_cli" quota_cli
    set -- ./quota_cli repquota "$PWD/home/aquota.user"
    if [ "$(id -u)" = 0 ]; then set -- setpriv --reuid=65534 --regid=65534 --clear-groups "$@"; fi
    "$top/tests/real_files/terminal.py" "$@" 2>&1 | sed "s|$PWD||" >&2
    # And of undo files with an open gate: one that fits, one that does not, one of an hour ago, one with a further name, one
    # that others may write, and one of another account, which root alone can make.
    for it in true misfit 'touch -d -1hour' named_twice 'chmod 666' 'chown 65534'; do
        rm -f other other.undo other.undo.name
        cp q other
        with_open_gate other
        $it other.undo
        "$top/tests/real_files/terminal.py" ./quota_cli repquota other >&2
    done
    if [ "$(id -u)" != 0 ]; then echo 'not believed: it has an open gate and belongs to user 0' >&2; fi
}

# named_twice FILE: gives a file a further name.
named_twice() { ln -f "$1" "$1.name"; }

# misfit UNDO: has an undo file say that its file was longer than it is.
misfit() { printf '\1' | dd of="$1" bs=1 seek=12 conv=notrunc status=none; }

(said) </dev/null >/dev/null 2>>shown || true

while IFS=$'\t' read -r it text; do
    pattern=$(sed -E 's/[][\.*^$+?(){}|]/\\&/g; s/\<[A-Z]+\>/[^ ]+/g' <<<"$text")
    if [[ $text == quota* ]]; then pattern="^$pattern\$"; fi
    if ! grep -qE -- "$pattern" shown; then
        document=${it%:*}
        wrong "${it##*:}" "the program says this nowhere here: $text"
    fi
done <quotes
for it in man rt systemd-analyze; do
    if ! command -v "$it" >/dev/null; then echo "examples: $it is not there: what it says is not looked at" >&2; fi
done
if [ "$tried" -lt 300 ]; then
    failed=1
    echo "FAILED: only $tried displays and words of the documents were found" >&2
fi
if [ "$failed" = 0 ]; then echo "examples: the $tried displays and words of the documents are as they say"; fi
exit "$failed"
