#!/usr/bin/env bash
# Looks at the manual pages of each program of programs.txt: their form; the commands, their forms and options in them beside
# those that the help of the program has, and that of each command; with what their examples begin; and what they and all other
# documents show (tests/examples.sh). Ends with status 1 where something differs.
set -Eeuo pipefail
shopt -s inherit_errexit
trap 'echo "manual: line $LINENO failed: $BASH_COMMAND" >&2' ERR
top=$(cd "$(dirname "${BASH_SOURCE[0]}")/.." && pwd)
list=$("$top/tools/programs")
folder=$(mktemp -d)
trap 'rm -rf "$folder"' EXIT
cd "$folder"
failed=0

# same WHAT: compares the files `got` and `wanted`.
same() {
    if ! diff wanted got >&2; then
        failed=1
        echo "FAILED: $1" >&2
    fi
}

# form PAGE: its form, by the tools that are there. (Which other pages this machine has is no fault of a page, nor is it that
# the examples stand in front of the files.)
form() {
    local page=$1
    : >got
    if command -v mandoc >/dev/null; then
        mandoc -T lint "$page" 2>&1 | grep -vE ': referenced manual not found: |: outdated mandoc.db |: sections out of conventional order: Sh FILES$' >>got || true
    fi
    if command -v groff >/dev/null; then groff -ww -man -z "$page" >>got 2>&1 || true; fi
    : >wanted
    same "the form of ${page##*/}"
    if grep -nE '[[:space:]]$' "$page" >&2; then
        failed=1
        echo "FAILED: blanks at the ends of lines of ${page##*/}" >&2
    fi
}
for tool in mandoc groff; do
    if ! command -v "$tool" >/dev/null; then echo "manual: $tool is not there: what it says of the pages is not shown" >&2; fi
done

# options: those that stand in the text on the standard input, a line each.
options() {
    tr -c '[:alnum:]-' '\n' | sed -nE '/^(-[[:alpha:]]|--[[:alpha:]]+)$/p' | sort -u
}

# in_help COMMAND, in_page COMMAND: the options that the help of the program at hand names for a command, and those that its
# page, or its section of the first page, has; of all together where no command is named. offered COMMAND: those among the
# latter that are said to be options of it.
in_help() {
    awk -v name="${1-}" 'name == "" { print; next } /^  [a-z]/ { on = $1 == name } !/^  / { on = 0 } on' help | options
}
section() {
    local it
    if [ $# = 0 ]; then
        cat "${pages[@]}"
        return
    fi
    for it in "${pages[@]}"; do
        if [[ ${it##*/} == "$program-$1".* ]]; then
            cat "$it"
            return
        fi
    done
    awk -v name="$1" '/^\.S[sh] / { on = $0 == ".Ss " name } on' "${pages[0]}"
}
in_page() {
    section "$@" | sed -E 's/\<Fl /-/g' | options
}
offered() {
    section "$@" | sed -nE '/^\.It /{ s/\<Fl /-/gp }' | options
}

# compare_options [COMMAND]: the options in the help and in the page.
compare_options() {
    : >wanted
    comm -23 <(in_help "$@") <(in_page "$@") >got
    same "what the page lacks of the options of $program $*"
    comm -13 <(in_help "$@") <(offered "$@") >got
    same "what the help lacks of the options of $program $*"
}

# forms: the forms of the commands, and of the whole, as the help has them; and as the pages have them for a synopsis.
forms_in_help() {
    sed -nE 's/^(Usage|   or): //p' help
    awk -v program="$program" '/^(  )?[^ ]/ { if (form) print form; form = /^  / ? program : "" }
        form && match($0, /[^ ]/) && RSTART < 25 { sub(/   +[a-z].*/, ""); $1 = $1; form = form " " $0 }' help
    printf '%s\n' "$program --help" "$program --version"
}
forms_in_pages() {
    sed -nE '/^\.Sh SYNOPSIS/,/^\.Sh DESCRIPTION/{
        /^\.Sh/d
        s/^\.//; s/^Nm.*/@'"$program"'/
        s/ , Ns Ar /,/; s/(^| )(Cm|Ar) /\1/g; s/(^| )Fl /\1-/g; s/ \| /|/g
        s/^Op (.*) \.\.\.$/[\1].../; s/^Op (.*)/[\1]/; s/^(-.*[^]]) \.\.\.$/(\1).../; s/ \.\.\.$/.../
        p
    }' "${pages[@]}" | tr '\n' ' ' | tr '@' '\n' | sed 's/ *$//; /^$/d'
}

# look_at_help COMMAND: what the help of a command says beside its page, or its section of the first page: the forms, the
# options that stand in front of their descriptions, and two examples.
look_at_help() {
    "$top/bin/$program" "$1" --help >help_of
    forms_in_pages | grep -E "^$program $1( |\$)" | sort >wanted
    awk '/^(Usage|   or): / { if (form) print form; form = ""; sub(/^(Usage|   or): /, "") }
        /^$/ { print form; exit }
        { $1 = $1; form = form (form ? " " : "") $0 }' help_of | sort >got
    same "the forms in the help of $program $1"
    offered "$1" >wanted
    sed -n 's/^  \(-.*\)/\1/p' help_of | sed 's/  .*//' | options >got
    same "the options in the help of $program $1"
    echo 2 >wanted
    awk '/^$/ { on = 0 } on && /^    [^ ]/ { examples++ } /^Examples:$/ { on = 1 } END { print examples + 0 }' help_of >got
    same "the number of examples in the help of $program $1"
}

# pages_in_help FILE: the pages that a help names, which have to be there.
pages_in_help() {
    local it
    for it in $({ grep -oE "\<man ${program}[-a-z_]*" "$1" || true; } | cut -d ' ' -f 2); do
        if ! compgen -G "$top/docs/$it.[1-9]" >/dev/null; then
            failed=1
            echo "FAILED: the help of $program names $it, which is no page" >&2
        fi
    done
}

# look PROGRAM PAGE..: the pages of a program beside its help.
look() {
    local program=$1 pages=("${@:2}") it commands
    pages=("${pages[@]/#/$top/docs/}")
    for it in "${pages[@]}"; do form "$it"; done
    "$top/bin/$program" --help >help
    { grep -oE '^  [a-z]+' help || true; } | tr -d ' ' | sort -u >wanted
    awk '/^\.Sh / { on = /DESCRIPTION/ } on && /^\.It Cm / { print $3 }' "${pages[0]}" | sort -u >got
    same "the commands that ${pages[0]##*/} names"
    commands=$(cat wanted)
    for it in $commands; do
        section "$it" >said
        if [ ! -s said ]; then
            failed=1
            echo "FAILED: $it has no page, and no section of ${pages[0]##*/}" >&2
        fi
        compare_options "$it"
        if grep -qx "   or: $program COMMAND --help" help; then
            look_at_help "$it"
            pages_in_help help_of
        fi
    done
    if [ -z "$commands" ]; then compare_options; fi
    forms_in_help | sort >wanted
    forms_in_pages | sort >got
    same "the forms of $program in its pages"
    pages_in_help help
}
while read -r _ program _ pages; do
    read -ra them <<<"$pages"
    look "$program" "${them[@]}"
done <<<"$list"

# The words of a find in the help of quota_cli, which the page of quotacheck has.
"$top/bin/quota_cli" --help >help
grep -oE "[-]printf '[^']+'" help >wanted
sed 's/\\e/\\/g' "$top/docs/quota_cli-quotacheck.8" | grep -oE "[-]printf '[^']+'" | sort -u >got
same 'the find of the help'

# The error lines of quota_cli.8 are those of COMMANDS, but that the latter has one row for a damage with and without an
# identifier.
awk '/^\.Sh / { on = /EXIT STATUS/ } on && /^\.Bd / { shown = 1; next } /^\.Ed/ { shown = 0 } on && shown' \
    "$top/docs/quota_cli.8" | sed -e '/ at block B of ID$/d' -e 's/^/quota: /' | sort >wanted
sed -nE 's/^\| [0-9] \| `(quota: [^`]*)`.*/\1/p' "$top/docs/COMMANDS.md" | sort >got
same 'the error lines in COMMANDS'

# The words of a usage error in quota_cli.8 are those of its specification, and it shows one of each, in their order.
awk '/^\.Sh / { on = $0 == ".Sh USAGE ERRORS" } on && /^\.It Cm / { print $3 }' "$top/docs/quota_cli.8" >words
sort words >got
sed -n 's/^usage_name .* = codes "\(.*\)"$/\1/p' "$top/crates/refusals/specs/Line.antt" | sort >wanted
same 'the words of a usage error'
cp words wanted
awk '/^\.Sh / { on = $0 == ".Sh USAGE ERRORS" } on && /^quota: usage: / { print $3 }' "$top/docs/quota_cli.8" >got
same 'the usage errors that are shown'

# The examples of quota_cli.8 stand in front, and what a stop of the machine asks for has a section.
sed -n 's/^\.Sh //p' "$top/docs/quota_cli.8" | head -n 5 >got
printf '%s\n' NAME SYNOPSIS DESCRIPTION EXAMPLES RECOVERY >wanted
same 'the first sections of quota_cli.8'

# The first example of each page, and of the help, is one of every day.
for it in quota_cli{,-repquota,-setquota,-edquota,-quotacheck,-convertquota,-rquotad}.8 rquotad_tcp.8 quota_client.1; do
    awk '/^\.Sh / { on = $2 == "EXAMPLES" } on && /^\.Bd / { getline; print; exit }' "$top/docs/$it"
done >got
awk '/^Examples:$/ { getline; sub(/^ +/, ""); print }' help >>got
cat >wanted <<'LINES'
quota_cli repquota -u --names /etc/passwd /home/aquota.user
quota_cli repquota -u --names /etc/passwd /home/aquota.user
quota_cli setquota -u --names /etc/passwd alice 100M 200M 1k 2k /home/aquota.user
quota_cli edquota --print -u --names /etc/passwd alice /home/aquota.user >form
quotaoff -u /home &&
quota_cli convertquota -u -f vfsv0,vfsv1 /home/aquota.user /home/aquota.user.vfsv1
quota_cli rquotad --calls 100000 --port 8750 \e
rquotad_tcp 8750 1000 any /home user /home/aquota.user \e
quota_client quota 8750 1000 1000 /home
quota_cli repquota -u --names /etc/passwd /home/aquota.user
LINES
same 'the first example of each page, and of the help'

# What RECOVERY says first is what COMMANDS says first of it.
awk '/^\.Sh / { on = $2 == "RECOVERY" } on && /^\.Bd / { getline; print; exit }' "$top/docs/quota_cli.8" >got
awk '/^## / { on = $2 == "Recover" } on && /^```/ { getline; print; exit }' "$top/docs/COMMANDS.md" >wanted
same 'the first command of a recovery'

if ! "$top/tests/examples.sh"; then failed=1; fi
if [ "$failed" = 0 ]; then echo 'manual: the pages and the documents show what the program does'; fi
exit "$failed"
