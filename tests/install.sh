#!/usr/bin/env bash
# Looks at what bin/install and bin/package put in place, for each program of programs.txt: into a folder of this test's own,
# where the installed programs are then run, and what is left when it is removed; the units of systemd, and what they start;
# what pages and documents name; what is in the package; and whether the completions for bash and zsh have the commands and
# options of the manual pages. Ends with status 1 where something differs.
set -Eeuo pipefail
shopt -s inherit_errexit
trap 'echo "install: line $LINENO failed: $BASH_COMMAND" >&2' ERR
top=$(cd "$(dirname "${BASH_SOURCE[0]}")/.." && pwd)
folder=$(mktemp -d)
trap 'rm -rf "$folder"' EXIT
cd "$folder"
failed=0

# same WHAT GOT WANTED: compares two texts.
same() {
    if [ "$2" != "$3" ]; then
        failed=1
        echo "FAILED: $1: got «$2», wanted «$3»" >&2
    fi
}

# tree FOLDER: all that is below a folder, with the permissions of files.
tree() { (cd "$1" && { find . -type d -printf '%p/\n'; find . ! -type d -printf '%m %p\n'; } | LC_ALL=C sort); }

# works PROGRAM: whether quota_cli sets limits in a copy of a sample, and reports them.
works() {
    cp "$top/samples/aquota.user" q
    "$1" setquota -u 1000 6G 7G 160k 200k q &&
        "$1" repquota -u q | grep '^#1000 ' | tr -s ' '
}
line='#1000 -- 3145728 6291456 7340032 - 84213 160000 200000 -'

# The programs, and what the list has of each, by its name. This builds those that are stale, and shows how.
list=$("$top/tools/programs")
names=()
pages=()
declare -A folder_of=() pages_of=()
while read -r _ name it rest; do
    names+=("$name")
    folder_of[$name]=$it
    pages_of[$name]=$rest
    read -ra them <<<"$rest"
    pages+=("${them[@]}")
done <<<"$list"
"$top/bin/build" "${names[@]}"

# installed FOLDER: what is installed of all programs, each with its mode, and beside them. FOLDER has the functions of zsh.
installed() {
    local name it
    printf '755 ./%s\n' lib/quota_cli/recover lib/systemd/system-generators/quota_cli-generator \
        share/doc/quota-cli/examples/{make_quota_files,serve_client}.py
    printf '644 ./lib/systemd/system/%s\n' quota_cli-recover.service quota_cli-rquotad@.service \
        {quotaon,systemd-quotacheck}@.service.d/quota_cli-recover.conf
    echo '644 ./lib/quota_cli/commit'
    printf '644 ./share/doc/quota-cli/%s\n' examples/{aquota.user,quota.user,quota.user32,aquota.project,projid,projects.listing} \
        {CHANGELOG,COMING_FROM_QUOTA_TOOLS,COMMANDS,FORMATS,PROMISES,README}.md.gz
    for name in "${names[@]}"; do
        echo "755 ./${folder_of[$name]}/$name"
        for it in ${pages_of[$name]}; do echo "644 ./share/man/man${it##*.}/$it.gz"; done
        echo "644 ./share/bash-completion/completions/$name"
        echo "644 ./share/zsh/$1/_$name"
    done
}

# starts FOLDER: whether each program says its name and a version, and the commit of this repository behind it.
starts() {
    local name
    for name in "${names[@]}"; do
        "$1/${folder_of[$name]}/$name" --version | sed "1s/ .*//; 2s/^commit $commit\$/and its commit/"
    done
}

# Into an empty folder, and out of it.
unset DESTDIR
"$top/bin/install" "$folder/a place" >said
same 'what was installed' "$(tree 'a place' | grep -v '/$' | LC_ALL=C sort)" \
    "$({ installed site-functions && echo '644 ./share/quota_cli/installed'; } | LC_ALL=C sort)"
same 'it says what it installed' "$(sed 's/^installed //' said | sort)" "$(find "$folder/a place" -type f | sort)"
same 'the installed quota_cli' "$(works "$folder/a place/sbin/quota_cli")" "$line"
commit=$(git -C "$top" log -1 --abbrev=12 --format='%h of %cs')
same 'the installed programs' "$(starts "$folder/a place")" "$(printf '%s\nand its commit\n' "${names[@]}")"
for name in "${pages[@]}"; do
    page=$top/docs/$name
    place=share/man/man${name##*.}/$name.gz
    same "the installed $name" "$(gzip -dc "a place/$place" | sed -e "s|$folder/a place/share/doc|/usr/share/doc|g" \
        -e "s|$folder/a place/bin/|/usr/local/bin/|g" | cmp - "$page" && echo same)" same
    same "$name is compressed alike each time" "$(gzip -dc "a place/$place" | gzip -9n | cmp - "a place/$place" && echo same)" same
    if command -v man >/dev/null; then
        same "$name is found" "$(man -M 'a place/share/man' -w "${name##*.}" "${name%.*}" 2>/dev/null)" "$folder/a place/$place"
    fi
done

# named ROOT PREFIX: what the installed pages and documents name of PREFIX, or of the repository though it is installed, and is
# not there below ROOT.
named() {
    local file it
    for file in "$1$2"/share/man/man*/*.gz "$1$2"/share/doc/quota-cli/*.md.gz; do
        gzip -dc "$file" >text
        while IFS= read -r it; do
            it=${it%.}
            if [ ! -e "$1$it" ]; then echo "${file##*/} names $it"; fi
        done < <(grep -oE "$2/(share/doc|s?bin/quota_cli|s?bin/rquotad_tcp)[^]\`'\" ,:;()]*" text || true)
        if grep -E '(^|[^/])(samples/|tests/serve_client|docs/(r?quota|COMMANDS|COMING|FORMATS|PROMISES))' text; then
            echo "${file##*/} names the repository"
        fi
        if grep -E '(^|[^[:alnum:]])/usr/local/s?bin/(quota_cli|rquotad_tcp)' text; then
            echo "${file##*/} names a program where it is not installed"
        fi
    done
}
same 'what pages and documents name' "$(named '' "$folder/a place")" ''

# The units: systemd has nothing to say about them, and what each starts does what it has to.
units="$folder/a place/lib/systemd/system"
# started UNIT INSTANCE-FOLDER: what a unit starts, with its words, as bash takes it.
started() {
    local words
    words=$(sed -n 's/^Environment="WORDS=\(.*\)"$/\1/p' "$units/$1")
    sed -n 's/^ExecStart=//p' "$units/$1" | sed -e "s|[$]WORDS|$words|" -e "s|%f|$2|g" -e 's/--calls 1000/--calls 1/'
}
mkdir home
cp "$top/samples/aquota.user" home/
same 'the words of the server' "$(started quota_cli-rquotad@.service /home)" \
    "\"$folder/a place/sbin/quota_cli\" rquotad --calls 1 --port 8750 --export /home user /home/aquota.user"
port=$("$top/tests/serve_client.py" free)
# (its own words have another port, and a file of this test)
bash -c "$(started quota_cli-rquotad@.service /home | sed -e "s/8750/$port/" -e "s|user /home|user $folder/home|")" >said 2>&1 &
same 'what the server tells' "$("$folder/a place/share/doc/quota-cli/examples/serve_client.py" ask "$port" own)" \
    '1 quota 1024 1 5242880 4194304 3145728 200000 150000 84213 0 0'
wait
same 'what it says' "$(cat said)" ''
# An edit of a file was stopped, another file is not there, a line has a comment, and the last one has no end.
printf '%s\n' '# files' '' "-u $folder/home/none" " -u -F vfsv1 $folder/home/aquota.user" "-g $folder/100%/q" | head -c -1 >lines
for it in lib/quota_cli/recover lib/systemd/system-generators/quota_cli-generator; do
    sed -i "s|/etc/default/quota_cli|$folder/lines|" "a place/$it"
done
{ printf '\1\0\0\0\0\0\0\0\0\34\0\0\0\0\0\0'; head -c 1008 /dev/zero; } >home/aquota.user.undo
got=0
bash -c "$(started quota_cli-recover.service '')" >said 2>err || got=$?
same 'what a boot recovers' "$got $(head -c 1 home/aquota.user.undo | od -A n -t u1) $(cat said)" '1    0 '
same 'what it says of files that are not there' "$(cat err)" "quota: $folder/home/none: no such file
quota_cli-recover: refused: -u $folder/home/none
quota: $folder/100%/q: no such file
quota_cli-recover: refused: -g $folder/100%/q"
mkdir generated
"a place/lib/systemd/system-generators/quota_cli-generator" generated generated generated
same 'the mounts that it waits for' "$(cat generated/quota_cli-recover.service.d/mounts.conf)" "[Unit]
RequiresMountsFor=$folder/home/none
RequiresMountsFor=$folder/home/aquota.user
RequiresMountsFor=$folder/100%%/q"
echo '# none' >lines
mkdir none
"a place/lib/systemd/system-generators/quota_cli-generator" none
same 'without files it waits for none' "$(ls none)$(bash -c "$(started quota_cli-recover.service '')" 2>&1 || echo "status $?")" ''
rmdir none
if command -v systemd-analyze >/dev/null; then
    # Stand-ins of the units behind the recovery, of which an older and a newer systemd have some each.
    mkdir stand_ins
    for it in quota quotaon quotaon-root quotaon@ systemd-quotacheck systemd-quotacheck-root systemd-quotacheck@; do
        printf '%s\n' '[Unit]' DefaultDependencies=no Wants=quota_cli-recover.service '[Service]' ExecStart=/bin/true >"stand_ins/$it.service"
    done
    export SYSTEMD_UNIT_PATH="$folder/generated:$folder/stand_ins:$units:"
    same 'what systemd says' "$(systemd-analyze verify --man=no "$units"/*.service "$units/quota_cli-rquotad@home.service" 2>&1)" ''
    for it in quota quotaon quotaon-root quotaon@home systemd-quotacheck systemd-quotacheck-root systemd-quotacheck@home; do
        same "$it comes behind the recovery" "$(SYSTEMD_LOG_LEVEL=debug systemd-analyze verify --man=no "stand_ins/$it.service" 2>&1 |
            awk -v unit="$it.service:" '/-> Unit / { on = $3 == unit } on && /After: quota_cli-recover[.]service/ { print $2 }' |
            sort -u)" quota_cli-recover.service
    done
    same 'it comes behind the mounts' "$(SYSTEMD_LOG_LEVEL=debug systemd-analyze verify --man=no "$units/quota_cli-recover.service" 2>&1 |
        grep -c "RequiresMountsFor: $folder/home/aquota.user ")" 1
    unset SYSTEMD_UNIT_PATH
else
    echo 'install: systemd-analyze is not there: what systemd says of the units is not looked at' >&2
fi
same 'none is enabled' "$(find 'a place' -name '*.wants' -o -name '*.requires')" ''
"$top/bin/install" --remove "$folder/a place" >said
same 'what is left' "$(ls -A 'a place')" ''
got=0
"$top/bin/install" --remove "$folder/a place" >said 2>err || got=$?
same 'nothing is removed twice' "$got $(cat said) $(cat err)" "1  install: nothing that this installed is below $folder/a place"

# Into one where others have files, twice; what others have stays.
mkdir -p there/sbin there/share/man/man8
echo other >there/share/man/man8/other.8
tree there >before
(cd there && "$top/bin/install" .) >said
"$top/bin/install" "$folder/there" >said
echo more >there/share/quota_cli/more
"$top/bin/install" --remove "$folder/there" >said
rm there/share/quota_cli/more
rmdir there/share/quota_cli
same 'the files and folders of others' "$(tree there)" "$(cat before)"

# Behind another root, as a package is made.
DESTDIR=$folder/root "$top/bin/install" /opt/quota >said
same 'a file behind another root' "$(works root/opt/quota/sbin/quota_cli)" "$line"
DESTDIR=$folder/root "$top/bin/install" --remove /opt/quota >said
same 'what is left there' "$(find root -type f)" ''

# What is refused.
got=0
"$top/bin/install" --all >said 2>err || got=$?
same 'an unknown option' "$got $(cat err)" '2 install: usage: bin/install [--remove] [PREFIX]'
mkdir copy
cp -r "$top"/{bin,docs,tools,crates.txt,programs.txt} copy/
while read -r crate _; do
    mkdir -p "copy/crates/$crate/src"
    touch "copy/crates/$crate/src/main.rt"
done <<<"$list"
got=0
got=0
"$top/bin/install" "$folder/a%place" >said 2>err || got=$?
same 'a place that no unit can name' "$got $(cat err)" '2 install: PREFIX may have no ", $, `, \, %, #, |, & and no newline'
got=0
copy/bin/install "$folder/none" >said 2>err || got=$?
same 'a program that is not built' "$got $(grep -c "^install: ${names[0]} is not built; bin/build ${names[0]} builds it, and" err)" '1 1'
same 'nothing is made then' "$(ls -d none 2>/dev/null || true)" ''
if [ "$(id -u)" != 0 ]; then
    got=0
    "$top/bin/install" /usr >said 2>err || got=$?
    same 'a place that is not ours' "$got $(grep -c 'cannot be written: give a PREFIX' err)" '1 1'
fi

# The package.
if command -v dpkg-deb >/dev/null; then
    mkdir packages
    "$top/bin/package" packages >said
    package=$(sed 's/^made //' said)
    same 'its name' "${package##*/}" "quota-cli_$(dpkg-deb -f "$package" Version)_$(dpkg --print-architecture).deb"
    same 'its version' "$(dpkg-deb -f "$package" Version | grep -cE '^[0-9.]+\+[0-9]{8}\.[0-9]{4}$')" 1
    same 'what it needs' "$(dpkg-deb -f "$package" Depends | sed -E 's/>= 2\.[0-9.]+/>= 2/; s/, libgcc-s1$//')" 'libc6 (>= 2)'
    same 'what is in it' "$(dpkg-deb -c "$package" | awk '$1 !~ /^d/ { print $1, $2, $6 }' | LC_ALL=C sort -k 3)" \
        "$({
            installed vendor-completions | sed -E 's|^644 \.|-rw-r--r-- root/root ./usr|; s|^755 \.|-rwxr-xr-x root/root ./usr|'
            printf -- '-rw-r--r-- root/root ./%s\n' usr/share/doc/quota-cli/{changelog.gz,copyright} etc/default/quota_cli
        } | LC_ALL=C sort -k 3)"
    dpkg-deb -x "$package" unpacked
    same 'the packed programs' "$(starts unpacked/usr)" "$(printf '%s\nand its commit\n' "${names[@]}")"
    same 'the packed quota_cli' "$(works unpacked/usr/sbin/quota_cli)" "$line"
    same 'what its pages and documents name' "$(named unpacked /usr)" ''
    same 'the program that its units and the rest start' \
        "$(grep -rhoE '/[^ "]*s?bin/quota_cli' unpacked/usr/lib | sort -u)" /usr/sbin/quota_cli
    same 'its file in /etc' "$(grep -v '^#' unpacked/etc/default/quota_cli || true)" ''
    dpkg-deb -e "$package" control
    same 'what stays as it was changed' "$(cat control/conffiles)" /etc/default/quota_cli
    same 'its sums' "$(cd unpacked && md5sum --quiet -c ../control/md5sums && echo right)" right
    mkdir again
    "$top/bin/package" again >said
    same 'it is the same when it is made again' "$(cmp "$package" again/*.deb && echo same)" same
    if command -v lintian >/dev/null; then
        lintian --fail-on error --no-tag-display-limit "$package" >said 2>&1 || same 'what lintian says' "$(cat said)" ''
    else
        echo 'install: lintian is not there: its rules are not looked at' >&2
    fi
else
    echo 'install: dpkg-deb is not there: no package is made' >&2
fi

# Commands and options as the manual pages have them.

# commands_of PROGRAM: those that its first page names, where it has some.
commands_of() {
    awk '/^\.Sh / { on = /DESCRIPTION/ } on && /^\.It Cm / { print $3 }' "$top/docs/${pages_of[$1]%% *}" | sort
}

# section PROGRAM [COMMAND]: the page of a command, or its section of the first page; all pages where none is named.
section() {
    local pages it
    read -ra pages <<<"${pages_of[$1]}"
    if [ $# = 1 ]; then
        cat "${pages[@]/#/$top/docs/}"
        return
    fi
    for it in "${pages[@]}"; do
        if [[ $it == "$1-$2".* ]]; then
            cat "$top/docs/$it"
            return
        fi
    done
    awk -v name="$2" '/^\.S[sh] / { on = $0 == ".Ss " name } on' "$top/docs/${pages[0]}"
}
in_page() {
    section "$@" | sed -nE '/^\.It /{ s/\<Fl /-/gp }' | tr -c '[:alnum:]-' '\n' |
        sed -nE '/^(-[[:alpha:]]|--[[:alpha:]]+)$/p' | sort -u
}

# completed PROGRAM WORD..: what bash completes the last of these words to.
completed() {
    COMP_WORDS=("$@")
    COMP_CWORD=$(($# - 1))
    COMPREPLY=()
    "_$1"
    printf '%s\n' ${COMPREPLY[@]+"${COMPREPLY[@]}"} | sed '/^$/d' | sort -u
}

# for_zsh PROGRAM [COMMAND]: the options that the completion for zsh has for a command, or in all.
for_zsh() {
    awk -v name="${2-}" 'name == "" || $1 == name ")" { on = 1 } on { print } on && name != "" && /;;/ { exit }' \
        "$top/docs/completions/_$1" |
        grep -oE -- '(-[[:alpha:]]|--[[:alpha:]]+)=?\[' | tr -d '=[' | sort -u
}

# compare PROGRAM: compares the completions of a program with its pages. One without commands has options alone, and where
# commands have a help, `--help` is offered right behind them.
compare() {
    local name=$1 commands it help=''
    commands=$(commands_of "$name")
    if grep -A 1 -x '[.]Ar COMMAND' "$top/docs/${pages_of[$name]%% *}" | grep -qx '[.]Fl -help'; then help=--help; fi
    same "what completes $name for bash" "$(complete -p "$name")" "complete -F _$name $name"
    same "what completes $name for zsh" "$(head -n 1 "$top/docs/completions/_$name")" "#compdef $name"
    if [ -z "$commands" ]; then
        it=$({ in_page "$name" && printf '%s\n' --help --version; } | sort -u)
        same "the options of $name for bash" "$(completed "$name" -)" "$it"
        same "the options of $name for zsh" "$(for_zsh "$name" || true)" "$it"
        return
    fi
    same "the commands of $name for bash" "$(completed "$name" '' | grep -v '^-')" "$commands"
    same "the words for bash that are no command of $name" "$(completed "$name" --)" '--help
--version'
    same "the commands of $name for zsh" "$(sed -nE "s/^ +'([a-z]+):.*'\$/\1/p" "$top/docs/completions/_$name" | sort)" "$commands"
    for it in $commands; do
        same "the options of $name $it for bash" "$(completed "$name" "$it" -)" \
            "$({ in_page "$name" "$it" && echo "$help"; } | sed '/^$/d' | sort -u)"
        same "the options of $name $it behind another one for bash" "$(completed "$name" "$it" -u -)" "$(in_page "$name" "$it")"
        same "the options of $name $it for zsh" "$(for_zsh "$name" "$it" || true)" "$(in_page "$name" "$it")"
    done
}

set +E # (compgen fails where nothing fits)
for name in "${names[@]}"; do
    # shellcheck source=/dev/null
    . "$top/docs/completions/$name.bash"
    compare "$name"
    if command -v zsh >/dev/null; then zsh -f -n "$top/docs/completions/_$name" || failed=1; fi
done
if ! command -v zsh >/dev/null; then
    echo 'install: zsh is not there: whether it can read the completions is not looked at' >&2
fi

# The values that quota_cli takes.
formats=$("$top/bin/quota_cli" --version | sed 's/.*(//; s/).*//; s/,//g')
same 'the formats for bash' "$(completed quota_cli repquota -F '' | tr '\n' ' ')" "$formats "
same 'the formats for bash behind =' "$(completed quota_cli rquotad --format = vfsv | tr '\n' ' ')" 'vfsv0 vfsv1 '
same 'pairs of formats for bash' "$(completed quota_cli convertquota -f vfsv0, | tr '\n' ' ')" \
    'vfsv0,vfsold vfsv0,vfsold32 vfsv0,vfsv0 vfsv0,vfsv1 '
same 'the formats of projects for bash' "$(completed quota_cli setquota -P -F '' | tr '\n' ' ')" 'vfsv0 vfsv1 '
same 'pairs of formats of projects for bash' "$(completed quota_cli convertquota -P -f vfs | tr '\n' ' ')" \
    'vfsv0,vfsv0 vfsv0,vfsv1 vfsv1,vfsv0 vfsv1,vfsv1 '
same 'the kinds for bash' "$(completed quota_cli rquotad --export /home '' | tr '\n' ' ')" 'group project user '
mkdir files
touch files/aquota.user files/aquota.group
same 'names of files for bash' "$(completed quota_cli repquota -u files/aquota.u)" files/aquota.user
touch files/aquota.user.{undo,und,new} 'files/a b'
mkdir 'files/a c' files/dir.new
same 'names that the program takes, for bash' "$(completed quota_cli repquota -u files/ | tr '\n' ' ')" \
    'files/aquota.group files/aquota.user files/dir.new '
same 'a path of an export for bash' "$(completed quota_cli rquotad --export files/a)" 'files/a c'
printf '%s\n' 'alice:x:1000:100' '#al:' '+al::' 'DOM\al:x:1001:100' 'bob:x:1002:100' >files/names
same 'names of users for bash' "$(completed quota_cli setquota -u --names files/names al)" alice
same 'names of users for bash behind =' "$(completed quota_cli edquota --print --names = files/names b)" bob
same 'a name that has to be quoted for bash' "$(completed quota_cli setquota --names files/names -p D)" 'DOM\\al'
same 'no name where a number stands' "$(completed quota_cli setquota -u --names files/names alice '')" ''
same 'a file behind the numbers' "$(completed quota_cli setquota -u --names files/names alice 1 2 3 4 files/aquota.u)" files/aquota.user
same 'a file behind -b' "$(completed quota_cli setquota -u --names files/names -b files/aquota.u)" files/aquota.user
same 'a name of a file for bash behind an option' "$(completed quota_cli repquota --names files/aquota.g)" files/aquota.group

if command -v zsh >/dev/null; then
    # What zsh would offer is printed, with stand-ins of what it completes by.
    same 'names of users and of files for zsh' "$(cd files && TOP=$top zsh -f -c '
        _describe() {}
        compadd() { print -rl -- ${(P)2}; }
        _path_files() { setopt localoptions extendedglob; print -rl -- ${~${=2}}; }
        CURRENT=2
        . $TOP/docs/completions/_quota_cli
        typeset -A opt_args=(--names names)
        _quota_cli_names
        _quota_cli_files' | tr '\n' ' ')" 'alice DOM\al bob aquota.group aquota.user names dir.new '
    same 'the formats of users, of projects, and pairs of the latter, for zsh' "$(TOP=$top zsh -f -c '
        _describe() {}
        compadd() { print -rl -- ${(P)2}; }
        CURRENT=2
        . $TOP/docs/completions/_quota_cli
        typeset -A opt_args=(-u "")
        _quota_cli_formats
        opt_args=(-P "")
        _quota_cli_formats
        _quota_cli_formats pairs' | tr '\n' ' ')" "$formats vfsv0 vfsv1 vfsv0,vfsv0 vfsv0,vfsv1 vfsv1,vfsv0 vfsv1,vfsv1 "
    for it in $(commands_of quota_cli); do
        same "--help behind $it, and behind $it -u, for zsh" "$(for at in 3 4; do
            AT=$at IT=$it TOP=$top zsh -f -c '
                _arguments() { local it; for it; do if [[ $it == *--help* ]]; then print -rn -- "$CURRENT "; fi; done }
                _message() {}
                CURRENT=$AT words=(quota_cli $IT -u)
                . $TOP/docs/completions/_quota_cli'
        done)" '2 '
    done
fi
same '--help behind each command for zsh' "$(grep -cE '\<_arguments (-s )?[$]help\>' "$top/docs/completions/_quota_cli")" \
    "$(commands_of quota_cli | wc -l)"
same 'the formats for zsh' "$(grep -c "formats=($formats)" "$top/docs/completions/_quota_cli")" 1
same 'options whose value is a format, for zsh' "$(grep -c ': _quota_cli_formats' "$top/docs/completions/_quota_cli")" 6
if [ "$failed" = 0 ]; then echo 'install: what is installed works, and is taken away whole'; fi
exit "$failed"
