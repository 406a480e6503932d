#!/usr/bin/env bash
# Looks whether whatever goes over the programs of programs.txt passes none over: in a copy of the repository a second program is
# planted of which something is missing, and everything that goes over them has to say so and end with a status but 0; and then a
# whole one, which all of them find. It takes a few seconds, and proves and builds nothing. Ends with status 1 where one does
# otherwise.
set -Eeuo pipefail
shopt -s inherit_errexit
trap 'echo "programs: line $LINENO failed: $BASH_COMMAND" >&2' ERR
top=$(cd "$(dirname "${BASH_SOURCE[0]}")/.." && pwd)
folder=$(mktemp -d)
trap 'rm -rf "$folder"' EXIT
cd "$folder"
failed=0

# same WHAT GOT WANTED: compares two texts.
same() {
    if [ "$2" != "$3" ]; then
        failed=1
        echo "FAILED: $1: got «$2», wanted «$3»" >&2
    fi
}

# A stand-in, so that nothing is proved whatever comes.
mkdir tools
printf '#!/bin/sh\necho asked >>"$FOLDER/asked"\nexit 1\n' >tools/rt
chmod +x tools/rt
export FOLDER=$folder PATH=$folder/tools:$PATH

# repository: a copy of what goes over the programs, with a second program, `second`, that has all that a program has.
repository() {
    local crate
    rm -rf copy
    mkdir copy
    cp -r "$top"/{bin,docs,samples,tests,tools,crates.txt,programs.txt} "$top"/*.md copy/
    cd copy
    while read -r crate _; do
        mkdir -p "crates/$crate/src"
        touch "crates/$crate/src/main.rt"
    done <<<"$list"
    echo 'second_program: outside' >>crates.txt
    echo 'second_program: second bin second.1' >>programs.txt
    mkdir -p crates/second_program/src
    touch crates/second_program/src/main.rt
    sed 's/quota_program/second_program/g; s|bin/build"|bin/build" second|' bin/quota_cli >bin/second
    chmod +x bin/second
    echo '.Dd today' >docs/second.1
    echo 'complete -F _second second' >docs/completions/second.bash
    echo '#compdef second' >docs/completions/_second
    cd ..
}

# all_refuse WHAT SAID: whatever goes over the programs says this of the copy as it is, and ends badly.
all_refuse() {
    local it got
    for it in tools/programs bin/install bin/package tools/layers 'tools/layers --check' \
        tests/first_run.sh tests/install.sh tests/manual.sh tests/examples.sh; do
        got=0
        # (of its words none has a blank)
        # shellcheck disable=SC2086
        (cd copy && timeout 60 $it >../said 2>&1) || got=$?
        same "$it where $1" "$((got != 0)) $(grep -c "^programs: $2\$" said)" '1 1'
    done
}

list=$("$top/tools/programs")

# Something is missing.
repository
sed -i 's/ second\.1$//' copy/programs.txt
rm copy/docs/second.1
all_refuse 'a program has no page' 'second has no manual page'
repository
rm copy/docs/second.1
all_refuse 'a page is not there' 'second: there is no docs/second.1'
repository
sed -i '/^second_program/d' copy/programs.txt
rm copy/docs/second.1
all_refuse 'a program is not in the list' 'the crate second_program is a program, and has no line in programs.txt'
repository
cp copy/docs/second.1 copy/docs/third.8
all_refuse 'a page is of no program' 'docs/third.8 is a page of no program'
repository
rm copy/bin/second
all_refuse 'a program has no script' 'second: there is no bin/second that can be run'
repository
rm copy/docs/completions/_second
all_refuse 'a program has no completion for zsh' 'second: there is no docs/completions/_second'
repository
rm copy/docs/completions/second.bash
all_refuse 'a program has no completion for bash' 'second: there is no docs/completions/second.bash'
repository
rm copy/crates/second_program/src/main.rt
all_refuse 'a program has no main' 'second: crates/second_program has no src/main.rt'
repository
sed -i '/^second_program/d' copy/crates.txt
all_refuse 'a program has no crate' 'second: crates.txt has no crate second_program'
repository
sed -i 's/second bin/second lib/' copy/programs.txt
all_refuse 'a program goes elsewhere' 'second: programs are installed into bin or sbin, not lib'
repository
sed -i 's/second\.1$/quota_cli.8/' copy/programs.txt
rm copy/docs/second.1
all_refuse 'two programs have one page' 'second: docs/quota_cli.8 is a page of two programs'
same 'nothing was proved' "$(cat asked 2>/dev/null || true)" ''

# A whole one.
repository
cd copy
same 'the programs' "$(tools/programs)" "$list
second_program second bin second.1"
same 'the picture of the crates has it' "$(tools/layers && sed -n '/^```/,/^for tests alone/p' docs/ARCHITECTURE.md | grep -cw second_program)" 1
same 'it is not built' "$(bin/build --look second || echo stale)" stale
mkdir crates/second_program/out
printf '#!/bin/sh\necho "second 0.1.0"\n' >crates/second_program/out/second_program
chmod +x crates/second_program/out/second_program
mkdir -p crates/outside/src
same 'it is built' "$(bin/build --look second && echo built)" built
# (of the others a stand-in is built, too)
while read -r crate name _; do
    mkdir "crates/$crate/out"
    printf '#!/bin/sh\necho "%s 0.1.0"\n' "$name" >"crates/$crate/out/$crate"
    chmod +x "crates/$crate/out/$crate"
    sed 's/#.*//; s/:.*//' crates.txt | while read -r it; do mkdir -p "crates/$it/src"; done
done <<<"$list"
PATH=$PATH:$folder/there/bin:$folder/there/sbin bin/install "$folder/there" >../said
same 'what is installed of it' "$(cd "$folder/there" && find . -name '*second*' | LC_ALL=C sort)" './bin/second
./share/bash-completion/completions/second
./share/man/man1/second.1.gz
./share/zsh/site-functions/_second'
same 'it runs' "$("$folder/there/bin/second" --version)" 'second 0.1.0'
bin/install --remove "$folder/there" >../said
same 'it is taken away' "$(ls -A "$folder/there")" ''
cd ..

if [ "$failed" = 0 ]; then echo 'programs: none is passed over'; fi
exit "$failed"
