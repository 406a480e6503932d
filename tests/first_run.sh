#!/usr/bin/env bash
# Looks at how the first run proves and builds a program (bin/build, tools/prove_crate, and the script in bin/ of each
# program of programs.txt), in a repository of four small crates and with a stand-in for `rt`, so it takes seconds and
# proves nothing. Ends with status 1 where it does otherwise.
set -Eeuo pipefail
shopt -s inherit_errexit
trap 'echo "first_run: line $LINENO failed: $BASH_COMMAND" >&2' ERR
top=$(cd "$(dirname "${BASH_SOURCE[0]}")/.." && pwd)
list=$("$top/tools/programs")
folder=$(mktemp -d)
trap 'rm -rf "$folder"' EXIT
failed=0

# same WHAT GOT WANTED: compares two texts.
same() {
    if [ "$2" != "$3" ]; then
        failed=$((failed + 1))
        echo "FAILED: $1: got «$2», wanted «$3»" >&2
    fi
}

# repository: one, in a folder whose name has a space, in which nothing is proved: `low`, `middle` and `high` stand on
# nothing, `over` on `low` and `high`, and each program on all of them. One program more, `further`, stands on `other` too.
repository() {
    local it crate name
    rm -rf "$folder/the repository"
    mkdir -p "$folder/the repository/bin" "$folder/the repository/tools"
    cd "$folder/the repository"
    cp "$top/bin/build" bin/
    cp "$top/tools/prove_crate" tools/
    printf '%s\n' '# The crates.' low: middle: high: 'over: low high arrayvec' other: \
        'further_program: low other over high middle' >crates.txt
    for it in low middle high over other further_program; do
        mkdir -p "crates/$it/src"
        echo 'fn nothing() {}' >"crates/$it/src/lib.rt"
    done
    cp "$top/programs.txt" .
    echo 'further_program: further bin further.1' >>programs.txt
    while read -r crate name _; do
        echo "$crate: over low middle high" >>crates.txt
        mkdir -p "crates/$crate/src"
        echo 'fn main() {}' >"crates/$crate/src/main.rt"
        cp "$top/bin/$name" bin/
    done <<<"$list"
    mv crates/further_program/src/lib.rt crates/further_program/src/main.rt
    : >"$folder/said"
    rm -f "$folder"/begun.* "$folder/slow" "$folder/faulty"
}

# begin SECONDS: a call of bin/build in the background, of which each proof takes so long, once three of them are at hand.
begin() {
    echo "$1" >"$folder/slow"
    bin/build 2>/dev/null &
    for ((i = 0; i < 2000; i++)); do
        if [ "$(wc -l <"$folder/said")" = 3 ]; then break; fi
        sleep 0.01
    done
}

# The stand-in says what it is asked for, and makes what `rt` makes. The three crates that stand on nothing wait for each
# other, and so end at the same moment. It is slow where there is a file `slow`, and does not prove the crate that the
# file `faulty` names.
mkdir "$folder/tools"
cat >"$folder/tools/rt" <<'RT'
#!/usr/bin/env bash
crate=${PWD##*/}
mkdir -p out/rlib
touch out/kept
echo "$1 $crate" >>"$FOLDER/said"
if [ -e "$FOLDER/slow" ]; then
    trap 'exit 143' TERM
    sleep "$(cat "$FOLDER/slow")" & wait $!
fi
if [ "$1 $crate" = "lib $(cat "$FOLDER/faulty" 2>/dev/null)" ]; then
    echo 'fn nothing: not proved'
    exit 1
fi
case $crate in
    low | middle | high)
        touch "$FOLDER/begun.$crate"
        for ((i = 0; i < 2000; i++)); do
            if [ -e "$FOLDER/begun.low" ] && [ -e "$FOLDER/begun.middle" ] && [ -e "$FOLDER/begun.high" ]; then break; fi
            sleep 0.01
        done ;;
    over) if [ ! -e ../low/out/rlib/stamp ]; then exit 1; fi ;;
esac
if [ "$1" = lib ]; then echo made >out/rlib/stamp; fi
if [ "$1" = run ]; then
    printf '#!/bin/sh\necho "ran $*"\n' >"out/$crate"
    chmod +x "out/$crate"
    echo made >"out/$crate.stamp"
    exit 2
fi
RT
chmod +x "$folder/tools/rt"
export FOLDER=$folder PATH=$folder/tools:$PATH OMP_NUM_THREADS=4 MEMORY_MB=100000
libraries='lib high
lib low
lib middle
lib over'
asked="$libraries
run quota_program"

# Crates whose proofs end at the same moment: none is lost, whatever the turn in which they end.
for round in 1 2 3 4 5; do
    repository
    start=$SECONDS
    same "round $round: the program" "$(timeout 60 bin/quota_cli a 'b c' 2>"$folder/err" || true)" 'ran a b c'
    same "round $round: what was proved" "$(sort "$folder/said")" "$asked"
    same "round $round: the crate over others, and the program, come last" "$(tail -n 2 "$folder/said" | tr '\n' ' ')" \
        'lib over run quota_program '
    same "round $round: three at a time" "$((SECONDS - start < 15))" 1
    same "round $round: what it says first" "$(head -n 1 "$folder/err" | grep -c 'building: 5 of 5 crates .* took 22 minutes')" 1
done

: >"$folder/said"
same 'a second call' "$(bin/quota_cli x)" 'ran x'
same 'it proves nothing' "$(cat "$folder/said")" ''
touch crates/other/src/lib.rt
same 'a call behind an edit of a crate that the program does not stand on' "$(bin/quota_cli x)" 'ran x'
same 'it proves nothing, either' "$(cat "$folder/said")" ''
touch crates/low/src/lib.rt
bin/quota_cli x >out.txt 2>"$folder/err"
same 'behind an edit of one crate it proves that one and those above it' "$(tr '\n' ' ' <"$folder/said")" \
    'lib low lib over run quota_program '
same 'and says how many' "$(grep -c 'building: 3 of 5 crates' "$folder/err")" 1

# A crate that is not proved.
repository
echo middle >"$folder/faulty"
got=0
bin/quota_cli x >out.txt 2>"$folder/err" || got=$?
same 'the status where a crate is not proved' "$got $(cat out.txt)" '70 '
same 'what the prover said' "$(grep -c '^fn nothing: not proved$' "$folder/err")" 1
same 'which crate it was' "$(grep -c '^quota_cli: middle is not proved; the whole log is /' "$folder/err")" 1
rm -f "$(sed -n 's/.* the whole log is //p' "$folder/err")"
same 'the program is not built' "$(grep -c run "$folder/said" || true)" 0
same 'what was made of it is kept' "$(ls crates/middle/out)" 'kept
rlib'
rm "$folder/faulty"
: >"$folder/said"
same 'the next call' "$(bin/quota_cli x 2>/dev/null)" 'ran x'
same 'it proves that crate' "$(grep -c 'lib middle' "$folder/said")" 1

# A call that is stopped.
repository
begin 60
start=$SECONDS
kill $!
got=0
wait $! || got=$?
same 'the status of a call that was stopped' "$got" 143
same 'it ends soon' "$((SECONDS - start < 30))" 1
same 'what it had begun is kept' "$(cat crates/{low,middle,high}/out/kept && echo all)" all
rm "$folder/slow"
same 'the next call goes on' "$(bin/quota_cli x 2>/dev/null)" 'ran x'

# What is edited while it is proved.
repository
begin 1
touch crates/low/src/lib.rt
wait $!
rm "$folder/slow"
: >"$folder/said"
same 'a call behind an edit of a crate that was at hand' "$(bin/quota_cli x 2>/dev/null)" 'ran x'
same 'it proves that one and those above it' "$(tr '\n' ' ' <"$folder/said")" 'lib low lib over run quota_program '

# Each program has a script of its own, which builds no other.
while read -r crate name _; do
    repository
    same "a call of $name" "$("bin/$name" a 'b c' 2>"$folder/err")" 'ran a b c'
    same "what it proved" "$(sort "$folder/said")" "$libraries
run $crate"
    same "what it says first" "$(head -n 1 "$folder/err" | grep -c "^$name: building: 5 of 5 crates")" 1
done <<<"$list"

# Programs that are named, one and two, of which nothing is proved twice.
repository
bin/build further 2>"$folder/err"
same 'a program that is named' "$(sort "$folder/said" | tr '\n' ' ')" \
    'lib high lib low lib middle lib other lib over run further_program '
same 'what is said of it first' "$(head -n 1 "$folder/err" | grep -c '^further: building: 6 of 6 crates')" 1
same 'it is built' "$(bin/build --look further && crates/further_program/out/further_program x)" 'ran x'
same 'another one is not' "$(bin/build --look || echo stale)" stale
: >"$folder/said"
bin/build further quota_cli 2>"$folder/err"
same 'of two programs the one that is not built' "$(tr '\n' ' ' <"$folder/said")" 'run quota_program '
touch crates/low/src/lib.rt
: >"$folder/said"
bin/build further quota_cli 2>"$folder/err"
same 'both behind an edit' "$(sort "$folder/said" | tr '\n' ' ')" 'lib low lib over run further_program run quota_program '
same 'what is said of both' "$(head -n 1 "$folder/err" | grep -c '^further quota_cli: building: 4 of 7 crates')" 1
got=0
bin/build none 2>"$folder/err" || got=$?
same 'a program that is not there' "$got $(cat "$folder/err")" '2 build: programs.txt has no program none'

# Two calls at once.
repository
bin/quota_cli one >one.txt 2>/dev/null &
bin/quota_cli two >two.txt 2>/dev/null
wait
same 'both calls' "$(cat one.txt two.txt)" 'ran one
ran two'
same 'one of them proved' "$(sort "$folder/said")" "$asked"

# Memory for one proof alone.
repository
touch "$folder"/begun.{low,middle,high}
same 'a call with little memory' "$(MEMORY_MB=1100 bin/quota_cli x 2>/dev/null)" 'ran x'
same 'it proved all' "$(sort "$folder/said")" "$asked"

# In a terminal it says what it does, all the time.
if command -v script >/dev/null; then
    repository
    echo 3 >"$folder/slow"
    script -qec bin/build "$folder/terminal" >/dev/null </dev/null
    same 'what is said in a terminal' "$(tr '\r' '\n' <"$folder/terminal" | grep -o 'of 5 crates are proved; at hand: high low middle (0 min)' |
        sort -u)" 'of 5 crates are proved; at hand: high low middle (0 min)'
else
    echo 'first_run: script is not there: what is said in a terminal is not looked at' >&2
fi

# With no make one call of rt does all.
repository
mkdir "$folder/few"
for it in bash env awk cat chmod dirname find flock grep mkdir mktemp mv nproc rm sed sleep sort tail touch tr wc; do
    ln -s "$(type -P "$it")" "$folder/few/$it"
done
ln -s "$folder/tools/rt" "$folder/few/rt"
same 'a call where make is not there' "$(PATH=$folder/few bin/quota_cli x 2>"$folder/err")" 'ran x'
same 'it asks rt once' "$(cat "$folder/said")" 'run quota_program'
same 'and says so' "$(grep -c 'make is not there' "$folder/err")" 1
repository
: >"$folder/said"
PATH=$folder/few bin/build further quota_cli 2>"$folder/err"
same 'two programs where make is not there' "$(cat "$folder/said")" 'run further_program
run quota_program'

if [ "$failed" = 0 ]; then echo 'first_run: crates are proved side by side, each once'; fi
exit $((failed > 0))
