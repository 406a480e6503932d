# How far a run is, which a terminal is told where that takes more than two seconds, in a line that is erased.
# A part of real_files.sh, which has what it calls, and runs it in a folder of its own.

# slowly N: N lines of a listing of inodes, one each half second.
slowly() {
    local number
    for ((number = 1; number <= $1; number++)); do
        echo "$number 100 1 $number 8"
        sleep 0.5
    done
}

# tells FILE: how many lines of what a terminal got tell how much was read.
tells() { grep -caE 'quota_cli: read [1-9][0-9]* bytes of the standard input' "$1" || true; }

# screen FILE: what stands on a terminal that got this: what was erased does not.
screen() { sed -E $'s/.*\r\e\\[K//' "$1"; }

if command -v python3 >/dev/null; then
    terminal=$top/tests/real_files/terminal.py

    mkfifo slow
    slowly 8 >slow &
    got=0
    "$terminal" "$run" quotacheck -c made <slow >out.txt 2>said || got=$?
    wait
    same 'a slow listing at a terminal' "$got $(cat out.txt)" '0 '
    same 'how much was read is told there' "$(tells said)" 1
    same 'and nothing of that is left' "$(screen said)" ''

    # An error line takes its place.
    { slowly 7 && echo bad; } >slow &
    got=0
    "$terminal" "$run" quotacheck -c made <slow >out.txt 2>said || got=$?
    wait
    same 'a bad line behind slow ones' "$got $(tells said) $(screen said | head -n 1)" '1 1 quota: input: bad line 8'

    # Elsewhere nothing is told.
    slowly 6 >slow &
    "$run" quotacheck -c other <slow >out.txt 2>said
    wait
    same 'a slow listing without a terminal' "$(cat out.txt said)" ''
else
    echo 'real_files: python3 is not there: what a terminal is told is not shown' >&2
fi
