#!/usr/bin/env bash
# Runs the built program over real files and streams, part by part, each in a folder of its own. Ends with status 1 where
# an answer is not the wanted one, and stops, naming the file and the line, where a command of the test itself fails.
# Globs that match nothing are dropped.
# usage: tests/real_files.sh [PART]..   the files of tests/real_files without `.sh`, in this order; all where none is named
set -Eeuo pipefail
shopt -s inherit_errexit nullglob
trap 'echo "${BASH_SOURCE[0]##*/}: line $LINENO failed: $BASH_COMMAND" >&2' ERR
top=$(cd "$(dirname "${BASH_SOURCE[0]}")/.." && pwd)
run=$top/bin/quota_cli
runner=("$run")
folder=$(mktemp -d)
trap 'rm -rf "$folder"' EXIT
cd "$folder"
passed=0
failed=0

# lines TEXT: the text with its last newline, or nothing at all.
lines() {
    if [ -n "$1" ]; then printf '%s\n' "$1"; fi
}

# expect WHAT STATUS OUT ERR WORD..: runs the words, for `patience` seconds at most, and compares the status and what was
# written.
expect() {
    local what=$1 status=$2 out=$3 err=$4 got=0
    shift 4
    timeout "$patience" "${runner[@]}" "$@" >out.txt 2>err.txt || got=$?
    lines "$out" >want_out.txt
    lines "$err" >want_err.txt
    if [ "$got" = "$status" ] && cmp -s out.txt want_out.txt && cmp -s err.txt want_err.txt; then
        passed=$((passed + 1))
    else
        failed=$((failed + 1))
        echo "FAILED: $what: status $got, wanted $status" >&2
        diff want_out.txt out.txt >&2 || true
        diff want_err.txt err.txt >&2 || true
    fi
}

# same WHAT GOT WANTED: compares two texts.
same() {
    if [ "$2" = "$3" ]; then
        passed=$((passed + 1))
    else
        failed=$((failed + 1))
        echo "FAILED: $1: got «$2», wanted «$3»" >&2
    fi
}

# differing OLD NEW: the numbers of the blocks of 1,024 bytes in which two files differ, sorted as words. What is past
# the end of one counts as 0.
differing() {
    local size
    size=$({ stat -c %s "$1" "$2"; } | sort -n | tail -n 1)
    cp "$1" one.whole
    cp "$2" other.whole
    truncate -s $(((size + 1023) / 1024 * 1024)) one.whole other.whole
    { cmp -l one.whole other.whole || true; } | awk '{ print int(($1 - 1) / 1024) }' | uniq | sort
    rm one.whole other.whole
}

# gate FILE: byte 0 of its undo file.
gate() { od -An -tu1 -N1 "$1.undo" | tr -d ' '; }

# open_gate FILE: leaves a file as a change that was stopped leaves it, whose first 600 bytes are overwritten and which has
# grown by a block, with an open gate.
open_gate() {
    PYTHONPATH=$top/tests python3 -B - "$1" <<'PY'
import sys
from quota_files import BLOCK, undo_file
with open(sys.argv[1], "r+b") as file:
    old = file.read()
    with open(sys.argv[1] + ".undo", "wb") as undo:
        # (the last range saves nothing, so the file ends behind its head)
        undo.write(undo_file(len(old), [(0, old[:600].ljust(600, b"\0")), (len(old), b"")])[:-BLOCK])
    file.seek(0)
    file.write(b"x" * 600)
    file.seek(len(old))
    file.write(b"y" * 1024)
PY
}

head='*** Report for user quotas on q
Block grace time: 7days; Inode grace time: 7days
User                  used       soft       hard  grace    files     soft     hard  grace
-----------------------------------------------------------------------------------------'
seven='#7           --          0          1          2      -        0        0        0      -'

# padded LINE: the line with spaces behind it, of 1,023 bytes, and a newline.
padded() { printf '%-1023s\n' "$1"; }

# times LINE N: the padded line N times.
times() {
    padded "$1" >line.txt
    for ((half = 1; half < $2; half *= 2)); do
        cat line.txt line.txt >twice.txt
        mv twice.txt line.txt
    done
    head -c "$(($2 * 1024))" line.txt
}

# The first call builds the program where it is stale, and shows how.
"$run" repquota -F vfsold -u -v "$top/samples/quota.user" >/dev/null

# What root is never denied is tried as another user, who runs a copy of the built program.
cp "$top/crates/quota_program/out/quota_program" program
somebody=("$folder/program")
if [ "$(id -u)" = 0 ]; then
    chmod 755 . program
    somebody=(setpriv --reuid=65534 --regid=65534 --clear-groups "$folder/program")
fi

# play PART: runs a part in a folder of its own, in which lie the sample and `empty`, an empty file of vfsv1 for users with
# periods of a week.
play() {
    local part=$1
    mkdir "$folder/$part"
    cd "$folder/$part"
    if [ "$(id -u)" = 0 ]; then chmod 755 .; fi
    cp "$top/samples/quota.user" quota.user
    printf '\x11\x1f\xc0\xd9\x01\0\0\0\x80\x3a\x09\0\x80\x3a\x09\0\0\0\0\0\x02\0\0\0\0\0\0\0\0\0\0\0' >empty
    runner=("$run")
    patience=10
    . "$top/tests/real_files/$part.sh"
}

if [ $# = 0 ]; then
    for part in "$top"/tests/real_files/*.sh; do set -- "$@" "$(basename "$part" .sh)"; done
fi
for part; do play "$part"; done

echo "real_files: $passed passed, $failed failed"
exit $((failed > 0))
