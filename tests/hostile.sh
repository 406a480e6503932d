#!/usr/bin/env bash
# Tries the built programs on damaged files, on hostile datagrams and on hostile streams, many of each, which one seed makes, so
# that each case can be made again by its number. It is no part of the gate.
# usage: [SEED=NUMBER] [JOBS=NUMBER] tests/hostile.sh [files|datagrams|streams [COUNT [FIRST]]]
#   With no words: 200,000 files, then 1,000,000 datagrams, and then 1,000,000 streams. FIRST is the number of the first case, 0
#   without it.
#   SEED: 1 without it. JOBS: how many processes there are at a time, as many as processors without it.
# It prints what the cases came to, the worst memory and time, and how long it took, and ends with status 1 where a case failed.
# What failed is kept in a folder that it names. Each run is traced for what it takes, which the system has to allow (ptrace(2)).
#
# A file is a sound one of vfsold, vfsold32, vfsv0 or vfsv1, of users, groups or, but for flat ones, projects, with one to four
# changes: of a word, a reference, a link of a list, a count, an identifier, a value or the header, two references or
# identifiers exchanged, or another length. Its sound ones are 96, of up to some tens of identifiers, in several data blocks and
# tree blocks, some with free blocks. The file is reported (`repquota -v -n -p`), edited (`setquota`: new limits of an
# identifier, known or new, or none) and reported again, as a script of three lines, or, about each eighth one, by three runs.
# About each sixth one has an undo file beside it, with an open gate, which saves what the sound file has in the blocks that are
# others now; most of these are changed too, in their gate, head, ranges or length. Then the file is what a recovery by that
# makes of it, from the first run on (`edit_journal/specs/Undo.antt`).
# - No run is ended by a signal or takes ten seconds. None takes more memory than such runs take at most on the sound file from
#   which it was made, but for a page of the heap (4 KiB), the windows through which a file is read (eight of 64 KiB), and the
#   place at which the system begins a stack (8 KiB). That is the memory that the program asks for; which pages of its file and
#   of the C library are in memory besides is left to the system.
# - A reader of its own, which follows docs/FORMATS.md (tests/quota_files.py), says which file is sound, and what it stands
#   for. A sound one is accepted. Any other one is refused, with the status and the cause that the header asks for, or with a
#   damage that holds of the file, by its kind, block and identifier. Then `setquota` alone refuses it by the same line; the file
#   is as it was, byte for byte, and none is beside it.
# - Of an accepted file the first report is, byte for byte, the text of what the reader finds. The second one is the text of that
#   with the edit applied: the new limits, the timers that start or stop, a record that is gone where it limits and counts
#   nothing, and all else as it was. The file is sound then, and stands for just that, the timers that no report shows
#   among it. Where the edit has no room, the line says which value, and the file is as it was.
#
# A datagram is a call with one to four changes: of a word or a byte, with bytes cut off, added, put in or taken out, or it is
# any bytes; each 25th is a call as it was. Each `rquotad` takes up to 20,000 of them, of files of one format and all its kinds,
# and ends with status 0 after just so many. The replies are, byte for byte and in their order, those that
# docs/quota_cli-rquotad.8 and docs/FORMATS.md ask for (the seconds that are left are those of the moments at which it was sent
# and received), and no further ones. A server takes nothing more of the heap than one that meets sound calls alone, nor of the
# stack but for where it begins.
#
# A stream is one to thirty calls as records of one or more fragments, half of them changed as a datagram is, and the stream with
# up to three changes: of a number, mostly that of a head, with bytes put in, taken out or cut off, with up to 2,000 heads alone
# put in, or with a record of 4,096 bytes or 4,097 in front; each 25th has sound calls alone, and each 100,000th a call that ends
# with the last byte that is read of a connection, or one behind it. Each is sent at once or in pieces. Each `rquotad_tcp` takes
# up to 5,000 of them, one connection for each, and ends with status 0 after just so many. The replies on each are, byte for byte
# and in their order, those to its whole records up to the first that is cut off or too long, and no further ones. Where bytes
# are left unread the system resets the connection as it is closed, and what it had not sent by then may be lacking. About one
# client in 50 resets its connection and reads none. What a server takes is judged as it is for datagrams.
set -euo pipefail
shopt -s inherit_errexit
top=$(cd "$(dirname "${BASH_SOURCE[0]}")/.." && pwd)
what=${1-}
case $what in
'' | files | datagrams | streams) ;;
*)
    sed -n '/^# usage/,/^# What/{s/^# //;p}' "${BASH_SOURCE[0]}" >&2
    exit 2
    ;;
esac
case $what in streams) ;; *) "$top/bin/quota_cli" --version ;; esac
case $what in '' | streams) "$top/bin/rquotad_tcp" --version ;; esac
room=/dev/shm
if ! { [ -d "$room" ] && [ -w "$room" ]; }; then room=${TMPDIR:-/tmp}; fi
work=$(mktemp -d -p "$room")
trap 'rm -rf "$work"' EXIT
kept=$(mktemp -d)

# try WHAT PROGRAM COUNT FIRST: tries so many cases from that one on.
try() {
    local program=$top/crates/$2/out/$2
    echo "$1:"
    python3 -B "$top/tests/hostile_$1.py" "$program" "${SEED:-1}" "$4" "$3" "${JOBS:-$(nproc)}" "$work" "$kept"
}

status=0
case $what in '' | files) try files quota_program "${2:-200000}" "${3:-0}" || status=1 ;; esac
case $what in '' | datagrams) try datagrams quota_program "${2:-1000000}" "${3:-0}" || status=1 ;; esac
case $what in '' | streams) try streams rquotad_tcp "${2:-1000000}" "${3:-0}" || status=1 ;; esac
if ! rmdir "$kept" 2>/dev/null; then echo "what failed is in $kept" >&2; fi
exit "$status"
