# What a run that fails leaves beside a file: nothing that it made itself.
# A part of real_files.sh, which has what it calls, and runs it in a folder of its own.

# beside FILE: the names that begin with that of a file.
beside() { printf '%s\n' "$1"*; }

# A file that may not grow over 100 KiB, where a new one needs more.
"$run" generate 1 2000 a >/dev/null
cp a before
got=0
(ulimit -f 100 && trap '' XFSZ && exec "$run" generate 2 20000 a) >/dev/null 2>err.txt || got=$?
same 'a file that cannot be written whole' "$got $(cat err.txt)" '4 quota: store fault'
same 'the new file is taken away' "$(beside a)" a
same 'and the old one stays' "$(cmp a before && echo same)" same

# A new undo file that cannot be written.
cp before r
got=0
(ulimit -f 0 && trap '' XFSZ && exec "$run" setquota 1 9 9 9 9 r) >/dev/null 2>/dev/null || got=$?
same 'an undo file that cannot be written' "$got" 4
same 'the new undo file is taken away' "$(beside r)" r
same 'and the file stays' "$(cmp r before && echo same)" same

# What an earlier run left is told, and stays where the run does not come to it.
# told_of FILE: the status of a change of it that fails, and what is told of what was left beside it.
told_of() {
    local got=0 said
    said=$(ulimit -f 0 && trap '' XFSZ && exec env QUOTA_CLI_REASONS=always "$run" setquota 1 9 9 9 9 "$1" 2>&1) || got=$?
    echo "$got$(sed -n 's/.*;//p' <<<"$said")"
}
told='4 s.new was left by a run that was stopped, and may be deleted'
cp before s
: >s.new
chmod 600 s.new
same 'what was left is told' "$(told_of s)" "$told"
same 'and stays' "$(beside s)" 's
s.new'

# What another account made, which may be anything, is told where that account is the owner of the file alone.
if [ "$(id -u)" = 0 ]; then
    chown 65534 s.new
    same 'what another account made is not told' "$(told_of s)" 4
    chown 65534 s
    same 'what the owner of the file made is told' "$(told_of s)" "$told"
    chown 0 s.new
    same 'so is what the caller made beside a file of another one' "$(told_of s)" "$told"
fi
rm s.new
