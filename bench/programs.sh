#!/usr/bin/env bash
# Measures, of each program of programs.txt, its size, as it is built and without symbols, and how long a start takes, in which
# it says its version: the first one, of whose file nothing is in memory, and later ones, beside those of `true`. The median of
# 21 of each.
. "$(dirname "${BASH_SOURCE[0]}")/measure.sh"

# starts FILE WORD..: the milliseconds of a first start and of a later one.
starts() {
    python3 - "$@" <<'PY'
import os, statistics, sys, time


def start(words, is_first):
    """The milliseconds of one start; of a first one what the system keeps of the file is forgotten before."""
    if is_first:
        file = os.open(words[0], os.O_RDONLY)
        os.fsync(file)
        os.posix_fadvise(file, 0, 0, os.POSIX_FADV_DONTNEED)
        os.close(file)
    silent = [(os.POSIX_SPAWN_OPEN, 1, "/dev/null", os.O_WRONLY, 0)]
    begun = time.perf_counter()
    _, status = os.waitpid(os.posix_spawn(words[0], words, {}, file_actions=silent), 0)
    if status != 0:
        sys.exit("this was timed, and failed: " + " ".join(words))
    return (time.perf_counter() - begun) * 1000


print(*(f"{statistics.median(start(sys.argv[1:], it) for _ in range(21)):.1f}" for it in (True, False)))
PY
}

list=$("$top/tools/programs")
while read -r crate name _; do
    cp "$top/crates/$crate/out/$crate" "$name"
    size=$(stat -c %s "$name")
    stripped='strip is not there'
    if command -v strip >/dev/null; then
        strip --strip-unneeded -o stripped "$name"
        stripped="$(stat -c %s stripped) without symbols"
    fi
    read -r first later < <(starts "$folder/$name" --version)
    echo "$name: $size bytes, $stripped; a first start $first ms, a later one $later ms"
done <<<"$list"
cp "$(type -P true)" true
read -r first later < <(starts "$folder/true")
echo "true: a first start $first ms, a later one $later ms"
