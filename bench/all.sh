#!/usr/bin/env bash
# Runs the benchmarks of the program one after another, and writes docs/MEASURED.md anew: the day, the machine and the
# sources, and of each script, or each part of one, what it measures, what it printed and how long it took. Run it with
# nothing else to do on the machine. Where a script fails, the page says so, and this ends with status 1.
# (What proving costs is bench/gate.sh, which is not among them.)
# usage: bench/all.sh
# shellcheck disable=SC2016
set -euo pipefail
shopt -s inherit_errexit
cd "$(dirname "${BASH_SOURCE[0]}")/.."
page=docs/MEASURED.md
mapfile -t scripts < <(grep -l '^\. .*/measure\.sh"$' bench/*.sh)
work=$(mktemp -d)
trap 'rm -rf "$work"' EXIT

# first_of FILE PATTERN: what stands behind the colon in the first line of a file that matches.
first_of() { sed -n "/$2/{s/^[^:]*:[[:space:]]*//p;q}" "$1"; }

# machine: on what it was measured, a line each.
machine() {
    local disk from
    from=$(findmnt -n -o SOURCE -T "$work" || true)
    disk=$(lsblk -d -n -o MODEL "$from" 2>/dev/null | sed 's/[[:space:]]*$//' || true)
    echo "- Processor: $(first_of /proc/cpuinfo '^model name'), $(nproc) cores that may be used"
    echo "- Memory: $(awk '/^MemTotal/ { printf "%.1f GB", $2 / 1e6 }' /proc/meminfo)"
    echo "- Disk of the files: $(findmnt -n -o FSTYPE -T "$work" || echo 'an unknown file system') on ${from:-an unknown device}${disk:+ ($disk)}"
    echo "- System: $(uname -sr)"
}

# sources: the commit, and whether files differ from it.
sources() {
    local commit
    commit=$(git rev-parse --short=12 HEAD 2>/dev/null) || commit='of no repository'
    if [ -n "$(git status --porcelain 2>/dev/null)" ]; then commit+=', with changes'; fi
    echo "- Sources: $commit, of $(git log -1 --format=%cs 2>/dev/null || true)"
}

# runs SCRIPT: how it is run, a line each: by its name alone, or, where it has parts, with the name of each.
runs() {
    local parts it
    parts=$(sed -n 's/^part_\([a-z]*\)() {$/ \1/p' "$1")
    while IFS= read -r it; do echo "$1$it"; done <<<"$parts"
}

# about SCRIPT [PART]: the comment with which it begins, or that of a part.
about() {
    awk -v head="${2:+part_$2() {}" '
        NR == 1 { next }
        sub(/^# ?/, "") { text = text $0 "\n"; next }
        head == "" || $0 == head { printf "%s", text; exit }
        { text = "" }' "$1"
}

programs=$(tools/programs)
mapfile -t names < <(cut -d ' ' -f 2 <<<"$programs")
bin/build "${names[@]}"
{
    echo '# What was measured'
    echo
    echo 'Written by `bench/all.sh`, which runs the scripts below one after another; a number changes here by running it'
    echo 'again. Times are those of this one machine and day, so what can be compared is the ratio of two that ran in turn.'
    echo
    echo "- Day: $(date -u '+%Y-%m-%d, %H:%M UTC')"
    machine
    sources
} >"$work/page"
failed=0
mapfile -t all < <(for script in "${scripts[@]}"; do runs "$script"; done)
for run in "${all[@]}"; do
    read -r script part <<<"$run"
    echo "bench/all.sh: $run" >&2
    start=$SECONDS
    status=0
    "$script" ${part:+"$part"} >"$work/said" 2>"$work/faults" || status=$?
    {
        printf '\n## `%s`\n\n' "$run"
        about "$script" "$part"
        printf '\n```\n'
        cat "$work/said"
        printf '```\n\n'
        if [ "$status" = 0 ]; then
            echo "It took $((SECONDS - start)) s."
        else
            echo "It failed with status $status after $((SECONDS - start)) s."
        fi
    } >>"$work/page"
    if [ "$status" != 0 ]; then
        failed=1
        cat "$work/faults" >&2
        echo "bench/all.sh: $run failed with status $status" >&2
    fi
done
cp "$work/page" "$page"
echo "bench/all.sh: $page is written" >&2
exit "$failed"
