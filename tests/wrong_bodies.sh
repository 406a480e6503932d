#!/usr/bin/env bash
# Tries every wrong body of the crates: those that the gate tries (must-fail/), and the further ones (wrong-bodies/), which
# have the same form. The prover must refuse each. They are tried in a copy of the sources, which begins with what
# `rt check` kept on this machine. It prints of each `refused`, or what rt says, and ends with status 1 where one is not.
# usage: tests/wrong_bodies.sh [CRATE..]   those of these crates, or of all
#        tests/wrong_bodies.sh --look      tries none, and shows those that cannot be applied to the sources as they are
set -Eeuo pipefail
shopt -s nullglob
trap 'echo "wrong_bodies: line $LINENO failed: $BASH_COMMAND" >&2' ERR
top=$(cd "$(dirname "${BASH_SOURCE[0]}")/.." && pwd)
cd "$top"

if [ "${1-}" = --look ]; then
    exec python3 - <<'PY'
import collections, glob, os, sys


def why_not(edit):
    """Why an edit cannot be applied, or nothing: each text behind `old: ` stands once in its file, as those before it left the file."""
    texts, path, old = {}, "", ""
    for line in open(edit, encoding="utf-8").read().split("\n"):
        word, _, rest = line.partition(" ")
        if word == "file:":
            path = os.path.join(os.path.dirname(edit), "..", rest.strip())
            if not os.path.isfile(path):
                return f"there is no {rest}"
            texts.setdefault(path, open(path, encoding="utf-8").read())
        elif word == "old:":
            old = rest
            if texts[path].count(old) != 1:
                return f"this stands there {texts[path].count(old)} times, and not once: {old}"
        elif word == "new:":
            texts[path] = texts[path].replace(old, rest)
    return None


edits = sorted(glob.glob("crates/*/must-fail/*.edit") + glob.glob("crates/*/wrong-bodies/*.edit"))
wrong = [f"{it}: {why}" for it in edits if (why := why_not(it))]
names = collections.Counter((it.split("/")[1], os.path.basename(it)) for it in edits)
wrong += [f"{crate}/{name}: it stands in both folders" for (crate, name), many in names.items() if many > 1]
print(*wrong, f"wrong_bodies: {len(edits) - len(wrong)} of {len(edits)} can be applied", sep="\n")
sys.exit(bool(wrong))
PY
fi

folder=$(mktemp -d)
trap 'rm -rf "$folder"' EXIT
cp crates.txt HANDLES "$folder/"
for crate in crates/*/; do
    mkdir -p "$folder/${crate}must-fail"
    for part in src specs proofs; do
        if [ -d "$crate$part" ]; then cp -R "$crate$part" "$folder/$crate"; fi
    done
    for edit in "$crate"must-fail/*.edit "$crate"wrong-bodies/*.edit; do cp "$edit" "$folder/${crate}must-fail/"; done
done
names=("$@")
if [ $# = 0 ]; then
    for crate in crates/*/; do names+=("$(basename "$crate")"); done
fi
cd "$folder"
failed=0
number=0
for crate in "${names[@]}"; do
    edits=("crates/$crate/must-fail/"*.edit)
    if [ "${#edits[@]}" = 0 ]; then continue; fi
    number=$((number + ${#edits[@]}))
    if ! rt must-fail "$crate" >said 2>&1; then
        failed=1
        grep -v '^rt: must-fail' said >&2 || true
    fi
    sed -nE 's/^rt: must-fail (.*)\.edit: (refused), as it must be.*/\1: \2/p; t; s/^rt: must-fail (.*)\.edit: /\1: /p' said
done
if [ "$failed" = 0 ]; then echo "wrong_bodies: all $number are refused"; fi
exit "$failed"
