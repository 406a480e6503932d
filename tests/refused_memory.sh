#!/usr/bin/env bash
# Runs the built program over real files, and refuses it one allocation a run: in turn the first one, the second one, and so on
# up to the last one of each command. It takes some minutes, and is no part of the gate.
# usage: tests/refused_memory.sh
# Each run ends as it does with all memory, in each byte that it writes; or with status 5 and `quota: want of memory`; or, where
# it was an adapter over the system that was refused memory, with status 4 and the line of its fault. Then its output is a
# first part of the whole one, no call was answered, and each file is as it was or as the whole run leaves it, once a
# command has opened it. Nothing ends by a signal or takes 20 seconds. What does not is told, and ends this with status 1.
set -euo pipefail
shopt -s inherit_errexit
top=$(cd "$(dirname "${BASH_SOURCE[0]}")/.." && pwd)
"$top/bin/quota_cli" --version
folder=$(mktemp -d)
trap 'rm -rf "$folder"' EXIT
mkdir "$folder/files"
"${CC:-cc}" -O1 -shared -fPIC -o "$folder/refusing.so" "$top/tests/refused_memory.c"
cd "$folder/files"
python3 -B "$top/tests/refused_memory.py" "$top/crates/quota_program/out/quota_program" "$folder/refusing.so"
