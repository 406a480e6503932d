# What a visitor is shown: each step of it looks itself whether it did what its line says.
# A part of real_files.sh, which has what it calls, and runs it in a folder of its own.

if command -v python3 >/dev/null && [ "$(uname -m)" = x86_64 ]; then
    got=0
    "$top/bin/demo" >shown.txt 2>said.txt || got=$?
    same 'the demo' "$got $(tail -n 1 shown.txt | cut -d , -f 1) $(tail -n 1 said.txt)" \
        '0 demo: each step did what its line says '
    got=0
    "$top/bin/demo" --all >shown.txt 2>said.txt || got=$?
    same 'the demo of an unknown option' "$got $(cat shown.txt said.txt)" '2 demo: usage: bin/demo [--installed]'
else
    echo 'real_files: python3 is not there, or this is not x86-64: the demo is not run' >&2
fi
