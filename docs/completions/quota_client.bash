# Completion of quota_client for bash: its modes, and names of folders behind the numbers. Its words are those of the manual
# page, which tests/install.sh compares.
# shellcheck shell=bash

_quota_client() {
    local current=${COMP_WORDS[COMP_CWORD]}
    COMPREPLY=()
    if [ "$COMP_CWORD" = 1 ]; then
        mapfile -t COMPREPLY < <(compgen -W 'quota warn --help --version' -- "$current")
    elif [ "$COMP_CWORD" -gt 4 ]; then
        compopt -o filenames 2>/dev/null || true
        mapfile -t COMPREPLY < <(compgen -d -- "$current")
    fi
}

complete -F _quota_client quota_client
