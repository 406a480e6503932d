# Completion of rquotad_tcp for bash: the formats, and behind them paths, kinds and files in turn. Its words are those of the
# manual page, which tests/install.sh compares.
# shellcheck shell=bash

_rquotad_tcp() {
    local current=${COMP_WORDS[COMP_CWORD]}
    COMPREPLY=()
    case $COMP_CWORD in
        1)
            mapfile -t COMPREPLY < <(compgen -W '--help --version' -- "$current")
            return
            ;;
        2) return ;;
        3)
            mapfile -t COMPREPLY < <(compgen -W 'any vfsold vfsold32 vfsv0 vfsv1' -- "$current")
            return
            ;;
    esac
    case $(((COMP_CWORD - 4) % 3)) in
        0)
            compopt -o filenames 2>/dev/null || true
            mapfile -t COMPREPLY < <(compgen -d -- "$current")
            ;;
        1) mapfile -t COMPREPLY < <(compgen -W 'user group project' -- "$current") ;;
        2)
            compopt -o filenames 2>/dev/null || true
            mapfile -t COMPREPLY < <(compgen -f -- "$current")
            ;;
    esac
}

complete -F _rquotad_tcp rquotad_tcp
