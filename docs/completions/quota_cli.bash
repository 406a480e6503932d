# Completion of quota_cli for bash: commands, their options, formats and kinds; names of files that the program takes; and
# names of users, groups or projects out of the file of --names. Its words are those of the manual pages, which tests/install.sh
# compares.
# shellcheck shell=bash

# _quota_cli_files CURRENT: names of files, without those that the program keeps for itself, and without blanks and other
# characters that it takes in none.
_quota_cli_files() {
    local it LC_ALL=C
    compopt -o filenames 2>/dev/null || true
    while IFS= read -r it; do
        if [[ $it == *[!!-~]* || ($it == *.@(undo|und|new) && ! -d ${it/#'~/'/$HOME/}) ]]; then continue; fi
        COMPREPLY+=("$it")
    done < <(compgen -f -- "$1")
}

# _quota_cli_names CURRENT FILE: the names in a file of the form of passwd(5), group(5) or projid(5), as they are typed.
_quota_cli_names() {
    local it
    while IFS= read -r it; do
        if [[ $it == *[!A-Za-z0-9._@-]* ]]; then printf -v it %q "$it"; fi
        COMPREPLY+=("$it")
    done < <(BEGUN=$1 awk -F: 'index($1, ENVIRON["BEGUN"]) == 1 && /^[^#+:-]/ { print $1 }' "${2/#'~/'/$HOME/}" 2>/dev/null)
}

_quota_cli() {
    local command=${COMP_WORDS[1]-} current=${COMP_WORDS[COMP_CWORD]} previous=${COMP_WORDS[COMP_CWORD - 1]} words=''
    local formats='vfsold vfsold32 vfsv0 vfsv1' valued=F one other at names='' operands=0 letters=''
    local commands='repquota setquota edquota quotacheck convertquota rquotad script generate'
    COMPREPLY=()
    # (bash parts words at `=`)
    if [ "$current" = = ]; then
        current=''
    elif [ "$previous" = = ]; then
        previous=${COMP_WORDS[COMP_CWORD - 2]}
    fi
    case $command in
        setquota) valued=Fp ;;
        convertquota) valued=f ;;
    esac
    # What stands before the word at hand: the letters, the file of names, and how many operands.
    for ((at = 2; at < COMP_CWORD; at++)); do
        one=${COMP_WORDS[at]}
        case $one in
            --export) at=$((at + 3)) ;;
            --names | --input | --device | --format | --calls | --port)
                if [ "${COMP_WORDS[at + 1]-}" = = ]; then at=$((at + 1)); fi
                at=$((at + 1))
                if [ "$one" = --names ] && [ "$at" -lt "$COMP_CWORD" ]; then names=${COMP_WORDS[at]}; fi
                ;;
            --names=*) names=${one#*=} ;;
            --*) ;;
            -?*)
                letters+=${one#-}
                if [[ $one =~ ^-[^$valued]*[$valued]$ ]]; then at=$((at + 1)); fi
                ;;
            *) operands=$((operands + 1)) ;;
        esac
    done
    # (flat files of projects are no words of a command)
    if [[ $letters == *P* ]]; then formats='vfsv0 vfsv1'; fi
    if [ "$COMP_CWORD" = 1 ]; then
        words="$commands --help --version"
    elif [[ $previous == -F || $previous == --format ]]; then
        words=$formats
    elif [ "$previous" = -f ]; then
        for one in $formats; do for other in $formats; do words+=" $one,$other"; done; done
    elif [ "$COMP_CWORD" -gt 3 ] && [ "${COMP_WORDS[COMP_CWORD - 2]}" = --export ]; then
        words='user group project'
    elif [[ $current == -* ]]; then
        case $command in
            repquota) words='-u -g -P -v -n -p -F --names' ;;
            setquota) words='-u -g -P -F --names -p -t -T -b --input' ;;
            edquota) words='-u -g -P -F --names --print --apply --input' ;;
            quotacheck) words='-u -g -P -c -F --device --input' ;;
            convertquota) words='-u -g -P -f' ;;
            rquotad) words='--format --calls --port --export' ;;
        esac
        # (which is the only word behind a command)
        if [ "$COMP_CWORD" = 2 ] && [[ " $commands " == *" $command "* ]]; then words+=' --help'; fi
    elif [[ $command == script ]]; then
        return
    fi
    if [ -n "$words" ]; then
        mapfile -t COMPREPLY < <(compgen -W "$words" -- "$current")
        return
    fi
    case $previous in
        --names | --input)
            _quota_cli_files "$current"
            return
            ;;
        --calls | --port | --device) return ;;
        --export)
            # (the path of an export may have blanks)
            compopt -o filenames 2>/dev/null || true
            mapfile -t COMPREPLY < <(compgen -d -- "$current")
            return
            ;;
    esac
    # NAME is the first operand, and numbers are those between it and the file.
    case "$command $letters $operands" in
        setquota\ *b*) _quota_cli_files "$current" ;;
        setquota\ *t*\ [01] | setquota\ *T*\ [12]) ;;
        setquota\ *t*) _quota_cli_files "$current" ;;
        setquota*\ 0 | edquota*\ 0) if [ -n "$names" ]; then _quota_cli_names "$current" "$names"; fi ;;
        setquota*\ 1) if [[ $letters == *p* ]]; then _quota_cli_files "$current"; fi ;;
        setquota*\ [234]) if [[ $letters == *T* ]]; then _quota_cli_files "$current"; fi ;;
        generate*\ [01]) ;;
        *) _quota_cli_files "$current" ;;
    esac
}

complete -F _quota_cli quota_cli
