# Completion of the words of mathset for bash. ./install puts it where bash-completion finds it; `source` reads it at once.
#
# shellcheck shell=bash

# _mathset_files PATTERN: files whose names match, and folders; all files where none matches.
_mathset_files() {
    mapfile -t COMPREPLY < <(compgen -f -X "!$1" -- "$current")
    [ ${#COMPREPLY[@]} -gt 0 ] || { mapfile -t COMPREPLY < <(compgen -f -- "$current"); return; }
    mapfile -t -O ${#COMPREPLY[@]} COMPREPLY < <(compgen -d -- "$current")
}

_mathset() {
    local current=${COMP_WORDS[COMP_CWORD]} plain=() index word
    COMPREPLY=()
    # The words before this one, without the option. Bash takes --line=N for three words.
    for ((index = 1; index < COMP_CWORD; index++)); do
        word=${COMP_WORDS[index]}
        case $word in
            --line)
                index=$((index + 1))
                [ "${COMP_WORDS[index]}" != = ] || index=$((index + 1))
                # The width of a line is a number, which has no completion.
                [ "$index" -lt "$COMP_CWORD" ] || return 0
                ;;
            *) plain+=("$word") ;;
        esac
    done
    case ${#plain[@]}:${plain[0]-} in
        0:)
            case $current in
                -*) mapfile -t COMPREPLY < <(compgen -W '--line' -- "$current") ;;
                *) mapfile -t COMPREPLY < <(compgen -W 'set places read pick join gen' -- "$current") ;;
            esac
            ;;
        1:set | 1:places | 1:read | 1:pick | 1:join) _mathset_files '*.fonts' ;;
        2:set | 2:places) _mathset_files '*.tex' ;;
        2:read | 2:pick | *:join) _mathset_files '*.dvi' ;;
    esac
}

complete -o filenames -F _mathset mathset
