# Completes nixswitch in bash: its commands, and the systems of the root that stands before them. Nothing of the line is
# evaluated.
# shellcheck shell=bash

# Sets `words` to the words of the line up to the cursor, without their quotes and backslashes; the last is the one that is completed.
_nixswitch_words() {
    local line=${COMP_LINE:0:COMP_POINT} at byte quote='' word='' begun=''
    words=()
    for ((at = 0; at < ${#line}; at++)); do
        byte=${line:at:1}
        if [[ $byte == \\ && $quote != "'" ]]; then
            at=$((at + 1))
            word+=${line:at:1}
            begun=yes
        elif [[ -n $quote ]]; then
            if [[ $byte == "$quote" ]]; then quote=''; else word+=$byte; fi
        elif [[ $byte == [\"\'] ]]; then
            quote=$byte
            begun=yes
        elif [[ $byte == [[:blank:]] ]]; then
            [[ -z $begun ]] || words+=("$word")
            word=''
            begun=''
        else
            [[ -n $begun || $byte != '~' || ${line:at+1:1} != / ]] || byte=$HOME
            word+=$byte
            begun=yes
        fi
    done
    words+=("$word")
}

_nixswitch() {
    local words word slash='' version system
    _nixswitch_words
    word=${words[${#words[@]} - 1]}
    COMPREPLY=()
    case ${#words[@]} in
    2)
        if [[ $word == -* ]]; then
            mapfile -t COMPREPLY < <(compgen -W '--help --version' -- "$word")
        else
            compopt -o filenames
            mapfile -t COMPREPLY < <(compgen -d -- "${COMP_WORDS[COMP_CWORD]}")
        fi
        ;;
    3) mapfile -t COMPREPLY < <(compgen -W 'switch test boot dry-activate rollback start-up generations collect rehearse rehearse-jobs' -- "$word") ;;
    4)
        [[ ${words[2]} == @(switch|test|boot|dry-activate) ]] || return 0
        [[ $word != /* ]] || slash=/
        for version in "${words[1]}"/tree/nix/store/*/nixos-version; do
            [[ -e $version ]] || continue
            system=${version%/nixos-version}
            system=${slash}nix/store/${system##*/}
            # Readline replaces what stands after the last of its own word breaks.
            [[ $system != "$word"* ]] || COMPREPLY+=("${system#"${word%"${word##*[=:]}"}"}")
        done
        ;;
    esac
}
complete -F _nixswitch nixswitch
complete -o default -W '--here --current --machine --units --no-secrets --sysroot --help' nixswitch-import
complete -o default -W '--help' nixswitch-export
