# Completions of ksmbook, its shell and its measurement for bash.

_ksmbook() {
    local word=${COMP_WORDS[COMP_CWORD]} before=${COMP_WORDS[COMP_CWORD-1]} options option given
    COMPREPLY=()
    # behind a redirection stands a file
    if [[ $word =~ ^[\<\>]+$ || $before =~ ^[0-9\&]*[\<\>]+$ ]]; then
        compopt -o filenames 2>/dev/null
        mapfile -t COMPREPLY < <(compgen -f -- "${word##*[<>]}")
        return
    fi
    if [[ $word == "=" || $before == "=" ]]; then
        return
    fi
    case $before in
        --nodes) mapfile -t COMPREPLY < <(compgen -W "1 2 3 4" -- "$word"); return ;;
        --passes) mapfile -t COMPREPLY < <(compgen -W "$(seq 16)" -- "$word"); return ;;
        --frames | --tries | --last-generation) return ;;
    esac
    # each option is given once
    for option in --nodes --frames --passes --tries --last-generation; do
        given=" ${COMP_WORDS[*]} "
        [[ $given == *" $option "* || $given == *" $option="* ]] || options+="$option "
    done
    mapfile -t COMPREPLY < <(compgen -W "$options --help --version" -- "$word")
}

complete -F _ksmbook ksmbook

# The shell and the measurement say their own options. What is no option is a file to the shell, and a process to the
# measurement.
_ksmbook_client() {
    local word=${COMP_WORDS[COMP_CWORD]} before=${COMP_WORDS[COMP_CWORD-1]}
    COMPREPLY=()
    if [[ $word == -* ]]; then
        mapfile -t COMPREPLY < <(compgen -W "$("$1" --help 2>/dev/null | grep -oE -- '--[a-z-]+' | sort -u)" -- "$word")
    elif [[ $1 == *measure && $before != --html && ! $before =~ [\<\>]$ ]]; then
        mapfile -t COMPREPLY < <(compgen -W "$(ps -eo pid= 2>/dev/null)" -- "$word")
    else
        compopt -o filenames 2>/dev/null
        mapfile -t COMPREPLY < <(compgen -f -- "$word")
    fi
}

complete -F _ksmbook_client ksmbook-shell ksmbook-measure
