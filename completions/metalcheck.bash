# Completion of metalcheck's words for bash. Source this file, or copy it to ~/.local/share/bash-completion/completions/metalcheck.

# The options that may still stand before the first file, one a line; nothing where a file, -- or --generate has come.
_metalcheck_options() {
    local seen=" " word skipped=0
    for word in "$@"; do
        if [ "$skipped" = 1 ]; then
            # `=` may come as a word of its own
            [ "$word" = = ] || skipped=0
            continue
        fi
        case $word in
            -- | --generate) return ;;
            --depth | --format) seen+="$word " skipped=1 ;;
            --depth=* | --format=* | --stats) seen+="${word%%=*} " ;;
            *) return ;;
        esac
    done
    for word in --depth --format --stats; do
        [[ $seen == *" $word "* ]] || echo "$word"
    done
    [ "$seen" != " " ] || echo --generate
    echo --
}

# The folders, checkers and C files whose name begins so, one a line; any files where there is none.
_metalcheck_files() {
    local name found=1
    while IFS= read -r name; do
        case $name in
            *.metal | *.c | *.i) ;;
            *) [ -d "$name" ] || continue ;;
        esac
        echo "$name"
        found=0
    done < <(compgen -f -- "$1")
    [ "$found" = 0 ] || compgen -f -- "$1"
}

_metalcheck() {
    local word=${COMP_WORDS[COMP_CWORD]} last=$((COMP_CWORD - 1)) words
    [ "$word" != = ] || word='' last=$COMP_CWORD
    [ "${COMP_WORDS[last]}" != = ] || last=$((last - 1))
    COMPREPLY=()
    case ${COMP_WORDS[last]} in
        --depth) words='0 1 2 3 4 5 6 7 8' ;;
        --format) words='table json' ;;
        --generate) return ;;
        *) words=$(_metalcheck_options "${COMP_WORDS[@]:1:COMP_CWORD-1}") ;;
    esac
    if [[ $word == -* || ${COMP_WORDS[last]} == --depth || ${COMP_WORDS[last]} == --format ]]; then
        mapfile -t COMPREPLY < <(compgen -W "$words" -- "$word")
    elif [ "${COMP_WORDS[1]}" != --generate ]; then
        compopt -o filenames 2>/dev/null
        mapfile -t COMPREPLY < <(_metalcheck_files "$word")
    fi
}

complete -F _metalcheck metalcheck
