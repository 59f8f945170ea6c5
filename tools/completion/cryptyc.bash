# Completion of cryptyc for bash. Read it from ~/.bashrc, or put it into share/bash-completion/completions/cryptyc.

_cryptyc() {
    local now=${COMP_WORDS[COMP_CWORD]} before="" words="" word
    [ "$COMP_CWORD" -eq 0 ] || before=${COMP_WORDS[COMP_CWORD - 1]}
    COMPREPLY=()
    if [ "$before" = "<" ]; then
        while IFS= read -r word; do
            if [ -d "$word" ]; then
                COMPREPLY+=("$word/")
            elif [[ $word == *.spi || $word == *.nar || $word == *.bench ]]; then
                COMPREPLY+=("$word")
            fi
        done < <(compgen -f -- "$now")
        compopt -o filenames -o nospace 2>/dev/null
        return
    fi
    if [ "$COMP_CWORD" -eq 1 ]; then
        words="check explain derive verify replay trace play knows bench print upgrade narrate load"
    elif [ "${COMP_WORDS[1]}" = play ]; then
        case "$before" in
            --steps) ;;
            --player) words="0 1 2" ;;
            *) words="--steps --player" ;;
        esac
    fi
    while IFS= read -r word; do COMPREPLY+=("$word"); done < <(compgen -W "$words" -- "$now")
}
complete -F _cryptyc cryptyc
