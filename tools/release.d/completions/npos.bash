# completion of npos for bash
_npos() {
    local word=${COMP_WORDS[COMP_CWORD]} before=${COMP_WORDS[COMP_CWORD - 1]}
    local words=
    if [ "$COMP_CWORD" -eq 1 ]; then
        words='replay check mine pack show demo checkpoint resume pools'
    elif [ "$before" = --miner ]; then
        words='@MINERS@'
    elif [ "${COMP_WORDS[1]}" = mine ]; then
        words='--miner --rounds'
    elif [ "${COMP_WORDS[1]}" = demo ]; then
        words='--seed --voters --seats'
    fi
    # shellcheck disable=SC2207  # words without blanks
    COMPREPLY=($(compgen -W "$words" -- "$word"))
}
complete -F _npos npos
