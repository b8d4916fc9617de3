# Completion of panjerov for bash. What it offers it reads from `panjerov help`.

# The words of a usage that an option takes, as `--to tagged|aiger` has them.
_panjerov_values() {
    sed -n "s/.*$1 \([a-z]*|[a-z|]*\).*/\1/p" | head -n 1 | tr '|' ' '
}

_panjerov() {
    local word=$2 before=$3 program=${COMP_WORDS[0]} offered
    if ((COMP_CWORD == 1)) || { ((COMP_CWORD == 2)) && [[ ${COMP_WORDS[1]} == help ]]; }; then
        offered="$("$program" help 2>/dev/null | sed -n 's/^    \([a-z][a-z]*\)  *[a-z].*/\1/p') help --help --version"
    elif [[ $word == -* ]]; then
        offered=$("$program" help "${COMP_WORDS[1]}" 2>/dev/null | sed -n '1,/^$/p; s/^    \(-.*[^ ]\)   .*/\1/p' | tr -c 'a-z-' '\n' | grep '^-.')
    elif [[ $before == --* ]]; then
        offered=$("$program" help "${COMP_WORDS[1]}" 2>/dev/null | _panjerov_values "$before")
    fi
    COMPREPLY=($(compgen -W "${offered-}" -- "$word"))
}

# Where nothing is offered, files are.
complete -o default -F _panjerov panjerov
