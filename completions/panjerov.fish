# Completion of panjerov for fish. What it offers it reads from `panjerov help`.

function __panjerov_commands
    panjerov help 2>/dev/null | sed -n 's/^    \([a-z][a-z]*\)  *\([a-z].*\)/\1\t\2/p'
end

function __panjerov_options
    set -l words (commandline -opc)
    panjerov help $words[2] 2>/dev/null | sed -n '1,/^$/p; s/^    \(-.*[^ ]\)   .*/\1/p' | tr -c 'a-z-' '\n' | grep '^-.'
end

function __panjerov_values
    set -l words (commandline -opc)
    panjerov help $words[2] 2>/dev/null | sed -n "s/.*$words[-1] \([a-z]*|[a-z|]*\).*/\1/p" | head -n 1 | tr '|' '\n'
end

complete -c panjerov -n '__fish_is_nth_token 1' -f -a '(__panjerov_commands) help --help --version'
complete -c panjerov -n '__fish_seen_subcommand_from help; and __fish_is_nth_token 2' -f -a '(__panjerov_commands)'
complete -c panjerov -n 'not __fish_is_nth_token 1; and string match -q -- "-*" (commandline -ct)' -a '(__panjerov_options)'
complete -c panjerov -n 'string match -q -- "--*" (commandline -opc)[-1]' -a '(__panjerov_values)'
