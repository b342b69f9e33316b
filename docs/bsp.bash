# Completion for bash: `source docs/bsp.bash`, or a copy in /etc/bash_completion.d.
_bsp() {
    local word=${COMP_WORDS[COMP_CWORD]} place=$COMP_CWORD
    local commands='init contact group share post show inbox body tree audit status say agree compact mailbox sync serve watch quit records try help'
    COMPREPLY=()
    if [ "$place" -eq 1 ]; then
        COMPREPLY=($(compgen -W "$commands" -- "$word"))
        return
    fi
    case ${COMP_WORDS[1]}:$place in
        group:2 | try:2 | say:5) COMPREPLY=($(compgen -W 'note thread feed sharing' -- "$word")) ;;
        say:4) COMPREPLY=($(compgen -W 'join leave' -- "$word")) ;;
        group:3 | say:6) COMPREPLY=($(compgen -W '0' -- "$word")) ;;
        share:3 | post:2 | tree:2 | say:2 | agree:3) COMPREPLY=($(compgen -W "$(bsp show 2>/dev/null | sed -n 's/^group \([0-9a-f]*\) .*/\1/p')" -- "$word")) ;;
        share:4) COMPREPLY=($(compgen -W 'invisible visible shared' -- "$word")) ;;
        body:2) COMPREPLY=($(compgen -W "$(bsp inbox 2>/dev/null | cut -d' ' -f1)" -- "$word")) ;;
        help:2) COMPREPLY=($(compgen -W "${commands% help}" -- "$word")) ;;
        help:3) [ "${COMP_WORDS[2]}" = mailbox ] && COMPREPLY=($(compgen -W 'in out' -- "$word")) ;;
        mailbox:2) COMPREPLY=($(compgen -W 'in out' -- "$word")) ;;
        serve:2) COMPREPLY=($(compgen -W 'std socket' -- "$word")) ;;
        sync:* | serve:*)
            local first=4 specs='std tcp: listen: unix: unixlisten:'
            if [ "${COMP_WORDS[1]}" = serve ]; then first=3 specs=${specs#std }; fi
            [ "$place" -lt $first ] && return
            case $(((place - first) % 4)) in
                1) COMPREPLY=($(compgen -W 'interactive batch' -- "$word")) ;;
                3) COMPREPLY=($(compgen -W "$specs" -- "$word")) ;;
            esac
            ;;
    esac
}
complete -F _bsp bsp
