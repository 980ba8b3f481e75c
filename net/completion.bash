# Completes the words of btspace-node in bash. Source it, or put it into /etc/bash_completion.d.
_btspace_node() {
    local word=${COMP_WORDS[COMP_CWORD]} options=
    case ${COMP_WORDS[COMP_CWORD - 1]} in
        --log) COMPREPLY=($(compgen -W 'error warn info debug' -- "$word")) && return ;;
        --party | --listen | --metrics | --above) return ;;
    esac
    case ${COMP_WORDS[1]} in
        replica) options='--btspace --party --metrics --log --listen --help' ;;
        client) options='--btspace --party --metrics --log --above --help' ;;
    esac
    if [ "$COMP_CWORD" = 1 ]; then
        COMPREPLY=($(compgen -W 'replica client health help --help --version' -- "$word"))
    elif [ "${word#-}" != "$word" ]; then
        COMPREPLY=($(compgen -W "$options" -- "$word"))
    else
        COMPREPLY=($(compgen -f -- "$word"))
    fi
}
complete -o filenames -F _btspace_node btspace-node
