# Completion for bash: source this file, or put it where bash-completion looks.

_epistemic() {
    local word=${COMP_WORDS[COMP_CWORD]} before=${COMP_WORDS[COMP_CWORD - 1]} command=${COMP_WORDS[1]}
    COMPREPLY=()
    if [ "$COMP_CWORD" -eq 1 ]; then
        COMPREPLY=($(compgen -W "plan validate eval state contract same check trial apart" -- "$word"))
        return
    fi
    case $command in
    trial)
        [ "$COMP_CWORD" -eq 2 ] && COMPREPLY=($(compgen -W "1 2 3 4 5 6 7 8" -- "$word"))
        return
        ;;
    eval) [ "$COMP_CWORD" -ge 4 ] && return ;;
    esac
    if [ "$COMP_CWORD" -eq 2 ]; then
        COMPREPLY=($(compgen -f -X '!*.task' -- "$word") $(compgen -d -S / -- "$word"))
        compopt -o nospace 2>/dev/null
    elif [ "$command" = plan ]; then
        case $before in
        --guide) COMPREPLY=($(compgen -W "depth unmet worlds" -- "$word")) ;;
        --first) COMPREPLY=($(compgen -W "yes" -- "$word")) ;;
        --depth | --cost | --states | --worlds) ;;
        *) COMPREPLY=($(compgen -W "--depth --cost --states --worlds --guide --first" -- "$word")) ;;
        esac
    elif [ "$command" != check ]; then
        COMPREPLY=($(compgen -W "-" -- "$word") $(compgen -f -X '!*.plan' -- "$word") $(compgen -d -S / -- "$word"))
        compopt -o nospace 2>/dev/null
    fi
}
complete -F _epistemic epistemic ./epistemic
